mkfile /report
mkfile /virus
init 4
init 0
mark 1 1 10000 /report
mark 1 1 10000 /virus
mark 2 1 20 /report
mark 2 1 20 /virus
begin 1 100 100 open /report
run 1
read 1 4096
write 1 0000000001000000
run 1
begin 2 100 100 open /virus
run 2
read 1 4096
write 1 0100000002000000
run 2
read 2 4096
close 1
begin 3 101 101 open /virus
run 3
read 2 4096
