mkfile /report
mkfile /tool
init 4
init 0
mark 1 101 10000 /
mark 2 101 2 /
begin 1 100 100 open /report
run 1
read 1 4096
mark 1 21 10000 /report
write 1 0000000001000000
run 1
begin 2 101 101 open /report
run 2
begin 3 102 102 write /report
grace
grace
run 3
begin 4 101 101 open /report
run 4
grace
read 1 4096
mark 1 21 10000 /report
write 1 0100000001000000
run 4
begin 5 100 100 open /tool
run 5
read 1 4096
mark 1 61 10000 /tool
write 1 0200000001000000
run 5
begin 6 102 102 write /tool
run 6
begin 7 101 101 open /tool
run 7
read 2 4096
grace
close 1
grace
grace
