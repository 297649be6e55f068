mkfile /f
init 4
init 0
mark 1 1 10000 /f
mark 2 1 20 /f
begin 1 41 42 open /f
run 1
read 1 24
run 1
write 1 0000000002000000
run 1
run 1
read 2 24
begin 2 41 42 open /f
run 2
read 1 24
write 1 0100000001000000
run 2
read 2 24
