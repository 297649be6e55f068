mkfile /f
init 4
init 4
init 0
mark 1 1 10000 /f
begin 1 41 41 open /f
mark 1 2 10000 /f
mark 2 1 10000 /f
mark 3 1 20 /f
run 1
read 1 24
write 1 0000000001000000
run 1
begin 2 41 41 open /f
run 2
