mkfile /f
init 4
mark 1 1 10000 /f
begin 1 41 41 open /f
run 1
mark 1 2 10000 /f
grace
grace
begin 2 41 41 open /f
read 1 24
write 1 0000000001000000
run 1
grace
run 2
mark 1 1 10000 /f
close 1
grace
grace
