mkfile /a
mkdir /d
init 0
mark 1 1 20 /a
mark 1 21 20 /a
begin 1 41 41 open /a
run 1
begin 2 41 41 write /d
begin 2 41 41 write /a
run 2
begin 3 41 41 open /a
run 3
mark 1 61 20 /a
begin 4 41 41 write /a
run 4
begin 5 41 41 open /a
run 5
grace
grace
grace
