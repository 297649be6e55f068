mkdir /d
mkfile /d/f
mkdir /d/s
mkfile /d/s/g
init 0
mark 1 1 20 /d
begin 1 41 41 open /d/f
run 1
mark 1 1 8000020 /d
begin 2 41 41 open /d/f
run 2
begin 3 41 41 open /d/s/g
run 3
begin 4 41 41 open /d/s
run 4
begin 5 41 41 open /d
run 5
mark 1 1 40000000 /d
begin 6 41 41 open /d/s
run 6
begin 7 41 41 open /d
run 7
