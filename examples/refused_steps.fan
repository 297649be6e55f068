mkfile /d/f
mkfile /
mount 4 /
mkfile /f
mkfile /f
mkfile /f/g
mkdir /d
init c
init 0
begin 1 41 41 open /g
begin 1 41 41 open /f
begin 1 41 41 open /f
run 1
