limit 2
mkfile /log
mkfile /mail
init 0
mark 1 1 20 /log
mark 1 1 20 /mail
begin 1 100 100 open /log
run 1
begin 2 100 100 open /mail
run 2
begin 3 101 101 open /log
run 3
begin 4 100 100 open /log
run 4
read 1 24
begin 5 102 102 open /mail
run 5
read 1 4096
begin 6 102 102 open /mail
run 6
read 1 24
read 1 24
