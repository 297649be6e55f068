mkdir /archive
mkfile /archive/film
mkfile /archive/notes
init 8
init 4
init 0
mark 1 1 8020000 /archive
mark 2 1 20000 /archive/film
mark 3 1 8000003 /archive
begin 1 100 100 read /archive/film
run 1
read 1 4096
begin 2 7 7 write /archive/film
run 2
mark 1 61 20000 /archive/film
write 1 0000000001000000
run 1
read 2 4096
write 2 0000000001000000
run 1
begin 3 101 101 read /archive/film
run 3
read 2 4096
write 2 0100000001000000
run 3
begin 4 100 100 read /archive/notes
run 4
read 1 4096
write 1 0100000002000000
run 4
begin 5 100 100 read /archive
run 5
read 3 4096
close 1
begin 6 100 100 read /archive/notes
run 6
