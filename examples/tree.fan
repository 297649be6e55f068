mkdir /home
init c00
mark 1 1 400003c0 /home
begin 1 41 41 mkdir /home/new
run 1
read 1 4096
mark 1 1 400003c0 /home/new
begin 2 41 41 create /home/new/a
run 2
begin 3 41 41 rename /home/new/a /home/b
run 3
begin 4 41 41 rmdir /home
begin 4 41 41 rmdir /home/new
run 4
begin 5 41 41 unlink /home/b
run 5
read 1 4096
read 1 4096
