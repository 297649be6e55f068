mkdir /d
mkdir /d/s
begin 1 41 41 create /d/s/f
run 1
mkdir /e
begin 2 41 41 rename /d/s /e/t
run 2
begin 3 41 41 open /d/s/f
begin 3 41 41 rmdir /d
begin 4 41 41 rmdir /e/t
begin 4 41 41 unlink /e/t/f
begin 5 41 41 rmdir /e/t
begin 6 41 41 open /e/t
mkdir /e/t
