mkfs
mkdir /x
mkdir /y
mount 4 /x
mount 4 /y
mkfile /x/f
init 0
init 0
mark 1 11 20 /x
mark 2 101 20 /y
begin 1 41 41 open /x/f
run 1
begin 2 41 41 open /y/f
umount /y
run 2
umount /y
begin 3 41 41 open /y/f
umount /
umount /y
