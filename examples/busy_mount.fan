mkfs
mkdir /m
mount 4 /m
mkfile /m/f
begin 1 41 41 open /m/f
begin 3 41 41 open /m
begin 9 41 41 open /
umount /m
run 3
run 3
umount /m
run 1
umount /m
begin 8 41 41 open /
run 9
