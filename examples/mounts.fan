mkfs
mkdir /store
mkdir /backup
mount 4 /store
mount 4 /backup
mkdir /store/docs
mkfile /store/docs/letter
init 4
init 0
init 0
mark 1 11 10000 /backup
mark 2 101 20 /store
mark 3 9 20 /store/docs/letter
mark 3 9 48000020 /store/docs
begin 1 41 41 open /store/docs/letter
run 1
begin 2 41 41 open /backup/docs
run 2
begin 3 42 42 open /backup/docs/letter
run 3
umount /backup
read 1 4096
write 1 0000000001000000
run 3
umount /backup
begin 4 42 42 open /backup/docs/letter
mount 4 /backup
begin 4 42 42 open /backup/docs/letter
run 4
read 2 4096
read 3 48
read 3 48
