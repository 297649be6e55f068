mkfile /a
init 4
mark 1 1 51020 /a
begin 1 41 41 exec /a
run 1
read 1 4096
write 1 0000000001000000
run 1
read 1 4096
write 1 0100000001000000
run 1
