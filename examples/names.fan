mkdir /mail
mkfile /mail/inbox
mkfile /mail/sent
init c00
init e00
mark 1 1 48000022 /mail
mark 2 101 20 /
begin 1 41 41 open /mail/inbox
run 1
begin 2 41 41 write /mail/inbox
run 2
begin 3 41 41 open /mail/sent
run 3
begin 4 42 42 open /mail
run 4
read 1 59
read 1 60
read 1 4096
read 2 4096
read 2 4096
