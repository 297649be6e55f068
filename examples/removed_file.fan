mkfile /a
init 600
mark 1 1 420 /a
begin 1 41 41 open /a
run 1
begin 2 41 41 unlink /a
grace
grace
run 2
grace
mark 1 2 20 /a
