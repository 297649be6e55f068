mkfs
mkdir /m
mkdir /n
mount 4 /m
mount 4 /n
mkdir /m/d
mount 1 /m/d
mkfile /f
mkdir /e
mkfile /e/g
mkdir /e/s
begin 1 41 41 open /x
begin 1 41 41 open /f/x
begin 1 41 41 exec /e
begin 1 41 41 exec /
begin 1 41 41 exec /m
begin 1 41 41 exec /n/d
begin 1 41 41 exec /x
begin 1 41 41 exec /f/x
begin 1 41 41 read /x
begin 1 41 41 read /f/x
begin 1 41 41 write /e
begin 1 41 41 write /
begin 1 41 41 write /m
begin 1 41 41 write /n/d
begin 1 41 41 write /x
begin 1 41 41 write /f/x
begin 1 41 41 closew /e
begin 1 41 41 closew /
begin 1 41 41 closew /m
begin 1 41 41 closew /n/d
begin 1 41 41 closew /x
begin 1 41 41 closew /f/x
begin 1 41 41 closer /x
begin 1 41 41 closer /f/x
begin 1 41 41 attrib /x
begin 1 41 41 attrib /f/x
begin 1 41 41 create /f
begin 1 41 41 create /e
begin 1 41 41 create /
begin 1 41 41 create /m
begin 1 41 41 create /n/d
begin 1 41 41 create /x/y
begin 1 41 41 create /f/x
begin 1 41 41 mkdir /f
begin 1 41 41 mkdir /e
begin 1 41 41 mkdir /
begin 1 41 41 mkdir /m
begin 1 41 41 mkdir /n/d
begin 1 41 41 mkdir /x/y
begin 1 41 41 mkdir /f/x
begin 1 41 41 unlink /e
begin 1 41 41 unlink /e/s
begin 1 41 41 unlink /
begin 1 41 41 unlink /m
begin 1 41 41 unlink /n/d
begin 1 41 41 unlink /x
begin 1 41 41 unlink /f/x
begin 1 41 41 rmdir /f
begin 1 41 41 rmdir /e
begin 1 41 41 rmdir /
begin 1 41 41 rmdir /m
begin 1 41 41 rmdir /m/d
begin 1 41 41 rmdir /n/d
begin 1 41 41 rmdir /x
begin 1 41 41 rmdir /f/x
begin 1 41 41 rename /x /
begin 1 41 41 rename /f/x /
begin 1 41 41 rename / /
begin 1 41 41 rename /m /
begin 1 41 41 rename /n/d /f/q
begin 1 41 41 rename /f /
begin 1 41 41 rename /f /x/q
begin 1 41 41 rename /f /f/x/q
begin 1 41 41 rename /f /f/q
begin 1 41 41 rename /n/d /m/q
begin 1 41 41 rename /f /m/q
begin 1 41 41 rename /f /m/d/q
begin 1 41 41 rename /f /m/d/f
begin 1 41 41 rename /f /f
begin 1 41 41 rename /f /e/g
begin 1 41 41 rename /f /n
begin 1 41 41 rename /e /e/s
begin 1 41 41 rename /e /e/q
begin 1 41 41 rename /e /e/s/q
begin 1 41 41 open /f
run 1
mkfile /new
