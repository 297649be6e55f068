#!/usr/bin/env bash
# 4 MiB: some 80,000 openings of 1,000 files in one directory, and a read of all events after every 50. First with
# a group that gets descriptors, then with one that gets handles and names.
source "$(dirname -- "${BASH_SOURCE[0]}")/measure.sh"

# The scenario, with a group of these flags.
opened() {
    python3 -c 'import sys
lines = ["mkdir /d"] + [f"mkfile /d/some-name-{i}" for i in range(1000)]
lines += [f"init {sys.argv[1]}", "mark 1 1 8000020 /d"]
size = sum(len(line) + 1 for line in lines)
access = 0
while size < (4 << 20) - 100:
    access += 1
    more = [f"begin {access} 41 41 open /d/some-name-{access * 7 % 1000}", f"run {access}"]
    if access % 50 == 0:
        more.append("read 1 65536")
    lines += more
    size += sum(len(line) + 1 for line in more)
print("\n".join(lines))' "$1"
}

descriptors() {
    opened 0
}

names() {
    opened c00
}

measure descriptors
measure names
