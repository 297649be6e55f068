#!/usr/bin/env bash
# Answers a script of 20,000 openings that wait for an answer at once: all are asked, read, and then allowed in
# reverse order, and each runs to its end.
source "$(dirname -- "${BASH_SOURCE[0]}")/measure.sh"

script() {
    printf 'mkfile /a\ninit 14\nmark 1 1 10000 /a\n'
    awk 'BEGIN {
        for (n = 1; n <= 20000; n++) printf "begin %d 50 50 open /a\nstep %d\n", n, n
        print "read 1 480000"
        for (fd = 19999; fd >= 0; fd--) printf "write 1 %02x%02x000001000000\n", fd % 256, int(fd / 256)
        for (n = 20000; n >= 1; n--) printf "run %d\n", n
    }'
}

measure script
