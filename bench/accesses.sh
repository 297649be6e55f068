#!/usr/bin/env bash
# Answers a script of 30,000 accesses, each of which is asked, read, allowed and finished.
source "$(dirname -- "${BASH_SOURCE[0]}")/measure.sh"

script() {
    printf 'mkfile /a\ninit 4\nmark 1 1 10000 /a\n'
    awk 'BEGIN {
        for (i = 0; i < 30000; i++) {
            n = i + 1
            printf "begin %d 50 50 open /a\nrun %d\nread 1 4096\n", n, n
            printf "write 1 %02x%02x000001000000\nrun %d\n", i % 256, int(i / 256), n
        }
    }'
}

measure script
