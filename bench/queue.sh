#!/usr/bin/env bash
# Answers a script of two groups with queues of 16,384 entries. 16,384 openings by one process each fill both;
# 50,000 more are told to both, which are 100,000 puts at the limit; then all is read, 24 bytes at a time.
source "$(dirname -- "${BASH_SOURCE[0]}")/measure.sh"

script() {
    awk 'BEGIN {
        print "mkfile /a"
        for (group = 1; group <= 2; group++) printf "init 0\nmark %d 1 20 /a\n", group
        for (n = 1; n <= 16384; n++) printf "begin %d %d 1 open /a\nrun %d\n", n, n, n
        for (; n <= 66384; n++) printf "begin %d %d 1 open /a\nrun %d\n", n, n, n
        for (group = 1; group <= 2; group++)
            for (n = 1; n <= 16385; n++) printf "read %d 24\n", group
    }'
}

measure script
