#!/usr/bin/env bash
# Answers a script of 128 groups, as many as may be open, which each have a mark on one file, and of 20,000
# openings of it by one process, which are told to all of them.
source "$(dirname -- "${BASH_SOURCE[0]}")/measure.sh"

script() {
    awk 'BEGIN {
        print "mkfile /a"
        for (group = 1; group <= 128; group++) printf "init 0\nmark %d 1 20 /a\n", group
        for (n = 1; n <= 20000; n++) printf "begin %d 50 50 open /a\nrun %d\n", n, n
    }'
}

measure script
