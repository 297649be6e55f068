#!/usr/bin/env bash
# Answers a script of 60,000 files in one directory, whose names begin alike and are made in no order, and of
# a path that reaches each of them.
source "$(dirname -- "${BASH_SOURCE[0]}")/measure.sh"

# `umount` of a file walks its path and changes nothing: EINVAL.
script() {
    awk 'BEGIN {
        print "mkdir /d"
        for (i = 0; i < 60000; i++) printf "mkfile %s\n", path(i * 7919 % 60000)
        for (i = 0; i < 60000; i++) printf "umount %s\n", path(i)
    }
    function path(n) { return sprintf("/d/a-name-of-a-file-%05d", n) }'
}

measure script
