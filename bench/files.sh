#!/usr/bin/env bash
# Answers a script of 4 MiB: 65,531 files are made, and then one path after another reaches one of them.
source "$(dirname -- "${BASH_SOURCE[0]}")/measure.sh"

# `umount` of a file walks its path and changes nothing: EINVAL.
script() {
    awk -v most=$((4 << 20)) 'BEGIN {
        for (i = 0; i < 65531; i++) put("mkfile /" i)
        line = "umount /0"
        while (bytes + length(line) < most) {
            put(line)
            n = (n + 7919) % 65531
            line = "umount /" n
        }
    }
    function put(text) { print text; bytes += length(text) + 1 }'
}

measure script
