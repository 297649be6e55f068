#!/usr/bin/env bash
# Answers a script of 4 MiB: 2,000 directories are made, each in the one before, and then the path of 2,000
# names that reaches the last is walked as often as there is room.
source "$(dirname -- "${BASH_SOURCE[0]}")/measure.sh"

# `umount` of a directory that is no root of a mount walks its path and changes nothing: EINVAL.
script() {
    awk -v most=$((4 << 20)) 'BEGIN {
        for (i = 0; i < 2000; i++) {
            path = path "/a"
            put("mkdir " path)
        }
        while (bytes + length("umount " path) < most) put("umount " path)
    }
    function put(text) { print text; bytes += length(text) + 1 }'
}

measure script
