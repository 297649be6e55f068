#!/usr/bin/env bash
# 4 MiB: 30,000 files in one directory, and then some 30,000 times a file is made there, another renamed and a
# third removed, in no order, and a group is told of all that by its mark on the directory.
source "$(dirname -- "${BASH_SOURCE[0]}")/measure.sh"

script() {
    awk -v most=$((4 << 20)) 'BEGIN {
        put("limit 64\nmkdir /d\ninit c00\nmark 1 1 3c0 /d")
        for (i = 0; i < 30000; i++) put("mkfile /d/" i * 7919 % 30000)
        for (i = 0; bytes < most - 200; i++) {
            at = i * 7919 % 30000
            done("create /d/n" i)
            done("rename /d/" (i < 30000 ? at : "m" at) " /d/" (i < 30000 ? "m" at : at))
            done("unlink /d/n" i)
        }
    }
    function done(what) {
        access++
        put("begin " access " 41 41 " what "\nrun " access)
    }
    function put(text) { print text; bytes += length(text) + 1 }'
}

measure script
