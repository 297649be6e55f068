#!/usr/bin/env bash
# Answers a script of 4 MiB: 1,000 files, 500 accesses that stay open, and then one mark after another is
# added on all files and removed from all, over and over, so that some 120,000 retired marks wait.
source "$(dirname -- "${BASH_SOURCE[0]}")/measure.sh"

script() {
    awk -v most=$((4 << 20)) 'BEGIN {
        put("init 0")
        for (i = 0; i < 1000; i++) put("mkfile /" i)
        for (n = 1; n <= 500; n++) put("begin " n " 50 50 open /0")
        for (i = 0; bytes + length("mark 1 1 20 /999\ngrace\ngrace\n") <= most; i++)
            put("mark 1 " 1 + int(i / 1000) % 2 " 20 /" i % 1000)
        put("grace\ngrace")
    }
    function put(text) { print text; bytes += length(text) + 1 }'
}

measure script
