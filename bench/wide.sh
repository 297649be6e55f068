#!/usr/bin/env bash
# Answers a script of 4 MiB: 128 groups with marks on a file, its directory, its mount and its filesystem, and some
# 95,000 accesses of that file by as many processes, each of which is told to all groups; these are read by turns.
source "$(dirname -- "${BASH_SOURCE[0]}")/measure.sh"

script() {
    awk -v most=$((4 << 20)) 'BEGIN {
        put("mkdir /srv\nmkfile /srv/log")
        count = split("0 100 200 400 c00", flags)
        for (group = 1; group <= 128; group++) put("init " flags[group % count + 1])
        for (group = 1; group <= 128; group++) add(group)
        ops = split("open read write closew attrib", op)
        for (n = 1; bytes < most - 100; n++) {
            put("begin " n " " n + 1000 " " n + 1000 " " op[n % ops + 1] " /srv/log\nrun " n)
            if (n % 16 == 0) put("read " (n / 16) % 128 + 1 " 1048576")
        }
    }
    function add(group) {
        put("mark " group " 1 2f /srv/log")
        put("mark " group " 1 800002f /srv")
        put("mark " group " 11 2b /srv")
        put("mark " group " 101 23 /srv")
    }
    function put(text) { print text; bytes += length(text) + 1 }'
}

measure script
