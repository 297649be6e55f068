#!/usr/bin/env bash
# Answers a script of 1 MiB: 128 groups, as many as may be open, mark one directory, and then the mark of the last one
# is changed and changed back, over and over: each change copies the marks of all groups before it.
source "$(dirname -- "${BASH_SOURCE[0]}")/measure.sh"

script() {
    awk -v most=$((1 << 20)) 'BEGIN {
        put("mkdir /d")
        for (group = 1; group <= 128; group++) put("init 0\nmark " group " 1 20 /d")
        for (n = 1; bytes + length("mark 128 1 10 /d\n") <= most; n++) put("mark 128 " 2 - n % 2 " 10 /d")
    }
    function put(text) { print text; bytes += length(text) + 1 }'
}

measure script
