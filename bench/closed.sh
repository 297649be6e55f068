#!/usr/bin/env bash
# Answers a script of 4 MiB: groups that are made and closed by turns, some 215,000 in all.
source "$(dirname -- "${BASH_SOURCE[0]}")/measure.sh"

script() {
    awk -v most=$((4 << 20)) 'BEGIN {
        for (group = 1; bytes + length("init 0\nclose " group "\n") <= most; group++)
            put("init 0\nclose " group)
    }
    function put(text) { print text; bytes += length(text) + 1 }'
}

measure script
