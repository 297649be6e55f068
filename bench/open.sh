#!/usr/bin/env bash
# Answers a script of 4 MiB: some 90,000 openings of one file, all begun before any goes on; then each, in no
# order, does a single step, which tells a group, and then each runs to its end.
source "$(dirname -- "${BASH_SOURCE[0]}")/measure.sh"

script() {
    awk -v most=$((4 << 20)) 'BEGIN {
        put("mkfile /a\ninit 0\nmark 1 1 20 /a")
        for (n = 1; bytes + later + length(lines(n)) < most; n++) {
            put("begin " n " 50 50 open /a")
            later += length("step " n "\nrun " n "\n")
        }
        each("step", n - 1)
        each("run", n - 1)
    }
    function lines(n) { return "begin " n " 50 50 open /a\nstep " n "\nrun " n "\n" }
    function each(word, count, i, at) {
        for (i = 0; i < count; i++) {
            put(word " " at + 1)
            at = (at + 7919) % count
        }
    }
    function put(text) { print text; bytes += length(text) + 1 }'
}

measure script
