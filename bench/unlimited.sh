#!/usr/bin/env bash
# Answers a script of 4 MiB: a group with FAN_UNLIMITED_QUEUE is told of some 85,000 openings of one file, each by
# another process, so that no event is merged, and then reads them one by one.
source "$(dirname -- "${BASH_SOURCE[0]}")/measure.sh"

script() {
    awk -v most=$((4 << 20)) 'BEGIN {
        put("mkfile /a\ninit 10\nmark 1 1 20 /a")
        for (n = 1; bytes + 10 * n + length(opening(n)) < most; n++) put(opening(n))
        for (i = 1; i < n; i++) put("read 1 24")
    }
    function opening(n) { return "begin " n " " n " 1 open /a\nrun " n }
    function put(text) { print text; bytes += length(text) + 1 }'
}

measure script
