#!/usr/bin/env bash
# Answers a script of 4 MiB: 100 groups mark one file, and some 70,000 accesses of it begin, of which 10,000 are open
# at any time; between each two, a mark on the file, or on another, is added, changed or removed, and now and then
# what was retired is reclaimed.
source "$(dirname -- "${BASH_SOURCE[0]}")/measure.sh"

script() {
    awk -v most=$((4 << 20)) 'BEGIN {
        put("mkdir /srv")
        for (file = 0; file < 50; file++) put("mkfile /srv/" file)
        for (group = 1; group <= 100; group++) put("init 0\nmark " group " 1 2b /srv/0")
        for (n = 1; bytes < most - 200; n++) {
            change(n, n % 100 + 1)
            put("begin " n " 70 70 " (n % 9 ? "closew" : "write") " /srv/0")
            if (n > 10000) put("run " n - 10000)
            if (n % 100 == 0) put("grace")
        }
    }
    function change(n, group) {
        if (n % 4 == 0) put("mark " group " 1 1 /srv/" n % 49 + 1)
        else if (n % 4 == 1) put("mark " group " 1 10 /srv/0")
        else if (n % 4 == 2) put("mark " group " 2 10 /srv/0")
        else put("mark " group " 21 1 /srv/0")
    }
    function put(text) { print text; bytes += length(text) + 1 }'
}

measure script
