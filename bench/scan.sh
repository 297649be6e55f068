#!/usr/bin/env bash
# Answers a script of 4 MiB: a scanner (FAN_CLASS_CONTENT, FAN_UNLIMITED_MARKS) marks 20,000 files for FAN_OPEN_PERM,
# is asked by each opening of one, reads the event and allows it; every eighth opening is of a file without a mark.
source "$(dirname -- "${BASH_SOURCE[0]}")/measure.sh"

script() {
    awk -v most=$((4 << 20)) 'BEGIN {
        put("mkdir /home")
        for (file = 0; file < 22500; file++) put("mkfile /home/" file)
        put("init 24")
        for (file = 0; file < 20000; file++) put("mark 1 1 10000 /home/" file)
        for (n = 1; bytes < most - 200; n++) n % 8 ? scanned(n) : unmarked(n)
    }
    function scanned(n) {
        opened(n, (n * 7919) % 20000)
        put("read 1 24\nwrite 1 " little(descriptor++) "01000000\nrun " n)
    }
    function unmarked(n) { opened(n, 20000 + n % 2500) }
    function opened(n, file) { put("begin " n " 100 100 open /home/" file "\nrun " n) }
    function little(number, text, i) {
        for (i = 0; i < 4; i++) {
            text = text sprintf("%02x", number % 256)
            number = int(number / 256)
        }
        return text
    }
    function put(text) { print text; bytes += length(text) + 1 }'
}

measure script
