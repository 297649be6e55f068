#!/usr/bin/env bash
# Answers a script of 4 MiB: the example first.fan, and then one read after another.
source "$(dirname -- "${BASH_SOURCE[0]}")/measure.sh"

script() {
    local bytes=$((4 << 20)) line='read 1 4096'
    cat -- "$top/examples/first.fan"
    bytes=$((bytes - $(stat -c %s -- "$top/examples/first.fan")))
    awk -v lines=$((bytes / (${#line} + 1))) -v line="$line" \
        'BEGIN { for (i = 0; i < lines; i++) print line }'
}

measure script
