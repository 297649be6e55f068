#!/usr/bin/env bash
# Answers 90,001 lines: a filesystem, 30,000 directories, a mount of it on each, and then each mount is taken away.
source "$(dirname -- "${BASH_SOURCE[0]}")/measure.sh"

script() {
    awk 'BEGIN {
        print "mkfs"
        for (dir = 1; dir <= 30000; dir++) print "mkdir /d" dir
        for (dir = 1; dir <= 30000; dir++) print "mount 4 /d" dir
        for (dir = 1; dir <= 30000; dir++) print "umount /d" dir
    }'
}

measure script
