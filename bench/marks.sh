#!/usr/bin/env bash
# Answers a script of 8,192 marks of one group, as many as a group may have, which are added and flushed ten
# times.
source "$(dirname -- "${BASH_SOURCE[0]}")/measure.sh"

script() {
    awk 'BEGIN {
        print "init 0"
        for (i = 0; i < 8192; i++) print "mkfile /" i
        for (n = 0; n < 10; n++) {
            for (i = 0; i < 8192; i++) print "mark 1 1 20 /" i
            print "mark 1 80 0 /"
        }
    }'
}

measure script
