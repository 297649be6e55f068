#!/usr/bin/env bash
# Answers a script of 100,000 marks of 100 groups on 1,000 files, and then 60,000 pairs of a mark of one more group
# that is added and a flush of this group.
source "$(dirname -- "${BASH_SOURCE[0]}")/measure.sh"

script() {
    awk 'BEGIN {
        for (file = 0; file < 1000; file++) print "mkfile /" file
        for (group = 1; group <= 101; group++) print "init 0"
        for (group = 1; group <= 100; group++) for (file = 0; file < 1000; file++) print "mark " group " 1 20 /" file
        for (n = 0; n < 60000; n++) print "mark 101 1 20 /" n % 1000 "\nmark 101 80 0 /"
    }'
}

measure script
