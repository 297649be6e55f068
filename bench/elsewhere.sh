#!/usr/bin/env bash
# 20,000 openings of one file that one group is told of, first without marks elsewhere, and then with 100,000 marks
# of 100 groups on 1,000 other files. What the marks cost is in the second run's lines that make them; its
# openings are to take no more than those of the first.
source "$(dirname -- "${BASH_SOURCE[0]}")/measure.sh"

# The scenario, with marks of so many groups on the other files, and with the openings or without.
opened() {
    awk -v groups="$1" -v openings="$2" 'BEGIN {
        print "mkdir /d\nmkfile /a\ninit 0\nmark 1 1 20 /a"
        for (file = 0; file < 1000; file++) print "mkfile /d/" file
        for (group = 2; group <= groups + 1; group++) {
            print "init 0"
            for (file = 0; file < 1000; file++) print "mark " group " 1 20 /d/" file
        }
        for (n = 1; n <= openings; n++) print "begin " n " 50 50 open /a\nrun " n
    }'
}

alone() {
    opened 0 20000
}

marks() {
    opened 100 0
}

both() {
    opened 100 20000
}

measure alone
measure marks
measure both
