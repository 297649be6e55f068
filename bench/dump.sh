#!/usr/bin/env bash
# Prints the lines of 4 MiB of records: first 174,762 without information records, then 65,536 with a name each.
source "$(dirname -- "${BASH_SOURCE[0]}")/measure.sh"

# FAN_OPEN of process 41 under descriptor 5.
plain() {
    python3 -c 'import sys
record = bytes.fromhex("180000000300180020000000000000000500000029000000")
sys.stdout.buffer.write(record * ((4 << 20) // len(record)))'
}

# FAN_CREATE of process 41 without a descriptor: the entry `name.txt` of the directory with inode 4.
named() {
    python3 -c 'import sys
record = bytes.fromhex("4000000003001800" "0001000000000000" "ffffffff29000000"
    "02002800" "0100000000000000" "08000000" "01000000" "0400000000000000" "6e616d652e74787400000000")
sys.stdout.buffer.write(record * ((4 << 20) // len(record)))'
}

measure plain dump
measure named dump
