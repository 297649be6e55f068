#!/usr/bin/env bash
# The longest script of `bulk`: 100,000 rounds.
source "$(dirname -- "${BASH_SOURCE[0]}")/measure.sh"

nothing() {
    :
}

measure nothing bulk 7 100000
