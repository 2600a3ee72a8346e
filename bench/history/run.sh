#!/bin/sh
# Measures steps and reads of one shared history, each three times, by the program that `rt run` builds in
# crates/history_bench. Prints the machine's processors and load, and for each measurement what the program printed
# and the most memory that it had.
set -eu
cd "$(dirname "$0")/../../crates/history_bench"
bench=out/history_bench
[ -x "$bench" ] || rt run > /dev/null
echo "processors $(nproc), load $(cut -d ' ' -f 1 /proc/loadavg)"
measure() {
    for _ in 1 2 3; do
        echo "$*: $(/usr/bin/time -f '%M KB' "$bench" "$@" 2>&1 | tr '\n' ' ')"
    done
}
measure steps 1 400000
measure steps 2 200000
measure steps 4 100000
measure reads 1 10000 1000
measure reads 2 10000 1000
measure reads 4 10000 1000
