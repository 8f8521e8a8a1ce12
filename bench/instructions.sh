#!/usr/bin/env bash
# Prints how many instructions the built program runs for a record of each load: those of 100,000 records
# less those of 10,000, by 90,000, so that the start and the setup count for nothing. The number is the same
# from run to run on one machine. Needs python3 and valgrind.
#
#   bench/instructions.sh [LOAD ..]        quotes, wide, looks, withdraws, sweeps; all of them by default
set -eu
. "$(dirname "$0")/loads.sh"
[ $# -gt 0 ] || set -- quotes wide looks withdraws sweeps

# Instructions of a complete run.
instructions() {
    valgrind --tool=callgrind --callgrind-out-file=/dev/null \
        "$program" script --setup "$1/setup.toml" <"$1/load.csv" 2>&1 >/dev/null | awk '/Collected/ { print $NF }'
}

printf '%-10s %20s\n' load instructions/record
for load in "$@"; do
    few=$(instructions "$(load_folder "$load" 10000)")
    many=$(instructions "$(load_folder "$load" 100000)")
    printf '%-10s %20d\n' "$load" $(((many - few) / 90000))
done
