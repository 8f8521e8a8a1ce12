#!/usr/bin/env bash
# Prints how many records a second the built program answers, at 10,000 and 1,000,000 records of each load.
# The best of RUNS runs counts (7 if it is not set). Needs python3.
#
#   bench/run.sh [LOAD ..]        quotes, wide, looks, withdraws, sweeps; all of them by default
set -eu
. "$(dirname "$0")/loads.sh"
[ $# -gt 0 ] || set -- quotes wide looks withdraws sweeps
printf '%-10s %9s %10s %12s\n' load records seconds records/s
for load in "$@"; do
    for records in 10000 1000000; do
        folder=$(load_folder "$load" "$records")
        best=
        for ((run = 0; run < ${RUNS:-7}; run++)); do
            from=${EPOCHREALTIME/./}
            "$program" script --setup "$folder/setup.toml" <"$folder/load.csv" >/dev/null
            took=$((${EPOCHREALTIME/./} - from))
            [ -n "$best" ] && [ "$best" -le "$took" ] || best=$took
        done
        awk -v l="$load" -v n="$records" -v t="$best" \
            'BEGIN { printf "%-10s %9d %10.3f %12.0f\n", l, n, t / 1e6, n * 1e6 / t }'
    done
done
