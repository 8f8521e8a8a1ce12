#!/usr/bin/env bash
# Prints the processor time of the built program and of the ordinary one (bench/tool_peer) on the same loads, and whether
# their answers are the same. The best of RUNS runs of each counts, in turn (7 if it is not set). Needs cargo, which
# builds the ordinary program from the crates that bench/tool_peer/Cargo.toml names. Status 1 if any answer differs.
#
#   bench/compare.sh [LOAD ..]        quotes, wide, looks, withdraws, sweeps; all of them by default
set -eu
. "$(dirname "$0")/loads.sh"
[ $# -gt 0 ] || set -- quotes wide looks withdraws sweeps
(cd "$bench/tool_peer" && cargo build --quiet --release --target-dir "$bench/out/tool_peer")
ordinary=$bench/out/tool_peer/release/tool_peer

# The milliseconds of processor of one run of a program on a load.
TIMEFORMAT='%3U %3S'
milliseconds() {
    local user system
    read -r user system <<<"$({ time "$1" script --setup "$2/setup.toml" <"$2/load.csv" >/dev/null; } 2>&1)"
    echo $((10#${user/./} + 10#${system/./}))
}

differ=0
printf '%-10s %12s %12s %6s  %s\n' load proved_ms ordinary_ms ratio answers
for load in "$@"; do
    folder=$(load_folder "$load" 1000000)
    same=same
    cmp -s <("$program" script --setup "$folder/setup.toml" <"$folder/load.csv") \
        <("$ordinary" script --setup "$folder/setup.toml" <"$folder/load.csv") || same=DIFFER differ=1
    proved= plain=
    for ((run = 0; run < ${RUNS:-7}; run++)); do
        took=$(milliseconds "$program" "$folder")
        [ -n "$proved" ] && [ "$proved" -le "$took" ] || proved=$took
        took=$(milliseconds "$ordinary" "$folder")
        [ -n "$plain" ] && [ "$plain" -le "$took" ] || plain=$took
    done
    awk -v l="$load" -v p="$proved" -v o="$plain" -v s="$same" \
        'BEGIN { printf "%-10s %12d %12d %6.2f  %s\n", l, p, o, p / o, s }'
done
exit $differ
