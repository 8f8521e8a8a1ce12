#!/usr/bin/env bash
# Prints how many looks a second 1, 2 and 4 desks make together, beside a publisher that publishes every 64 changes
# with a pause of 100 microseconds after each publishing, and the same in ordinary Rust over a mutex round one board
# (bench/looks_peer). The best of RUNS runs counts (3 if it is not set), of LOOKS looks by each desk (3,000,000).
# Takes about a minute on four processors that do nothing else. Needs cargo.
set -eu
. "$(dirname "$0")/peers.sh"
looks=${LOOKS:-3000000}
build_peer looks_peer

# The microseconds of one run of a program by n desks. Each look has to show both its rows.
microseconds() {
    local from told
    from=${EPOCHREALTIME/./}
    told=$("$1" <<<"looks $2 $looks")
    [ "$told" = "looks $2 $looks $((2 * $2 * looks))" ] || { echo "$1: $told" >&2 && exit 1; }
    echo $((${EPOCHREALTIME/./} - from))
}

printf '%-6s %15s %15s %6s\n' desks looks/s mutex/s ratio
for count in 1 2 4; do
    proved=$(least_of "${RUNS:-3}" microseconds "$ours" "$count")
    plain=$(least_of "${RUNS:-3}" microseconds "$peer" "$count")
    awk -v c="$count" -v n="$((count * looks))" -v a="$proved" -v b="$plain" \
        'BEGIN { printf "%-6d %15.0f %15.0f %6.2f\n", c, n * 1e6 / a, n * 1e6 / b, b / a }'
done
