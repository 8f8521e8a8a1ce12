#!/usr/bin/env bash
# Prints the processor time of a change through a lane of 4, 64 and 1,024, from two threads and from eight to a taker,
# next to the same in ordinary Rust over the upstream queue (bench/lane_peer). The best of RUNS runs counts (15 if it
# is not set), of CHANGES changes in all (1,000,000). Needs cargo and Debian's librust-crossbeam-queue-dev.
set -eu
. "$(dirname "$0")/peers.sh"
changes=${CHANGES:-1000000}
registry=$(dpkg -L librust-crossbeam-queue-dev | grep '/registry$' | head -n 1)
build_peer lane_peer --config 'source.crates-io.replace-with="debian"' --config "source.debian.directory=\"$registry\""

# The nanoseconds of processor time of a change, in one run of a program, for a capacity and n senders.
nanoseconds() {
    { TIMEFORMAT='%U %S'; time "$1" <<<"lane $2 $3 $((changes / $3))" >/dev/null; } 2>&1 |
        awk -v n="$changes" '{ printf "%.0f", ($1 + $2) * 1e9 / n }'
}

printf '%-8s %-8s %9s %9s %6s\n' senders capacity lane peer ratio
for senders in 2 8; do
    for capacity in 4 64 1024; do
        proved=$(least_of "${RUNS:-15}" nanoseconds "$ours" "$capacity" "$senders")
        plain=$(least_of "${RUNS:-15}" nanoseconds "$peer" "$capacity" "$senders")
        awk -v s="$senders" -v c="$capacity" -v a="$proved" -v b="$plain" \
            'BEGIN { printf "%-8d %-8d %6d ns %6d ns %6.2f\n", s, c, a, b, a / b }'
    done
done
