#!/usr/bin/env bash
# Prints what a live run takes of CHANGES changes (1,000,000 if it is not set), the same in 1, 2, 4 and 8 feeds, with
# 1,000 orders for each of 1, 4 and 16 desks: seconds and processor seconds, and by these the changes a second and the
# plans a second (each order is planned twice). FEEDS and DESKS may name fewer of them, as FEEDS="1 8" DESKS=4. The run
# of RUNS runs that takes the least processor time counts (3 if it is not set). Needs python3.
#
#   bench/live.sh [PEER]      PEER is another program to measure beside it, which is given `live ORDERS FEED ..` and has
#                             to write the same; then also how many times its processor time is taken
set -eu
. "$(dirname "$0")/loads.sh"
changes=${CHANGES:-1000000}
peer=${1:-}
folder=$loads/live-$changes
[ -e "$folder/8/setup-16.toml" ] && [ "$folder/8/setup-16.toml" -nt "$bench/generate.py" ] ||
    python3 "$bench/generate.py" live "$changes" "$folder"
out=$(mktemp)
trap 'rm -f "$out" "$out.peer"' EXIT
TIMEFORMAT='%R %U %S'

# Seconds and processor seconds of the best run of a command, whose output goes to a file.
best_of() {
    local to=$1 best= wall user system
    shift
    for ((run = 0; run < ${RUNS:-3}; run++)); do
        read -r wall user system < <({ time "$@" >"$to"; } 2>&1)
        best+="$wall $(awk -v u="$user" -v s="$system" 'BEGIN { print u + s }')"$'\n'
    done
    sort -n -k 2 <<<"${best%$'\n'}" | head -n 1
}

printf '%-6s %-6s %9s %9s %12s %10s' feeds desks seconds processor changes/s plans/s
[ -z "$peer" ] || printf ' %9s %9s %6s' seconds processor ratio
echo
for feeds in ${FEEDS:-1 2 4 8}; do
    for desks in ${DESKS:-1 4 16}; do
        call=(live "$folder/orders-$desks.csv" "$folder/$feeds"/feed_?.csv --setup "$folder/$feeds/setup-$desks.toml")
        read -r wall cpu < <(best_of "$out" "$program" "${call[@]}")
        [ "$(head -n 1 "$out")" = "TAPE,$changes" ] || { head -n 1 "$out" >&2 && exit 1; }
        awk -v f="$feeds" -v d="$desks" -v n="$changes" -v w="$wall" -v c="$cpu" \
            'BEGIN { printf "%-6d %-6d %9.2f %9.2f %12.0f %10.0f", f, d, w, c, n / w, 2000 * d / w }'
        if [ -n "$peer" ]; then
            read -r wall theirs < <(best_of "$out.peer" "$peer" "${call[@]}")
            cmp "$out" "$out.peer"
            awk -v w="$wall" -v a="$cpu" -v b="$theirs" 'BEGIN { printf " %9.2f %9.2f %6.2f", w, b, a / b }'
        fi
        echo
    done
done
