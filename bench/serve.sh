#!/usr/bin/env bash
# Prints how many changes a second the serving program takes from 1, 2, 4 and 8 pipes, each change recorded in the tape's
# file, with its memory; and how long an answer takes on two pipes, from the write of the request to the answer's last
# byte. The best of RUNS runs counts (3 if it is not set), of 1,000,000 changes and 60,000 requests. With DAY set, also a day
# of 20,000,000 changes from one pipe, on tapes of 1,000,000: so it goes over epochs. Needs a C compiler.
# The program is NMS_SERVE, or the one that ./nms_serve built.
set -eu
bench=$(cd "$(dirname "$0")" && pwd)
program=$(realpath "${NMS_SERVE:-$bench/../crates/nms_serve/out/nms_serve}")
loads=${BENCH_LOADS:-$bench/out}
mkdir -p "$loads"
load=$(realpath "$loads")/live-1000000
[ -e "$load/8/feed_h.csv" ] || python3 "$bench/generate.py" live 1000000 "$load"
room=$(mktemp -d)
trap 'rm -r "$room"' EXIT
cd "$room"

printf '%-6s %15s %12s\n' pipes changes/s kB
for feeds in 1 2 4 8; do
    best='' memory=''
    for ((run = 0; run < ${RUNS:-3}; run++)); do
        rm -f tape* pipe_*
        words=()
        for file in "$load/$feeds"/feed_?.csv; do
            letter=$(basename "$file" .csv) letter=${letter#feed_}
            mkfifo "pipe_$letter"
            cat "$file" >"pipe_$letter" &
            words+=(--feed "${letter^^}=pipe_$letter")
        done
        from=${EPOCHREALTIME/./}
        memory=$(python3 - "$program" --setup "$load/$feeds/setup-4.toml" "${words[@]}" --tape tape <<'PY'
import resource, subprocess, sys
subprocess.run(sys.argv[1:], stdin=subprocess.DEVNULL, stderr=subprocess.DEVNULL, check=True)
print(resource.getrusage(resource.RUSAGE_CHILDREN).ru_maxrss)
PY
)
        took=$((${EPOCHREALTIME/./} - from))
        wait
        [ "$(wc -l <tape)" = 1000000 ] || { echo "the tape is not whole" >&2 && exit 1; }
        [ -n "$best" ] && [ "$best" -le "$took" ] || best=$took
    done
    awk -v f="$feeds" -v t="$best" -v m="$memory" 'BEGIN { printf "%-6d %15.0f %12d\n", f, 1e12 / t, m }'
done

if [ -n "${DAY:-}" ]; then
    rm -f tape* pipe_*
    sed 's/^tape_limit *=.*/tape_limit = 1000000/' "$load/1/setup-4.toml" >setup-day.toml
    mkfifo pipe_a
    for ((turn = 0; turn < 20; turn++)); do cat "$load/1/feed_a.csv"; done >pipe_a &
    from=${EPOCHREALTIME/./}
    memory=$(python3 - "$program" --setup setup-day.toml --feed A=pipe_a --tape tape <<'PY'
import resource, subprocess, sys
subprocess.run(sys.argv[1:], stdin=subprocess.DEVNULL, stderr=subprocess.DEVNULL, check=True)
print(resource.getrusage(resource.RUSAGE_CHILDREN).ru_maxrss)
PY
)
    took=$((${EPOCHREALTIME/./} - from))
    wait
    last=$(ls tape.*.published | sed 's/tape.//; s/.published//' | sort -n | tail -1)
    awk -v t="$took" -v m="$memory" -v e="$last" 'BEGIN { printf "day    %15.0f %12d   up to epoch %d\n", 20e12 / t, m, e }'
    rm -f tape*
fi

"${CC:-cc}" -O2 -o round_trips "$bench/round_trips.c"
awk -F, '/^O/ { a[n++] = $0 } END {
    for (i = 0; i < 60000; i++) {
        split(a[i % n], it, ",")
        print (i % 2 ? "look 1 BEST N,0," it[4] "|" : "order 1 END " a[i % n] "|")
    }
}' "$load/orders-4.csv" >requests
printf '\n%-6s %10s %10s %10s %10s   (nanoseconds)\n' answer p50 p99 p99.9 mean
for ((run = 0; run < ${RUNS:-3}; run++)); do
    rm -f tape*
    ./round_trips requests "$program" --setup "$load/1/setup-4.toml" --feed "A=$load/1/feed_a.csv" --tape tape 2>told
done | awk '/^(look|order)/ { if (!($1 in p) || $3 < p[$1]) { p[$1] = $3; q[$1] = $4; r[$1] = $5; m[$1] = $6 } }
    END { for (it in p) printf "%-6s %10d %10d %10d %10d\n", it, p[it], q[it], r[it], m[it] }'
