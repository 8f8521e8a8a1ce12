#!/usr/bin/env bash
# Measures `trades` on a made day: seconds of processor and memory of the program, the reading of the changes included, and of
# the reading alone. It is no part of the gate.
#
#   bench/trades.sh [CHANGES [EXECUTIONS [PROGRAM]]]      10,000,000 changes, 1,000,000 executions and ./nms_review if not given
set -eu
cd "$(dirname "$0")/.."
changes=${1:-10000000} executions=${2:-1000000} program=${3:-./nms_review}
day=bench/out/trades-$changes-$executions
[ -e "$day/day.timed" ] || python3 bench/trades_day.py "$changes" "$executions" "$day"

# row WHAT WORD..: a line of the table.
row() {
    python3 - "$@" <<'PY'
import resource, subprocess, sys
subprocess.run(sys.argv[2:], stdin=subprocess.DEVNULL, stdout=subprocess.DEVNULL, check=False)
used = resource.getrusage(resource.RUSAGE_CHILDREN)
print(f"{sys.argv[1]:<12} {used.ru_utime + used.ru_stime:8.2f} {used.ru_maxrss / 1000:8.0f}")
PY
}
printf '%-12s %8s %8s\n' trades seconds MB
row reading "$program" trades "$day/day.changes" /dev/null --setup "$day/setup.toml"
row 'by version' "$program" trades "$day/day.changes" "$day/day.executions" --setup "$day/setup.toml"
row 'by time' "$program" trades "$day/day.changes" "$day/day.timed" --setup "$day/setup.toml" --times "$day/day.times"
row 'by window' "$program" trades "$day/day.changes" "$day/day.timed" --setup "$day/setup.toml" --times "$day/day.times" --window 1000000
