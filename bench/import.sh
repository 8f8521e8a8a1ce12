#!/usr/bin/env bash
# Measures `import` on a made day of TAQ's 23 columns and 1,000 symbols: rows a second of processor time (user and system), the
# best of three. It is no part of the gate.
#
#   bench/import.sh [ROWS [PROGRAM]]      2,000,000 rows and ./nms_review if they are not given
#
# Status 1 if it is below 2,000,000 rows a second.
set -eu
cd "$(dirname "$0")/.."
rows=${1:-2000000} program=${2:-./nms_review}
folder=bench/out/imported
mkdir -p "$folder"

python3 bench/taq_day.py "$rows" "$folder/day.txt" 1000
least=1000000000
for _ in 1 2 3; do
    took=$(python3 - "$program" import examples/import/taq.toml "$folder/day.txt" --out "$folder/day" --setup "$folder/day.txt.toml" <<'END'
import resource
import subprocess
import sys
subprocess.run(sys.argv[1:], stdout=subprocess.DEVNULL, stderr=subprocess.DEVNULL, check=True)
used = resource.getrusage(resource.RUSAGE_CHILDREN)
print(int((used.ru_utime + used.ru_stime) * 1000000))
END
    )
    least=$((took < least ? took : least))
done
rate=$((rows * 1000000 / least))
echo "rows a processor second: $rate"
[ "$rate" -ge 2000000 ]
