#!/usr/bin/env bash
# A day of a whole market, letter file by letter file.
#
#   day.sh FOLDER OUT [JOBS]
#
# FOLDER has the letters' files, SPLITS_US_ALL_BBO_*. JOBS (one for each processor) run at once, as job.sh says. Then
# OUT/day.csv has the lines of all letters by time, and OUT/counts the sums of the rows. If a job fails, the others end,
# nothing is merged, and the status is not 0; another call goes on with the files that are not done.
set -euo pipefail
export LC_ALL=C
folder=$1 out=$2 jobs=${3:-$(nproc)}
here=$(cd "$(dirname "$0")" && pwd)
mkdir -p "$out"
find "$folder" -name 'SPLITS_US_ALL_BBO_*' -print0 | sort -z |
    xargs -0 -P "$jobs" -I FILE "$here/job.sh" FILE "$out"
files=$(find "$folder" -name 'SPLITS_US_ALL_BBO_*' -printf . | wc -c) letters=("$out"/*/)
[ "${#letters[@]}" = "$files" ] || { echo "$0: $files files, and folders in $out: ${letters[*]}" >&2 && exit 1; }
{
    echo time,shard,version,symbol,market,bid_participant,bid_price,bid_shares,offer_participant,offer_price,offer_shares
    sort -m -t, -k1,1 -k2,2 -k3,3n "$out"/*/*.day
} > "$out/day.part"
tail -qn 1 "$out"/*/*.counts | awk '{ rows += $1; changes += $4; refused += $7; skipped += $10 }
    END { print rows " rows = " changes " changes + " refused " refused + " skipped " skipped" }' > "$out/counts"
mv "$out/day.part" "$out/day.csv"
