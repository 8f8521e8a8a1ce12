#!/usr/bin/env bash
# The trades of a day, judged on the shards of its quotes.
#
#   trades.sh FILE OUT [OPTION..]
#
# FILE is a file of trades of NYSE Daily TAQ, plain or .gz; OUT is the folder that day.sh, job.sh or an engine wrote. Each shard
# takes the trades in its own symbols, and next to its other files its .executions, .taken (the counts), .left (what was refused)
# and .judged are written. If a symbol is cut by time, just one of its shards judges each trade, and the others answer OTHER. Last,
# OUT/day.judged has the answers of all shards but those, each after the shard's name and a comma. OPTION is one of `trades`, as
# --before. NMS_REVIEW and MAP may name the program and the mapping.
set -euo pipefail
export LC_ALL=C
file=$1 out=$2
shift 2
here=$(cd "$(dirname "$0")" && pwd)
program=${NMS_REVIEW:-$here/../../nms_review}
# An installed program is on the path.
[ -n "${NMS_REVIEW-}" ] || [ -e "$program" ] || program=nms_review
map=${MAP:-$here/../import/taq-trades.toml}

text() { case $file in *.gz) $(command -v igzip || echo gzip) -dc "$file" ;; *) cat "$file" ;; esac; }

# Status 7 says that an import is doubtful, as one is that finds no trade of its symbols; 6 that a record is refused.
for setup in "$out"/*/*.[0-9]*.toml; do
    shard=${setup%.toml}
    [ -s "$shard.symbols" ] || continue
    text | "$program" import "$map" /dev/stdin --out "$shard" --setup "$setup" > "$shard.taken" 2> "$shard.left" || [ $? -eq 7 ]
    "$program" trades "$shard.changes" "$shard.executions" --times "$shard.times" --symbols "$shard.symbols" --setup "$setup" "$@" \
        > "$shard.judged" || [ $? -eq 6 ]
    awk -v shard="${shard##*/}" '!/^OTHER,/ { print shard "," $0 }' "$shard.judged"
done > "$out/day.part"
mv "$out/day.part" "$out/day.judged"
