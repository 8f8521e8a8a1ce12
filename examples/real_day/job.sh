#!/usr/bin/env bash
# One file of a day: its shards, and a line wherever a symbol's best bid, best offer or market changes, with its time.
#
#   job.sh FILE OUT
#
# FILE is a letter's file of NYSE Daily TAQ quotes, plain or .gz. It makes a folder in OUT, named as the letter. That holds, under
# the same name, .counts, .errors, the files of each shard (A.1.toml, its setup, A.1.changes, A.1.times, A.1.symbols, then A.2
# and so on), .day with the lines, each after its time and its shard, and .of, a checksum of what all this was made of.
# A job works in a folder of its own, which gets the letter's name last, by one rename. So OUT/A is whole or is not there, wherever
# a job dies, and if two jobs do one file at once, one of them wins. A letter that is there is not done again.
# NMS_REVIEW, MAP and MARKET may name the program, the mapping, and the setup whose participants are taken; LIMIT is how many
# changes a shard has at most, 10,000,000 if it is not given.
set -euo pipefail
export LC_ALL=C
file=$1 out=$2
here=$(cd "$(dirname "$0")" && pwd)
program=${NMS_REVIEW:-$here/../../nms_review}
# An installed program is on the path.
[ -n "${NMS_REVIEW-}" ] || [ -e "$program" ] || program=nms_review
map=${MAP:-$here/../import/taq.toml} market=${MARKET:-$here/../market.toml}
name=$(basename "$file" .gz) letter=${name#SPLITS_US_ALL_BBO_} letter=${letter%%_*}
of=$({ echo "$name $(wc -c < "$file") ${LIMIT:-10000000}" && "$program" --version && cat "$map" "$market"; } | sha256sum)

# What is there was made of this file, in this way, or the day would be of two.
done_before() {
    [ -e "$out/$letter" ] || return 1
    [ "$(cat "$out/$letter/$letter.of")" = "$of" ] && return
    echo "$0: $out/$letter is not of $file as it is, or of another mapping, setup, limit or program: remove it first" >&2
    exit 1
}
if done_before; then exit 0; fi
mkdir -p "$out"
room=$(mktemp -d "$out/.$letter.XXXXXX")
trap 'rm -rf "$room"' EXIT
mkdir "$room/$letter"
it=$room/$letter/$letter

# igzip is three times as fast. Unlike gzip it says nothing of bytes after the last part, but then the count of the last line differs.
text() { case $file in *.gz) $(command -v igzip || echo gzip) -dc "$file" ;; *) cat "$file" ;; esac; }

# The same participants in the same order in every setup: ties between quotations go by place. The symbols are the file's.
sed "s/^tape_limit = .*/tape_limit = ${LIMIT:-10000000}/" "$market" > "$it.market"
text | "$program" import "$map" /dev/stdin --out "$it" --shards --setup "$it.market" > "$it.counts" 2> "$it.errors" ||
    { cat "$it.errors" >&2 && exit 1; }
# The opening changes of a symbol that was cut say what an earlier shard shows. If no row makes a change, there is one shard, and
# it has no symbols.
for setup in "$it".[0-9]*.toml; do
    shard=${setup%.toml}
    [ -s "$shard.symbols" ] || continue
    "$program" stream "$shard.changes" --setup "$setup" --times "$shard.times" |
        awk -F, -v shard=",${shard##*/}," -v opened="$(sed -n 's/^# opening changes: //p' "$setup")" '
            # A time has 15 digits. To split a line into fields costs most here, so only lines up to the first one wanted are split.
            !begun { begun = NR > 1 && $1 > opened }
            begun { at = length($0) - 14; print substr($0, at) shard substr($0, 1, at - 2) }'
done | sort -t, -k1,1 -k2,2 -k3,3n > "$it.day"
echo "$of" > "$it.of"
# No rename puts a folder in the place of one that has files.
mv -T "$room/$letter" "$out/$letter" || done_before
# What is left of jobs that died. One that still runs then fails, and hurts nothing.
rm -rf "$out/.$letter".* 2> /dev/null || true
