#!/usr/bin/env bash
# Compares random plans of the planner with those of the plain slow one: each plan and certificate has to be the same,
# and confirmed. Prints what each run compared: how many plans, of which seed, how many were right, and what is wrong
# with the first that is not. It makes a program of bench/plans, which rt proves (some minutes) and LLVM builds, so that
# a million plans take ten seconds; it leaves nothing behind. Status 1 if a plan differs.
#
#   bench/plans.sh [NUMBER [SEED]]      1,000,000 and 600 if none is given; a seed for each 100,000
set -eu
number=${1:-1000000} seed=${2:-600}
cd "$(dirname "$0")/.."
room=$(mktemp -d)
trap 'rm -rf "$room"' EXIT
below='nms_(units|quote|board|fee_book|fees|rules|cert|sweep)'
tar -c --exclude=out --exclude=must-fail crates/nms_{units,quote,board,fee_book,fees,rules,cert,sweep} | tar -x -C "$room"
grep -E "^$below:" crates.txt >"$room/crates.txt"
echo 'nms_plans: nms_units nms_quote nms_board nms_fees nms_cert nms_sweep arrayvec' >>"$room/crates.txt"
source=$room/crates/nms_plans/src
mkdir -p "$source"
# The plain planner and the comparison are those of nms_tests. The gate allows files `.rt` only in crates.
cp crates/nms_tests/src/{chance,compared,plain}.rt "$source"
for file in bench/plans/*.rattle; do
    cp "$file" "$source/$(basename "$file" .rattle).rt"
done
cd "$room/crates/nms_plans"
printf '10 600\n' | rt run --jobs 1 >&2
left=$number
while [ "$left" -gt 0 ]; do
    some=$((left < 100000 ? left : 100000))
    echo "$some $seed"
    left=$((left - some)) seed=$((seed + 1))
done | out/nms_plans | awk '
    { print; all += $3 }
    $1 != $3 || NF > 3 { wrong = 1 }
    END { print all + 0 " plans are the same"; exit wrong }'
