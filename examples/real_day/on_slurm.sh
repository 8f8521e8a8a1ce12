#!/usr/bin/env bash
# The jobs of a day on Slurm.
#
#   on_slurm.sh FOLDER OUT [OPTION..]
#
# FOLDER, OUT and what is written are those of day.sh. Each node has this repository, the program, FOLDER and OUT at the same paths.
# OPTION is one of sbatch, as --partition=NAME or --mem=1G.
# It is one array of jobs, task k for file k. If a node fails, Slurm does its jobs again. If a job dies, the array is sent again, at
# most twice, and what is done is passed over. If one still fails, nothing is merged, and the status is not 0. The same call again
# does what is missing. OUT/slurm.files has the files, and OUT/slurm.K.log what task K said.
set -euo pipefail
here=$(cd "$(dirname "$0")" && pwd)
mkdir -p "$2"
folder=$(realpath "$1") out=$(realpath "$2")
shift 2
find "$folder" -name 'SPLITS_US_ALL_BBO_*' | sort > "$out/slurm.files"
# sbatch hands its environment on, so NMS_REVIEW, MAP, MARKET and LIMIT too.
export JOB=$here/job.sh OUT=$out
for try in 1 2 3; do
    status=0
    sbatch --wait --requeue --array="1-$(wc -l < "$out/slurm.files")" --output="$out/slurm.%a.log" --open-mode=append "$@" << 'END' || status=$?
#!/bin/sh
exec "$JOB" "$(sed -n "${SLURM_ARRAY_TASK_ID}p" "$OUT/slurm.files")" "$OUT"
END
    [ "$status" != 0 ] || break
    echo "$0: a job failed in round $try: see $out/slurm.*.log" >&2
done
[ "$status" = 0 ]
"$here/day.sh" "$folder" "$out" 1
