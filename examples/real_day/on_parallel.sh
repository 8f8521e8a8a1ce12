#!/usr/bin/env bash
# The jobs of a day on GNU parallel.
#
#   on_parallel.sh FOLDER OUT [OPTION..]
#
# FOLDER, OUT and what is written are those of day.sh. OPTION is one of parallel: -j2 for two jobs at once here, -S host1,host2 for
# other hosts by ssh. Those have this repository, the program, FOLDER and OUT at the same paths.
# A job that dies is done again, at most twice. If one still fails, the others end, nothing is merged, and the status is not 0.
# The same call again does what is missing. OUT/parallel.log has the host, the seconds and the status of each job.
set -euo pipefail
here=$(cd "$(dirname "$0")" && pwd)
mkdir -p "$2"
folder=$(realpath "$1") out=$(realpath "$2")
shift 2
find "$folder" -name 'SPLITS_US_ALL_BBO_*' -print0 | sort -z |
    parallel -0 --retries 3 --joblog "$out/parallel.log" --env NMS_REVIEW,MAP,MARKET,LIMIT "$@" "$here/job.sh" {} "$out"
"$here/day.sh" "$folder" "$out" 1
