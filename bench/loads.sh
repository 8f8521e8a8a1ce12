# What the bench scripts share: the built program and the loads, made if they are missing.
bench=$(cd "$(dirname "${BASH_SOURCE[0]}")" && pwd)
"$bench/../nms_tool" script </dev/null
program=$bench/../crates/nms_tool/out/nms_tool
loads=${BENCH_LOADS:-$bench/out}

# The folder of a load of n records.
load_folder() {
    local folder=$loads/$1-$2
    [ -e "$folder/load.csv" ] && [ "$folder/load.csv" -nt "$bench/generate.py" ] ||
        python3 "$bench/generate.py" "$1" "$2" "$folder"
    echo "$folder"
}
