# Read by lane.sh and looks.sh: the programs that they compare, and the best of several runs.
bench=$(cd "$(dirname "$0")" && pwd)
ours=$bench/../crates/nms_examples/out/nms_examples
[ -x "$ours" ] || (cd "$bench/../crates/nms_examples" && rt run <stdin >/dev/null)

# Builds a program in ordinary Rust, and calls it `peer`. Words after its name are cargo's.
build_peer() {
    local name=$1
    shift
    peer=$bench/out/$name/release/$name
    (cd "$bench/$name" && cargo build --quiet --release --offline --target-dir "$bench/out/$name" "$@")
}

# The least number that a command prints in n runs.
least_of() {
    local runs=$1 least= now run
    shift
    for ((run = 0; run < runs; run++)); do
        now=$("$@") || exit 1
        [ -n "$least" ] && [ "$least" -le "$now" ] || least=$now
    done
    echo "$least"
}
