# To be sourced by a bench that times a program of `crates/`, with the crate's name: `program` is the proved program, and
# `best RUNS FORMAT ARGUMENT...` prints what /usr/bin/time says by FORMAT of the best of so many runs of it.
cd "$(dirname "${BASH_SOURCE[0]}")/.."
program=crates/$1/out/$1
[ -x "$program" ] || { echo "no $program: build it first, as this file's head says"; exit 1; }
time_file=$(mktemp)
trap 'rm -f "$time_file"' EXIT

best() {
    local runs=$1 format=$2 run
    shift 2
    for ((run = 0; run < runs; run++)); do
        /usr/bin/time -f "$format" -o "$time_file" "$program" "$@" > /dev/null
        cat "$time_file"
    done | sort -n | head -n 1
}
