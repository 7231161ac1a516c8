#!/usr/bin/env bash
# Times the keys: 1,000,000 generated nodes are made, encoded, sorted and decoded. Each phase runs with those
# before it; what it takes by itself is the difference, which is printed as a ratio to the making of the nodes.
# Build the program first: (cd crates/key_bench && rt run -- decode 1000).
set -eu
source "$(dirname "$0")/timed.sh" key_bench
count=${1:-1000000}

# Seconds and KiB.
measure() {
    best 3 '%e %M' "$1" "$count"
}

printf '%d cores, %d nodes\n%8s %10s %12s %16s\n' "$(nproc)" "$count" phase seconds 'peak KiB' 'alone, to make'
before=0
first=
for phase in make encode sort decode; do
    read -r seconds kib < <(measure "$phase")
    [ -n "$first" ] || first=$seconds
    printf '%8s %10s %12d %16s\n' "$phase" "$seconds" "$kib" "$(awk -v s="$seconds" -v b="$before" -v f="$first" 'BEGIN { printf "%.2f", (s - b) / f }')"
    before=$seconds
done
