#!/usr/bin/env bash
# Times the table of locks: many rounds of ask, cancel, free and give back of one name, in a table with 3,000 and one
# with 30,000 locks of other names. Each run fills the table too; what the rounds take is the difference to a run that
# only fills. The last line is the time of the rounds in the larger table over that in the smaller.
# Build the program first: (cd crates/lock_bench && rt run -- 10 1).
set -eu
source "$(dirname "$0")/timed.sh" lock_bench
rounds=${1:-100000}

# Seconds and KiB.
measure() {
    best 3 '%e %M' "$1" "$2"
}

printf '%d cores, %d rounds\n%8s %10s %12s %12s\n' "$(nproc)" "$rounds" holds 'fill, s' 'peak KiB' 'rounds, s'
smaller=
for holds in 3000 30000; do
    read -r fill kib < <(measure "$holds" 0)
    read -r both _ < <(measure "$holds" "$rounds")
    alone=$(awk -v b="$both" -v f="$fill" 'BEGIN { printf "%.2f", b - f }')
    printf '%8d %10s %12d %12s\n' "$holds" "$fill" "$kib" "$alone"
    [ -n "$smaller" ] || smaller=$alone
done
awk -v l="$alone" -v s="$smaller" 'BEGIN { printf "ratio %.2f\n", l / s }'
