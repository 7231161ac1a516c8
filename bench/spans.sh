#!/usr/bin/env bash
# Times the spans: `touched` where 512 and 4,096 spans of 16 sessions are noted, of which as few meet each time, and
# `cover` among 16 and 256 runs. Each row has the larger's time over the smaller's, of one run of this file; what making
# them takes is measured too and taken off. Asks that went through all would take some 8 and 16 times as long.
# Build the program first: (cd crates/span_bench && rt run -- cover 16 1000).
set -eu
source "$(dirname "$0")/timed.sh" span_bench
asked=${1:-1000000}

# Seconds.
seconds() {
    best 5 '%U' "$1" "$2" "$3"
}

printf '%d cores, %d asked\n%8s %8s %8s %10s %10s %8s\n' "$(nproc)" "$asked" what few many 'few, s' 'many, s' ratio
for row in 'touched 512 4096' 'cover 16 256'; do
    read -r what few many <<< "$row"
    least=$(awk -v a="$(seconds "$what" "$few" "$asked")" -v b="$(seconds "$what" "$few" 0)" 'BEGIN { print a - b }')
    most=$(awk -v a="$(seconds "$what" "$many" "$asked")" -v b="$(seconds "$what" "$many" 0)" 'BEGIN { print a - b }')
    printf '%8s %8d %8d %10s %10s %8s\n' "$what" "$few" "$many" "$least" "$most" \
        "$(awk -v a="$most" -v b="$least" 'BEGIN { if (b > 0) printf "%.2f", a / b; else print "-" }')"
done
