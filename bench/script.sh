#!/usr/bin/env bash
# Runs the proved program on scripts and prints time and peak memory, and ratios to the shortest script of a kind.
# Build the program first: (cd crates/ecp && rt run -- script data/first.ecp).
set -eu
cd "$(dirname "$0")/.."
ecp=crates/ecp/out/ecp
[ -x "$ecp" ] || { echo "no $ecp: build it first, as this file's head says"; exit 1; }
dir=$(mktemp -d)
trap 'rm -rf "$dir"' EXIT

declared() { printf 'data D1\napp A1\njob J1 A1\nglobal ^x D1\n'; }

# N lines of a job that sets and gets its global in turn.
one() {
    declared
    awk -v n="$1" 'BEGIN { for (i = 0; i < n; i++) if (i % 2) print "J1: set ^x " i; else print "J1: get ^x" }'
}

# N lines over 30,000 nodes: of eight, four sets, two gets, a data and a next.
nodes() {
    declared
    awk -v n="$1" 'BEGIN { for (i = 0; i < n; i++) {
        k = (i * 7919) % 30000; t = i % 8
        if (t < 4) print "J1: set ^x(" k ",\"node\") " i
        else if (t < 6) print "J1: get ^x(" k ",\"node\")"
        else if (t == 6) print "J1: data ^x(" k ")"
        else print "J1: next ^x(" k ")"
    } }'
}

# N / 2 sets of a global's subscripts, and N / 2 nexts from each to the one after it.
walk() {
    declared
    awk -v n="$1" 'BEGIN { h = n / 2
        for (i = 0; i < h; i++) print "J1: set ^x(" i ") 1"
        for (i = 0; i < h; i++) print "J1: next ^x(" i ")" }'
}

# N / 2 sets and N / 2 kills of what they set.
kills() {
    declared
    awk -v n="$1" 'BEGIN { h = n / 2
        for (i = 0; i < h; i++) print "J1: set ^x(" i ") 1"
        for (i = 0; i < h; i++) print "J1: kill ^x(" i ")" }'
}

# The best of five runs: seconds and KiB.
measure() {
    for _ in 1 2 3 4 5; do
        /usr/bin/time -f '%e %M' -o "$dir/time" "$ecp" script "$1" > "$dir/out" || true
        cat "$dir/time"
    done | grep -E '^[0-9.]+ [0-9]+$' | sort -n | head -n 1
}

printf '%d cores\n%8s %10s %10s %12s %10s %12s\n' "$(nproc)" kind lines seconds 'peak KiB' 'to first' 'KiB to first'
for kind in one nodes walk kills; do
    first=
    for lines in 8000 16000 32000 65000; do
        "$kind" "$lines" > "$dir/script"
        read -r seconds kib < <(measure "$dir/script")
        [ -n "$first" ] || { first=$kib; quickest=$seconds; }
        printf '%8s %10d %10s %12d %10s %12s\n' "$kind" "$lines" "$seconds" "$kib" \
            "$(awk -v a="$seconds" -v b="$quickest" 'BEGIN { if (b > 0) printf "%.1f", a / b; else print "-" }')" \
            "$(awk -v a="$kib" -v b="$first" 'BEGIN { printf "%.1f", a / b }')"
    done
done

# The longest text that a script may have, in one line: it is read whole and then refused.
head -c 67108864 /dev/zero | tr '\0' x > "$dir/script"
read -r seconds kib < <(measure "$dir/script")
printf '%8s %10s %10s %12d\n' long '64 MiB' "$seconds" "$kib"
