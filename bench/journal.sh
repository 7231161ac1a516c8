#!/usr/bin/env bash
# Times the journal: small entries are appended in batches of 1, 16 and 256 to a disk in memory, to a file in shared
# memory (the system's calls alone) and to a file on a disk, and read back. The syncs of a run are counted by strace, where
# it is there, over the file in shared memory. Beside a file stands what dd takes for the same bytes in as many synced writes.
# Build the program first: (cd crates/journal_bench && rt run -- read - 1000 16).
# journal.sh [ENTRIES [BATCHES]]: on a disk batches of 1 and 16 are at most so many, since each is synced twice; all with 0.
set -eu
cd "$(dirname "$0")/.."
program=$PWD/crates/journal_bench/out/journal_bench
[ -x "$program" ] || { echo "no $program: build it first, as this file's head says"; exit 1; }
entries=${1:-1000000}
most=${2:-1000}
dir=$(mktemp -d -p "${BENCH_DIR:-.}")
shared=$(mktemp -d -p /dev/shm)
trap 'rm -rf "$dir" "$shared"' EXIT

# Seconds of one run of a command.
seconds() {
    /usr/bin/time -f '%e' -o "$dir/time" "$@" > /dev/null 2>&1
    tail -n 1 "$dir/time"
}

# How many syncs writing so many entries in such batches makes.
syncs() {
    command -v strace > /dev/null || { echo -; return; }
    rm -f "$shared/counted"
    strace -f --seccomp-bpf -c -e trace=fdatasync,fsync -o "$dir/calls" "$program" write "$shared/counted" "$1" "$2" > /dev/null
    awk '$NF == "fdatasync" || $NF == "fsync" { n += $4 } END { print n + 0 }' "$dir/calls"
}

per_second() { awk -v n="$1" -v s="$2" 'BEGIN { if (s > 0) printf "%.0f", n / s; else print "-" }'; }

# One row: the disk, the batch, how many entries, the seconds, the syncs, and the seconds of dd where there are some.
row() {
    printf '%8s %6s %9d %9s %14s %9s %8s\n' "$1" "$2" "$3" "$4" "$(per_second "$3" "$4")" "$5" "$6"
}

# Appends to a file, and lets dd write as many bytes in as many synced pieces, twice as many as there are batches.
on_file() {
    local name=$1 path=$2 batch=$3 count=$4
    rm -f "$path"
    local write size batches plain
    write=$(seconds "$program" write "$path" "$count" "$batch")
    size=$(stat -c %s "$path")
    batches=$(( (count + batch - 1) / batch ))
    plain=$(seconds dd if=/dev/zero of="$path.plain" bs=$(( size / (2 * batches) + 1 )) count=$((2 * batches)) oflag=dsync)
    row "$name" "$batch" "$count" "$write" "$(syncs "$count" "$batch")" \
        "$(awk -v a="$write" -v b="$plain" 'BEGIN { if (b > 0) printf "%.2f", a / b; else print "-" }')"
}

printf '%d cores\n%8s %6s %9s %9s %14s %9s %8s\n' "$(nproc)" disk batch entries seconds entries/second syncs 'of dd'
for batch in 1 16 256; do
    row memory "$batch" "$entries" "$(seconds "$program" write - "$entries" "$batch")" - -
done
row 'and read' 256 "$entries" "$(seconds "$program" read - "$entries" 256)" - -
for batch in 1 16 256; do
    on_file shared "$shared/journal" "$batch" "$entries"
done
row read - "$entries" "$(seconds "$program" read "$shared/journal" 0 1)" - -
for batch in 1 16 256; do
    count=$entries
    [ "$batch" = 256 ] || [ "$most" = 0 ] || [ "$count" -le $((most * batch)) ] || count=$((most * batch))
    on_file file "$dir/journal" "$batch" "$count"
done
row read - "$entries" "$(seconds "$program" read "$dir/journal" 0 1)" - -
