#!/usr/bin/env bash
# A tree of blocks against std's ordered map of the same pairs: pairs put in no order and rising, each got, a walk from key to
# key, and pairs removed 1, 100 and all at a time, where the map removes them one by one. Each row has what the tree took over
# what the map took; what making pairs, and for all but the first two rows what putting them takes, is measured too and taken
# off. Then the greatest memory of each, in MB.
# `instructions` are counted by valgrind's callgrind and are the same in each run, whatever else the machine does; `seconds` are
# processor seconds, the best of three runs.
# Build the program first: (cd crates/store_bench && rt run -- tree kill100 2000 100 2), or by `rt ci`.
# store.sh [instructions | seconds [LENGTH [COUNT..]]]: the length of values, 5 bytes, and the counts of pairs: 2,000, 20,000 and
# 200,000 for instructions, and 10,000 to 1,000,000 for seconds, where all is done until a million pairs were put.
set -eu
source "$(dirname "$0")/timed.sh" store_bench
unit=${1:-instructions}
length=${2:-5}
shift $(($# < 2 ? $# : 2))
case $unit in
    instructions) counts=${*:-2000 20000 200000} ;;
    seconds) counts=${*:-10000 100000 1000000} ;;
    *) echo "no such unit: $unit"; exit 1 ;;
esac

# What one takes that does this with so many pairs: millions of instructions, or seconds.
took() {
    if [ "$unit" = seconds ]; then
        best 3 '%U' "$1" "$2" "$3" "$length" $((1000000 / $3))
    else
        valgrind --tool=callgrind --callgrind-out-file=/dev/null "$program" "$1" "$2" "$3" "$length" 1 2>&1 > /dev/null |
            awk '/Collected :/ { printf "%.2f\n", $4 / 1000000 }'
    fi
}

less() {
    awk -v a="$1" -v b="$2" 'BEGIN { printf "%.2f", a - b }'
}

row() {
    printf '%8s %8d %10s %10s %8s\n' "$1" "$2" "$3" "$4" \
        "$(awk -v a="$3" -v b="$4" 'BEGIN { if (b > 0) printf "%.2f", a / b; else print "-" }')"
}

[ "$unit" = seconds ] && shown=s || shown=M
printf '%d cores, values of %d bytes, %s\n%8s %8s %10s %10s %8s\n' "$(nproc)" "$length" "$unit" what pairs "tree, $shown" "map, $shown" ratio
for count in $counts; do
    for what in sets rising; do
        made=$(took none "$what" "$count")
        tree=$(took tree "$what" "$count")
        map=$(took map "$what" "$count")
        row "$what" "$count" "$(less "$tree" "$made")" "$(less "$map" "$made")"
        [ "$what" = rising ] || { tree_put=$tree; map_put=$map; }
    done
    for what in gets walk kill1 kill100 killall; do
        row "$what" "$count" "$(less "$(took tree "$what" "$count")" "$tree_put")" "$(less "$(took map "$what" "$count")" "$map_put")"
    done
    for which in none tree map; do
        printf '%8s %8d %10s MB with %s\n' memory "$count" "$(best 1 '%M' "$which" sets "$count" "$length" 1 | awk '{ printf "%.0f", $1 / 1024 }')" "$which"
    done
done
