#!/bin/bash
# Builds the program, unless PROGRAM names one, and times `rewind recover` on images of the largest region and of a tenth of it.
# A line has: the image, its buckets and blocks, milliseconds by the clock and of the processor, peak memory in MB, the exit status, and the
# first line of what the program wrote, which is the number of events. Each time is the mean of 20 runs, and there are three of them.
set -eu
cd "$(dirname "$0")"
if [ -z "${PROGRAM:-}" ]; then
    (cd ../crates/rewind && rt run -- run < ../../examples/first.script > /dev/null)
    PROGRAM=../crates/rewind/out/rewind
fi
program=$(realpath "$PROGRAM")
folder=$(mktemp -d)
trap 'rm -r "$folder"' EXIT
runs=20

# time_it KIND BUCKETS BLOCKS
time_it() {
    python3 recover.py "$1" "$2" "$3" "$folder/image"
    local status=0
    /usr/bin/time -q -f %M -o "$folder/memory" "$program" recover < "$folder/image" > "$folder/out" || status=$?
    for _ in 1 2 3; do
        TIMEFORMAT='%R %U %S'
        { time for _ in $(seq $runs); do "$program" recover < "$folder/image" > /dev/null || true; done } 2> "$folder/used"
        awk -v kind="$1" -v buckets="$2" -v blocks="$3" -v runs=$runs -v memory="$(cat "$folder/memory")" -v status=$status \
            -v line="$(head -n 1 "$folder/out")" \
            '{ printf "%-7s %5d %6d %8.1f %8.1f %7.1f %3d %s\n", kind, buckets, blocks, 1000 * $1 / runs, 1000 * ($2 + $3) / runs, memory / 1024, status, line }' \
            "$folder/used"
    done
}

for kind in fresh one undone many ended; do
    time_it $kind 102 6553
done
for kind in fresh one undone many ended; do
    time_it $kind 1024 65536
done
