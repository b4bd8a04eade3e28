#!/bin/bash
# Builds the program and times it on texts of a tenth of the greatest length and of the whole, three times each.
# A line has: the text, its bytes, milliseconds by the clock and of the processor, peak memory in MB, the exit status, and the first
# line of what the program wrote. A run takes so little time that each time is the mean of 20 runs.
set -eu
cd "$(dirname "$0")"
(cd ../crates/rewind && rt run -- run < ../../examples/first.script > /dev/null)
program=$(realpath ../crates/rewind/out/rewind)
folder=$(mktemp -d)
trap 'rm -r "$folder"' EXIT
runs=20

# time_it KIND BYTES WORD..
time_it() {
    python3 texts.py "$1" "$2" "$folder/text"
    local status=0
    /usr/bin/time -q -f %M -o "$folder/memory" "$program" "${@:3}" < "$folder/text" > "$folder/out" || status=$?
    for _ in 1 2 3; do
        TIMEFORMAT='%R %U %S'
        { time for _ in $(seq $runs); do "$program" "${@:3}" < "$folder/text" > /dev/null || true; done } 2> "$folder/used"
        awk -v text="$1" -v bytes="$(stat -c %s "$folder/text")" -v runs=$runs -v memory="$(cat "$folder/memory")" -v status=$status \
            -v line="$(head -n 1 "$folder/out")" \
            '{ printf "%-10s %8d %7.1f %7.1f %6.1f %d %s\n", text, bytes, 1000 * $1 / runs, 1000 * ($2 + $3) / runs, memory / 1024, status, line }' \
            "$folder/used"
    done
}

# How long a process takes that reads nothing.
time_it nothing 0 run

for bytes in 104857 1048576; do
    for kind in script wrong turns savepoints; do
        time_it $kind $bytes run
    done
done

# Images are read once the program knows the word.
if [ "$("$program" recover image < /dev/null)" != usage ]; then
    for bytes in 3355443 33554432; do
        time_it image $bytes recover image
    done
    time_it overlong 33554432 recover image
fi
