#!/bin/sh
# Times crates/margin/out/margin against the plain Rust engine of bench/engine.rs on 200,000 prints and figures over a full house.
# It ends with status 1 where the answers differ, or where margin takes more than 1.5 times as long.
set -eu
cd "$(dirname "$0")/.."
margin=${MARGIN:-crates/margin/out/margin}
if [ ! -x "$margin" ]; then
    echo "margin.sh: there is no $margin" >&2
    exit 1
fi
work=$(mktemp -d)
trap 'rm -rf "$work"' EXIT
rustc -O -o "$work/engine" bench/engine.rs
awk -v count=200000 -f bench/script.awk > "$work/script"

# best PROGRAM LEAST: the lesser of LEAST and the wall time of a run, in microseconds.
best() {
    start=$(date +%s%N)
    "$1" < "$work/script" > "$work/out"
    took=$((($(date +%s%N) - start) / 1000))
    if [ "$2" = 0 ] || [ "$took" -lt "$2" ]; then
        echo "$took"
    else
        echo "$2"
    fi
}

"$margin" < "$work/script" > "$work/margin.out"
"$work/engine" < "$work/script" > "$work/engine.out"
cmp "$work/margin.out" "$work/engine.out"
echo "the answers to $(wc -l < "$work/script") lines are equal, $(wc -c < "$work/engine.out") bytes"

# By turns, so that a slow moment of the machine meets both.
margin_took=0
engine_took=0
for _ in $(seq 20); do
    margin_took=$(best "$margin" "$margin_took")
    engine_took=$(best "$work/engine" "$engine_took")
done
awk -v margin="$margin_took" -v engine="$engine_took" 'BEGIN {
    printf "margin: %.1f ms, engine: %.1f ms (wall time, best of 20), ratio %.2f, at most 1.50\n",
        margin / 1000, engine / 1000, margin / engine
    exit margin > 1.5 * engine
}'
