#!/bin/sh
# compare.sh [COUNT]: runs COUNT (20) random scripts of 3,000 lines, and the special ones, through crates/margin/out/margin and
# through the plain Rust engine of bench/engine.rs, and compares the answers. It prints the first difference of each script
# with the line it answers, and ends with status 1 where there is one. The script comes again by random.py SEED 3000, or by
# random.py --special NAME. MARGIN names another program to be compared.
set -eu
cd "$(dirname "$0")/../.."
margin=${MARGIN:-crates/margin/out/margin}
count=${1:-20}
if [ ! -x "$margin" ]; then
    echo "compare.sh: there is no $margin" >&2
    exit 1
fi
work=$(mktemp -d)
trap 'rm -rf "$work"' EXIT
rustc -O -o "$work/run_engine" bench/engine.rs

lines=0
scripts=0
differ=0

# compare NAME: the script is in $work/script. Every other one is given by name, the others on standard input.
compare() {
    scripts=$((scripts + 1))
    status=0
    if [ $((scripts % 2)) = 0 ]; then
        timeout 30 "$margin" "$work/script" > "$work/margin" || status=$?
        "$work/run_engine" "$work/script" > "$work/engine"
    else
        timeout 30 "$margin" < "$work/script" > "$work/margin" || status=$?
        "$work/run_engine" < "$work/script" > "$work/engine"
    fi
    lines=$((lines + $(wc -l < "$work/engine")))
    if [ "$status" -ge 124 ]; then
        echo "$1: margin ended with status $status"
    fi
    if [ "$status" -ge 124 ] || ! cmp -s "$work/margin" "$work/engine"; then
        differ=$((differ + 1))
        echo "$1: the answers differ"
        python3 tests/margin/random.py --difference "$work/script" "$work/margin" "$work/engine"
    fi
}

for name in $(python3 tests/margin/random.py --specials); do
    python3 tests/margin/random.py --special "$name" > "$work/script"
    compare "special script $name"
done
seed=1
while [ "$seed" -le "$count" ]; do
    python3 tests/margin/random.py "$seed" 3000 > "$work/script"
    compare "random script $seed"
    seed=$((seed + 1))
done
echo "$scripts scripts, $lines answers: $differ scripts differ"
[ "$differ" = 0 ]
