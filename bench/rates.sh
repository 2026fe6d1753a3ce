#!/bin/sh
# Times crates/rates/out/rates on 100,000 rows against an awk program that prints the same sheet, and shows that its peak
# memory is the same at 1,000,000 rows. Build it first, by `./build rates`. It ends with status 1 where the sheets
# differ or rates takes longer.
set -eu
cd "$(dirname "$0")/.."
rates=crates/rates/out/rates
work=$(mktemp -d)
trap 'rm -rf "$work"' EXIT

# make_rows COUNT: every 20th row has a name that is wider than its column.
make_rows() {
    awk -v count="$1" 'BEGIN {
        seed = 1
        for (i = 1; i <= count; i++) {
            seed = seed * 16807 % 2147483647
            outright = seed % 500000000 + 1
            seed = seed * 16807 % 2147483647
            spread = seed % outright + 1
            name = i % 20 ? "Product " i " Futures" : "Product " i " Futures (from the next series onward)"
            printf "%d %d %s\n", outright, spread, name
        }
    }'
}

# best COMMAND..: the least wall time of five runs on the 100,000 rows, in milliseconds.
best() {
    least=
    for _ in 1 2 3 4 5; do
        start=$(date +%s%N)
        "$@" < "$work/rows" > "$work/out"
        took=$((($(date +%s%N) - start) / 1000000))
        if [ -z "$least" ] || [ "$took" -lt "$least" ]; then
            least=$took
        fi
    done
    echo "$least"
}

# peak FILE: the most memory that rates holds while it reads FILE, in kilobytes.
peak() {
    if [ -x /usr/bin/time ]; then
        /usr/bin/time -v "$rates" < "$1" 2>&1 > /dev/null | sed -n 's/.*Maximum resident set size (kbytes): //p'
    else
        mkfifo "$work/pipe"
        "$rates" < "$work/pipe" > /dev/null &
        exec 3> "$work/pipe"
        cat "$1" >&3
        sleep 1
        sed -n 's/^VmHWM:[^0-9]*\([0-9]*\).*/\1/p' "/proc/$!/status"
        exec 3>&-
        wait
        rm "$work/pipe"
    fi
}

make_rows 100000 > "$work/rows"
make_rows 1000000 > "$work/many"
"$rates" < "$work/rows" > "$work/rates.out"
awk -f bench/rates.awk < "$work/rows" > "$work/awk.out"
cmp "$work/rates.out" "$work/awk.out"
echo "the sheets of 100,000 rows are equal, $(wc -c < "$work/rates.out") bytes"

rates_took=$(best "$rates")
awk_took=$(best awk -f bench/rates.awk)
echo "rates: $rates_took ms, awk: $awk_took ms (wall time, best of 5)"
echo "peak memory of rates: $(peak "$work/rows") KB at 100,000 rows, $(peak "$work/many") KB at 1,000,000 rows"
[ "$rates_took" -le "$awk_took" ]
