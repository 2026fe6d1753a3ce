#!/bin/sh
# Runs crates/margin/out/margin on the example scripts, on the table of bounds and on odd input, and compares what it writes.
# Build it first, by `./build margin`.
set -u
cd "$(dirname "$0")/../.." || exit 1
margin=crates/margin/out/margin
work=$(mktemp -d)
trap 'rm -rf "$work"' EXIT
failed=0

# same NAME STATUS WANTED-STATUS: what was written is what was wanted.
same() {
    if [ "$2" -eq "$3" ] && cmp -s "$work/out" "$work/want"; then
        echo "ok: $1"
    else
        echo "FAILED: $1 (status $2, expected $3)"
        diff "$work/want" "$work/out" | head -n 6 | cut -c 1-200
        failed=1
    fi
}

for script in examples/*.txt; do
    cp "${script%.txt}.out" "$work/want"
    "$margin" < "$script" > "$work/out"
    same "$script" $? 0
    "$margin" "$script" > "$work/out"
    same "$script as an argument" $? 0
done

grep '=>' tests/margin/bounds.txt | grep -v '^#' | sed 's/ => .*//' > "$work/in"
grep '=>' tests/margin/bounds.txt | grep -v '^#' | sed 's/.* => //' > "$work/want"
"$margin" < "$work/in" > "$work/out"
same 'the table of bounds' $? 0

printf 'house 1 gross' > "$work/in"
printf 'ok\n' > "$work/want"
"$margin" < "$work/in" > "$work/out"
same 'no line break at the end' $? 0

printf '\n  \t # only a comment\n\r\nhouse\t1  gross \r\naccount# and a comment\n' > "$work/in"
printf 'ok\nok 0\n' > "$work/want"
"$margin" < "$work/in" > "$work/out"
same 'blanks, tabs, carriage returns and comments' $? 0

{ printf 'house 1 gross\n'; head -c 1000000 /dev/zero | tr '\0' 'x'; printf '\naccount\n'; printf 'closing'; i=0; while [ $i -lt 5000 ]; do printf ' 1'; i=$((i + 1)); done; printf '\n\377\376\000\nopening\n'; } > "$work/in"
printf 'ok\nunreadable\nok 0\nnot now\nunreadable\nok\n' > "$work/want"
"$margin" < "$work/in" > "$work/out"
same 'very long lines and bytes that are no text' $? 0

: > "$work/in"
: > "$work/want"
"$margin" < "$work/in" > "$work/out"
same 'an empty script' $? 0

"$margin" "$work/nothing" > "$work/out" 2> /dev/null
same 'a file that is not there' $? 1

"$margin" --help > "$work/out"
grep -q 'closing PRICE' "$work/out" && cp "$work/out" "$work/want"
same 'help' $? 0

exit $failed
