#!/bin/sh
# Runs crates/rates/out/rates on sheets with and without faults, and compares what it writes on both streams and its status.
# Build it first, by `./build rates`.
set -u
cd "$(dirname "$0")/../.." || exit 1
rates=crates/rates/out/rates
work=$(mktemp -d)
trap 'rm -rf "$work"' EXIT
failed=0

header='                                                       One lot outright                    One lot of a spread
Baht per lot                          Initial  Maintenance        Force      Initial  Maintenance        Force
'
# What 1 and 1, 100 and 100, and the largest risk margins come to.
least='         0.02         0.02         0.01         0.02         0.02         0.01'
hundred='         1.90         1.33         0.57         1.90         1.33         0.57'
most=' 9,500,000.00 6,650,000.00 2,850,000.00 9,500,000.00 6,650,000.00 2,850,000.00'
blanks='                                '

# Each case writes $work/in, and then calls expect NAME STATUS ROWS FAULTS, with the rows and faults as printf formats.
# shellcheck disable=SC2059
expect() {
    printf '%s' "$header" > "$work/out.want"
    printf "$3" >> "$work/out.want"
    printf "$4" > "$work/err.want"
    compare "$1" "$2"
}

compare() {
    timeout 60 "$rates" < "$work/in" > "$work/out" 2> "$work/err"
    status=$?
    if [ "$status" -eq "$2" ] && cmp -s "$work/out" "$work/out.want" && cmp -s "$work/err" "$work/err.want"; then
        echo "ok: $1"
    else
        echo "FAILED: $1 (status $status, expected $2)"
        diff "$work/out.want" "$work/out" | head -n 5 | cut -c 1-200
        diff "$work/err.want" "$work/err" | head -n 5 | cut -c 1-200
        failed=1
    fi
}

digits() {
    head -c "$1" /dev/zero | tr '\0' "$2"
}

: > "$work/in"
expect 'empty input' 0 '' ''

printf '0 1 A\n1 1 B\n500000000 500000000 C\n500000001 1 D\n' > "$work/in"
expect 'bounds of the outright risk margin' 1 \
    "B                               $least\nC                               $most\n" \
    'line 1: the outright risk margin is outside 1 to 500,000,000\nline 4: the outright risk margin is outside 1 to 500,000,000\n'

printf '100 0 A\n100 100 B\n100 101 C\n' > "$work/in"
expect 'bounds of the spread risk margin' 1 "B                               $hundred\n" \
    'line 1: the spread risk margin is outside 1 to the outright risk margin\nline 3: the spread risk margin is outside 1 to the outright risk margin\n'

printf '18446744073709551615 1 A\n18446744073709551616 1 B\n1 18446744073709551615 C\n1 18446744073709551616 D\n' > "$work/in"
expect 'the largest number of 64 bits, and one more' 1 '' \
    'line 1: the outright risk margin is outside 1 to 500,000,000\nline 2: the outright risk margin is too large to read\nline 3: the spread risk margin is outside 1 to the outright risk margin\nline 4: the spread risk margin is too large to read\n'

{
    digits 300 9
    printf ' 1 A\n1 '
    digits 300 9
    printf ' B\n'
    digits 300 0
    printf '1 1 C\n'
} > "$work/in"
expect 'numbers of 300 digits' 1 "C                               $least\n" \
    'line 1: the outright risk margin is too large to read\nline 2: the spread risk margin is too large to read\n'

printf -- '-1 1 A\n1 -1 B\n+1 1 C\n1.0 1 D\n1,000 1 E\n99999999999999999999x 1 F\n1 1_0 G\nname 1 1\n' > "$work/in"
expect 'what is not a number' 1 '' \
    'line 1: the outright risk margin is not a number\nline 2: the spread risk margin is not a number\nline 3: the outright risk margin is not a number\nline 4: the outright risk margin is not a number\nline 5: the outright risk margin is not a number\nline 6: the outright risk margin is not a number\nline 7: the spread risk margin is not a number\nline 8: the outright risk margin is not a number\n'

printf '1\n1 \n1 1\n1 1 \t\n1 1 A\n' > "$work/in"
expect 'missing parts' 1 "A                               $least\n" \
    'line 1: the spread risk margin is missing\nline 2: the spread risk margin is missing\nline 3: the name is missing\nline 4: the name is missing\n'

printf '# comment\r\n\r\n1 1 A\r\n1 1\r\n1 1 B C \r\n' > "$work/in"
expect 'lines that end with CR and LF' 1 \
    "A                               $least\nB C                             $least\n" 'line 4: the name is missing\n'

printf '1\t1\tA\n \t1 \t 1 \tB  C\t\n\t# comment\n \t \n' > "$work/in"
expect 'tabs and blanks' 0 "A                               $least\nB  C                            $least\n" ''

printf '1 1 A\n1 1 B' > "$work/in"
expect 'no line break at the end' 0 "A                               $least\nB                               $least\n" ''

printf '0001 01 A\n' > "$work/in"
expect 'zeros in front' 0 "A                               $least\n" ''

{
    printf '#'
    digits 1000000 x
    printf '\n1 1 A\n'
} > "$work/in"
expect 'a comment of 1 MB' 0 "A                               $least\n" ''

{
    printf '1 1 '
    digits 1000000 x
    printf '\n1 1 A\n'
} > "$work/in"
{
    printf '%s' "$header"
    digits 1000000 x
    printf '\n%s%s\nA                               %s\n' "$blanks" "$least" "$least"
} > "$work/out.want"
: > "$work/err.want"
compare 'a name of 1 MB' 0

{
    digits 1000000 1
    printf ' 1 A\n1 1 B\n'
} > "$work/in"
expect 'a number of 1 MB' 1 "B                               $least\n" 'line 1: the outright risk margin is too large to read\n'

printf '1 1 A\377B\n1 1 \340\270\n1 1 \355\240\200\n1 1 C\n' > "$work/in"
expect 'names that are not UTF-8' 1 "C                               $least\n" \
    'line 1: the name is not UTF-8 text\nline 2: the name is not UTF-8 text\nline 3: the name is not UTF-8 text\n'

printf '1\0001 1 A\n\0001 1 B\n1 1 C\000D\n' > "$work/in"
expect 'NUL bytes' 1 "C\000D                             $least\n" \
    'line 1: the outright risk margin is not a number\nline 2: the outright risk margin is not a number\n'

# Four columns, five columns, and 32 of them by 34 characters.
printf '1 1 น้ำมัน\n1 1 ทองคำ\n1 1 น้ำมันabcdefghijklmnopqrstuvwxyz12\n1 1 น้ำมันabcdefghijklmnopqrstuvwxyz123\n' > "$work/in"
expect 'Thai names' 0 \
    "น้ำมัน                            $least\nทองคำ                           $least\nน้ำมันabcdefghijklmnopqrstuvwxyz12$least\nน้ำมันabcdefghijklmnopqrstuvwxyz123\n$blanks$least\n" ''

printf '1 1 abcdefghijklmnopqrstuvwxyz123456\n1 1 abcdefghijklmnopqrstuvwxyz1234567\n' > "$work/in"
expect 'names of 32 and 33 columns' 0 \
    "abcdefghijklmnopqrstuvwxyz123456$least\nabcdefghijklmnopqrstuvwxyz1234567\n$blanks$least\n" ''

printf '450000 112500 SET50\nx\n123456 99 A\n' > "$work/in"
expect 'a fault among rows' 1 \
    'SET50                                8,550.00     5,985.00     2,565.00     2,137.50     1,496.25       641.25\nA                                    2,345.67     1,641.97       703.70         1.89         1.32         0.57\n' \
    'line 2: the outright risk margin is not a number\n'

# A sheet that cannot be written: the program ends with an error, and soon.
awk 'BEGIN { for (i = 0; i < 100000; i++) print "1 1 A" }' > "$work/in"
timeout 60 "$rates" < "$work/in" > /dev/full 2> "$work/err"
status=$?
if [ "$status" -eq 1 ] && grep -q '^rates: ' "$work/err"; then
    echo 'ok: a full device'
else
    echo "FAILED: a full device (status $status, expected 1)"
    failed=1
fi

{
    timeout 60 "$rates" < "$work/in" 2> /dev/null
    echo $? > "$work/status"
} | head -n 1 > /dev/null
status=$(cat "$work/status")
if [ "$status" -ne 0 ] && [ "$status" -ne 124 ]; then
    echo 'ok: a closed pipe'
else
    echo "FAILED: a closed pipe (status $status)"
    failed=1
fi

exit "$failed"
