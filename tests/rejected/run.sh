#!/bin/sh
# Tries each edit that lies beside this script, on a copy of the repository: the program as it stands must be proved, and with the
# edit it must be refused by the compiler, with the error that the edit names and no other. (`rt must-fail` takes only edits that
# reach the prover.)
# An edit has five lines: crate, error, file (in the crate's folder), old (a text that stands once in that file), new.
# The copy's check begins with what checks in this repository kept; without that the crates below the programs are proved
# first, which takes minutes.
set -u
here=$(cd "$(dirname "$0")" && pwd) || exit 1
root=$(cd "$here/../.." && pwd) || exit 1
work=$(mktemp -d) || exit 1
trap 'rm -rf "$work"' EXIT
trap 'echo "FAILED: stopped by a signal"; exit 1' HUP INT TERM
failed=0

fail() {
    echo "FAILED: $name $1"
    failed=1
}

# The field $1 of the edit.
field() {
    sed -n "s/^$1: //p" "$edit" | head -n 1
}

# Writes the file $1 with its one $OLD replaced by $NEW; ends with 3 where $OLD does not stand exactly once.
replaced() {
    awk '{ text = text $0 "\n" }
        END {
            old = ENVIRON["OLD"]
            at = index(text, old)
            if (old == "" || !at) exit 3
            rest = substr(text, at + length(old))
            if (index(rest, old)) exit 3
            printf "%s%s%s", substr(text, 1, at - 1), ENVIRON["NEW"], rest
        }' "$1"
}

# Checks the crate in the copy.
check() {
    (cd "$work/copy/crates/$crate" && rt check) > "$work/log" 2>&1
}

# The kinds of errors in the log, each once: error[NAME], or error where it has no name.
kinds() {
    awk 'match($0, /: error(\[[^]]*\])?:/) { print substr($0, RSTART + 2, RLENGTH - 3) }' "$work/log" | sort -u
}

try() {
    source=$work/copy/crates/$crate/$file
    if ! check; then
        fail 'is not proved as it stands:'
        tail -n 5 "$work/log" | cut -c 1-200
        return
    fi
    if ! OLD=$(field old) NEW=$(field new) replaced "$source" > "$work/edited"; then
        fail "cannot be tried: its old text does not stand exactly once in crates/$crate/$file"
        return
    fi
    cp "$source" "$work/kept" || exit 1
    cp "$work/edited" "$source" || exit 1
    check
    status=$?
    cp "$work/kept" "$source" || exit 1
    line=$(grep -F ": error[$error]:" "$work/log" | grep -e "^$file:" | head -n 1)
    if [ "$status" -eq 1 ] && [ -n "$line" ] && [ "$(kinds)" = "error[$error]" ]; then
        echo "ok: $name refused: $line"
    else
        fail "is not refused with $error alone (status $status):"
        grep -e ': error' -e '^rt: ' "$work/log" | cut -c 1-200
    fi
}

mkdir -p "$work/copy" || exit 1
tar -C "$root" --exclude=out -cf - crates crates.txt | tar -C "$work/copy" -xf - || exit 1

for edit in "$here"/*.edit; do
    name=${edit##*/}
    name=${name%.edit}
    crate=$(field crate) error=$(field error) file=$(field file)
    if [ -z "$crate" ] || [ -z "$error" ] || [ -z "$file" ]; then
        fail 'cannot be tried: it lacks its crate, its error or its file'
    else
        try
    fi
done
exit "$failed"
