#!/bin/bash
# The program image on good, flawed and odd files: what it prints, its status, and that the file stays as it was.
# Usage: tests/image.sh PROGRAM
# A line for each case that fails, and last 'N passed, M failed'. Exit status 1 if any failed.
set -u
export LC_ALL=C

program=${1-}
if [ ! -f "$program" ] || [ ! -x "$program" ]; then
    echo 'usage: tests/image.sh PROGRAM' >&2
    exit 2
fi
bench=$(cd "$(dirname "$0")/../crates/image/data" && pwd)/bench.image

dir=$(mktemp -d) || exit 2
trap 'rm -rf "$dir"' EXIT
passed=0
failed=0

zeros() {
    head -c "$1" /dev/zero
}

# Puts bytes, given as escapes of printf, at an offset of the file.
poke() {
    printf '%b' "$3" | dd of="$1" bs=1 seek="$2" conv=notrunc status=none
}

# NAME STATUS TEXT: the program on $dir/file has this status, and its first line is this text.
expect() {
    local name=$1 status=$2 text=$3 before after got line
    before=$(cksum <"$dir/file")
    "$program" "$dir/file" >"$dir/out" 2>"$dir/err"
    got=$?
    after=$(cksum <"$dir/file")
    line=$(head -n 1 "$dir/out")
    if [ "$got" -eq "$status" ] && [ "$line" = "$text" ] && [ "$before" = "$after" ] && [ ! -s "$dir/err" ]; then
        passed=$((passed + 1))
    else
        failed=$((failed + 1))
        echo "failed: $name: status $got, '$line', standard error '$(cat "$dir/err")'"
    fi
}

# NAME WORDS..: the program with these arguments ends with status 1, and its standard error has the first word given.
refuses() {
    local name=$1 word=$2
    shift 2
    "$program" "$@" >"$dir/out" 2>"$dir/err"
    local got=$?
    if [ "$got" -eq 1 ] && grep -qF "$word" "$dir/err" && [ ! -s "$dir/out" ]; then
        passed=$((passed + 1))
    else
        failed=$((failed + 1))
        echo "failed: $name: status $got"
    fi
}

no='cannot be taken into use:'
unlawful() {
    echo "$no slot $1 is neither empty nor a lawful record"
}

: >"$dir/file"
expect 'no byte' 1 "$no it has no slot"
for size in 1 423 425 847; do
    zeros $size >"$dir/file"
    expect "$size bytes" 1 "$no the last slot is not whole"
done
zeros 424 >"$dir/file"
expect 'one empty slot' 0 'can be taken into use: 0 of 1 slots in use'
zeros $((1024 * 424)) >"$dir/file"
expect '1,024 empty slots' 0 'can be taken into use: 0 of 1024 slots in use'
zeros $((1025 * 424)) >"$dir/file"
expect '1,025 empty slots' 1 "$no it has more than 1024 slots"
zeros 3000000 >"$dir/file"
expect 'a long file' 1 "$no it has more than 1024 slots"

cp "$bench" "$dir/file"
expect 'the bench image' 0 'can be taken into use: 3 of 5 slots in use'

# Each byte that must be zero, and each that breaks a rule.
while read -r name slot offset bytes; do
    cp "$bench" "$dir/file"
    poke "$dir/file" $((424 * slot + offset)) "$bytes"
    expect "$name" 1 "$(unlawful "$slot")"
done <<'CASES'
state-3 0 0 \x03
state-0 0 0 \x00
empty-last-byte 1 423 \x01
count-0 0 1 \x00
count-2 0 1 \x02
count-17 3 1 \x11
count-255 3 1 \xff
count-15 3 1 \x0f
month-2400 0 6 \x09\x60
flags-16 0 12 \x10
power-factor-101 0 13 \x65
kwh-1000000 0 14 \x00\x0f\x42\x40
off-hours-1001 0 18 \x00\x00\x03\xe9
demand-100000 2 74 \x00\x01\x86\xa0
peak-too-high 0 26 \x00\x00\x00\x01
kvar-10000 2 82 \x27\x10
load-10001 2 84 \x27\x11
unused-entry 0 34 \x01
last-unused-byte 0 423 \x01
meter-twice 2 34 \x00\x01
meters-fall 2 34 \x00\x00
CASES

cp "$bench" "$dir/file"
poke "$dir/file" $((424 * 2 + 6)) '\x00\xfc'
expect 'a site month twice' 1 "$no slots 0 and 2 have the same site month"
cat "$bench" "$bench" >"$dir/file"
expect 'all site months twice' 1 "$no slots 0 and 5 have the same site month"

refuses 'no argument' 'usage: image FILE'
refuses 'two arguments' 'usage: image FILE' "$bench" "$bench"
refuses 'no such file' 'cannot read' "$dir/missing"
refuses 'a folder' 'cannot read' "$dir"

echo "$passed passed, $failed failed"
[ "$failed" -eq 0 ]
