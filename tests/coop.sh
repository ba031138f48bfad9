#!/bin/bash
# The program coop-lines with good, flawed and odd image files: its answers, its status and the file afterwards.
# Usage: tests/coop.sh COOP_LINES IMAGE
# A line for each case that fails, and last 'N passed, M failed'. Exit status 1 if any failed.
set -u
export LC_ALL=C

program=${1-}
image=${2-}
for file in "$program" "$image"; do
    if [ ! -f "$file" ] || [ ! -x "$file" ]; then
        echo 'usage: tests/coop.sh COOP_LINES IMAGE' >&2
        exit 2
    fi
done
crate=$(cd "$(dirname "$0")/../crates/coop_lines" && pwd)

dir=$(mktemp -d) || exit 2
trap 'rm -rf "$dir"' EXIT
passed=0
failed=0

# NAME and a test as a command.
expect() {
    local name=$1
    shift
    if "$@"; then
        passed=$((passed + 1))
    else
        failed=$((failed + 1))
        echo "failed: $name"
    fi
}

# Runs the program on a file of the image, with lines on standard input.
serve() {
    timeout 60 "$program" "$dir/$1" >"$dir/out" 2>"$dir/err"
    status=$?
}

# The last run ended with this status, and wrote this file.
ended() {
    [ "$status" -eq "$1" ] && cmp -s "$dir/out" "$2"
}

tells() {
    grep -qF "$1" "$dir/err"
}

: >"$dir/nothing"
account=05060000000700FCF2
missing=7F040D05000368
echo $missing >"$dir/missing"

serve new <"$crate/stdin"
expect 'a long run on a new image' ended 0 "$crate/stdout"
expect 'nothing on standard error' test ! -s "$dir/err"
expect 'a new image has 64 slots' test "$(stat -c %s "$dir/new")" -eq $((64 * 424))
expect 'no other file is left' test ! -e "$dir/new.new"
expect 'the image can be taken into use' "$image" "$dir/new" >/dev/null

# The same lines with a restart after each tenth.
rm -f "$dir/all"
total=$(wc -l <"$crate/stdin")
for ((from = 1; from <= total; from += 10)); do
    sed -n "$from,$((from + 9))p" "$crate/stdin" | serve part
    cat "$dir/out" >>"$dir/all"
done
expect 'restarts' cmp -s "$dir/all" "$crate/stdout"
expect 'restarts leave the same image' cmp -s "$dir/new" "$dir/part"

serve untouched <<<"$account"
expect 'a refused line on a missing file' ended 0 "$dir/missing"
expect 'a refused line writes no file' test ! -e "$dir/untouched"
serve untouched </dev/null
expect 'no line' ended 0 "$dir/nothing"
expect 'no line writes no file' test ! -e "$dir/untouched"

cp "$dir/new" "$dir/same"
touch -d '2001-01-01' "$dir/same"
serve same <<<'05060000000700FDF1'
expect 'a refused line leaves the file alone' test "$(stat -c %Y "$dir/same")" -eq "$(date -d '2001-01-01' +%s)"

# Flawed images are refused and left as they were.
for size in 0 1 423 425 $((1025 * 424)); do
    head -c "$size" /dev/zero >"$dir/flawed"
    cp "$dir/flawed" "$dir/before"
    serve flawed <<<"$account"
    expect "an image of $size bytes" ended 1 "$dir/nothing"
    expect "an image of $size bytes is told" tells 'cannot be taken into use'
    expect "an image of $size bytes stays" cmp -s "$dir/flawed" "$dir/before"
done
{ printf '\003'; head -c 423 /dev/zero; } >"$dir/flawed"
serve flawed <<<"$account"
expect 'an unlawful slot' ended 1 "$dir/nothing"

# A store of one slot.
head -c 424 /dev/zero >"$dir/one"
sed -n '1p;54,56p' "$crate/stdin" >"$dir/few"
serve one <"$dir/few"
expect 'one slot keeps its size' test "$(stat -c %s "$dir/one")" -eq 424

# A file that cannot be read or written.
serve . <<<"$account"
expect 'a folder' ended 1 "$dir/nothing"
expect 'a folder is told' tells 'cannot read'
sed -n 1p "$crate/stdin" | serve missing-folder/image
expect 'a folder that is missing: no answer to an accepted line' ended 1 "$dir/nothing"
expect 'a folder that is missing is told' test -s "$dir/err"

"$program" >"$dir/out" 2>"$dir/err"
status=$?
expect 'no argument' ended 1 "$dir/nothing"
expect 'no argument is told' tells 'usage: coop-lines IMAGE'
"$program" "$dir/new" "$dir/new" >"$dir/out" 2>"$dir/err" </dev/null
status=$?
expect 'two arguments' ended 1 "$dir/nothing"

echo "$passed passed, $failed failed"
[ "$failed" -eq 0 ]
