#!/usr/bin/env bash
# Bills of the program and of an independent one, compared reading by reading.
# Usage: tests/bills.sh PROGRAM
# Last line: 'N passed, M failed'. Exit status 1 if any failed.
set -u
export LC_ALL=C

program=${1-}
if [ ! -f "$program" ] || [ ! -x "$program" ]; then
    echo 'usage: tests/bills.sh PROGRAM' >&2
    exit 2
fi
root=$(cd "$(dirname "${BASH_SOURCE[0]}")/.." && pwd)
build=$root/target/compare
compare=$build/release/compare
dir=$(mktemp -d) || exit 2
trap 'rm -rf "$dir"' EXIT
passed=0
failed=0

pass() {
    passed=$((passed + 1))
    echo "ok: $1"
}

fail() {
    failed=$((failed + 1))
    echo "FAILED: $1"
}

# Feeds what a generator writes to both programs. Of a bad line only its number is compared.
same() {
    local name="$*"
    "$compare" "$@" >"$dir/in" || { fail "$name: the generator"; return; }
    "$compare" expect <"$dir/in" >"$dir/want" || { fail "$name: what is expected"; return; }
    "$program" --csv <"$dir/in" >"$dir/said" || { fail "$name: the program's status"; return; }
    sed -E 's/^(# line [0-9]+: ).*/\1/' "$dir/said" >"$dir/got"
    if cmp -s "$dir/want" "$dir/got"; then
        pass "$name: $(wc -l <"$dir/want") lines"
    else
        fail "$name: $(diff "$dir/want" "$dir/got" | head -n 3 | tr '\n' '|')"
    fi
}

if (cd "$root/compare" && cargo test --quiet --offline --target-dir "$build") >"$dir/log" 2>&1; then
    pass "the independent program's own tests"
else
    cat "$dir/log"
    fail "the independent program's own tests"
fi
if ! (cd "$root/compare" && cargo build --quiet --release --offline --target-dir "$build") >"$dir/log" 2>&1; then
    cat "$dir/log"
    fail "the independent program's build"
fi

same generate 1 100000
for seed in $(seq 2 26); do
    same generate "$seed" 16000
done
for seed in $(seq 1 4); do
    same generate-bad "$seed" 3000
done

echo "$passed passed, $failed failed"
[ "$failed" -eq 0 ]
