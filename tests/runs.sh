#!/usr/bin/env bash
# Whole runs of lines through the programs and through an independent model, compared answer by answer.
# Usage: tests/runs.sh OREGON_SERVE COOP_LINES
# Last line: 'N passed, M failed'. Exit status 1 if any failed.
set -u
export LC_ALL=C

oregon=${1-}
coop=${2-}
for program in "$oregon" "$coop"; do
    if [ ! -f "$program" ] || [ ! -x "$program" ]; then
        echo 'usage: tests/runs.sh OREGON_SERVE COOP_LINES' >&2
        exit 2
    fi
done
root=$(cd "$(dirname "${BASH_SOURCE[0]}")/.." && pwd)
build=$root/target/compare
compare=$build/release/compare
dir=$(mktemp -d) || exit 2
trap 'rm -rf "$dir"' EXIT
passed=0
failed=0

# Runs of a book from a seed on, compared. What is told of them counts; without a count it is one failure.
runs() {
    local book=$1 program=$2 seed=$3 count=$4 status
    "$compare" runs --book "$book" --runs "$count" --seed "$seed" \
        --program "$(realpath "$program")" --dir "$dir" >"$dir/told"
    status=$?
    echo "$book: $count runs from seed $seed"
    if [[ $(tail -n 1 "$dir/told") =~ ^([0-9]+)\ passed,\ ([0-9]+)\ failed$ ]]; then
        sed '$d' "$dir/told"
        passed=$((passed + BASH_REMATCH[1]))
        failed=$((failed + BASH_REMATCH[2]))
        if [ "$status" -ne 0 ] && [ "${BASH_REMATCH[2]}" -eq 0 ]; then failed=$((failed + 1)); fi
    else
        cat "$dir/told"
        echo "FAILED: $book: nothing was counted"
        failed=$((failed + 1))
    fi
}

if (cd "$root/compare" && cargo build --quiet --release --offline --target-dir "$build") >"$dir/log" 2>&1; then
    runs oregon "$oregon" 1 1000
    runs coop "$coop" 1 1000
else
    cat "$dir/log"
    echo "FAILED: the independent program's build"
    failed=$((failed + 1))
fi

echo "$passed passed, $failed failed"
[ "$failed" -eq 0 ]
