#!/usr/bin/env bash
# Lists the lines of src/ that may be a place of a point of docs/DESIGN-PASS.md: places.sh POINT, with a point of 1, 2a, 2b, 3, 4,
# 5a, 5b, 6, 7 or 8. Which of them are places is told there. Point 8 counts proof files and their lines.
set -uo pipefail
cd "$(dirname "${BASH_SOURCE[0]}")/.."

# Comments and contract lines are no hits.
code() { grep -vE ':[0-9]+:\s*(//|ghost|ensures|requires)'; }

case ${1:-} in
1)
    grep -rnE --include='*.rt' '\benum [A-Z]|\b[a-z_]+: bool[,)]|fn .*&mut .*-> bool|-> io::Result<bool>|\(u8, u8, u16\)|\(&.static str, usize, usize\)|\bkind: u8|fn kind.*-> u8|const [A-Z_]+: u8 = (0|1|2|0x10);|Frame::new\(0x|b"7F"|^ +(0x)?[0-9A-Z_]+ => (Ok\(|Some\(|State::)' crates/*/src | code
    ;;
2a)
    # Files that are the same, and constants that stand twice.
    find crates/*/src -name '*.rt' -exec md5sum {} + | sort |
        awk '{n[$1]++; f[$1]=f[$1] " " $2} END {for (k in n) if (n[k]>1) print n[k] f[k]}'
    grep -rhE --include='*.rt' '^\s*(pub(\(crate\))? )?const [A-Z_0-9]+: [^=]+ = [^;]+;' crates/*/src |
        sed -E 's/^\s*(pub(\(crate\))? )?//' | sort | uniq -c | awk '$1>1'
    ;;
2b)
    # Numbers of the protocol that are written out.
    grep -rnE --include='*.rt' '[^0-9_A-Za-z.](6|61|64|128|129|4096|1024|1_024|1025|2_399|99_999|999_999|9_999|10_000_000)([^0-9_A-Za-z]|$)' crates/*/src | grep -v _tests/ | code
    ;;
3)
    grep -rnE --include='*.rt' '^\s*(for [^<]|while |loop \{)' crates/*/src | code
    ;;
4)
    grep -rnE --include='*.rt' '\.(site|month|meter|schedule|flags|power_factor|kwh|off_hours|demand|peak_demand|kvar|load) (==|!=)|fn (of|byte|fault|check|word|owed|told|fields|heading|same_row|state_byte|state_in|site_month|refusal|told_of_zeros|entry|record_in|serving|is_of)\(|fn of<|fmt::Display for|struct [A-Z][a-z]+\((pub(\(crate\))? )?[A-Za-z]|\.site, .*\.month|if .*is_closed\(\) \{' crates/*/src | code
    ;;
5a)
    # Clauses that stand three times or more, and what is required of lengths, counts and limits.
    grep -rhE --include='*.rt' '^\s*(requires|ensures( [a-z_]+)?) ' crates/*/src |
        sed -E 's/^\s+//; s/^ensures [a-z_]+ /ensures /' | sort | uniq -c | sort -rn | awk '$1>=3'
    grep -rnE --include='*.rt' '^\s*requires .*(length [a-z]+\.(now|old)|length \(held|slot_count|count|month|lawful|Limits|Few)' crates/*/src
    ;;
5b)
    # Pairs of parameters that stand in three functions or more.
    perl -0777 -ne '(my $f=$ARGV)=~s{crates/|src/|\.rt}{}g; while(/\bfn (\w+)(?:<[^(]*>)?\(([^)]*)\)/g){my $n=$1; my @p=sort grep{/^\w+:/&&!/^(self|rt|f)\b/}map{s/\s+/ /g;s/^ | $//g;s/^mut //;s/&(mut )?(\x27\w+ )?/&/;$_}split/,(?![^<]*>)/,$2; for my $i(0..$#p){for my $j($i+1..$#p){print "$p[$i] + $p[$j]\t$f $n\n"}}}' $(git ls-files 'crates/*/src/*.rt') |
        sort | awk -F'\t' '{c[$1]++; w[$1]=w[$1] ", " $2} END {for (k in c) if (c[k]>=3) print c[k], k w[k]}' | sort -rn
    ;;
6)
    grep -rnE --include='*.rt' '^\s*(pub )?(len|count|length|next|commas): [a-z0-9]+,|\[[a-z_.0-9A-Z]+\.\.[^]]*\]|\[[a-z_]+ [-+] [0-9a-z_]+\]|\[[0-9] \* [a-z_]+( \+ [0-9])?\]|fn (position|place|vacancy|search)\(|^\s*(pub )?(senses|supply|low_income): \[' crates/*/src | grep -v _tests/ | code
    ;;
7)
    grep -rnE --include='*.rt' '\bmatch |impl Fn|\bdyn |Box<|fn play|trait [A-Z]' crates/*/src | code
    ;;
8)
    for what in '' -path\ '*/Answers.antt' -path\ '*/Invariants.antt'; do
        # shellcheck disable=SC2086
        echo "${what:-all}: $(find crates/*/proofs -name '*.antt' $what | wc -l) files, $(find crates/*/proofs -name '*.antt' $what -exec cat {} + | wc -l) lines"
    done
    ;;
*)
    echo "usage: tools/places.sh 1|2a|2b|3|4|5a|5b|6|7|8" >&2
    exit 2
    ;;
esac
