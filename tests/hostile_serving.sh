#!/bin/bash
# Hostile input to the program: every answer byte, standard error and the exit status are compared.
# Usage: tests/hostile_serving.sh PROGRAM
# A line for each case that fails, and last 'N passed, M failed'. Exit status 1 if any failed.
set -u
export LC_ALL=C

program=${1-}
if [ ! -f "$program" ] || [ ! -x "$program" ]; then
    echo 'usage: tests/hostile_serving.sh PROGRAM' >&2
    exit 2
fi

dir=$(mktemp -d) || exit 2
trap 'rm -rf "$dir"' EXIT
passed=0
failed=0

card=102000001388138800141388001413880014138800141388001413880014138800146C
accepted=900070
wrong_length=7F04020100007A
wrong_sum=7F040402000077
wrong_kind=7F040502000175
wrong_payload=7F040602000273
above_cap=7F040703000370

# The refusal of the character in a column: number 3, layer 1.
no_digit() {
    local sum=$((0x7F + 4 + 3 + 1 + $1 / 256 + $1 % 256))
    printf '7F040301%04X%02X\n' "$1" $(((256 - sum % 256) % 256))
}

# A character COUNT times.
run_of() {
    head -c "$1" /dev/zero | tr '\0' "$2"
}

# A line COUNT times.
lines_of() {
    yes "$2" | head -n "$1"
}

# The card with the character in COLUMN replaced. The character may be an escape of printf.
card_with() {
    printf '%s%b%s' "${card:0:$1 - 1}" "$2" "${card:$1}"
}

pass() {
    passed=$((passed + 1))
}

fail() {
    failed=$((failed + 1))
    echo "failed: $1: $2"
}

# What came out is what $dir/want has, with status 0 and nothing on standard error.
judge() {
    local name=$1 status=$2
    if [ "$status" -ne 0 ]; then
        fail "$name" "exit status $status"
    elif ! cmp -s "$dir/out" "$dir/want"; then
        fail "$name" "$(cd "$dir" && cmp out want 2>&1)"
    elif [ -s "$dir/err" ]; then
        fail "$name" 'text on standard error'
    else
        pass
    fi
}

# Runs the program on $dir/in. The further arguments are the lines that it must write.
check() {
    local name=$1
    shift
    : >"$dir/want"
    [ $# -gt 0 ] && printf '%s\n' "$@" >"$dir/want"
    check_want "$name"
}

# The same, with the lines in $dir/want.
check_want() {
    timeout 20 "$program" <"$dir/in" >"$dir/out" 2>"$dir/err"
    judge "$1" $?
}

# Begins a case of many lines.
no_lines() {
    : >"$dir/in"
    : >"$dir/want"
}

# Input with escapes of printf, and the lines that answer it.
feed() {
    local name=$1 text=$2
    shift 2
    printf '%b' "$text" >"$dir/in"
    check "$name" "$@"
}

# No line, and lines without characters.
feed 'empty input' ''
feed 'a lone line feed' '\n' $wrong_length
feed 'three line feeds' '\n\n\n' $wrong_length $wrong_length $wrong_length
feed 'an empty line before a card' "\\n$card\\n" $wrong_length $accepted

# Lengths.
feed 'one character' '0\n' $wrong_length
feed 'one character that is no digit' 'Z\n' $wrong_length
for count in 127 129 130 4095 4096 4097 1000000; do
    for character in 0 Z; do
        { run_of $count $character; echo; } >"$dir/in"
        check "$count characters $character" $wrong_length
    done
done
{ run_of 128 0; echo; } >"$dir/in"
check '128 characters 0' $wrong_kind
{ run_of 128 Z; echo; } >"$dir/in"
check '128 characters Z' "$(no_digit 1)"
for character in 0 Z; do
    { run_of 1000000 $character; printf '\n%s\n' $card; } >"$dir/in"
    check "1000000 characters $character, then a card" $wrong_length $accepted
done
{ run_of 1000000 0; echo; run_of 1000000 Z; printf '\n\n'; } >"$dir/in"
check 'two lines of 1000000 characters, then an empty one' $wrong_length $wrong_length $wrong_length
no_lines
for count in {0..140}; do
    { run_of "$count" 0; echo; } >>"$dir/in"
    if ((count % 2 || count < 6 || count > 128)); then
        echo $wrong_length >>"$dir/want"
    else
        echo $wrong_kind >>"$dir/want"
    fi
done
check_want 'every length from 0 to 140'

# Bytes that are no digits.
feed 'one NUL' '\0000\n' $wrong_length
feed 'six NULs' '\0000\0000\0000\0000\0000\0000\n' "$(no_digit 1)"
feed 'a card after a NUL' "\\0000$card\\n" $wrong_length
feed 'a NUL after a card' "$card\\0000\\n" $wrong_length
feed 'a NUL in a card' "$(card_with 35 '\\0000')\\n" "$(no_digit 35)"
{ run_of 128 '\0'; echo; } >"$dir/in"
check '128 NULs' "$(no_digit 1)"
{ run_of 1000000 '\0'; printf '\n%s\n' $card; } >"$dir/in"
check '1000000 NULs, then a card' $wrong_length $accepted
feed 'six bytes 255' '\0377\0377\0377\0377\0377\0377\n' "$(no_digit 1)"
feed 'a byte 128 in a card' "$(card_with 70 '\\0200')\\n" "$(no_digit 70)"
feed 'two letters outside ASCII' '000\0303\0251\0303\0251000\n' "$(no_digit 4)"
feed 'a byte order mark before a card' "\\0357\\0273\\0277$card\\n" $wrong_length
feed 'a card in lower case' "${card,,}\\n" "$(no_digit 70)"
feed 'lower case in the first column' 'abcdef\n' "$(no_digit 1)"
feed 'a space before a card and after it' " $card \\n" "$(no_digit 1)"
feed 'a tab after a card' "$card\\t\\n" $wrong_length
for column in 1 70; do
    no_lines
    for byte in {0..255}; do
        printf -v octal '\\0%03o' "$byte"
        printf -v character '%b' "$octal"
        if ((byte == 10)) || { ((byte > 0)) && [[ $character == [0-9A-F] ]]; }; then
            continue
        fi
        { card_with $column "$octal"; echo; } >>"$dir/in"
        no_digit $column >>"$dir/want"
    done
    check_want "every byte that is no digit in column $column"
done
no_lines
for column in {1..70}; do
    { card_with "$column" z; echo; } >>"$dir/in"
    no_digit "$column" >>"$dir/want"
done
check_want 'every column of a card'

# Carriage returns.
feed 'a card with a carriage return' "$card\\r\\n" $wrong_length
feed 'a carriage return in the last column' "${card:0:69}\\r\\n" "$(no_digit 70)"
feed 'an empty line with a carriage return' '\r\n' $wrong_length
feed 'a card between carriage returns' "\\r$card\\r\\n" "$(no_digit 1)"
feed 'carriage returns alone' "$card\\r$card\\r" $wrong_length

# Right lines that are no right card.
feed 'a wrong sum' "${card:0:69}D\\n" $wrong_sum
feed 'a post' '013400000000000000000000000000000000000000000000000000000000000000000000000000000000000000000000000000000000CB\n' $wrong_kind
feed 'the answer to a card' "$accepted\\n" $wrong_kind
feed 'a card of no payload' '1000F0\n' $wrong_payload
feed 'a cap of 100,000,000' '102005F5E10000000000000000000000000000000000000000000000000000000000F5\n' $above_cap

# The input ends in mid-line.
feed 'one character, not ended' '0' $wrong_length
feed 'six characters, not ended' 'ZZZZZZ' "$(no_digit 1)"
feed 'half a card, not ended' "${card:0:36}" $wrong_sum
feed 'a card without its last character, not ended' "${card:0:69}" $wrong_length
feed 'a card with a carriage return, not ended' "$card\\r" $wrong_length
feed 'a NUL, not ended' '\0000' $wrong_length
run_of 1000000 0 >"$dir/in"
check '1000000 characters, not ended' $wrong_length
feed 'a refused line, then half a card' "\\n${card:0:36}" $wrong_length $wrong_sum
feed 'a card, not ended' "$card" $accepted
feed 'an empty line, then a card, not ended' "\\n$card" $wrong_length $accepted

# After an accepted card lines are requests.
post=01340000000700FC0001000400000003E80000000000000000000000000000640000000000000000000000000000000000000000000074
posted=8134000003B60000000000000DC3000000000000000000000332000000920000000000001388000000050000002600000004000000141D
cancel=02080000000700FC0002F1
cancelled=7F040D05000962
account=05060000000700FCF2
missing=7F040D05000368
feed 'a card' "$card\\n" $accepted
feed 'a card twice' "$card\\n$card\\n" $accepted $wrong_kind
feed 'a card, then refused lines' "$card\\n\\nZZZZZZ\\n0" $accepted $wrong_length "$(no_digit 1)" $wrong_length
{ printf '%s\n' $card; run_of 1000000 Z; } >"$dir/in"
check 'a card, then 1000000 characters' $accepted $wrong_length
feed 'refused lines, a card, refused lines' "ZZZZZZ\\n0\\n$card\\n\\n" "$(no_digit 1)" $wrong_length $accepted $wrong_length
feed 'a request before the card' "$post\\n$card\\n$account\\n" $wrong_kind $accepted $missing
feed 'the worked month' "$card\\n$post\\n$cancel\\n" $accepted $posted $cancelled
feed 'the worked month, not ended' "$card\\n$post\\n$cancel" $accepted $posted $cancelled
feed 'a request with a carriage return' "$card\\n$post\\r\\n$account\\n" $accepted $wrong_length $missing
feed 'a request in small letters' "$card\\n${account,,}\\n" $accepted "$(no_digit 15)"
feed 'an answer as a request' "$card\\n$posted\\n" $accepted $wrong_kind
no_lines
echo $card >"$dir/in"
echo $accepted >"$dir/want"
lines_of 10000 $account >>"$dir/in"
lines_of 10000 $missing >>"$dir/want"
check_want 'a card, then 10000 requests'

# Many lines, and lines across the program's reads.
lines_of 10000 ZZZZZZ >"$dir/in"
lines_of 10000 "$(no_digit 1)" >"$dir/want"
check_want '10000 refused lines'
lines_of 10000 "${card:0:69}D" >"$dir/in"
echo $card >>"$dir/in"
lines_of 10000 $wrong_sum >"$dir/want"
echo $accepted >>"$dir/want"
check_want '10000 refused cards, then a card'
lines_of 10000 '' >"$dir/in"
lines_of 10000 $wrong_length >"$dir/want"
check_want '10000 empty lines'
for count in 4024 4025 4026 4060 4094 4095 4096; do
    { run_of $count 0; printf '\n%s\n' $card; } >"$dir/in"
    check "$count characters, then a card" $wrong_length $accepted
done

# The input arrives in pieces.
pieces() {
    local piece
    for piece in "$@"; do
        printf '%b' "$piece"
        sleep 0.05
    done
}

feed_pieces() {
    local name=$1
    shift
    pieces "$@" | timeout 20 "$program" >"$dir/out" 2>"$dir/err"
    judge "$name" "${PIPESTATUS[1]}"
}

echo $accepted >"$dir/want"
feed_pieces 'a card in three pieces' "${card:0:1}" "${card:1:68}" "${card:69}\\n"
feed_pieces 'a card in pieces, not ended' "${card:0:35}" "${card:35}"
printf '%s\n' $wrong_length "$(no_digit 1)" $accepted >"$dir/want"
feed_pieces 'three lines in pieces' '0' '\n' 'ZZZ' 'ZZZ' "\\n$card" '\n'
echo $wrong_sum >"$dir/want"
feed_pieces 'half a card in pieces, not ended' "${card:0:20}" "${card:20:16}"

# Each answer comes before the input ends.
ask() {
    local name=$1 line=$2 want=$3 got
    printf '%s' "$line" 1>&"$to" 2>/dev/null
    sleep 0.2
    if read -r -t 0.01 -u "$from" got; then
        fail "$name" "an answer before the line feed: $got"
        return
    fi
    printf '\n' 1>&"$to" 2>/dev/null
    if ! read -r -t 5 -u "$from" got; then
        fail "$name" 'no answer within 5 seconds'
    elif [ "$got" != "$want" ]; then
        fail "$name" "$got in place of $want"
    else
        pass
    fi
}

mkfifo "$dir/to" "$dir/from"
timeout 20 "$program" <"$dir/to" >"$dir/from" 2>"$dir/err" &
pid=$!
exec {to}>"$dir/to" {from}<"$dir/from"
trap '' PIPE
ask 'an answer to an empty line while the input is open' '' $wrong_length
ask 'an answer to a refused line while the input is open' 'ZZZZZZ' "$(no_digit 1)"
ask 'an answer to a card while the input is open' "$card" $accepted
ask 'an answer to a request while the input is open' "$account" $missing
name='the end of the input'
exec {to}>&-
wait "$pid"
status=$?
trap - PIPE
cat <&"$from" >"$dir/out"
exec {from}<&-
if [ $status -ne 0 ]; then
    fail "$name" "exit status $status"
elif [ -s "$dir/out" ]; then
    fail "$name" 'more than an answer to each line'
elif [ -s "$dir/err" ]; then
    fail "$name" 'text on standard error'
else
    pass
fi

echo "$passed passed, $failed failed"
[ $failed -eq 0 ]
