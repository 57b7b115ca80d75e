#!/usr/bin/env bash
# Runs the built bpfmap as a process: its status and both of its streams, which no contract reaches; a session whose input
# ends or fails, or whose output is full, behind each byte; the verdicts and answers of a second implementation; and each
# request for memory refused in turn. Behind the gate, which builds the program; by hand after `rt run` in crates/bpfmap.
set -euo pipefail
cd "$(dirname "$0")/.."
# shellcheck source=tests/common.sh
. tests/common.sh

# The six instructions that add the argument to the old value, as bytes and as text.
sum=792000000000000079390000000000000f900000000000007b04000000000000b7000000080000009500000000000000
sum_text='ldd r0, [r2+0]\nldd r9, [r3+0]\nadd64 r0, r9\nstxd [r4+0], r0\nmov64 r0, 8\nexit\n'
sizes=(--key 64 --old 8 --arg 8 --result 8)
values=(--with-key 61 --with-old 0100000000000000 --with-arg 0200000000000000)

# Whether the last run had this status and output, and errors of this pattern.
ended() {
    # shellcheck disable=SC2053
    [ "$got" = "$1" ] && [ "$(cat "$work/out")" = "$2" ] && [[ $(cat "$work/err") == $3 ]]
}

# Name, wanted status, output and pattern of errors, then the words.
expect() {
    local name=$1 status=$2 output=$3 errors=$4
    shift 4
    run "$@"
    judge "$name" ended "$status" "$output" "$errors"
}

# Name, and how many requests for memory were refused in turn: one at least.
count_refused() {
    judge "$1: some request is refused" [ "$2" -gt 0 ]
    echo "process: $1: $2 requests"
}

# Refuses each request for memory in turn: the run ends as with ample memory, or with a refusal.
refuse_each() {
    local name=$1 status output requests number
    shift
    LD_PRELOAD=$work/refuse.so REQUESTS_FILE=$work/requests run "$@"
    status=$got
    output=$(cat "$work/out")
    requests=$(cat "$work/requests")
    for number in $(seq "$requests"); do
        rm -f "$work/refused"
        LD_PRELOAD=$work/refuse.so REFUSED_REQUEST=$number REFUSED_FILE=$work/refused run "$@"
        judge "$name, request $number of $requests refused" \
            eval "ended $status \"\$output\" '*' || ended 1 'refused 9 at 0' 'no memory'"
        judge "$name, request $number of $requests: it was refused" [ -e "$work/refused" ]
    done
    count_refused "$name" "$requests"
}

# Writes bytes from hex to the input; the output in hex.
frames() {
    printf '%b' "$(sed 's/ //g; s/../\\x&/g' <<< "$1")" > "$work/in"
}
printed() {
    od -An -v -tx1 "$work/out" | tr -d ' \n'
}

# Whether the last run had this status, these frames and errors of this pattern.
answered() {
    # shellcheck disable=SC2053
    [ "$got" = "$1" ] && [ "$(printed)" = "${2// /}" ] && [[ $(cat "$work/err") == $3 ]]
}

# Name, frames, wanted status, frames that are answered and pattern of errors.
serve() {
    frames "$2"
    run exec
    judge "$1" answered "$3" "$4" "$5"
}

# Whether the last run answered one of these lists of frames, which bars part; or memory was refused to its table, or to the reading,
# behind the first frames of the first list.
answers_one_of() {
    local output wanted frame before=
    output=$(printed)
    [ "$got $output" != "1 $(printf 'refused 9 at 0\n' | od -An -v -tx1 | tr -d ' \n')" ] || return 0
    for wanted in "$@"; do
        wanted=${wanted//[ |]/}
        [ "$got $output" != "0 $wanted" ] || return 0
    done
    [ "$got" = 1 ] || return 1
    while IFS= read -r frame; do
        [ "$output" != "$before${refusal// /}" ] || return 0
        before+=${frame// /}
    done < <(tr '|' '\n' <<< "$1|")
    return 1
}

# Bytes in hex, so many times.
times() {
    local text
    printf -v text "%$1s" ""
    printf '%s' "${text// /$2}"
}

# A frame of a body in hex.
framed() {
    local body=${1// /}
    printf '%08x%s' "$((${#body} / 2))" "$body"
}

# The longest program and values, with a walk, under a stack of 256 KiB: a program of 4,096 units that answers nothing, one that answers
# 1,024 bytes, two Puts of as many, a Compute of each program and a ForEach.
serve_longest() {
    local windows='0040 0400 0400 0400' value answer stores='' at
    for at in $(seq 0 8 1016); do
        printf -v at '%04x' "$at"
        stores+="7a04${at:2}${at:0:2}07000000"
    done
    value=0400$(times 1024 61)
    answer=0400$(times 128 0700000000000000)
    frames "$(framed '0002')$(framed "01 $windows $(times 4094 4506000001000000) b7000000ffffffff9500000000000000")$(
        framed "01 $windows $stores b7000000000400009500000000000000")$(framed "11 0161 $value")$(framed "11 0162 $value")$(
        framed "17 0161 0000000000000001 $value")$(framed '21 0000000000000001 ffff 0000000000000000')$(
        framed "17 0162 0000000000000000 $value")$(framed '10 0162')$(framed '10 0161')"
    got=0
    (ulimit -s 256 && exec "$program" exec) < "$work/in" > "$work/out" 2> "$work/err" || got=$?
    judge "the longest program and values under a stack of 256 KiB" answered 0 "$(framed '8002')$registered$(
        framed '81 0000000000000001')$nothing$nothing$(framed "82 $answer")$(framed "86 0161 $answer")$(framed "86 0162 $answer")$(
        framed '87 0000000000000002 0000000000000002 0000000000000000')$nothing$nothing$(framed "82 $answer")" ""
}

# Refuses each request for memory in turn to a session: it answers one of the lists, of which the first is that of ample memory.
refuse_each_answer() {
    local name=$1 requests number
    shift
    LD_PRELOAD=$work/refuse.so REQUESTS_FILE=$work/requests run exec
    judge "$name, no request refused" answered 0 "${1//|/}" ""
    requests=$(cat "$work/requests")
    for number in $(seq "$requests"); do
        rm -f "$work/refused"
        LD_PRELOAD=$work/refuse.so REFUSED_REQUEST=$number REFUSED_FILE=$work/refused run exec
        judge "$name, request $number of $requests refused" answers_one_of "$@"
        judge "$name, request $number of $requests: it was refused" [ -e "$work/refused" ]
    done
    count_refused "$name" "$requests"
}

# Name, the session's end and the wanted status, and pieces of at most so many bytes: the 24 bytes of a Hello, a Put and a Get are
# cut behind each byte, and all that is whole is answered.
cut_everywhere() {
    local name=$1 fails=$2 pieces=$3 cut place status errors
    for cut in $(seq 0 24); do
        place=0
        while [ "$place" -lt 3 ] && [ "${sent_ends[place + 1]}" -le "$cut" ]; do place=$((place + 1)); done
        status=0 errors=
        [ "$cut" = "${sent_ends[place]}" ] || status=1
        [ -z "$fails" ] || status=3 errors="failed read"
        frames "$hello $put_and_get"
        truncate -s "$cut" "$work/in"
        LD_PRELOAD=$work/cut.so READ_AT_MOST=$pieces READ_FAILS=$fails run exec
        judge "$name behind $cut bytes, at most ${pieces:-all} at a time" answered "$status" "${all_answers:0:2 * answered_ends[place]}" "$errors"
    done
}

# The output takes so many bytes of the answers to these, and then fails.
fill_everywhere() {
    local room
    frames "$hello $put_and_get"
    for room in $(seq 0 21); do
        got=0
        : > "$work/out"
        (trap '' XFSZ; exec prlimit --fsize="$room:$room" "$program" exec) < "$work/in" 2>&1 > "$work/out" | cat > "$work/err" || got=$?
        judge "an output that takes $room bytes" answered 3 "${all_answers:0:2 * room}" "failed write"
    done
}

# A client that sends a request only once it has read the answer to the one before. Name, then frames and their answers.
serve_in_turns() {
    local name=$1 wanted given from to client
    shift
    coproc session { exec "$program" exec 2> "$work/err"; }
    # shellcheck disable=SC2154
    client=$session_PID
    # A subshell does not have a coprocess's own descriptors, but it has copies of them.
    exec {from}<&"${session[0]}" {to}>&"${session[1]}"
    eval "exec ${session[0]}<&- ${session[1]}>&-"
    while [ $# -gt 0 ]; do
        frames "$1"
        cat "$work/in" >&"$to"
        wanted=${2// /}
        given=$(timeout 20 head -c $((${#wanted} / 2)) <&"$from" | od -An -v -tx1 | tr -d ' \n')
        judge "$name: the answer to $1 is there before more is sent" [ "$given" = "$wanted" ]
        shift 2
    done
    exec {from}<&- {to}>&-
    got=0
    wait "$client" || got=$?
    judge "$name: the end" [ "$got" = 0 ]
}

printf '%s' "$sum" > "$work/in"
expect "an answer" 0 "bytes 03 00 00 00 00 00 00 00" "" run "${sizes[@]}" "${values[@]}"
expect "a refused program" 1 "refused 43 at 0" "unit 0: ldd r0, \[r2+0\]: the access does not lie in the window: offset 0 and 8 bytes, in a window of 0" \
    run --old 0 --arg 8 --result 8
expect "a value that does not fit" 1 "unfit old" "" run "${sizes[@]}" --with-old 010000000000000000
expect "a check" 0 "accepted" "" check "${sizes[@]}"
expect "the version" 0 "bpfmap 0.1.0" "" --version
expect "an option that there is not" 2 "" "*--nothing*" run --nothing
expect "a text that begins with a hyphen" 2 "" "?*" run --with-key -1
expect "a word with bytes that do not print" 2 "" "error: unrecognized subcommand 'a\\\\x1b\\\\x0a\\\\xc3\\\\xa9'*" $'a\e\n\xc3\xa9'
expect "an option with bytes that do not print" 2 "" "error: invalid value '\\\\x1b b' for*" check --key=$'\e b'
expect "no command" 2 "" "Assembles BPF programs*"
expect "words that are no UTF-8" 2 "" "error: the command line is not UTF-8" run --with-key $'\xff'
input=/ expect "an input that can't be read" 3 "" "failed read" check
sink=/dev/full expect "an output that can't be written" 3 "" "failed write" check
sink=/dev/full expect "a refusal that can't be written" 3 "" "failed write" check --old 0

blank=$(printf '%50000s' '')
printf '%s' "$blank b7000000ffffffff $blank 9500000000000000 $blank" > "$work/in"
expect "an input of more than 64 KiB" 0 "nothing" "" run

hello='00000002 0001'
welcome='00000002 8001'
put_and_get='00000007 11016100027879 00000003 100161'
all_answers=${welcome// /}0000000382ffff000000058200027879
sent_ends=(0 6 17 24) answered_ends=(0 6 13 22)
nothing='00000003 82ffff' found='00000005 8200027879'
refusal='00000006 850900000000' unknown='00000006 854200000000'
register='00000019 01004001000100 0100 b7000000ffffffff9500000000000000'
registered='00000009 810000000000000000'
compute='0000000d 170161 0000000000000000 ffff' compute_by_5='0000000d 170161 0000000000000005 ffff'
serve "a session" "$hello $put_and_get" 0 "$welcome 00000003 82ffff 00000005 8200027879" ""
serve "a session with a program" "$hello $register $compute" 0 "$welcome 00000009 810000000000000000 00000003 82ffff" ""
serve "a session that is refused" "$hello $hello" 1 "$welcome 00000006 854000000000" ""
serve "a session that is cut" "$hello 00000003 10" 1 "$welcome" ""
serve_longest
serve_in_turns "a client that waits" "$hello" "$welcome" "00000007 11016100027879" "00000003 82ffff" \
    "00000003 100161" "00000005 8200027879" "$register" "00000009 810000000000000000" "$compute" "00000003 82ffff" \
    "00000001 23" "00000019 87 000000000000000000000000000000000000000000000000"
# The session that docs/PROTOCOL.md shows, and the answers that stand below it.
shown=$(sed -n "/^printf '%s' '\$/,/^' | xxd/p" docs/PROTOCOL.md | grep -v xxd | tail -n +2 | tr -d '\n')
told=$(sed -n '/^The responses are these bytes/,$p' docs/PROTOCOL.md | sed -n '/^0/s/   .*//p' | tr -d '\n')
serve "the session of docs/PROTOCOL.md" "$shown" 1 "$told" ""
expect "stripes that there are not" 1 "refused 50 at 0" "not a number of stripes" exec --stripes 3
input=/ expect "a session that can't be read" 3 "" "failed read" exec
frames "$hello"
sink=/dev/full expect "a session that can't be answered" 3 "" "failed write" exec
if command -v prlimit > /dev/null; then
    fill_everywhere
else
    echo "process: no prlimit here, so no output was full behind some bytes"
fi
if command -v gcc > /dev/null; then
    gcc -O1 -shared -fPIC -o "$work/cut.so" tests/cut.c
    for pieces in "" 1 5; do
        cut_everywhere "an input that ends" "" "$pieces"
        cut_everywhere "an input that fails" 1 "$pieces"
    done
else
    echo "process: no gcc here, so no input was cut or failed behind some bytes"
fi

printf '7b 0g' > "$work/in"
expect "hex that is none" 1 "refused 70 at 3" "no hex text at place 3" check
printf '\xff\n' > "$work/in"
expect "a text that is no UTF-8" 3 "" "failed read" asm

# Whether the last run had this output, and its status: 0 for a verdict or an answer, 1 for a refusal or a value that does not fit.
gave() {
    local status=1
    case $1 in accepted | nothing | bytes*) status=0 ;; esac
    [ "$got" = "$status" ] && [ "$(cat "$work/out")" = "$1" ]
}

# Each verdict and answer of the second implementation.
while IFS= read -r line; do
    case $line in "#"*) continue ;; esac
    wanted=${line#* : }
    # shellcheck disable=SC2086
    set -- ${line% : *}
    words=("$1" --key "$2" --old "$3" --arg "$4" --result "$5")
    if [ "$1" = run ]; then
        words+=(--with-key "${7/#./}")
        [ "$8" = - ] || words+=(--with-old "${8/#./}")
        [ "$9" = - ] || words+=(--with-arg "${9/#./}")
    fi
    printf '%s' "$6" > "$work/in"
    run "${words[@]}"
    judge "$line" gave "$wanted"
done < tests/verdicts.txt

if command -v gcc > /dev/null; then
    gcc -O1 -shared -fPIC -fno-builtin -o "$work/refuse.so" tests/refuse.c
    # shellcheck disable=SC2059
    printf "$sum_text" > "$work/in"
    refuse_each "asm" asm
    printf '%s' "$sum" > "$work/in"
    refuse_each "disasm" disasm
    refuse_each "check" check "${sizes[@]}"
    refuse_each "check of a program that is refused" check --old 0
    refuse_each "an explanation" check --explain "${sizes[@]}"
    refuse_each "an explanation of a program that is refused" check --explain --old 0
    printf '1506020000000000 b7000000ffffffff 9500000000000000 b700000000000000 9500000000000000' > "$work/in"
    refuse_each "check of a program with a jump" check "${sizes[@]}"
    printf '%s' "$sum" > "$work/in"
    refuse_each "run" run "${sizes[@]}" "${values[@]}"
    refuse_each "a fault of the words" run --nothing
    frames "$hello $put_and_get"
    refuse_each_answer "a session" "$welcome|$nothing|$found" "$welcome|$refusal|$nothing"
    frames "$hello 00000007 11016100027879 00000007 11016200027879 00000003 100161 00000003 100162"
    refuse_each_answer "a session on two keys" "$welcome|$nothing|$nothing|$found|$found" \
        "$welcome|$refusal|$nothing|$nothing|$found" "$welcome|$nothing|$refusal|$found|$nothing"
    frames "$hello $register $compute $compute_by_5"
    refuse_each_answer "a session with a program" "$welcome|$registered|$nothing|$unknown" "$welcome|$refusal|$unknown|$unknown"
else
    echo "process: no gcc here, so no request for memory was refused"
fi

echo "process: $passed passed, $failed failed"
[ "$failed" = 0 ]
