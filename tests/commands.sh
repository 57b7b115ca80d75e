#!/usr/bin/env bash
# Runs the rows of commands.txt, which says how they read, of programs.txt, instructions.txt and words.txt: what the built bpfmap
# prints, and its status.
# Behind the gate, which builds the program; by hand after `rt run` in crates/bpfmap.
set -euo pipefail
cd "$(dirname "$0")/.."
# shellcheck source=tests/common.sh
. tests/common.sh

# A field of a row, without the blank at each end.
field() {
    local text=${1# }
    printf '%s' "${text% }"
}

# Makes a row's standard input: what `asm` prints of a text, or the text itself.
give() {
    printf '%b' "${1#asm }" > "$work/in"
    case $1 in
        "asm "*)
            run asm
            cp "$work/out" "$work/in"
            ;;
    esac
}

# Whether the stream has this text and a line feed, or nothing; or begins so, where the text ends in '...'.
has() {
    local written wanted
    written=$(cat "$1"; echo .)
    written=${written%.}
    wanted=$(printf '%b' "${2%...}")
    case $2 in
        "") [ -z "$written" ] ;;
        *...) [[ $written == "$wanted"*$'\n' ]] ;;
        *) [ "$written" = "$wanted"$'\n' ] ;;
    esac
}

# Whether the last run ended with this status, output and errors.
ended() {
    [ "$got" = "$1" ] && has "$work/out" "$2" && has "$work/err" "$3"
}

# A row's fields, its commands one by one.
try() {
    local command words
    give "$2"
    while read -r command; do
        read -ra words <<< "$command"
        run "${words[@]//\'\'/}"
        judge "$command | ${2:0:80} ${6:+($6)}" ended "$3" "$4" "$5"
    done <<< "${1// ; /$'\n'}"
}

cat tests/commands.txt tests/programs.txt > "$work/rows"
while IFS='|' read -r commands text status output errors name; do
    case $commands in
        "" | "#"*) ;;
        *) try "$(field "$commands")" "$(field "$text")" "$(field "$status")" "$(field "$output")" "$(field "$errors")" "$(field "$name")" ;;
    esac
done < "$work/rows"

# A text so many times.
times() {
    local text
    printf -v text "%$1s" ""
    printf '%s' "${text// /$2}"
}

# At the limit of units: the line that passes it is told, and bytes that pass it. All but the last two units jump to the next one.
units=4096
exits=$(times $units 'exit\n')
jumps=$(times $((units - 2)) '4506000001000000')
answer='b7000000ffffffff9500000000000000'
try asm "$exits" 0 ... "" "all units"
try asm "${exits}exit\n" 1 "refused 24 at $((units + 1))" ... "a unit too many"
try asm "${exits%exit*}wide r0, 1\n" 1 "refused 24 at $units" ... "wide, of which one unit has room"
try asm "${exits%exit*exit*}wide r0, 1\n" 0 ... "" "wide as the last"
try asm "${exits}nop\n" 1 "refused 20 at $((units + 1))" ... "no name where no unit has room"
try "check ; check --explain --key 0 --old 0 --arg 0 --result 0" "$jumps$answer" 0 ... "" "jumps to the next unit up to the limit"
try run "$jumps$answer" 0 nothing "" "a run of the most units"
try check "asm $(times $((units - 2)) 'jset64 r6, 1, +0\n')mov64 r0, -1\nexit\n" 0 accepted "" "the same as a text"
try "check ; disasm ; run --with-key zz" "4506000001000000$jumps$answer" 1 "refused 12 at 0" "more than 4096 units" "one jump more"
try "check ; disasm" "8500000001000000$jumps$answer" 1 "refused 12 at 0" "more than 4096 units" "too many units, and one of no instruction"
try "check ; disasm" "$jumps${answer}00" 1 "refused 11 at 0" ... "all units and a byte"
try "check --old 1025" "$jumps$answer" 1 "refused 47 at 0" ... "all units, and a size above its limit"

# At the limit of values, in hex as long as a word of a command line may be.
value=$(times 1024 00)
try "run --old 1024 --arg 1024 --with-old $value --with-arg $value" "$answer" 0 nothing "" "the longest values"
try "run --old 1024 --with-old ${value}00 ; run --arg 1024 --with-arg ${value}00" "$answer" 1 "refused 1 at 0" "too many bytes" "a byte too many"
try "run --with-old $value" "$answer" 1 "unfit old" "" "the longest old value, in a window of 256"
try "run --with-arg $value" "$answer" 1 "unfit arg" "" "the longest argument, in a window of 256"
try "run --old 1024 --result 1024 --with-old ${value}" "79200000000000007b04000000000000b7000000080000009500000000000000" 0 "bytes 00 00 00 00 00 00 00 00" "" \
    "a load from the largest window"
try "run --old 1024 --result 8 --with-old ${value%????????????????}0102030405060708" "7920f803000000007b04000000000000b7000000080000009500000000000000" 0 \
    "bytes 01 02 03 04 05 06 07 08" "" "the last bytes of the largest window"
try "check --old 1024" "7920f903000000009500000000000000" 1 "refused 43 at 0" ... "a byte past the largest window"

# All instructions as one program, and back.
grep -v '^#' tests/instructions.txt | sed 's/ | .*//' > "$work/text"
grep -v '^#' tests/instructions.txt | sed 's/.* | //; s/\(.\{23\}\) /\1\n/' > "$work/hex"
input=$work/text run asm
judge "the hex of each instruction" cmp -s "$work/out" "$work/hex"
input=$work/hex run disasm
judge "the text of each instruction" cmp -s "$work/out" "$work/text"

# The text of a program that enters both words, and has each of the lines behind that.
compute() {
    local a b line
    read -r a b <<< "$1"
    shift
    printf '%s\n' "wide r1, $(printf %u "0x$a")" "wide r9, $(printf %u "0x$b")" "mov64 r0, 0" "stxd [r10-8], r9"
    for line in "$@"; do
        printf '%s\n' "${line# }"
    done
    printf 'exit\n'
}

# Whether the program of the text answers these bytes.
answers() {
    input=$work/text run asm
    cp "$work/out" "$work/in"
    run run --result 16
    [ "$got" = 0 ] && [ "$(cat "$work/out")" = "bytes $1" ]
}

# The bytes of a word in hex, the least first.
bytes_of() {
    local word
    word=$(printf '%016x' "0x$1")
    printf '%s' "${word:14:2} ${word:12:2} ${word:10:2} ${word:8:2} ${word:6:2} ${word:4:2} ${word:2:2} ${word:0:2}"
}

# Of a width and two words, whether each of the eleven tests of a jump holds just where it is named.
try_jumps() {
    local jump wanted= place=0 lines=()
    for jump in jeq jgt jge jset jne jsgt jsge jlt jle jslt jsle; do
        lines+=("mov64 r0, 1" "$jump$1 r1, r9, +1" "mov64 r0, 0" "stxb [r4+$place], r0")
        place=$((place + 1))
        case " $3 " in *" $jump "*) wanted+=" 01" ;; *) wanted+=" 00" ;; esac
    done
    compute "$2" "${lines[@]}" "mov64 r0, 11" > "$work/text"
    judge "jumps of $1 bits on $2" answers "${wanted# }"
}

# What each instruction gives on words.
grep -v '^#' tests/words.txt | grep . | sed 's/ | /|/g' > "$work/words"
while IFS='|' read -r instructions words wanted; do
    case $instructions in
        32 | 64) try_jumps "$instructions" "$words" "$wanted" ;;
        *)
            IFS=';' read -ra lines <<< "$instructions"
            compute "$words" "${lines[@]}" "stxd [r4+0], r1" "mov64 r0, 8" > "$work/text"
            judge "$instructions on $words" answers "$(bytes_of "$wanted")"
            ;;
    esac
done < "$work/words"

echo "commands: $passed passed, $failed failed"
[ "$failed" = 0 ]
