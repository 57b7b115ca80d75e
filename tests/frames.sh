#!/usr/bin/env bash
# Runs the rows of frames.txt, which says how they read: what `bpfmap exec` answers, and its status. Each session is sent in one
# piece to a table of 64 stripes, in pieces of 5 bytes to one of 4, and byte by byte to one of 1. Pieces are cut by cut.c, or, where
# there is no gcc, roughly by a pipe.
# Behind the gate, which builds the program; by hand after `rt run` in crates/bpfmap.
set -euo pipefail
cd "$(dirname "$0")/.."
# shellcheck source=tests/common.sh
. tests/common.sh
declare -A named

if command -v gcc > /dev/null; then
    gcc -O1 -shared -fPIC -o "$work/cut.so" tests/cut.c
fi

# The bytes of a text in hex, without blanks: names stand for their bytes, and 6b*64 for 64 times 6b.
hex() {
    local word bytes=
    for word in $1; do
        case $word in
            *\**) bytes+=$(yes "${word%\**}" | head -n "${word#*\*}" | tr -d '\n') ;;
            *) bytes+=${named[$word]-$word} ;;
        esac
    done
    printf '%s' "$bytes"
}

# Writes bytes from hex.
write() {
    printf '%b' "$(sed 's/../\\x&/g' <<< "$1")"
}

# Runs a session in pieces of at most so many bytes, over so many stripes; 0 is one piece.
run_in_pieces() {
    if [ "$1" = 0 ]; then
        run exec --stripes "$2"
    elif [ -e "$work/cut.so" ]; then
        LD_PRELOAD=$work/cut.so READ_AT_MOST=$1 run exec --stripes "$2"
    else
        got=0
        dd bs="$1" status=none < "$work/in" | "$program" exec --stripes "$2" > "$work/out" 2> "$work/err" || got=$?
    fi
}

# Whether the last run had this status, the answers that are wanted and no errors.
answered() {
    [ "$got" = "$1" ] && cmp -s "$work/out" "$work/wanted" && [ ! -s "$work/err" ]
}

# What is sent and what is answered, in hex, the status and the name.
serve() {
    local pieces
    write "$1" > "$work/in"
    write "$2" > "$work/wanted"
    for pieces in "0 64" "5 4" "1 1"; do
        # shellcheck disable=SC2086
        run_in_pieces $pieces
        judge "$4, at most ${pieces% *} bytes at a time (0: all)" answered "$3"
    done
}

# A frame of a body in hex.
framed() {
    printf '%08x%s' "$((${#1} / 2))" "$1"
}

# A body of which each beginning is a bad field, what it gets as a whole, and with a byte 00 behind it; and the name.
cut() {
    local length fault status=1
    for ((length = 2; length < ${#1}; length += 2)); do
        serve "$hello$(framed "${1:0:length}")" "$welcome$(hex bad-field)" 1 "$4, cut at $((length / 2))"
    done
    serve "$hello$(framed "$1")" "$welcome$2" 0 "$4, whole"
    fault=$(hex trailing)
    [ "$3" = "$fault" ] || status=0
    serve "$hello$(framed "${1}00")" "$welcome$3" "$status" "$4, with a byte more"
}

# A session cut into pieces of each size up to its length.
cut_everywhere() {
    local size
    write "$1" > "$work/in"
    write "$2" > "$work/wanted"
    for size in $(seq "$((${#1} / 2))"); do
        run_in_pieces "$size" 64
        judge "a session in pieces of $size bytes" answered 0
    done
}

while IFS='|' read -r sent answers status name; do
    case $sent in
        "" | "#"*) ;;
        *" = "*) named[${sent%% = *}]=$(hex "${sent#* = }") ;;
        "cut "*)
            hello=$(hex hello) welcome=$(hex welcome)
            cut "$(hex "${sent#cut }")" "$(hex "$answers")" "$(hex "$status")" "${name# }"
            ;;
        *) serve "$(hex "$sent")" "$(hex "$answers")" "${status// /}" "${name# }" ;;
    esac
done < tests/frames.txt
cut_everywhere "$(hex "hello put-xy get")" "$(hex "welcome nothing xy")"

echo "frames: $passed passed, $failed failed"
[ "$failed" = 0 ]
