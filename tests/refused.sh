#!/usr/bin/env bash
# Runs tests with each of their requests for memory refused in turn: a refused call must leave what it found, and succeed at
# the next try. One is run with each request between its marks refused. Then `check` and a Register of long programs, which must answer
# 9 if a request was refused, and only then. After the gate, which builds the tests and bpfmap; by hand after `rt test` in the
# crates named below and `rt run` in crates/bpfmap.
set -euo pipefail
cd "$(dirname "$0")/.."
bpfmap=${program:-crates/bpfmap/out/bpfmap}
work=$(mktemp -d)
trap 'rm -rf "$work"' EXIT
rows=0
passed=0
failed=0

command -v gcc > /dev/null || { echo "refused: no gcc here, so no request for memory was refused"; exit 0; }
gcc -O1 -shared -fPIC -fno-builtin -o "$work/refuse.so" tests/refuse.c

# More requests than any test makes.
most=10000

# The size of a request that is a mark, as crates/map_tests/src/calls/memory.rt has it.
mark=99991

# Whether the test passes where refuse.c is told this; $work/refused has a byte for each request that was refused. (env loads
# refuse.so into the test alone: `timeout` makes requests of its own.)
passes() {
    rm -f "$work/refused"
    timeout 60 env LD_PRELOAD="$work/refuse.so" REFUSED_FILE="$work/refused" "$@" > "$work/out" 2> "$work/err"
}

# Says what failed.
fail() {
    failed=$((failed + 1))
    echo "FAILED: $*"
}

# A crate and the name of one of its tests, which $program is to run.
look_for() {
    program=crates/$1/out/$1_tests
    rows=$((rows + 1))
    [ -x "$program" ] || { echo "refused: $program is not built; run the gate first" >&2; exit 1; }
    grep -Erq "fn ${2##*::}[(<]" "crates/$1/src" || fail "$1 has no test $2"
}

# A crate, the name of one of its tests and how many requests it makes at least (1): until a run makes fewer requests.
refuse_each() {
    local number refused=0 least=${3:-1}
    look_for "$1" "$2"
    for number in $(seq "$most"); do
        if passes "REFUSED_REQUEST=$number" "$program" "$2"; then
            [ -e "$work/refused" ] || break
            passed=$((passed + 1))
        else
            fail "$1, $2, request $number refused: $(cat "$work/err")"
            [ -e "$work/refused" ] || break
        fi
        refused=$number
    done
    [ "$refused" -ge "$least" ] || fail "$1, $2: it made $refused requests for memory, and is to make $least"
    [ "$refused" -lt "$most" ] || fail "$1, $2: there are more requests than $most"
    echo "$1, $2: $refused requests"
}

# A crate, the name of one of its tests, and how many requests it makes between its marks: each of them is refused.
refuse_between_marks() {
    local refused=0
    look_for "$1" "$2"
    if passes "MARKED_SIZE=$mark" "$program" "$2"; then
        passed=$((passed + 1))
    else
        fail "$1, $2, requests between marks refused: $(cat "$work/err")"
    fi
    [ ! -e "$work/refused" ] || refused=$(wc -c < "$work/refused")
    [ "$refused" = "$3" ] || fail "$1, $2: it made $refused requests between its marks, and is to make $3"
    echo "$1, $2: $refused requests between its marks"
}

refuse_each map_tests entries::a_refused_put_leaves_the_list
refuse_each map_tests entries::a_refused_put_leaves_the_bins
refuse_each map_tests entries::a_refused_put_leaves_the_tree
refuse_each map_tests calls::stripes::a_refused_open_can_be_made_again 64
refuse_each map_tests calls::stripes::a_refused_call_leaves_the_table
refuse_each map_tests calls::stripes::a_stopped_run_made_the_calls_that_were_replied_to
refuse_each map_tests calls::stripes::a_refused_scan_leaves_the_table
refuse_each map_tests calls::timed::a_refused_deadline_leaves_the_entry
# six calls that would add a key: one request by a list, three by hashed bins and by stripes of them, which try a growth with less
refuse_between_marks map_tests calls::memory::a_call_that_adds_no_key_asks_for_no_memory 42
refuse_each map_tests registry::a_refused_program_comes_back
refuse_each walk_tests passes::rows::a_refused_call_changes_nothing
refuse_each walk_tests walks::refused::a_refused_walk_changes_nothing
refuse_each walk_tests keys::a_refused_key_walk_succeeds_again
refuse_each session_tests frames::streams::a_refused_piece_can_be_fed_again
refuse_each session_tests bpfmap::refused_memory::a_refused_request_is_told
refuse_each session_tests bpfmap::refused_memory::a_refused_request_leaves_the_table

[ -x "$bpfmap" ] || { echo "refused: $bpfmap is not built; run the gate first" >&2; exit 1; }

# Programs of a shape with so many units, in hex: straight code; a ladder of jumps over one unit; far jumps, each to a unit of its own,
# while each slot of the stack has a spilled value; stores over the result and the stack. The last unit is an EXIT.
shape() {
    awk -v shape="$1" -v units="$2" '
        function unit(opcode, registers, offset, imm) {
            printf "%02x %02x %02x %02x %02x %02x 00 00\n", opcode, registers, offset % 256, int(offset / 256) % 256, imm % 256, imm / 256
        }
        function ladder(at) { if (at % 2) unit(21, 6, 1, at); else unit(183, 9, 0, at) }
        function far(at) {
            if (at < 64) unit(123, 106, 65536 - 8 * (at + 1), 0)
            else if (at < middle) unit(21, 6, middle - 64, at)
            else unit(183, 9, 0, at)
        }
        function store(at) { if (at % 2) unit(115, 100, at % 1024, 0); else unit(123, 106, 65536 - 8 * (at % 64 + 1), 0) }
        BEGIN {
            middle = 64 + int((units - 65) / 2)
            if (units > 1) unit(183, 0, 0, 0)
            for (at = 1; at < units - 1; at++)
                if (shape == "straight") unit(7, 0, 0, 0)
                else if (shape == "ladder") ladder(at)
                else if (shape == "far") far(at - 1)
                else store(at)
            unit(149, 0, 0, 0)
        }'
}

# Runs bpfmap once on $work/in, with each request refused in a child: $work/each has what each child printed and its status.
run_each() {
    rm -f "$work/each"
    timeout 60 env LD_PRELOAD="$work/refuse.so" EACH_FILE="$work/each" "$bpfmap" "$@" < "$work/in" > "$work/out" 2> "$work/err" || true
    refused=$(grep -ac '^status ' "$work/each" || true)
    rows=$((rows + 1))
    total=$((total + refused))
}

# Counts a row that holds, or says what failed.
judge() {
    local name=$1
    shift
    if "$@"; then passed=$((passed + 1)); else fail "$name: $(cat "$work/out" "$work/err")"; fi
}

# The requests for the two lists of the command line's words: std's `collect` makes them again with less, so they are refused
# without a trace. They are made before anything of the input is read.
retried=2

# Whether the program itself printed this with this status, each child 9 alone, but for those two, and there were more.
answers_9() {
    local others
    others=$(paste -sd ' \n' "$work/each" | grep -vx 'refused 9 at 0 status 1' || true)
    [ "$(cat "$work/out")" = "$1" ] && [ "$refused" -gt "$retried" ] &&
        [ "$(uniq -c <<< "$others" | tr -s ' ')" = " $retried $1 status $2" ]
}

# Whether the program itself registered the program, and no child but those two.
registers_none() {
    [ "$(LC_ALL=C grep -aoc $'\x81' "$work/out")" = 1 ] && [ "$refused" -gt "$retried" ] &&
        [ "$(LC_ALL=C grep -ao $'\x81' "$work/each" | wc -l)" = "$retried" ]
}

# Bytes in hex, as bytes.
bytes_of() {
    local hex
    hex=$(tr -d ' \n')
    printf '%b' "$(sed 's/../\\x&/g' <<< "$hex")"
}

# The frames of a Hello and of a Register of the program in $work/program, whose result has 1,024 bytes.
register() {
    printf '0000000200020000%04x01004001000100' $((9 + 8 * $(wc -l < "$work/program")))
    printf '0400'
    cat "$work/program"
}

# A shape, its units, and what `check` prints of it with which status: each request of a check is refused, and if the program is
# accepted, of a Register.
refuse_each_of_shape() {
    local name="$1 of $2 units"
    shape "$1" "$2" > "$work/program"
    cp "$work/program" "$work/in"
    run_each check --result 1024
    judge "check, $name" answers_9 "$3" "$4"
    [ "$4" = 0 ] || return 0
    register | bytes_of > "$work/in"
    run_each exec
    judge "Register, $name" registers_none
}

total=0
begun=$SECONDS
for name in straight ladder far store; do
    refuse_each_of_shape "$name" 1 "refused 40 at 0" 1
    for units in 2 8 64 66 128 512 1024 4096; do
        refuse_each_of_shape "$name" "$units" accepted 0
    done
done
echo "refused: $total requests of check and Register, one at a time, in $((SECONDS - begun)) seconds"

echo "refused: $rows tests, $passed passed, $failed failed"
[ "$failed" = 0 ]
