#!/usr/bin/env bash
# Times `run` and `run_into` of bpf_machine beside plain C loops over decoded instructions (a switch; a switch that checks
# units and windows; direct threading; each by gcc and by clang), `verify` of verifier, and calls on a table: seven times in
# turn, and prints the medians. Where valgrind is installed, instructions a run too. By hand, not by the gate. It takes some
# seconds; a first time takes minutes, since a program is built only when all below it is proved.
source "$(dirname "$0")/common.sh"

loops=()
for compiler in gcc clang; do
    command -v $compiler > /dev/null || continue
    $compiler -O2 -o "$work/$compiler-switch" bench/interpreter.c
    $compiler -O2 -DCHECKED -o "$work/$compiler-checked" bench/interpreter.c
    $compiler -O2 -DTHREADED -o "$work/$compiler-threaded" bench/interpreter.c
    loops+=($compiler-switch $compiler-checked $compiler-threaded)
done
for name in sum alu eight mix; do $bench hex $name > "$work/$name.hex"; done

# one side, a program, how often
side() {
    case $1 in
        run | into) $bench "$1" "$2" "$3" ;;
        known | new) $bench register "$1" "$2" "$3" ;;
        shape | verify | call) $bench "$1" "$2" "$3" ;;
        *) "$work/$1" "$3" < "$work/$2.hex" ;;
    esac
}

# the median of seven times of each side, in turn: a program, how often, sides
medians() {
    local program=$1 count=$2
    shift 2
    for name in "$@"; do : > "$work/$name.times"; done
    for _ in 1 2 3 4 5 6 7; do
        for name in "$@"; do elapsed "$count" "$name" "$program" >> "$work/$name.times"; done
    done
    for name in "$@"; do sort -n "$work/$name.times" | sed -n 4p; done
}

# the processor's instructions for one run, by callgrind: a side, a program, how often
instructions() {
    local none all
    none=$(counted "$1" "$2" 0)
    all=$(counted "$1" "$2" "$3")
    echo $(((all - none) / $3))
}
counted() {
    local input=/dev/null command=("$bench" "$1" "$2" "$3")
    case $1 in
        gcc-* | clang-*) input=$work/$2.hex command=("$work/$1" "$3") ;;
    esac
    valgrind --tool=callgrind --callgrind-out-file=/dev/null "${command[@]}" 2>&1 > "$work/out" < "$input" |
        sed -n 's/.*Collected : //p'
}

# a program, its answer, how often, how often for callgrind
measure() {
    local answer name
    answer=$($bench answer "$1")
    [ "$answer" = "$2" ] || { echo "$1: run answers '$answer', not '$2'" >&2; exit 1; }
    for name in "${loops[@]}"; do
        answer=$(side $name "$1" 0)
        [ "$answer" = "$2" ] || { echo "$1: $name answers '$answer', not '$2'" >&2; exit 1; }
    done
    medians "$1" "$3" into run "${loops[@]}" > "$work/medians"
    echo "a run of $1 ($(($(wc -c < "$work/$1.hex") / 16)) units):"
    for name in into run "${loops[@]}"; do
        counted=
        command -v valgrind > /dev/null && counted="$(instructions "$name" "$1" "$4") instructions"
        echo "$name $counted"
    done | paste "$work/medians" - | awk -v n="$3" '
        { printf "  %-16s %9.1f ns  %s %s\n", $2, $1 / n, $3, $4; if ($2 == "into") into = $1; if ($2 == "gcc-switch") gcc = $1 }
        END { if (gcc) printf "  run_into takes %.2f of the switch by gcc\n", into / gcc }'
}

# a program, how often: `verify` is handed what `shape` gives, so what that takes is taken off
measure_verify() {
    local units
    units=$(($($bench hex "$1" | tr -d '\n' | wc -c) / 16))
    medians "$1" "$2" shape verify | paste -s | awk -v times="$2" -v units="$units" -v what="$1" '{
        n = times * units
        printf "verify, %s: %.2f ns a unit, %.2f ms for %d units (shape before it %.2f ns a unit)\n",
            what, ($2 - $1) / n, ($2 - $1) / times / 1e6, units, $1 / n }'
}

measure sum 0300000000000000 2000000 2048
measure alu e1218400fffdfbf7 50000 256
measure eight 55c0829753f0720a 50000 256
measure mix 7c00000000000000 50000 256
measure_verify straight 250
measure_verify jumps 125
measure_verify ladder 125
measure_verify spills 125

# units, how often: Registers of one program beside Registers of new ones, which are verified
measure_registers() {
    medians "$1" "$2" known new | paste -s | awk -v times="$2" -v units="$1" '{
        printf "a Register of %d units: %.2f us for a known program, %.2f us for a new one\n", units, $1 / times / 1e3, $2 / times / 1e3 }'
}
measure_registers 6 20000
measure_registers 30 10000
measure_registers 512 2000
measure_registers 4096 300

# a call on a table of one entry: how often, how often for callgrind
measure_call() {
    medians "$1" "$2" call | awk -v n="$2" -v what="$1" '{ printf "%s: %.0f ns a call\n", what, $1 / n }'
    if command -v valgrind > /dev/null; then
        echo "  instructions a call: $(instructions call "$1" "$3")"
    fi
}
for name in get put replace compute merge; do measure_call $name 200000 2000; done
