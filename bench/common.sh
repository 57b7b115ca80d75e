# For the scripts here that time a program. $bench is the program of crates/bench, built where it is not or where a source is
# newer; $work is a folder for files. A script says by `side` how a run is made of words.
set -euo pipefail
shopt -s inherit_errexit
cd "$(dirname "${BASH_SOURCE[0]}")/.."
bench=crates/bench/out/bench
work=$(mktemp -d)
trap 'rm -rf "$work"' EXIT

if [ ! -e "$bench" ] || [ -n "$(find crates.txt crates/*/src crates/*/specs crates/*/proofs -newer "$bench" -print -quit 2>/dev/null)" ]; then
    (cd crates/bench && rt run > "$work/build.log" 2>&1) || { cat "$work/build.log"; exit 1; }
    touch "$bench"
fi

# nanoseconds that so much takes, without what a start takes: how often, the words of the side but the last
elapsed() {
    local begun started ended
    begun=$(date +%s%N)
    side "${@:2}" 0 > "$work/out"
    started=$(date +%s%N)
    side "${@:2}" "$1" > "$work/out"
    ended=$(date +%s%N)
    echo $((ended - started - (started - begun)))
}
