#!/usr/bin/env bash
# Tries the wrong bodies of tests/wrong_bodies, which the gate leaves out for their time, with those of the gate in the same crates: the
# prover must refuse each. By hand, after `rt check` in these crates. Words name crates; without words all of them are taken.
set -euo pipefail
cd "$(dirname "$0")/.."
[ $# -gt 0 ] || set -- $(ls tests/wrong_bodies)
lent=()
trap 'rm -f "${lent[@]}"; for name in "$@"; do rmdir --ignore-fail-on-non-empty "crates/$name/must-fail"; done' EXIT
for name in "$@"; do
    mkdir -p "crates/$name/must-fail"
    for edit in "tests/wrong_bodies/$name"/*.edit; do
        to=crates/$name/must-fail/${edit##*/}
        [ ! -e "$to" ] || { echo "$to is there already" >&2; exit 1; }
        lent+=("$to")
        cp "$edit" "$to"
    done
done
rt must-fail "$@"
