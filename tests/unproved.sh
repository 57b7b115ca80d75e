#!/usr/bin/env bash
# Runs the tests without any proof: those of each test crate by `rt try`, two crates at a time; then the shell scripts here that the
# gate runs, if their programs are built, but for refused.sh, which takes the tests as `rt test` builds them. This doesn't prove anything;
# use it while you work.
set -euo pipefail
cd "$(dirname "$0")/.."
work=$(mktemp -d)
trap 'rm -rf "$work"' EXIT

# Runs the tests of one crate, and says whether they passed. On a busy machine some take longer than the minute that rt gives them.
try() {
    if (cd "crates/$1" && rt try --test --seconds 600) > "$work/$1" 2>&1; then
        echo "$1: passed"
    else
        cat "$work/$1"
        echo "$1: FAILED"
        touch "$work/failed"
    fi
}

# Runs a script if all these programs are built.
run_where_built() {
    local script=$1 program
    shift
    for program in "$@"; do
        [ -x "$program" ] || { echo "$program is not built, so $script was not run"; return 0; }
    done
    bash "tests/$script"
}

try program_tests & try session_tests
wait
try redis_tests
try map_tests & try walk_tests
wait
bpfmap=crates/bpfmap/out/bpfmap
mapd=crates/mapd/out/mapd
run_where_built commands.sh $bpfmap
run_where_built frames.sh $bpfmap
run_where_built process.sh $bpfmap
run_where_built server.sh $mapd
run_where_built install.sh $bpfmap $mapd
run_where_built tls.sh $mapd
run_where_built redis_tools.sh $mapd
[ ! -e "$work/failed" ]
