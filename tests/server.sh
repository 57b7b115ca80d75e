#!/usr/bin/env bash
# Runs the built mapd as a process, with clients in Python that know docs/PROTOCOL.md alone (server.py): many at once, some that are
# slow, cut or reset, and a server without memory or descriptors. Each time: what is answered, and how the server ends.
# Behind the gate, which builds the program; by hand after `rt run` in crates/mapd. MAPD names another program to try;
# MAPD_IS_CHECKED says that it is built with checks, so that its memory can't be bounded.
set -euo pipefail
cd "$(dirname "$0")/.."
program=${MAPD:-crates/mapd/out/mapd}
# shellcheck source=tests/common.sh
. tests/common.sh
command -v python3 > /dev/null || { echo "server: no python3 here, so nothing was tried"; exit 0; }
server=
trap '[ -z "$server" ] || kill -9 "$server" 2> /dev/null || true; rm -rf "${work:?}"' EXIT

# Starts the server with these words on a free port, within $limits, and waits until it listens or has ended.
start() {
    : > "$work/out"
    : > "$work/err"
    (eval "${limits:-}"; exec env --default-signal=INT "$program" --listen 127.0.0.1:0 "$@") < /dev/null > "$work/out" 2> "$work/err" &
    server=$!
    for _ in $(seq 1000); do
        if [ -s "$work/out" ] || ! kill -0 "$server" 2> /dev/null; then break; fi
        sleep 0.01
    done
    address=$(sed -n 's/^listening on //p' "$work/err")
}

# Waits for the server's end, for 20 seconds at most.
finish() {
    timeout 20 tail --pid="$server" -s 0.02 -f /dev/null || kill -9 "$server"
    got=0
    wait "$server" 2> /dev/null || got=$?
    server=
}

# Ends the server at once.
stop() {
    kill "$server" 2> /dev/null || true
    finish
}

# Plays a part of server.py against the server.
play() {
    local name=$1
    shift
    timeout 60 python3 tests/server.py "$name" "$address" "$@" 2> "$work/said" && return
    got="none yet"
    echo "the part $name failed, or took longer than 60 seconds: $(cat "$work/said")"
    return 1
}

# Whether the server ended with this status, this output and errors of this pattern behind the addresses.
ended() {
    # shellcheck disable=SC2053
    [ "$got" = "$1" ] && [ "$(cat "$work/out")" = "$2" ] && [[ $(grep -Ev '^(listening|redis) on ' "$work/err") == $3 ]]
}

# Name, the part and its words, then the server's words: it serves until it is stopped.
serve() {
    local name=$1 part
    read -ra part <<< "$2"
    shift 2
    start "$@"
    judge "$name" play "${part[@]}"
    stop
    judge "$name: it is ended by SIGTERM alone" ended 143 "ready" "${errors:-}"
}

# Name, the part and its words, how many sessions it has, then the server's words: its one worker ends when it has served them.
serve_all() {
    local name=$1 part sessions=$3
    read -ra part <<< "$2"
    shift 3
    start --workers 1 --sessions "$sessions" "$@"
    judge "$name" play "${part[@]}"
    finish
    judge "$name: it ends when all are served" ended 0 "ready"$'\n'"served $sessions" ""
}

# Name, wanted status, output and pattern of errors, then the words: it ends by itself.
expect() {
    local name=$1 status=$2 output=$3 errors=$4
    shift 4
    run "$@"
    judge "$name" ended "$status" "$output" "$errors"
}

# Whether a server for nobody fails to write to a file that this many bytes make full, and has filled it.
full_after() {
    head -c "$((1024 - $1))" /dev/zero > "$work/out"
    got=0
    (trap '' XFSZ; ulimit -f 1; exec "$program" --listen 127.0.0.1:0 --sessions 0 >> "$work/out" 2> "$work/err") || got=$?
    [ "$got" = 3 ] && [ "$(tail -n 1 "$work/err")" = "failed write" ] || return 1
    cmp -s <(tail -c "$1" "$work/out") <(printf 'ready\nserved 0\n' | head -c "$1")
}

# Whether standard error has just these lines, each of its pattern.
told_alone() {
    [ "$(wc -l < "$work/err")" = "$#" ] || return 1
    local line pattern
    while read -r line; do
        pattern=$1
        shift
        [[ $line =~ ^$pattern$ ]] || return 1
    done < "$work/err"
}

: > "$work/in"
expect "no sessions" 0 "ready"$'\n'"served 0" "" --listen 127.0.0.1:0 --sessions 0
judge "the address is told" grep -Eqx 'listening on 127\.0\.0\.1:[1-9][0-9]*' "$work/err"
expect "a Redis port alone" 0 "ready"$'\n'"served 0" "" --redis 127.0.0.1:0 --sessions 0
judge "its address is told, and no other" told_alone 'redis on 127\.0\.0\.1:[1-9][0-9]*'
expect "both ports" 0 "ready"$'\n'"served 0" "" --redis 127.0.0.1:0 --sessions 0 --listen 127.0.0.1:0
judge "both addresses are told, that of --listen first" told_alone 'listening on 127\.0\.0\.1:[1-9][0-9]*' 'redis on 127\.0\.0\.1:[1-9][0-9]*'
expect "a Redis port, and 33 workers" 2 "" "error: *33*" --redis 127.0.0.1:0 --workers 33
expect "a Redis port, and an unknown option" 2 "" "error: *--sesions*" --redis 127.0.0.1:0 --sesions 0
expect "two Redis ports" 2 "" "error: *--redis*" --redis 127.0.0.1:0 --redis 127.0.0.1:0
expect "33 workers" 2 "" "error: *33*" --listen 127.0.0.1:0 --workers 33
expect "no workers" 2 "" "error: *0*" --listen 127.0.0.1:0 --workers 0
expect "a team of 9" 2 "" "error: *9*" --listen 127.0.0.1:0 --team 9
expect "a team of 0" 2 "" "error: *0*" --listen 127.0.0.1:0 --team 0
expect "a team of no number" 2 "" "error: *--team*" --listen 127.0.0.1:0 --team
expect "65,536 stripes" 2 "" "error: *65536*" --listen 127.0.0.1:0 --stripes 65536
expect "a word that is no option" 2 "" "error: *other*" --listen 127.0.0.1:0 other
expect "too many sessions" 2 "" "error: *65536*" --listen 127.0.0.1:0 --sessions 65536
expect "no clients" 2 "" "error: *0*" --listen 127.0.0.1:0 --clients 0
expect "too many clients" 2 "" "error: *65536*" --listen 127.0.0.1:0 --clients 65536
expect "no time to be silent" 2 "" "error: *0*" --listen 127.0.0.1:0 --idle 0
expect "no address" 2 "" "error: *--listen*"
expect "three stripes" 1 "refused 50 at 0" "not a number of stripes" --listen 127.0.0.1:0 --stripes 3
expect "more than 64 passes" 1 "refused 51 at 0" "?*" --listen 127.0.0.1:0 --workers 32 --team 8
expect "three stripes and too many passes" 1 "refused 50 at 0" "?*" --listen 127.0.0.1:0 --stripes 3 --workers 32 --team 8
expect "64 passes" 0 "ready"$'\n'"served 0" "" --listen 127.0.0.1:0 --workers 32 --team 1 --sessions 0
for address in nowhere 127.0.0.1 127.0.0.1:65536 127.0.0.1:x 192.0.2.1:0; do
    expect "$address, where nothing can listen" 3 "" "failed listen"$'\n'"$address: ?*" --listen "$address"
    expect "$address, where nothing can listen, for Redis" 3 "" "failed listen"$'\n'"$address: ?*" --listen 127.0.0.1:0 --redis "$address"
done
sink=/dev/full expect "an output that can't be written" 3 "" "failed write" --listen 127.0.0.1:0 --sessions 0
for room in 0 5 6 14; do
    judge "an output with room for $room bytes" full_after "$room"
done
expect "the version" 0 "mapd 0.1.0" "" --version

start --workers 1
expect "a port that is taken" 3 "" "failed listen*" --listen "$address"
expect "a port that is taken, for Redis" 3 "" "failed listen*" --redis "$address"
stop

start --workers 1
exec 4<> "/dev/tcp/${address%:*}/${address##*:}"
kill -INT "$server"
finish
exec 4>&-
judge "SIGINT ends it beside a client" ended 130 "ready" ""

# The session that docs/PROTOCOL.md shows, and the answers that stand below it.
shown=$(sed -n "/^printf '%s' '\$/,/^' | xxd/p" docs/PROTOCOL.md | grep -v xxd | tail -n +2 | tr -d ' \n')
told=$(sed -n '/^The responses are these bytes/,$p' docs/PROTOCOL.md | sed -n '/^0/s/   .*//p' | tr -d ' \n')
serve_all "the session of docs/PROTOCOL.md" "at_once $shown $told" 1
serve_all "the same, one byte a write" "byte_by_byte $shown $told" 1 --stripes 1 --team 8
# The exchange that docs/SERVER.md shows, with the port of a server, and the answers that stand below it.
if command -v xxd > /dev/null; then
    exchange=$(sed -n '/^exec 3<>/,/^exec 3>&-/p' docs/SERVER.md)
    start --workers 1 --sessions 1
    bash -c "${exchange//7070/${address##*:}}" > "$work/said" 2>&1 || true
    finish
    judge "the exchange of docs/SERVER.md" grep -Fqx "$(cat "$work/said")" docs/SERVER.md
    judge "the exchange of docs/SERVER.md: it ends" ended 0 "ready"$'\n'"served 1" ""
fi
judge "the sessions of frames.txt" python3 tests/server_rows.py --program "$program"
judge "sessions of both versions on one map" python3 tests/versions.py --program "$program"
judge "connections that are cut and reset everywhere" python3 tests/server_cut.py --program "$program"

serve_all "a hundred sessions" sessions 100
serve_all "a stream that is cut" cut 1
serve_all "connections that are reset" reset 4
serve_all "a frame that is refused" fault 2
serve_all "a client that waits" idle 1
serve "32 clients at once" crowd --workers 4
serve "keys of one hash" keys_of_one_hash --workers 5 --stripes 4
serve "deep pipelines" pipelines --workers 5 --stripes 1
serve "few writes" few_writes --workers 2
serve "a client that does not read" unread --workers 2
[ -n "${MAPD_IS_CHECKED:-}" ] || limits="ulimit -s 256" serve "a stack of 256 KiB" longest --workers 4 --team 2
serve "the longest programs and values" longest --workers 4 --team 8 --stripes 64
limits="ulimit -n 16" errors="clients are refused:*" serve "no descriptors" descriptors --workers 4
kib=65536
[ -z "${MAPD_IS_CHECKED:-}" ] || kib=1000000
judge "what is limited or wanting" python3 tests/server_limits.py --program "$program"
judge "changed bytes" python3 tests/mutated.py --server --program "$program" --kib "$kib" 10
if [ -z "${MAPD_IS_CHECKED:-}" ]; then
    # a stripe asks for memory by segments: 16 of them have 160 MB of an address space before any is full
    limits="ulimit -v 230000" serve "no memory" memory --workers 3
    judge "a million keys" python3 tests/full.py --server --program "$program"
    judge "each request for memory refused in turn" python3 tests/server_refused.py --program "$program"
fi

echo "server: $passed passed, $failed failed"
[ "$failed" = 0 ]
