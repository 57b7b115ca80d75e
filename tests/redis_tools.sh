#!/usr/bin/env bash
# Plays tools for Redis against the built mapd with a Redis port: redis-cli, redis-benchmark, redis-py, hiredis, redis_exporter, and nutcracker
# before two servers. Each is played if it is installed; a line says what is missing. By hand after `rt run` in crates/mapd; by .ci/run behind the
# gate. MAPD names another program to try. If that is redis-server, what Redis has is tried on it.
set -euo pipefail
cd "$(dirname "$0")/.."
program=${MAPD:-crates/mapd/out/mapd}
kind=mapd
[ "$(basename "$program")" != redis-server ] || { kind=redis program=$(type -P redis-server); }
# shellcheck source=tests/common.sh
. tests/common.sh
command -v python3 > /dev/null || { echo "redis_tools: no python3 here, so nothing was tried"; exit 0; }
server=
trap '[ -z "$server" ] || { kill "$server"; wait "$server"; } 2> /dev/null || true; rm -rf "${work:?}"' EXIT
input=/dev/null

# Starts the server on a free port, and sets `port`.
start() {
    if [ $kind = redis ]; then
        port=$((20000 + $$ % 10000))
        "$program" --port $port --bind 127.0.0.1 --databases 1 --save '' --appendonly no --dir "$work" \
            > "$work/ready" 2> "$work/listening" &
    else
        "$program" --redis 127.0.0.1:0 > "$work/ready" 2> "$work/listening" &
    fi
    server=$!
    for _ in $(seq 500); do
        ! grep -Eqi '^ready$|ready to accept connections' "$work/ready" || break
        sleep 0.02
    done
    [ $kind = redis ] || port=$(sed -n 's/^redis on 127.0.0.1://p' "$work/listening")
}

# What redis-cli prints for these words, of the input if there is one.
cli() {
    got=0
    timeout 60 redis-cli -p "$port" "$@" < "$input" > "$work/out" 2> "$work/err" || got=$?
}

# Whether the last run ended well, and printed just this text.
printed() { [ "$got" = 0 ] && [ "$(cat "$work/out")" = "$1" ]; }

# Whether the last run ended well, and printed a line of this pattern.
told() { [ "$got" = 0 ] && grep -Eq "$1" "$work/out"; }

# A name, what is to be printed, and the words.
prints() {
    local name=$1 wanted=$2
    shift 2
    cli "$@"
    judge "redis-cli: $name" printed "$wanted"
}

play_cli() {
    prints "FLUSHALL" OK flushall
    prints "SET" OK set greeting 'hello, world'
    prints "GET" 'hello, world' get greeting
    prints "GET of nothing" '' get nothing
    prints "an error" "ERR wrong number of arguments for 'get' command" get
    prints "INCR, three times" $'1\n2\n3' -r 3 incr n
    prints "several keys" $'hello, world\n3' mget greeting n
    printf 'a\nvalue' > "$work/in"
    input=$work/in prints "SET of its input" OK -x set of_input
    prints "GET of that" $'a\nvalue' get of_input
}

play_cli_walks() {
    printf 'SET scan:%d %d\n' $(for i in $(seq 500); do echo "$i" "$i"; done) > "$work/in"
    input=$work/in cli
    judge "redis-cli: commands on its input" told '^OK$'
    cli --scan --pattern 'scan:*'
    judge "redis-cli --scan" [ "$(sort -u "$work/out" | wc -l)" = 500 ]
    cli --bigkeys
    judge "redis-cli --bigkeys" told 'Sampled 50[0-9] keys'
    cli info
    judge "redis-cli info" told '^redis_version:7'
    timeout 2 stdbuf -oL redis-cli -p "$port" --stat -i 1 > "$work/out" 2> "$work/err" < /dev/null || true
    judge "redis-cli --stat" told '^50[0-9] +[1-9][0-9.]*[KMG] +[0-9]+ +0 +[0-9]+'
    cli -3 ping
    judge "redis-cli -3" told '^PONG$'
}

# What --pipe sends is raw: arrays here, with a value of any bytes.
play_cli_pipe() {
    python3 - > "$work/in" << 'END'
import sys
for number in range(20000):
    words = b"SET", b"pipe:%d" % number, b"\0\r\n%d" % number
    sys.stdout.buffer.write(b"*3\r\n" + b"".join(b"$%d\r\n%b\r\n" % (len(word), word) for word in words))
END
    input=$work/in cli --pipe
    judge "redis-cli --pipe" told 'errors: 0, replies: 20000'
    cli --no-raw get pipe:19999
    judge "redis-cli: a value of any bytes" told '^"\\x00\\r\\n19999"$'
}

# Whether redis-benchmark told of this many tests, and of no error.
benchmarked() {
    [ "$got" = 0 ] && [ "$(tr '\r' '\n' < "$work/out" | grep -c 'requests per second, p50')" = "$1" ] &&
        ! grep -Eqi 'error|warning' "$work/out" "$work/err"
}

# The tests of redis-benchmark that are served, one by one and in pipelines, with few connections and with many.
play_benchmark() {
    local load
    for load in "50 1" "50 16" "500 4"; do
        got=0
        timeout 120 redis-benchmark -p "$port" -q -n 10000 -r 1000 -c "${load% *}" -P "${load#* }" \
            -t ping_inline,ping_mbulk,set,get,incr,mset > "$work/out" 2> "$work/err" < /dev/null || got=$?
        judge "redis-benchmark with ${load% *} connections, ${load#* } at once" benchmarked 6
    done
}

# The first python3 that has redis-py.
python_with_redis() {
    local found
    # without what bash remembers, which would be the only one to be named
    hash -r
    for found in $(type -aP python3); do
        ! "$found" -I -c 'import redis' 2> /dev/null || { echo "$found"; return; }
    done
}

play_redis_py() {
    got=0
    timeout 120 "$python" -I tests/redis_client.py "$port" "$kind" > "$work/out" 2> "$work/err" || got=$?
    judge "redis-py" told '^redis-py .*: passed$'
}

play_hiredis() {
    gcc -std=c99 -Wall -Wextra -O1 -o "$work/client" tests/redis_client.c -lhiredis
    got=0
    timeout 60 "$work/client" "$port" "$kind" > "$work/out" 2> "$work/err" || got=$?
    judge "hiredis" told '^hiredis .*: passed$'
}

play_exporter() {
    got=0
    timeout 60 python3 tests/redis_exporter.py "$port" > "$work/out" 2> "$work/err" || got=$?
    judge "redis_exporter" told '^redis_exporter: .*: passed$'
}

play_sharded() {
    got=0
    timeout 120 python3 tests/redis_sharded.py --program "$program" > "$work/out" 2> "$work/err" || got=$?
    judge "nutcracker before two servers" told '^redis_sharded: passed$'
}

start
[ -n "$port" ] || { echo "redis_tools: $program does not listen: $(cat "$work/listening")"; exit 1; }
if type -P redis-cli > /dev/null; then
    play_cli
    play_cli_walks
    play_cli_pipe
else
    echo "redis_tools: no redis-cli here (Debian's package redis-tools)"
fi
if type -P redis-benchmark > /dev/null; then
    play_benchmark
else
    echo "redis_tools: no redis-benchmark here (Debian's package redis-tools)"
fi
python=$(python_with_redis)
if [ -n "$python" ]; then
    play_redis_py
else
    echo "redis_tools: no redis-py here (Debian's package python3-redis)"
fi
if type -P gcc > /dev/null && [ -e /usr/include/hiredis/hiredis.h ]; then
    play_hiredis
else
    echo "redis_tools: no hiredis here (Debian's package libhiredis-dev), or no gcc"
fi
if [ -n "$(type -P prometheus-redis-exporter redis_exporter || true)" ]; then
    play_exporter
else
    echo "redis_tools: no redis_exporter here (Debian's package prometheus-redis-exporter)"
fi
if type -P nutcracker > /dev/null; then
    play_sharded
else
    echo "redis_tools: no nutcracker here (Debian's package nutcracker)"
fi

echo "redis_tools: $passed passed, $failed failed"
[ "$failed" = 0 ]
