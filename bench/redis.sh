#!/usr/bin/env bash
# Times the Redis port of mapd beside redis-server on loopback, both in one run and by turns: GET, SET, INCR, MSET of ten keys and EVALSHA
# of a sum, over 50 and 1,000 connections that each have 1 and 16 requests on their way, and over 16 with 1. In the same turns it times
# echo.c, which only reads and writes: what the system takes of each. The client is redis_load.c, and at the end redis-benchmark. It prints
# the server's processor time a request, in microseconds (medians of five rounds), thousands of requests a second, what ours come to of
# Redis', what both come to without the time of echo.c, and the memory of a connection. Client and servers share the machine. By hand, not by
# the gate; some six minutes. mapd and echo.c have one thread, as Redis has; with more a thread finds fewer requests each time that it wakes.
# MAPD names another server than the one that the gate built; WORKERS (1), ROUNDS (5) and MILLISECONDS (500) may be given too.
set -euo pipefail
shopt -s inherit_errexit
cd "$(dirname "$0")/.."
source bench/servers.sh
mapd=$(realpath -m "${MAPD:-crates/mapd/out/mapd}")
workers=${WORKERS:-1}
rounds=${ROUNDS:-5}
milliseconds=${MILLISECONDS:-500}
operations=(get set incr mset evalsha)
loads=("16 1" "50 1" "50 16" "1000 1" "1000 16")
work=$(mktemp -d)
processes=()
trap '[ ${#processes[@]} = 0 ] || kill "${processes[@]}" 2> /dev/null || true; rm -rf "$work"' EXIT

start_mapd() {
    "$mapd" --redis 127.0.0.1:0 --workers "$workers" --stripes 64 --clients 20000 > "$work/ready" 2> "$work/listening" &
    mapd_process=$!
    processes+=("$mapd_process")
    await ready "$work/ready"
    mapd_port=$(sed -n 's/^redis on 127.0.0.1://p' "$work/listening")
}

start_echo() {
    echo_port=$((10000 + $$ % 10000))
    "$work/echo" $echo_port "$workers" > "$work/echoing" 2>&1 &
    echo_process=$!
    processes+=("$echo_process")
    await ready "$work/echoing"
}

# A side, an operation, a load and milliseconds: what redis_load prints.
play() {
    local port=$mapd_port process=$mapd_process language=bpf
    [ "$1" != redis ] || { port=$redis_port process=$redis_process language=lua; }
    [ "$1" != echo ] || { port=$echo_port process=$echo_process language=none; }
    # shellcheck disable=SC2086
    timeout 60 "$work/load" "$port" "$2" $3 "$4" "$process" $language
}

measure_all() {
    local side operation load
    for _ in $(seq "$rounds"); do
        for load in "${loads[@]}"; do
            for operation in "${operations[@]}"; do
                for side in mapd redis echo; do play $side "$operation" "$load" "$milliseconds" >> "$work/$side $operation $load"; done
            done
        done
    done
}

# Of the rounds of a side: microseconds of processor time a request, and thousands of requests a second, by the median time.
median() {
    awk '{ print $3 / $1 / 1000, 1e6 * $1 / $2 }' "$work/$1" | sort -n | sed -n $((rounds / 2 + 1))p
}

print_rows() {
    local load operation
    printf '%-10s %11s %5s %19s %19s %19s %6s %8s\n' '' connections deep 'mapd: us, 1000/s' 'Redis: us, 1000/s' 'echo: us, 1000/s' ratio 'own work'
    for operation in "${operations[@]}"; do
        for load in "${loads[@]}"; do
            # shellcheck disable=SC2046,SC2086
            printf '%-10s %11s %5s %10.2f %8.1f %10.2f %8.1f %10.2f %8.1f %6.2f %8.2f\n' "$operation" $load \
                $({ median "mapd $operation $load"; median "redis $operation $load"; median "echo $operation $load"; } |
                    awk '{ print; us[NR] = $1 } END { print us[1] / us[2], (us[1] - us[3]) / (us[2] - us[3]) }')
        done
    done
}

# The memory of a connection that asked once and is silent.
print_memory() {
    local side
    for side in mapd redis; do
        echo "$side: $(($(play $side memory "5000 1" 0) / 5000)) bytes of memory a connection, of 5,000"
    done
}

# redis-benchmark's own rates, with the processor time that the server took for all its tests, which have as many requests on both sides.
print_benchmark() {
    local side port process
    for side in mapd redis; do
        port=${side}_port process=${side}_process
        echo "redis-benchmark -c 50 -P 16, $side:"
        redis-benchmark -p "${!port}" -q -n 200000 -r 1000 -c 50 -P 16 -t ping_mbulk,get,set,incr,mset < /dev/null | tr '\r' '\n' |
            sed -n 's/^\([A-Z].*requests per second.*\)/  \1/p'
        echo "  $(awk '{ print $14 + $15 }' "/proc/${!process}/stat") ticks of processor time, of all that this run asked of it"
    done
}

load_now() { cut -d' ' -f1-3 /proc/loadavg; }

[ -x "$mapd" ] || fail "no server $mapd; run the gate first, or name one in MAPD"
command -v gcc > /dev/null || fail "no gcc here (Debian's package gcc)"
command -v redis-server > /dev/null || fail "no redis-server here (Debian's package redis-server)"
ulimit -n 20000 2> /dev/null || true
gcc -std=gnu99 -O2 -o "$work/load" bench/redis_load.c
gcc -std=gnu99 -O2 -pthread -o "$work/echo" bench/echo.c
before=$(load_now)
start_mapd
start_redis --maxclients 20000
start_echo
print_memory
measure_all
echo "microseconds of the server's processor time a request, and thousands of requests a second"
echo "($(nproc) cores, $workers workers; load before $before, after $(load_now); $SECONDS seconds)"
print_rows
! command -v redis-benchmark > /dev/null || print_benchmark
