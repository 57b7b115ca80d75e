#!/usr/bin/env bash
# Times `mapd` on loopback under a C client, load.c: Get, Put, and Merge with the sum. 1, 4 and 16 connections each have 1, 16 and 64
# requests on their way. Where Debian's redis-server is installed, Redis is beside it under the same client: GET, SET, INCRBY, and
# EVALSHA of a script that reads, adds and writes. Three rounds in turn; it prints medians of thousands of requests a second, and of
# the server's processor time a request. Client and server share the machine. By hand, not by the gate. It takes two minutes, and
# stops after four. MAPD names another server than the one that the gate built.
set -euo pipefail
shopt -s inherit_errexit
cd "$(dirname "$0")/.."
source bench/servers.sh
mapd=$(realpath -m "${MAPD:-crates/mapd/out/mapd}")
rounds=3
milliseconds=500
connections=(1 4 16)
depths=(1 16 64)
# seconds that all may take
all_seconds=240
SECONDS=0
work=$(mktemp -d)
processes=()
trap '[ ${#processes[@]} = 0 ] || kill "${processes[@]}" 2> /dev/null || true; rm -rf "$work"' EXIT

start_mapd() {
    "$mapd" --listen 127.0.0.1:0 --workers 16 --stripes 64 > "$work/ready" 2> "$work/listening" &
    map_process=$!
    processes+=("$map_process")
    await ready "$work/ready"
    map_port=$(sed -n 's/^listening on 127.0.0.1://p' "$work/listening")
    sides=(mapd,get mapd,put mapd,merge)
}

# A side, how many connections, how deep: a line behind those of the earlier rounds.
measure() {
    local server=${1%,*} port process
    [ $SECONDS -lt $all_seconds ] || fail "stopped after $SECONDS seconds, at: $*"
    if [ "$server" = mapd ]; then
        port=$map_port process=$map_process
    else
        port=$redis_port process=$redis_process
    fi
    timeout 30 "$work/load" "$server" "$port" "${1#*,}" "$2" "$3" $milliseconds "$process" >> "$work/$1.$2.$3"
}

# Of the rounds of a side: thousands of requests a second and microseconds of processor time a request, by the median rate.
median() {
    awk '{ print 1e6 * $1 / $2, $3 / $1 / 1000 }' "$work/$1.$2.$3" | sort -n | sed -n $((rounds / 2 + 1))p
}

print_rows() {
    local side
    printf '%11s %5s' connections deep
    for side in "${sides[@]}"; do printf '%17s' "${side/,/ }"; done
    printf '\n'
    for count in "${connections[@]}"; do
        for depth in "${depths[@]}"; do
            printf '%11s %5s' "$count" "$depth"
            for side in "${sides[@]}"; do
                median "$side" "$count" "$depth" | awk '{ printf "%10.1f %6.2f", $1, $2 }'
            done
            printf '\n'
        done
    done
}

# What Merge comes to beside Redis, at the most connections and the deepest.
print_ratios() {
    { median mapd,merge 16 64; median redis,incrby 16 64; median redis,evalsha 16 64; } | awk '
        { rate[NR] = $1; time[NR] = $2 }
        END {
            printf "16 connections, 64 deep: Merge has %.2f times the rate of EVALSHA, %.2f times that of INCRBY\n",
                rate[1] / rate[3], rate[1] / rate[2]
            printf "its processor time is %.2f of that of EVALSHA, %.2f of that of INCRBY\n",
                time[1] / time[3], time[1] / time[2]
        }'
}

load_now() { cut -d' ' -f1-3 /proc/loadavg; }

[ -x "$mapd" ] || fail "no server $mapd; run the gate first, or name one in MAPD"
command -v gcc > /dev/null || fail "no gcc here (Debian's package gcc)"
gcc -std=c99 -O2 -pthread -o "$work/load" bench/load.c
before=$(load_now)
start_mapd
if command -v redis-server > /dev/null; then
    start_redis
    sides+=(redis,get redis,set redis,incrby redis,evalsha)
else
    echo "no redis-server here (Debian's package redis-server), so mapd stands alone"
fi
for _ in $(seq $rounds); do
    for count in "${connections[@]}"; do
        for depth in "${depths[@]}"; do
            for side in "${sides[@]}"; do measure "$side" "$count" "$depth"; done
        done
    done
done
echo "thousands of requests a second, and microseconds of the server's processor time a request ($(nproc) cores; load before"
echo "$before, behind $(load_now); $SECONDS seconds)"
print_rows
[ ${#sides[@]} = 3 ] || print_ratios
