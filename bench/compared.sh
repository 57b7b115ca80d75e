#!/usr/bin/env bash
# Times the Redis port of mapd beside redis-server and memcached on loopback, in one run and by turns: a read, a write, an addition, and an
# update of an entry by a function. That is EVALSHA of a BPF sum for mapd, EVALSHA of a Lua sum and FCALL of the same function for Redis; a
# memcached client has to read by `gets`, add, and store by `cas`, and begins again if another client was first. 16 connections have 1 and 16
# requests on their way, over 1,000 keys; memcached also has all keys of a connection in one `get`, since it sends the answer to each `get`
# by itself. Updates are made on one hot key too. It prints medians of thousands of requests a second and of microseconds of the server's
# processor time for each, and how many tries of `cas` were lost for each that was stored. On the hot key the 16 updates of a connection lose
# to each other too, as those of 16 callers would. The clients are redis_load.c and memcached_load.c; they fail if the sums at the end aren't
# those of the updates answered.
# Then it times merges inside one process, with a thread for each core: those of Java's ConcurrentHashMap, and those of crates/bench if its
# program is built. Last come the bytes that an entry of 16 and 100 bytes takes in each server, by memory.py and memcached_load.c.
# A side whose program isn't installed is left out. Clients and servers share the machine. By hand, not by the gate; some three minutes. Each
# server has one thread for requests; WORKERS (1) gives mapd and memcached more. MAPD names another server than the one that the gate built;
# ROUNDS (5), MILLISECONDS (500), CALLS (1000000, of each thread in one process) and ENTRIES (500000, or 0 to leave memory out) may be given
# too.
set -euo pipefail
shopt -s inherit_errexit
cd "$(dirname "$0")/.."
source bench/servers.sh
mapd=$(realpath -m "${MAPD:-crates/mapd/out/mapd}")
bench=crates/bench/out/bench
workers=${WORKERS:-1}
rounds=${ROUNDS:-5}
milliseconds=${MILLISECONDS:-500}
calls=${CALLS:-1000000}
entries=${ENTRIES:-500000}
threads=$(nproc)
# a side, an operation, and what it is called
cases=("mapd get GET" "redis get GET" "memcached get get" "memcached mget get of all keys"
    "mapd set SET" "redis set SET" "memcached set set"
    "mapd incr INCR" "redis incr INCR" "memcached incr incr"
    "mapd evalsha EVALSHA of BPF" "redis evalsha EVALSHA of Lua" "redis fcall FCALL of Lua" "memcached cas gets and cas")
# connections, depth, keys; the hot key is only for updates
loads=("16 1 1000" "16 16 1000" "16 1 1" "16 16 1")
sides=(mapd)
processes=()
work=$(mktemp -d)
trap '[ ${#processes[@]} = 0 ] || kill "${processes[@]}" 2> /dev/null || true; rm -rf "$work"' EXIT

start_mapd() {
    "$mapd" --redis 127.0.0.1:0 --workers "$workers" --stripes 64 > "$work/ready" 2> "$work/listening" &
    mapd_process=$!
    processes+=("$mapd_process")
    await ready "$work/ready"
    mapd_port=$(sed -n 's/^redis on 127.0.0.1://p' "$work/listening")
}

# memcached puts the port that it took into a file, by a move.
start_memcached() {
    : > "$work/memcached_port"
    MEMCACHED_PORT_FILENAME=$work/memcached_port memcached -l 127.0.0.1 -p -1 -U 0 -t "$workers" -m 2048 -u "$(id -un)" > "$work/memcached" 2>&1 &
    memcached_process=$!
    processes+=("$memcached_process")
    await TCP "$work/memcached_port"
    memcached_port=$(sed -n 's/^TCP INET: //p' "$work/memcached_port")
}

is_side() { [[ " ${sides[*]} " = *" $1 "* ]]; }

# A side, an operation, connections, depth and keys: what its client prints.
play() {
    case $1 in
        mapd) timeout 60 "$work/redis_load" "$mapd_port" "$2" "$3" "$4" "$milliseconds" "$mapd_process" bpf "$5" ;;
        redis) timeout 60 "$work/redis_load" "$redis_port" "$2" "$3" "$4" "$milliseconds" "$redis_process" lua "$5" ;;
        memcached) timeout 60 "$work/memcached_load" "$memcached_port" "$2" "$3" "$4" "$milliseconds" "$memcached_process" "$5" ;;
    esac
}

# Whether an operation is made over this many keys.
is_made() { [ "$2" != 1 ] || [[ " evalsha fcall cas " = *" $1 "* ]]; }

# In each round all sides have a load in turn.
measure_all() {
    local load side operation connections depth keys
    for _ in $(seq "$rounds"); do
        for load in "${loads[@]}"; do
            read -r connections depth keys <<< "$load"
            while read -r side operation _; do
                ! is_side "$side" || ! is_made "$operation" "$keys" ||
                    play "$side" "$operation" "$connections" "$depth" "$keys" >> "$work/$side $operation $load"
            done < <(printf '%s\n' "${cases[@]}")
        done
    done
}

# Of the rounds in a file: thousands of requests a second, microseconds of processor time for each, and tries lost for each; by the median rate.
median() { awk '{ print 1e6 * $1 / $2, $3 / $1 / 1000, $4 / $1 }' "$work/$1" | sort -n | sed -n $((rounds / 2 + 1))p; }

print_row() {
    local load numbers side=$1 operation=$2
    printf '%-26s' "$side ${*:3}"
    for load in "${loads[@]}"; do
        numbers=
        ! is_made "$operation" "${load##* }" || numbers=$(median "$side $operation $load")
        awk '{ if (NF) printf "%11.1f %8.2f", $1, $2; else printf "%11s %8s", "-", "-" }' <<< "$numbers"
    done
    printf '\n'
}

print_lost() {
    local load
    printf '%-26s' '  lost for each stored'
    for load in "${loads[@]}"; do median "memcached cas $load" | awk '{ printf "%20.2f", $3 }'; done
    printf '\n'
}

print_rows() {
    local load connections depth keys side operation name
    printf '%-26s' 'connections, depth, keys'
    for load in "${loads[@]}"; do
        read -r connections depth keys <<< "$load"
        printf '%20s' "$connections, $depth, $keys"
    done
    printf '\n%-26s' ''
    for load in "${loads[@]}"; do printf '%11s %8s' 1000/s us; done
    printf '\n'
    while read -r side operation name; do
        ! is_side "$side" || print_row "$side" "$operation" "$name"
    done < <(printf '%s\n' "${cases[@]}")
    ! is_side memcached || print_lost
}

# Seconds that a run of crates/bench takes, and those of processor time: keys, and how many calls each thread makes.
run_bench() {
    local TIMEFORMAT='%R %U %S' sum
    { time timeout 60 "$bench" calls merge "$1" "$threads" "$2" > "$work/sum" 2>&3; } 3>&2 2>&1
    sum="the sum of the values is $(($1 + threads * $2))"
    [ "$(cat "$work/sum")" = "$sum" ] || fail "bench says '$(cat "$work/sum")', and not '$sum'"
}

# The same line as MergeMap prints, without the time of a start.
merge_in_bench() {
    { run_bench "$1" 0; run_bench "$1" "$calls"; } | awk -v calls=$((threads * calls)) '
        { took[NR] = $1; had[NR] = $2 + $3 } END { print calls, 1e9 * (took[2] - took[1]), 1e9 * (had[2] - had[1]) }'
}

# Sides that merge in one process, in turn, over 1,000 keys and the hot one.
measure_merges() {
    local keys
    for _ in $(seq "$rounds"); do
        for keys in 1000 1; do
            ! is_side bench || merge_in_bench "$keys" >> "$work/bench merge $keys"
            ! is_side java || timeout 60 java -cp "$work" MergeMap "$keys" "$threads" "$calls" >> "$work/java merge $keys"
        done
    done
}

print_merges() {
    local side keys
    is_side bench || is_side java || return 0
    echo "merges in one process, $threads threads: thousands a second, and microseconds of processor time for each"
    for side in bench java; do
        for keys in 1000 1; do
            ! is_side $side || median "$side merge $keys" | awk -v name="$side, keys: $keys" '{ printf "%-26s%11.1f %8.3f\n", name, $1, $2 }'
        done
    done
}

print_memory() {
    if command -v python3 > /dev/null; then
        python3 bench/memory.py --mapd "$mapd" --entries "$entries" --key 16 --value 100
    else
        echo "left out: the memory of mapd and redis, since there is no python3 here"
    fi
    is_side memcached || return 0
    start_memcached
    echo "memcached: $("$work/memcached_load" "$memcached_port" entries 1 1 0 "$memcached_process" "$entries")" \
        "bytes an entry of 16 and 100, from $entries to $((2 * entries))"
}

# Adds a side if its program is there: side, program, where it comes from.
add_side() {
    if command -v "$2" > /dev/null; then
        sides+=("$1")
    else
        echo "left out: $1, since there is no $2 here ($3)"
    fi
}

load_now() { cut -d' ' -f1-3 /proc/loadavg; }

[ -x "$mapd" ] || fail "no server $mapd; run the gate first, or name one in MAPD"
command -v gcc > /dev/null || fail "no gcc here (Debian's package gcc)"
add_side redis redis-server "Debian's package redis-server"
add_side memcached memcached "Debian's package memcached"
add_side bench "$bench" "run the gate of crates/bench"
add_side java javac "Debian's package default-jdk-headless"
gcc -std=gnu99 -O2 -o "$work/redis_load" bench/redis_load.c
gcc -std=gnu99 -O2 -o "$work/memcached_load" bench/memcached_load.c
! is_side java || javac -d "$work" bench/MergeMap.java
before=$(load_now)
start_mapd
! is_side redis || start_redis
! is_side memcached || start_memcached
measure_all
measure_merges
echo "thousands of requests a second, and microseconds of the server's processor time for each"
echo "($(nproc) cores, $workers workers, $rounds rounds of $milliseconds ms; load before $before, after $(load_now); $SECONDS seconds)"
print_rows
print_merges
[ "$entries" = 0 ] || print_memory
