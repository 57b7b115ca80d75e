#!/usr/bin/env bash
# Times what `mapd --keep` costs: mapd without it and with it, and, if it is installed, redis-server without a file and with one that it
# appends to (appendfsync everysec), all by turns in one run. Thousands of requests a second and the server's processor time: Merge with the sum
# on 1,000 keys (INCRBY in Redis), by load.c with 16 connections and 64 requests on the way. Then SET on a million keys by redis-benchmark, with
# 16 connections and 16 requests on the way; the time at 99 of 100 of a GET, one by one, beside such a load; how long a SAVE and an orderly end
# take with a million entries, the bytes of the file, and how long the next start takes. By hand, not by the gate; some four minutes. MAPD names
# another server than the one that the gate built; ENTRIES (1000000), REQUESTS (1000000), ROUNDS (3) and FOLDER, the place of
# the files, may be given too.
set -euo pipefail
shopt -s inherit_errexit
cd "$(dirname "$0")/.."
source bench/servers.sh
mapd=$(realpath -m "${MAPD:-crates/mapd/out/mapd}")
rounds=${ROUNDS:-3}
entries=${ENTRIES:-1000000}
requests=${REQUESTS:-1000000}
work=$(mktemp -d "${FOLDER:-/tmp}/keep.XXXXXX")
declare -A process=() port=() frames=()
trap '[ ${#process[@]} = 0 ] || kill "${process[@]}" 2> /dev/null || true; rm -rf "$work"' EXIT

# The side's name, and the options of mapd beside its ports.
start_mapd() {
    "$mapd" --listen 127.0.0.1:0 --redis 127.0.0.1:0 --stripes 64 --workers 4 "${@:2}" > "$work/$1.ready" 2> "$work/$1.told" &
    process[$1]=$!
    await ready "$work/$1.ready"
    frames[$1]=$(sed -n 's/^listening on 127.0.0.1://p' "$work/$1.told")
    port[$1]=$(sed -n 's/^redis on 127.0.0.1://p' "$work/$1.told")
}

# The side's name, its port, and whether it appends to a file. Redis takes no free port by itself, so one is guessed.
start_redis_for() {
    mkdir -p "$work/$1"
    redis-server --port "$2" --bind 127.0.0.1 --save '' --appendonly "$3" --appendfsync everysec --dir "$work/$1" > "$work/$1.told" 2>&1 &
    process[$1]=$!
    await "Ready to accept connections" "$work/$1.told"
    port[$1]=$2
}

start() {
    case $1 in
        mapd) start_mapd mapd ;;
        keep) start_mapd keep --keep "$work/map.db" ;;
        redis) start_redis_for redis $((20000 + $$ % 10000)) no ;;
        appends) start_redis_for appends $((30000 + $$ % 10000)) yes ;;
    esac
}

# Milliseconds since some moment.
now() { echo $(($(date +%s%N) / 1000000)); }

# A Merge load on a side: what load.c prints, as thousands of requests a second and microseconds of processor time for each.
merge() {
    local side=$1 words
    case $side in
        mapd | keep) words="mapd ${frames[$side]} merge" ;;
        *) words="redis ${port[$side]} incrby" ;;
    esac
    # shellcheck disable=SC2086
    timeout 60 "$work/load" $words 16 64 3000 "${process[$side]}" | awk '{ printf "%.1f %.2f\n", 1e6 * $1 / $2, $3 / $1 / 1000 }'
}

# redis-benchmark on a side: a test, how many requests, connections, and requests on the way; a line of thousands a second and the time at 99.
benchmark() {
    redis-benchmark -p "${port[$1]}" --csv -t "$2" -n "$3" -r "$entries" -c "$4" -P "$5" -d 8 2> /dev/null < /dev/null |
        tail -1 | tr -d '"' | awk -F, '{ printf "%.1f %.3f\n", $2 / 1000, $7 }'
}

# Sets keys on a side without end, by the process `load`.
set_on() {
    redis-benchmark -p "${port[$1]}" -t set -n 1000000000 -r "$entries" -c 16 -P 16 -d 8 > "$work/beside" 2>&1 < /dev/null &
    load=$!
}

median() { sort -n | sed -n $(((rounds + 1) / 2))p; }

# A side, and a name of what was measured: the medians.
print_median() { cut -d' ' -f1 "$work/$1.$2" | median; }

# Merges come first: later a save of a million keys would be on its way.
measure_merges() {
    local side
    for _ in $(seq "$rounds"); do
        for side in "${sides[@]}"; do merge "$side" >> "$work/$side.merge"; done
    done
}

measure_loads() {
    local side
    for _ in $(seq "$rounds"); do
        for side in "${sides[@]}"; do
            benchmark "$side" set "$requests" 16 16 >> "$work/$side.set"
            set_on "$side"
            benchmark "$side" get $((requests / 20)) 8 1 >> "$work/$side.get"
            kill "$load"
            wait "$load" 2> /dev/null || true
            cut -d' ' -f2 "$work/$side.get" | sed 's/$/ x/' > "$work/$side.get99"
        done
    done
}

# Sets each entry once, by one client that only writes.
fill() {
    python3 - "$entries" << 'END' | redis-cli -p "${port[$1]}" --pipe > "$work/filled" 2>&1 || fail "$(cat "$work/filled")"
import sys
for number in range(int(sys.argv[1])):
    key = b"entry:%d" % (number * 2654435761 % (1 << 32))
    sys.stdout.buffer.write(b"*3\r\n$3\r\nSET\r\n$%d\r\n%b\r\n$8\r\n%08d\r\n" % (len(key), key, number))
END
}

# Milliseconds of a SAVE after all entries were set, of the end, and of the next start; and the bytes of the files.
measure_files() {
    local begun saved ended side=$1
    fill "$side"
    begun=$(now)
    [ "$side" != keep ] || redis-cli -p "${port[$side]}" save > /dev/null
    saved=$(now)
    redis-cli -p "${port[$side]}" shutdown nosave > /dev/null 2>&1 || true
    wait "${process[$side]}" 2> /dev/null || true
    ended=$(now)
    start "$side"
    echo "$side: SAVE $((saved - begun)) ms, end $((ended - saved)) ms, start $(($(now) - ended)) ms, $(redis-cli -p "${port[$side]}" dbsize) entries," \
        "files of $(du -cb "$work"/map.db* "$work/$side"/appendonlydir 2> /dev/null | tail -1 | cut -f1) bytes"
}

load_now() { cut -d' ' -f1-3 /proc/loadavg; }

[ -x "$mapd" ] || fail "no server $mapd; run the gate first, or name one in MAPD"
command -v gcc redis-benchmark redis-cli > /dev/null || fail "it needs gcc, redis-benchmark and redis-cli (Debian's packages gcc and redis-tools)"
gcc -std=c99 -O2 -pthread -o "$work/load" bench/load.c
before=$(load_now)
sides=(mapd keep)
[ -z "$(command -v redis-server)" ] || sides+=(redis appends)
for side in "${sides[@]}"; do start "$side"; done
measure_merges
measure_loads
printf '%-10s %22s %22s %20s\n' '' 'merge: 1000/s, us' 'SET: 1000/s' 'GET at 99: ms'
for side in "${sides[@]}"; do
    printf '%-10s %14.1f %7.2f %22.1f %20.3f\n' "$side" "$(print_median "$side" merge)" "$(cut -d' ' -f2 "$work/$side.merge" | median)" \
        "$(print_median "$side" set)" "$(print_median "$side" get99)"
done
measure_files keep
[ ${#sides[@]} = 2 ] || measure_files appends
echo "$(nproc) cores; load before $before, afterwards $(load_now); $SECONDS seconds"
