#!/usr/bin/env bash
# Times walks over 100,000 entries of 8 and 8 bytes in mapd, in Java's ConcurrentHashMap and in Redis, in one run and by turns: a search that
# finds nothing, a for-each whose function answers nothing, and a search whose every key hits; of mapd alone also a for-each whose every key is
# answered, until its first byte comes, and until all have. Keys are in no order, and each value is 1.
# mapd has 64 stripes and one worker, and answers a Search or ForEach with threshold 0: the worker walks itself, or a team of four does.
# Java walks by one thread, and by all, in the process that has the map: no request is sent, and all its values are one object. Redis runs a
# script by EVALSHA, which goes through SCAN with COUNT 1000, reads each key by a GET, or each page by an MGET, and compares the bytes. If
# every key hits, mapd answers for the least key, so it looks at all; Java and Redis end at the first that they meet.
# It prints milliseconds: the median of the rounds, and in each round the median of its calls. For mapd and Redis that is the time of a
# client in Python, from before it sends until it has read the whole answer; the last row has one Get alone. The clients are walks.py and
# WalkMap.java, and check each answer. What isn't installed is left out. Clients and servers share the machine. By hand, not by the gate;
# some 80 seconds, and after 120 no further round begins. MAPD names another server than the one that the gate built; ROUNDS (5),
# MILLISECONDS (300, of a side's calls of one kind in a round) and ENTRIES (100000) may be given too.
set -euo pipefail
shopt -s inherit_errexit
cd "$(dirname "$0")/.."
source bench/servers.sh
mapd=$(realpath -m "${MAPD:-crates/mapd/out/mapd}")
rounds=${ROUNDS:-5}
milliseconds=${MILLISECONDS:-300}
entries=${ENTRIES:-100000}
# seconds after which no further round begins
all_seconds=120
# a kind of call, and what it is called
kinds=("search search, no hit" "for_each for-each, no answer" "hit search, all hit" "first for-each, all answer: first byte"
    "whole for-each, all answer: all bytes" "get one Get")
# whose times are printed, and what they are called; Java has two of them
columns=("mapd mapd" "team team of four" "java Java" "parallel parallel" "redis Redis" "mget by MGET")
sides=(mapd team)
declare -A ports
processes=()
SECONDS=0
work=$(mktemp -d)
trap '[ ${#processes[@]} = 0 ] || kill "${processes[@]}" 2> /dev/null || true; rm -rf "$work"' EXIT

# A side, and how many threads walk for its worker.
start_mapd() {
    "$mapd" --listen 127.0.0.1:0 --workers 1 --team "$2" --stripes 64 > "$work/$1.ready" 2> "$work/$1.listening" &
    processes+=("$!")
    await ready "$work/$1.ready"
    ports[$1]=$(sed -n 's/^listening on 127.0.0.1://p' "$work/$1.listening")
}

# Whether the programs of a side are there: the side, where they come from, the programs.
has() {
    local program
    for program in "${@:3}"; do
        command -v "$program" > /dev/null || { echo "left out: $1, since there is no $program here ($2)"; return 1; }
    done
}

# Whether a side makes calls of a kind.
is_made() {
    case $2 in
        get) [ "$1" = mapd ] || [ "$1" = redis ] ;;
        first | whole) [ "$1" = mapd ] || [ "$1" = team ] ;;
    esac
}

# A side and a kind: lines of a column and nanoseconds.
play() {
    case $1 in
        java) timeout --foreground 60 java -cp "$work" WalkMap "$2" "$entries" "$milliseconds" ;;
        *) timeout --foreground 60 python3 bench/walks.py "$1" "${ports[$1]}" "$2" "$entries" "$milliseconds" ;;
    esac
}

# In each round all sides make calls of a kind in turn. Counts the rounds.
measure_all() {
    local kind side
    for ((made = 0; made < rounds && SECONDS < all_seconds; made++)); do
        for kind in "${kinds[@]%% *}"; do
            for side in "${sides[@]}"; do
                ! is_made "$side" "$kind" || play "$side" "$kind" >> "$work/$kind.times"
            done
        done
    done
}

# Of the rounds of a column and a kind: the median in milliseconds; nothing if there are none.
median() {
    sed -n "s/^$1 //p" "$work/$2.times" | sort -n | awk '
        { took[NR] = $1 / 1e6 }
        END {
            time = took[int((NR + 1) / 2)]
            digits = time >= 10 ? 0 : time >= 1 ? 1 : time >= 0.01 ? 2 : 5
            if (NR) printf "%." digits "f", time
        }'
}

# A kind, and what it is called.
print_row() {
    local column name time separator=:
    printf '%s' "${*:2}"
    while read -r column name; do
        time=$(median "$column" "$1")
        [ -n "$time" ] || continue
        printf '%s %s %s' "$separator" "$name" "$time"
        separator=,
    done < <(printf '%s\n' "${columns[@]}")
    printf '\n'
}

load_now() { cut -d' ' -f1-3 /proc/loadavg; }

[ -x "$mapd" ] || fail "no server $mapd; run the gate first, or name one in MAPD"
command -v python3 > /dev/null || fail "no python3 here (Debian's package python3)"
if has Java "Debian's package default-jdk-headless" java javac; then
    javac -d "$work" bench/WalkMap.java
    sides+=(java)
fi
before=$(load_now)
start_mapd mapd 1
start_mapd team 4
play mapd fill
play team fill
if has Redis "Debian's package redis-server" redis-server; then
    start_redis
    ports[redis]=$redis_port ports[mget]=$redis_port
    play redis fill
    sides+=(redis mget)
fi
measure_all
echo "milliseconds over $entries entries"
echo "($(nproc) cores, $made rounds of $milliseconds ms; load before $before, after $(load_now); $SECONDS seconds)"
while read -r kind name; do print_row "$kind" "$name"; done < <(printf '%s\n' "${kinds[@]}")
