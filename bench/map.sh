#!/usr/bin/env bash
# Times calls on a map that threads share beside a good map in C, bench/table.c, with the same stripes and locks of the same kind. There a
# merge is an addition; its kind `run` is a program too, which a switch runs. Then requests of a session over memory, and walks by teams:
# nine times in turn, and prints the medians. Where it compares two it prints the least times too, since what else the machine does only
# adds to a time. (Of calls by several threads they say little: threads that happen to run one after the other don't wait for each
# other.) By hand, not by the gate. It takes some minutes, since each start with a million keys enters them first, and it stops after
# eight. If a program is built, it takes longer, since all below it is proved first.
source "$(dirname "$0")/common.sh"
rounds=9
SECONDS=0
# seconds that all may take, and one run
all_seconds=480
run_seconds=30

gcc -O2 -pthread -o "$work/table" bench/table.c

# a side, and its words
side() {
    [ $SECONDS -lt $all_seconds ] || { echo "stopped after $SECONDS seconds, at: $*" >&2; exit 1; }
    case $1 in
        table) timeout $run_seconds "$work/table" "${@:2}" ;;
        *) timeout $run_seconds "$bench" "$@" ;;
    esac
}

# the median of the times in a file
median() { sort -n "$1" | sed -n $((rounds / 2 + 1))p; }

# and the least
least() { sort -n "$1" | sed -n 1p; }

# what is measured, kind, keys, threads, how many calls each thread makes, and C's kind if that is another
measure_calls() {
    local answer other
    answer=$(side calls "$2" "$3" "$4" 100)
    other=$(side table "${6:-$2}" "$3" "$4" 100)
    [ "$answer" = "$other" ] || { echo "$2 $3 $4: the map answers '$answer', C '$other'" >&2; exit 1; }
    : > "$work/map.times"
    : > "$work/table.times"
    for _ in $(seq $rounds); do
        elapsed "$5" calls "$2" "$3" "$4" >> "$work/map.times"
        elapsed "$5" table "${6:-$2}" "$3" "$4" >> "$work/table.times"
    done
    echo "$(median "$work/map.times") $(median "$work/table.times") $(least "$work/map.times") $(least "$work/table.times")" |
        awk -v calls=$(($4 * $5)) -v what="$1" '{
            printf "%s: %.2f million calls a second, C %.2f million (ratio of times %.2f, of the least times %.2f)\n",
                what, 1000 * calls / $1, 1000 * calls / $2, $1 / $2, $3 / $4 }'
}

# kind, thousands of requests
measure_session() {
    : > "$work/session.times"
    for _ in $(seq $rounds); do elapsed "$2" session "$1" >> "$work/session.times"; done
    median "$work/session.times" | awk -v requests=$((1000 * $2)) -v what="$1" '{
        printf "%s in a session: %.2f million requests a second, %.0f ns a request\n",
            what, 1000 * requests / $1, $1 / requests }'
}

# kind, entries, how many walks
measure_walk() {
    for workers in 1 2 4; do : > "$work/walk$workers.times"; done
    for _ in $(seq $rounds); do
        for workers in 1 2 4; do elapsed "$3" walk "$1" $workers "$2" >> "$work/walk$workers.times"; done
    done
    echo "$(median "$work/walk1.times") $(median "$work/walk2.times") $(median "$work/walk4.times")" \
        "$(least "$work/walk1.times") $(least "$work/walk4.times")" |
        awk -v walks="$3" -v what="$1 over $2 entries" '{
            printf "%s: %.3f ms with 1 worker, %.3f with 2, %.3f with 4 (4 to 1: ratio %.2f, of the least times %.2f)\n",
                what, $1 / walks / 1e6, $2 / walks / 1e6, $3 / walks / 1e6, $3 / $1, $5 / $4 }'
}

for kind in get put merge; do
    for keys in 1 1000; do
        for threads in 1 2 4; do
            measure_calls "$kind, $keys keys, $threads threads" $kind $keys $threads 1000000
        done
    done
done
for kind in get put merge; do
    for keys in 100000 1000000; do
        measure_calls "$kind, $keys scattered keys, 1 threads" $kind scattered=$keys 1 1000000
    done
done
for keys in 1000 scattered=100000 scattered=1000000; do
    measure_calls "merge, $keys keys, 1 threads, beside a program in C" merge $keys 1 1000000 run
done
measure_calls "merge, a key for each of 4 threads, in stripes side by side" merge near 4 1000000
measure_calls "merge, a key for each of 4 threads, in stripes 8 apart" merge apart 4 1000000
for kind in get put merge; do measure_session $kind 200; done
for kind in for_each for_each_of_none search search_of_none; do measure_walk $kind 100000 20; done
measure_walk mapping_count 1000 2000
