#!/usr/bin/env bash
# Times what is done to bins of many entries: nanoseconds a call, the median of five, the making of the key and its hash among
# them ('nothing' is that alone). Then bytes an entry, by how the greatest memory grows between so many entries and twice as
# many, of 8 and 8 bytes and of the longest keys and values, where GNU time is there; and how much more address space they need. By hand, not by the gate. It takes two minutes.
source "$(dirname "$0")/common.sh"

side() { "$bench" entries "$@"; }

# nanoseconds a call: the work, entries
a_call() {
    local rounds=$((2000000 / $2)) times
    times=$(for _ in 1 2 3 4 5; do elapsed "$rounds" "$1" "$2"; done | sort -n)
    echo $(($(sed -n 3p <<< "$times") / (rounds * $2)))
}

# the greatest number of KiB that the program had: the work, with so many entries
resident() { command time -f %M "$bench" entries "$1" "$2" 0 2>&1 > "$work/out"; }

# bytes an entry: the work, and half of the greater number of entries
bytes_each() { echo "$2 to $((2 * $2)) entries, $1: $((($(resident "$1" $((2 * $2))) - $(resident "$1" "$2")) * 1024 / $2)) bytes an entry"; }

# the fewest MiB of address space in which the program can do its work: the work, with so many entries
address() {
    local low=1 high=65536 middle
    while [ $((high - low)) -gt 1 ]; do
        middle=$(((low + high) / 2))
        if (ulimit -v $((middle * 1024)) && "$bench" entries "$1" "$2" 0) > "$work/out" 2>&1; then high=$middle; else low=$middle; fi
    done
    echo "$high"
}

# bytes of address space an entry: the work, and half of the greater number of entries
address_each() { echo "$2 to $((2 * $2)) entries, $1: $((($(address "$1" $((2 * $2))) - $(address "$1" "$2")) * 1048576 / $2)) bytes of address space an entry"; }

for entries in 1000 100000 1000000; do
    for name in nothing find put remove; do
        echo "$entries entries, $name: $(a_call $name $entries) ns"
    done
done
if type -P time > /dev/null; then
    bytes_each nothing 100000
    bytes_each nothing 1000000
    bytes_each longest 100000
fi
address_each nothing 100000
address_each longest 100000
