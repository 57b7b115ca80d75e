#!/usr/bin/env bash
# Counts the instructions that the C client takes for a call, by callgrind: its own and those of libc, without the system's. MAPD names
# the server, else it is the built one. By hand, not by the gate.
set -euo pipefail
shopt -s inherit_errexit
cd "$(dirname "$0")/.."
mapd=$(realpath -m "${MAPD:-crates/mapd/out/mapd}")
command -v valgrind > /dev/null || { echo "bench/client.sh: no valgrind here" >&2 && exit 1; }
work=$(mktemp -d)
server=
trap '[ -z "$server" ] || kill "$server" 2> /dev/null || true; rm -rf "$work"' EXIT

gcc -std=c99 -O2 -g -o "$work/client" bench/client.c
"$mapd" --listen 127.0.0.1:0 > "$work/ready" 2> "$work/listening" &
server=$!
for _ in $(seq 200); do
    [ ! -s "$work/ready" ] || break
    sleep 0.05
done
port=$(sed -n 's/^listening on 127.0.0.1://p' "$work/listening")

# the instructions of a whole run: a kind of call, how many
instructions() {
    valgrind --tool=callgrind --callgrind-out-file=/dev/null "$work/client" "$port" "$1" "$2" 2>&1 |
        sed -n 's/.*Collected : \([0-9]*\).*/\1/p'
}

for call in get put put_unread merge pipeline; do
    first=$(instructions $call 1000)
    second=$(instructions $call 2000)
    echo "$call: $(((second - first) / 1000)) instructions"
done
