#!/usr/bin/env bash
# Times 100 working clients of mapd's Redis port alone, and then beside 5,000 that send a byte a second and 2,000 that never read what they
# asked for (crowd.c). By hand, not by the gate; half a minute. It needs 15,000 descriptors. MAPD names another server than the one that the
# gate built; WORKERS (4), WORKING (100), DRIPPING (5000), DEAF (2000) and MILLISECONDS (5000) may be given too.
set -euo pipefail
cd "$(dirname "$0")/.."
source bench/servers.sh
mapd=$(realpath -m "${MAPD:-crates/mapd/out/mapd}")
work=$(mktemp -d)
server=
trap '[ -z "$server" ] || kill "$server" 2> /dev/null || true; rm -rf "$work"' EXIT
ulimit -n 15000
gcc -O2 -Wall -Wextra -Werror -o "$work/crowd" bench/crowd.c
"$mapd" --redis 127.0.0.1:0 --workers "${WORKERS:-4}" --clients 10000 > "$work/ready" 2> "$work/listening" &
server=$!
await ready "$work/ready"
port=$(sed -n 's/^redis on 127.0.0.1://p' "$work/listening")
"$work/crowd" "$port" "${WORKING:-100}" "${DRIPPING:-5000}" "${DEAF:-2000}" "${MILLISECONDS:-5000}"
awk '/^VmRSS/ { printf "the server has %d MiB of memory\n", $2 / 1024 }' "/proc/$server/status"
