#!/usr/bin/env bash
# Runs the clients through TLS: the built mapd, a stunnel in front of it and one in front of the clients, by the two files that
# docs/SERVER.md has, as they stand but for ports and folder. Each client runs the three examples; a stranger is served nothing.
# By .ci/run, after the gate, which builds the program. MAPD names another program to try.
set -euo pipefail
cd "$(dirname "$0")/.."
program=${MAPD:-crates/mapd/out/mapd}
# shellcheck source=tests/common.sh
. tests/common.sh
type -P stunnel openssl > /dev/null || { echo "tls: no stunnel or no openssl here (Debian's stunnel4), so nothing was tried"; exit 0; }
started=()
trap '[ ${#started[@]} = 0 ] || kill "${started[@]}" 2> /dev/null || true; rm -rf "${work:?}"' EXIT

# Waits for a line of this pattern in the file that a process writes, for ten seconds at most.
wait_for() {
    for _ in $(seq 500); do
        ! grep -Eq "$1" "$2" 2> /dev/null || return 0
        kill -0 "${started[-1]}" 2> /dev/null || break
        sleep 0.02
    done
    return 1
}

# Starts the server on a port, 0 for a free one, and sets `port`.
start() {
    : > "$work/ready"
    "$program" --listen "127.0.0.1:$1" > "$work/ready" 2> "$work/listening" &
    started+=($!)
    wait_for '^ready$' "$work/ready" || { echo "tls: $program does not listen: $(cat "$work/listening")"; exit 1; }
    port=$(sed -n 's/^listening on 127.0.0.1://p' "$work/listening")
}

# Ends the process that was started last.
stop() {
    kill "${started[-1]}"
    wait "${started[-1]}" 2> /dev/null || true
    unset 'started[-1]'
}

# A name, the file as docs/SERVER.md has it, and a command of sed for it: starts a stunnel, and sets `bound` to the port on which it
# listens. It takes a port at random, since stunnel doesn't say which it got for 0, and another one if that is taken.
tunnel() {
    for _ in $(seq 20); do
        bound=$((20000 + RANDOM % 12000))
        sed -E "s#/etc/stunnel/#$work/#; s#^accept = .*#accept = 127.0.0.1:$bound#; $3" "$work/$2.conf" > "$work/$1.of"
        stunnel "$work/$1.of" > "$work/$1.log" 2>&1 &
        started+=($!)
        ! wait_for 'Configuration successful' "$work/$1.log" || return 0
        wait "${started[-1]}" 2> /dev/null || true
        unset 'started[-1]'
    done
    echo "tls: stunnel does not listen: $(cat "$work/$1.log")"
    exit 1
}

# Writes the block that docs/SERVER.md has for a file of /etc/stunnel, whose first line names it.
write_block() {
    awk -v first="# /etc/stunnel/$1" '/^```/ { is_told = 0 } $0 == first { is_told = 1 } is_told' docs/SERVER.md > "$work/$1"
    [ -s "$work/$1" ] || { echo "tls: docs/SERVER.md has no file $1"; exit 1; }
}

# What the examples' page says that an example prints.
told() {
    awk -v name="**$1**" '
        index($0, name) == 1 { is_named = 1 }
        /^```$/ { if (is_told) exit }
        is_told { print }
        is_named && /^```text$/ { is_told = 1 }' examples/clients/README.md
}

# Whether a command, with the host and port of the tunnel at its end, prints what the example of this name is said to. The server in
# front of which the tunnel stands is begun anew for it, on its old port.
prints() {
    local name=$1
    shift
    stop
    start "$port"
    got=0
    timeout 60 "$@" 127.0.0.1 "$entrance" > "$work/out" 2> "$work/err" || got=$?
    told "$name" > "$work/told"
    [ "$got" = 0 ] && [ -s "$work/told" ] && diff "$work/told" "$work/out"
}

# Says Hello to this port.
hello() {
    got=0
    timeout 20 bash -c "exec 3<>/dev/tcp/127.0.0.1/$1; printf '\\0\\0\\0\\2\\0\\1' >&3; head -c 6 <&3 | od -An -tx1" \
        > "$work/out" 2> "$work/err" || got=$?
}

# Whether the Hello was answered.
is_welcome() {
    [ "$(cat "$work/out")" = " 00 00 00 02 80 01" ]
}

# Whether a Hello to this port is not answered, since the server's stunnel refused it.
is_refused() {
    local refused
    refused=$(grep -c 'SSL_accept: ' "$work/server.log") || true
    hello "$1"
    ! is_welcome && [ "$(grep -c 'SSL_accept: ' "$work/server.log")" -gt "$refused" ]
}

# Each client that can be run here, through the tunnel.
run_clients() {
    local name camel
    for name in hit_counter token_bucket session_store; do
        camel=$(sed -E 's/(^|_)(.)/\U\2/g' <<< "$name")
        if type -P python3 > /dev/null; then
            PYTHONPATH=clients/python judge "Python: $name" prints "$name" python3 "examples/clients/python/$name.py"
        fi
        if type -P javac java > /dev/null; then
            [ -d "$work/java" ] || javac -d "$work/java" clients/java/src/bpfmap/*.java examples/clients/java/*.java
            judge "Java: $name" prints "$name" java -cp "$work/java" "$camel"
        fi
        if type -P gcc > /dev/null; then
            gcc -std=c99 -Iclients/c -o "$work/$name" "examples/clients/c/$name.c"
            judge "C: $name" prints "$name" "$work/$name"
        fi
    done
}

for name in mapd.conf map.conf; do write_block $name; done
printf 'alice:%s\n' "$(openssl rand -hex 32)" > "$work/mapd.secrets"
cp "$work/mapd.secrets" "$work/map.secret"
printf 'alice:%s\n' "$(openssl rand -hex 32)" > "$work/another"
chmod 600 "$work/mapd.secrets" "$work/map.secret" "$work/another"

start 0
served=$port
stop
tunnel server mapd "s/^connect = .*/connect = 127.0.0.1:$served/"
inside=$bound
tunnel client map "s/^connect = .*/connect = 127.0.0.1:$inside/"
entrance=$bound
tunnel stranger map "s/^connect = .*/connect = 127.0.0.1:$inside/; s#$work/map.secret#$work/another#"
start "$served"
hello "$entrance"
judge "a friend" is_welcome
judge "a stranger" is_refused "$bound"
run_clients
judge "a client without TLS" is_refused "$inside"

echo "tls: $passed passed, $failed failed"
[ "$failed" = 0 ]
