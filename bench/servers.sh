# For the scripts here that start servers: how they end if something fails, how they wait for a server, and
# Redis, in the folder $work and among $processes.
fail() {
    echo "$(basename "$0"): $*" >&2
    exit 1
}

# Waits until a file has this text, for a minute.
await() {
    for _ in $(seq 6000); do
        ! grep -q "$1" "$2" || return 0
        sleep 0.01
    done
    fail "a server did not say '$1': $(cat "$2")"
}

# Starts a Redis that keeps nothing, with these words more. It takes no free port by itself, so one is guessed.
start_redis() {
    redis_port=$((20000 + $$ % 10000))
    redis-server --port $redis_port --bind 127.0.0.1 --save '' --appendonly no --dir "$work" "$@" > "$work/redis" 2>&1 &
    redis_process=$!
    processes+=("$redis_process")
    await "Ready to accept connections" "$work/redis"
}
