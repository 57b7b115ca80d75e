#!/usr/bin/env python3
"""The built mapd with keys whose time ends: a lock that clients take for 60 ms each, and some of them crash; 100,000 keys that are over at once;
a token bucket by the server's clock; a clock that jumps. redis_expiring.py has the histories of keys that expire under their clients.

By hand, after `rt run` in crates/mapd: python3 tests/redis_deadlines.py. Another server is tried by --program; if that is redis-server,
what Redis has is tried. --only names a part. --million sets a million keys whose time ends within one minute, and looks at the memory.
By .ci/run behind the gate."""
from __future__ import annotations

import argparse
import os
import random
import sys
import threading
import time
from collections.abc import Callable
from pathlib import Path

sys.path.insert(0, str(Path(__file__).resolve().parent))
sys.dont_write_bytecode = True
import redis_clock as clock  # noqa: E402
import redis_streams as streams  # noqa: E402
import redis_times as times  # noqa: E402
import redis_wire as resp  # noqa: E402
import wire  # noqa: E402
from redis_wire import Client, started  # noqa: E402
from wire import Wrong, same  # noqa: E402

CLIENTS = 20
SECONDS = 3
LEASE = 60
YES = resp.integer(1)

# A bucket of ten tokens, into which one comes every five milliseconds. Its value is twice the time at which it is full again, and one more
# if the last call was granted as many tokens as it asked for.
CAPACITY, EVERY = 10, 5
BUCKET = f"""#!bpf compute integer 64 8 16 8 with-now
ldd r0, [r2+0]
rsh64 r0, 1
ldd r9, [r3+0]          ; the time
jge64 r0, r9, +1
mov64 r0, r9            ; a full bucket is as if it were full now
ldd r5, [r3+8]          ; how many are asked for
jle64 r5, {CAPACITY}, +1
mov64 r5, {CAPACITY + 1}
mul64 r5, {EVERY}
add64 r5, r0            ; then it would be full again at this time
add64 r9, {CAPACITY * EVERY}
jgt64 r5, r9, +4
lsh64 r5, 1
or64 r5, 1
stxd [r4+0], r5
ja +2
lsh64 r0, 1
stxd [r4+0], r0
mov64 r0, 8
exit
"""


def milliseconds() -> int:
    """The time by the clock that this machine's servers read too."""
    return time.time_ns() // 1_000_000


def in_threads(count: int, work: Callable[[int], None]) -> None:
    """Does work(0) to work(count - 1) side by side; fails if one of them fails."""
    wrong: list[BaseException] = []

    def guarded(number: int) -> None:
        try:
            work(number)
        except BaseException as error:
            wrong.append(error)

    threads = [threading.Thread(target=guarded, args=(number,)) for number in range(count)]
    for thread in threads:
        thread.start()
    for thread in threads:
        thread.join()
    if wrong:
        raise wrong[0]


class Contender:
    """A client that takes the lock again and again, and writes down from when to when it surely held it."""

    def __init__(self, address: str, number: int) -> None:
        self.address = address
        self.dice = random.Random(number)
        self.client = Client(address)
        self.holds: list[tuple[int, int]] = []
        self.crashes = self.losses = 0

    def play(self, until: float) -> None:
        """Takes the lock until the time is over."""
        while time.monotonic() < until:
            token, asked = self.dice.randbytes(8).hex(), milliseconds()
            reply = self.client.ask("SET", "lock", token, "NX", "PX", LEASE)
            if reply == resp.OK:
                self.hold(token, milliseconds(), asked + LEASE)
            else:
                same("the lock is another's", reply, resp.NOTHING)
                time.sleep(self.dice.random() / 200)

    def hold(self, token: str, since: int, until: int) -> None:
        """Holds the lock for a while, which may be longer than its time, may ask for more time, and lets it go, or crashes."""
        way = self.dice.random()
        if way < 0.3:
            self.crashes += 1
            self.holds.append((since, until))
            self.client.socket.close()
            self.client = Client(self.address)
            return
        # it is too late, or in time
        time.sleep((1.1 if way < 0.5 else 0.5 * self.dice.random()) * LEASE / 1000)
        if way > 0.8:
            asked = milliseconds()
            if self.client.ask("EVALSHA", times.REACQUIRE_NAME, 1, "lock", token, LEASE) == YES:
                until = asked + LEASE
            time.sleep(self.dice.random() * LEASE / 1000)
        until = min(until, milliseconds())
        self.losses += self.client.ask("EVALSHA", streams.RELEASE, 1, "lock", token) != YES
        self.holds.append((since, until))


def lock_has_one_holder(program: Path) -> None:
    """Clients take one lock for 60 ms each. Some release it, in time or too late, some get more time, and some crash. No two of them hold
    it at once, and a crash doesn't keep the others from it."""
    with started(program, "--workers", "4") as server:
        load_lua(server.address)
        contenders = [Contender(server.address, number) for number in range(CLIENTS)]
        until = time.monotonic() + SECONDS
        in_threads(CLIENTS, lambda number: contenders[number].play(until))
    holds = sorted((since, until) for one in contenders for since, until in one.holds if since < until)
    for (_, until), (since, _) in zip(holds, holds[1:]):
        same("nobody takes a lock that another holds", since >= until, True)
    crashes, losses = (sum(getattr(one, name) for one in contenders) for name in ("crashes", "losses"))
    same("some crash, some are too late, and others get the lock after them", (crashes > 2, losses > 1, len(holds) > 3 * crashes / 2),
         (True, True, True))
    print(f"redis_deadlines: the lock was held {len(holds)} times; {crashes} of its holders crashed, and {losses} were too late")


def load_lua(address: str) -> None:
    """Lets a redis-server know the scripts on locks. mapd refuses the texts, and knows their names."""
    with Client(address) as client:
        for text in (times.RELEASE, times.EXTEND, times.REACQUIRE):
            client.ask("SCRIPT", "LOAD", text)


def fill(client: Client, count: int, first: int, span: int) -> None:
    """Sets this many keys of 16 bytes with values of 100, whose time ends from the first moment on, spread over this span."""
    for begin in range(0, count, 1000):
        client.socket.sendall(b"".join(
            resp.command("SET", b"key %012d" % number, b"v" * 100, "PXAT", first + number * span // count)
            for number in range(begin, min(begin + 1000, count))))
        same("the SETs", {client.reply() for _ in range(begin, min(begin + 1000, count))}, {resp.OK})


def size(client: Client) -> int:
    """What DBSIZE says."""
    return int(client.ask("DBSIZE")[1:])


def processor_time(server: resp.Front | resp.Redis) -> float:
    """How many seconds of processor time the server has had."""
    fields = Path(f"/proc/{server.process.pid}/stat").read_text().rpartition(")")[2].split()
    return (int(fields[11]) + int(fields[12])) / os.sysconf("SC_CLK_TCK")


def see_them_go(server: resp.Front | resp.Redis, client: Client, at: int) -> str:
    """Waits until all keys with this deadline are gone. Who asks for another key meanwhile is served at once. What was seen."""
    begun, slowest = processor_time(server), 0.0
    while size(client) > 1 and milliseconds() < at + 60_000:
        asked = time.monotonic()
        same("a key without a deadline", client.ask("GET", "stays"), resp.value(b"1"))
        slowest = max(slowest, time.monotonic() - asked)
        time.sleep(0.01)
    took, had = milliseconds() - at, processor_time(server) - begun
    same("the keys that are left", size(client), 1)
    if "MAPD_IS_CHECKED" not in os.environ:
        same("a GET beside them takes less than half a second", slowest < 0.5, True)
        same("the server takes less than two seconds of processor time to remove them", had < 2, True)
    return f"gone {took} ms after their time, by {had:.1f} s of processor time; a GET beside them took {1000 * slowest:.0f} ms at most"


def entries_go_by_themselves(program: Path) -> None:
    """100,000 keys whose time ends at once, twice: nobody asks for them, and a moment later there are none, and their memory serves others."""
    count, full = 100_000, []
    with started(program, "--workers", "2") as server, Client(server.address) as client:
        client.ask("SET", "stays", "1")
        begun = milliseconds()
        fill(client, count // 10, begun + 60_000, 0)
        patience = max(2000, 20 * (milliseconds() - begun))
        for _ in range(2):
            at = milliseconds() + patience
            fill(client, count, at, 0)
            same("all keys were set in time", milliseconds() < at, True)
            same("all keys are there", size(client), count + 1)
            full.append(resp.resident(server))
            time.sleep(max(0, at - milliseconds()) / 1000)
            seen = see_them_go(server, client, at)
        same("one of them", client.ask("EXISTS", b"key %012d" % 7), resp.integer(0))
        time.sleep(1)
        left = resp.resident(server)
    print(f"redis_deadlines: {count} keys were {seen}; memory was {full[0] >> 20} MiB, the second time {full[1] >> 20}, and then {left >> 20}")
    if "MAPD_IS_CHECKED" not in os.environ:
        same("the second time takes the memory of the first", full[1] < 1.25 * full[0], True)


def bucket_is_bounded(program: Path) -> None:
    """Clients that take tokens from one bucket as fast as they can get as many as have come into it, by the server's clock."""
    if program.name == "redis-server":
        return
    granted = [0] * CLIENTS
    with started(program, "--workers", "4") as server:
        with Client(server.address) as client:
            name = resp.text_of(client.ask("SCRIPT", "LOAD", BUCKET))
        begun, until = milliseconds(), time.monotonic() + SECONDS / 2

        def take(number: int) -> None:
            with Client(server.address) as client:
                while time.monotonic() < until:
                    wanted = number % 3 + 1
                    granted[number] += wanted * (int(client.ask("EVALSHA", name, 1, "bucket", wanted)[1:]) % 2)

        in_threads(CLIENTS, take)
        passed = milliseconds() - begun
    came = CAPACITY + passed // EVERY + 1
    same("no more are taken than came", sum(granted) <= came, True)
    same("nearly all are taken", sum(granted) > came * 0.8, True)
    print(f"redis_deadlines: {sum(granted)} tokens of at most {came} were taken from a bucket")


def clock_may_jump(program: Path) -> None:
    """The clock jumps an hour forth and back again. What was seen to be over stays away, and what has no deadline isn't touched."""
    if not clock.is_possible():
        print("redis_deadlines: no gcc here, so no clock jumped")
        return
    hour = 3_600_000
    with clock.Held() as held, started(program, "--workers", "2", environment=held.environment) as server, Client(server.address) as client:
        for words in (("SET", "a", "1", "EX", 60), ("SET", "b", "1", "EX", 7200), ("SET", "c", "1")):
            same("a SET", client.ask(*words), resp.OK)
        begun, latest = held.now, held.now + hour
        held.move(hour)
        same("after an hour", [client.ask("GET", name) for name in "abc"], [resp.NOTHING, resp.value(b"1"), resp.value(b"1")])
        same("what is left", client.ask("TTL", "b"), resp.integer(3600))
        for by in (-hour, -hour, 3 * hour // 2, -hour // 2):
            held.move(by)
            same("what was over", client.ask("GET", "a"), resp.NOTHING)
            same("what wasn't", [client.ask("GET", name) for name in "bc"], [resp.value(b"1")] * 2)
            same("a new key", [client.ask("SET", "d", "1", "EX", 60), client.ask("GET", "d")], [resp.OK, resp.value(b"1")])
            left = int(client.ask("PTTL", "b")[1:])
            latest = max(latest, held.now)
            same("what is left, by the latest time", left == begun + 2 * hour - latest or program.name == "redis-server", True)
        held.move(4 * hour)
        same("in the end", [client.ask("GET", name) for name in "abcd"], [resp.NOTHING, resp.NOTHING, resp.value(b"1"), resp.NOTHING])


def million_go_in_a_minute(program: Path) -> None:
    """A million keys are set again and again, so that each second some 17,000 are over: their memory stays as it is."""
    count, minute = 1_000_000, 60_000
    with started(program, "--workers", "2") as server, Client(server.address) as client:
        sizes: list[tuple[int, int]] = []
        for number in range(5):
            begun = milliseconds()
            fill(client, count, begun + 30_000, minute)
            sizes.append((size(client), resp.resident(server) >> 20))
            print(f"redis_deadlines: a million set in {(milliseconds() - begun) / 1000:.1f} s; keys and MiB: {sizes[-1]}", flush=True)
            time.sleep(max(0.0, (begun + minute - milliseconds()) / 1000))
            print(f"redis_deadlines: a minute after that began: {size(client)} keys, {resp.resident(server) >> 20} MiB", flush=True)
        time.sleep(35)
        print(f"redis_deadlines: at the end {size(client)} keys, {resp.resident(server) >> 20} MiB")
        same("all are gone", size(client), 0)
        same("memory doesn't grow", sizes[-1][1] < 1.2 * sizes[1][1], True)


PARTS = [lock_has_one_holder, entries_go_by_themselves, bucket_is_bounded, clock_may_jump]


def main() -> None:
    words = argparse.ArgumentParser()
    words.add_argument("--program", type=Path, default=wire.SERVER)
    words.add_argument("--only")
    words.add_argument("--million", action="store_true")
    asked = words.parse_args()
    parts = [million_go_in_a_minute] if asked.million else [part for part in PARTS if asked.only in (None, part.__name__)]
    failed = 0
    for part in parts:
        try:
            part(asked.program)
        except (Wrong, wire.Ended, OSError) as wrong:
            print(f"redis_deadlines: {part.__name__} FAILED: {type(wrong).__name__}: {wrong}")
            failed += 1
    print(f"redis_deadlines: {len(parts)} parts, {failed} failed")
    sys.exit(bool(failed))


if __name__ == "__main__":
    main()
