#!/usr/bin/env python3
"""Sends the same random streams of commands to `mapd --redis` and to a redis-server, in pieces cut at random, and compares all bytes that
come back. The streams have each command that mapd serves, right and wrong, as arrays and as lines (redis_streams.py, and redis_times.py for
those with deadlines). Both servers' clocks are held by the test, so that what is left of a deadline is the same for both, and hours pass
between two streams. KEYS, SCAN and RANDOMKEY choose an order, so what they give is compared without one. What differs by design is
NOT_COMPARED: redis_front.py has rows for it.

By hand, after `rt run` in crates/mapd: python3 tests/redis.py [COMMANDS [SEED]]. Another server than the built one is tried by
--program; if that is redis-server, the streams are tried. By .ci/run behind the gate. It needs Debian's redis-server, and gcc for the
clock, and says so if one is missing."""
from __future__ import annotations

import argparse
import contextlib
import random
import shutil
import sys
import time
from pathlib import Path

sys.path.insert(0, str(Path(__file__).resolve().parent))
sys.dont_write_bytecode = True
import redis_clock as clock  # noqa: E402
import redis_streams as streams  # noqa: E402
import redis_times as times  # noqa: E402
import redis_wire as resp  # noqa: E402
import wire  # noqa: E402
from redis_wire import Client  # noqa: E402
from wire import Wrong, same  # noqa: E402

NOT_COMPARED = ("INFO", "SAVE, BGSAVE, LASTSAVE, SHUTDOWN and DEBUG", "HELLO 2 and 3", "COMMAND", "CONFIG GET", "CLIENT ID, LIST, INFO and SETINFO", "EVAL and SCRIPT LOAD",
                "SET with IFEQ", "DELIFEQ", "the millisecond of a deadline", "a wrong time in a GETEX of no key", "words beyond mapd's limits",
                "cursors that are no decimals", "commands that mapd hasn't")
# One stream in so many ends in bytes that are no command, and one walk comes after so many.
FAULTY = 12
WALKS = 25


def sent_to(client: Client, pieces: list[bytes], is_slow: bool) -> None:
    """Sends the pieces, with a moment between them if it is to be slow."""
    for piece in pieces:
        client.socket.sendall(piece)
        if is_slow:
            time.sleep(0.0003)


class Streams:
    """Streams of commands to two servers, and a count of them."""

    def __init__(self, ours: str, theirs: str, held: clock.Held | None, seed: int) -> None:
        self.addresses = (ours, theirs)
        self.held = held
        self.dice = random.Random(seed)
        self.clients = [Client(address) for address in self.addresses]
        self.commands = self.streams = self.walks = self.faults = self.waited = 0
        self.kinds = streams.COMMANDS + (times.Times(lambda: held.now).commands() if held else [])
        for name, text in ((streams.RELEASE, times.RELEASE), (times.EXTEND_NAME, times.EXTEND), (times.REACQUIRE_NAME, times.REACQUIRE)):
            loaded = [client.ask("SCRIPT", "LOAD", text) for client in self.clients]
            same("the digest of a script on locks, which mapd knows without its text", loaded[1], resp.value(name.encode()))

    def answers(self, sent: bytes, mark: bytes) -> list[bytes]:
        """What both servers answer up to the mark."""
        pieces, is_slow = list(streams.cut(self.dice, sent)), self.dice.random() < 0.05
        for client in self.clients:
            sent_to(client, pieces, is_slow)
        return [client.until(mark) for client in self.clients]

    def compare(self, told: list[list[bytes]], answers: list[bytes]) -> None:
        """Fails if the answers differ, with the first command of which they do."""
        if answers[0] == answers[1]:
            return
        ours, theirs = map(resp.replies_in, answers)
        for place, words in enumerate(told):
            if place >= len(ours) or place >= len(theirs) or ours[place] != theirs[place]:
                raise Wrong(f"{words!r:.400} is answered {ours[place:place + 1]!r:.400}, and by Redis {theirs[place:place + 1]!r:.400}")
        raise Wrong(f"there are more answers than commands: {ours[len(told):]!r:.400}, and of Redis {theirs[len(told):]!r:.400}")

    def begin(self) -> tuple[list[list[bytes]], bytes]:
        """The commands of a stream, and their bytes. The first one lets keys that grow begin anew."""
        told = [[b"DEL", *streams.GROWN], *(streams.some_command(self.dice, self.kinds) for _ in range(self.dice.randrange(1, streams.MOST)))]
        sent = b"".join(streams.nothing(self.dice) + streams.spelled(self.dice, words) for words in told)
        self.commands += len(told)
        self.streams += 1
        return told, sent

    def wait(self) -> None:
        """Some time passes on both clocks."""
        if self.held:
            passed = times.wait(self.dice)
            self.held.move(passed)
            self.waited += passed

    def play(self) -> None:
        """Sends a stream, and compares what is answered."""
        told, sent = self.begin()
        word = self.dice.randbytes(20)
        self.compare(told, self.answers(sent + resp.command("ECHO", word), resp.value(word)))

    def play_to_the_end(self) -> None:
        """Sends a stream that ends in a QUIT or a fault, and compares all bytes up to the end of the connection."""
        told, sent = self.begin()
        last = self.dice.choice([resp.command("QUIT"), b"quit\r\n", *streams.FAULTS])
        pieces = [*streams.cut(self.dice, sent), last]
        for client in self.clients:
            sent_to(client, pieces, False)
        self.compare([*told, [last]], [client.rest() for client in self.clients])
        for client in self.clients:
            client.socket.close()
        self.clients = [Client(address) for address in self.addresses]
        self.faults += 1

    def walk(self) -> None:
        """Compares the keys that walks give, without their order."""
        pattern = self.dice.choice(streams.PATTERNS)
        found = [sorted(resp.members_of(client.ask("KEYS", pattern))) for client in self.clients]
        same(f"what KEYS {pattern!r} gives", *found)
        options: list[resp.Word] = ["MATCH", pattern] if self.dice.random() < 0.5 else []
        options += ["COUNT", self.dice.choice((1, 2, 10, 1000))] if self.dice.random() < 0.5 else []
        options += ["TYPE", self.dice.choice(("string", "STRING", "list"))] if self.dice.random() < 0.3 else []
        scanned = [sorted(set(keys_scanned(client, options))) for client in self.clients]
        same(f"what SCAN with {options!r} gives", *scanned)
        keys = resp.members_of(self.clients[1].ask("KEYS", "*")) or [resp.NOTHING]
        same("RANDOMKEY gives a key that is there", self.clients[0].ask("RANDOMKEY") in keys, True)
        # (DBSIZE may count what is over, until somebody asks for it)
        for words in (["EXISTS", *streams.KEYS, *streams.GROWN], ["DBSIZE"]):
            same(f"what {words[0]} gives", *(client.ask(*words) for client in self.clients))
        self.commands += 6
        self.walks += 1


def keys_scanned(client: Client, options: list[resp.Word]) -> list[bytes]:
    """All keys that an iteration of SCAN gives, which must end."""
    cursor, keys = b"0", []
    for _ in range(10_000):
        reply = resp.members_of(client.ask("SCAN", cursor, *options))
        cursor = resp.text_of(reply[0])
        keys += resp.members_of(reply[1])
        if cursor == b"0":
            return keys
    raise Wrong(f"SCAN with {options!r} goes on for ever")


def play(program: Path, commands: int, seed: int, held: clock.Held | None) -> str:
    """Plays streams with this many commands; what was compared."""
    environment = held.environment if held else None
    theirs = resp.Redis(environment=environment)
    try:
        with resp.started(program, "--workers", "2", environment=environment) as ours:
            both = Streams(ours.address, theirs.address, held, seed)
            while both.commands < commands:
                both.play_to_the_end() if both.dice.randrange(FAULTY) == 0 else both.play()
                if both.streams % WALKS == 0:
                    both.walk()
                both.wait()
    finally:
        theirs.end()
    return (f"{both.commands} commands in {both.streams} streams, {both.faults} of them to the end of the connection, and {both.walks} "
            f"walks, {both.waited / 3_600_000:.1f} hours by the clock that both see: no byte differs from Redis'")


def main() -> None:
    words = argparse.ArgumentParser()
    words.add_argument("commands", nargs="?", type=int, default=100_000)
    words.add_argument("seed", nargs="?", type=int, default=1)
    words.add_argument("--program", type=Path, default=wire.SERVER)
    asked = words.parse_args()
    if not shutil.which("redis-server"):
        print("redis: no redis-server here (Debian's package redis-server), so nothing was compared")
        return
    begun = time.monotonic()
    if not clock.is_possible():
        print("redis: no gcc here, so no command with a deadline was compared")
    try:
        with contextlib.ExitStack() as stack:
            held = stack.enter_context(clock.Held(clock.BEGIN // times.STEP * times.STEP)) if clock.is_possible() else None
            print(f"redis: {play(asked.program, asked.commands, asked.seed, held)} ({time.monotonic() - begun:.0f} s)")
    except (Wrong, wire.Ended, OSError) as wrong:
        sys.exit(f"redis: FAILED, seed {asked.seed}: {type(wrong).__name__}: {wrong}")
    print(f"redis: not compared: {'; '.join(NOT_COMPARED)}")


if __name__ == "__main__":
    main()
