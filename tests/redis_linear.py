#!/usr/bin/env python3
"""Clients of both protocols make calls on the same keys of one map at once: those of the Redis port GET, SET with its conditions, SETNX,
GETSET, GETDEL, DEL, INCRBY, APPEND, DELIFEQ, the release of a lock and EVALSHA of the sum; and those of the other port Get, Put,
PutIfAbsent, Remove, ReplaceIf and Merge with the same sum. Each key's history must be linearizable: linear.py decides. So an INCRBY,
which is a Get and a ReplaceIf until one takes, must look like one call.

By hand, after `rt run` in crates/mapd: python3 tests/redis_linear.py [SECONDS [SEED]]. Another server is tried by --program; if that
is redis-server, the clients of the Redis port are alone, without what Redis hasn't."""
from __future__ import annotations

import argparse
import contextlib
import multiprocessing
import random
import sys
import time
from collections.abc import Callable, Sequence
from dataclasses import dataclass
from pathlib import Path

sys.path.insert(0, str(Path(__file__).resolve().parent))
sys.dont_write_bytecode = True
import linear  # noqa: E402
import redis_wire as resp  # noqa: E402
import sequential as model  # noqa: E402
import wire  # noqa: E402
from linear import Event  # noqa: E402
from sequential import Call, Held, Step  # noqa: E402
from wire import Wrong  # noqa: E402

PROCESSES = 5
# Of each process, by port.
CLIENTS = 5
KEYS = [b"", b"Aa", b"BB", b"key 3", b"\xff" * 64]
OPTIONS = ("--workers", "4", "--stripes", "4")
ADD = model.PROGRAMS[model.ADD]
# The name of the sum as a script.
SUM_NAME = b"69de85aeed5925512b910058036294c644f86338"
RELEASE = b"c3f8721cbb97f72bc19e972846bd7aaf91901658"
NO_INTEGER = resp.error("ERR value is not an integer or out of range")
UNFIT = resp.error("ERR unfit: a length is above its declared size")
OVERFLOW = resp.error("ERR increment or decrement would overflow")


@dataclass(frozen=True)
class Asked:
    """A command on a key: its name, and its other words, the key's place among which is the first but for scripts."""
    name: bytes
    key: bytes
    words: tuple[bytes, ...] = ()

    def sent(self, digest: bytes) -> bytes:
        """The command's bytes, where the sum has this digest."""
        if self.name in (b"EVALSHA", b"RELEASE"):
            return resp.command(b"EVALSHA", digest if self.name == b"EVALSHA" else RELEASE, 1, self.key, *self.words)
        return resp.command(self.name, self.key, *self.words)


def told(held: Held) -> bytes:
    """The reply that gives a value or nothing."""
    return resp.NOTHING if held is None else resp.value(held)


def integer_in(text: bytes) -> int | None:
    """The number whose canonical text of 64 bits this is."""
    try:
        number = int(text)
    except ValueError:
        return None
    return number if b"%d" % number == text and -2**63 <= number < 2**63 else None


def set_step(words: tuple[bytes, ...], old: Held) -> Step:
    """A SET with its options."""
    new, options = words[0], words[1:]
    is_set = (b"NX" not in options or old is None) and (b"XX" not in options or old is not None)
    if b"IFEQ" in options:
        is_set = old is not None and old == options[1]
    if b"GET" in options:
        return told(old), new if is_set else old
    return (resp.OK, new) if is_set else (resp.NOTHING, old)


def add_step(words: tuple[bytes, ...], old: Held) -> Step:
    """An INCRBY."""
    number = integer_in(b"0" if old is None else old)
    if number is None:
        return NO_INTEGER, old
    number += int(words[0])
    if not -2**63 <= number < 2**63:
        return OVERFLOW, old
    return resp.integer(number), b"%d" % number


def sum_step(words: tuple[bytes, ...], old: Held) -> Step:
    """The sum, which is a Merge of a number: an absent value becomes the argument, as 8 bytes. A value that doesn't fit stays."""
    arg = model.spelled(int(words[0]))
    if ADD.unfit(b"", old, arg):
        return UNFIT, old
    new = arg if old is None else ADD.function(b"", old, arg)
    return resp.integer(int.from_bytes(new, "little", signed=True)), new


def removal_step(is_removed: bool, old: Held) -> Step:
    """What removes the key, or doesn't."""
    return resp.integer(is_removed), None if is_removed else old


def asked_step(asked: Asked, old: Held) -> Step:
    """What a command is answered where its key has this old value, and the value that it then has."""
    name, words = asked.name, asked.words
    if name == b"GET":
        return told(old), old
    if name == b"SET":
        return set_step(words, old)
    if name == b"SETNX":
        return resp.integer(old is None), words[0] if old is None else old
    if name == b"GETSET":
        return told(old), words[0]
    if name == b"GETDEL":
        return told(old), None
    if name == b"DEL":
        return removal_step(old is not None, old)
    if name in (b"DELIFEQ", b"RELEASE"):
        return removal_step(old is not None and old == words[0], old)
    if name == b"APPEND":
        new = (old or b"") + words[0]
        return resp.integer(len(new)), new
    return add_step(words, old) if name == b"INCRBY" else sum_step(words, old)


class Both:
    """What calls of either protocol do."""

    @staticmethod
    def step(call: Asked | Call, old: Held) -> Step:
        """The answer where the key has this old value, and the value that it then has."""
        return asked_step(call, old) if isinstance(call, Asked) else model.step(call, old)

    @staticmethod
    def carried(answer: Held, version: int) -> Held:
        """The answer as it comes."""
        return model.carried(answer, version)

    @staticmethod
    def changes_nothing(call: Asked | Call, answer: Held) -> bool:
        """Whether a call that has this answer leaves the value as it is."""
        if isinstance(call, Call):
            return model.changes_nothing(call, answer)
        is_in_vain = call.name in (b"SETNX", b"DEL", b"DELIFEQ", b"RELEASE") and answer == resp.integer(0)
        return call.name == b"GET" or is_in_vain or answer in (NO_INTEGER, OVERFLOW, UNFIT)


def some_value(dice: random.Random) -> bytes:
    """A text of a number or a number of 8 bytes, of few that are met again."""
    return b"%d" % dice.randrange(4) if dice.random() < 0.6 else model.spelled(dice.randrange(3))


def some_command(dice: random.Random, key: bytes, is_redis: bool) -> Asked:
    """A command on the key. A value never has more than 8 bytes for long, so that most fit the sum."""
    name = dice.choice((b"GET", b"GET", b"SET", b"SET", b"SETNX", b"GETSET", b"GETDEL", b"DEL", b"INCRBY", b"INCRBY", b"INCRBY", b"RELEASE",
                        b"DELIFEQ", b"EVALSHA", b"EVALSHA"))
    if is_redis and name in (b"DELIFEQ", b"EVALSHA", b"RELEASE"):
        name = b"GET"
    if name in (b"GET", b"GETDEL", b"DEL"):
        return Asked(name, key)
    if name == b"INCRBY":
        return Asked(name, key, (b"%d" % dice.choice((1, 1, -1, 5, 2**62)),))
    if name == b"EVALSHA":
        return Asked(name, key, (b"%d" % dice.randrange(3),))
    options = dice.choice(((), (b"NX",), (b"XX",), (b"GET",), (b"NX", b"GET"), (b"IFEQ", some_value(dice)))) if name == b"SET" else ()
    return Asked(name, key, (some_value(dice), *(() if is_redis and b"IFEQ" in options else options)))


def some_call(dice: random.Random, key: bytes) -> Call:
    """A request of the other protocol on the key."""
    tag = dice.choice((model.GET, model.PUT, model.PUT_IF_ABSENT, model.REMOVE, model.REPLACE_IF, model.MERGE))
    if tag in (model.GET, model.REMOVE):
        return Call(tag, key)
    if tag == model.MERGE:
        return Call(tag, key, value=model.spelled(dice.randrange(3)), program=model.ADD)
    return Call(tag, key, value=some_value(dice), expected=some_value(dice) if tag == model.REPLACE_IF else None)


K = KEYS[1]
INCR, GOT, SETNX = Asked(b"INCRBY", K, (b"1",)), Asked(b"GET", K), Asked(b"SETNX", K, (b"7",))
PUT, ADDED = Call(model.PUT, K, value=b"7"), Asked(b"EVALSHA", K, (b"1",))

# What a history shows, whether it has an order, and each client's events: when sent, when answered, the call and the answer.
ROWS = [
    ("two increments, neither lost", True, [[(0, 9, INCR, b":1\r\n")], [(0, 9, INCR, b":2\r\n")]]),
    ("two increments, one of them lost", False, [[(0, 9, INCR, b":1\r\n")], [(0, 9, INCR, b":1\r\n")]]),
    ("an increment beside a put of the other port, lost", False,
     [[(0, 9, INCR, b":8\r\n"), (10, 11, GOT, resp.value(b"7"))], [(0, 9, PUT, wire.NOTHING)]]),
    ("an increment of what the other port put", True,
     [[(0, 9, INCR, b":8\r\n"), (10, 11, GOT, resp.value(b"8"))], [(0, 9, PUT, wire.NOTHING)]]),
    ("two that both set an absent key", False, [[(0, 9, SETNX, b":1\r\n")], [(0, 9, SETNX, b":1\r\n")]]),
    ("a put after a SETNX that found nothing", False, [[(0, 1, SETNX, b":1\r\n")], [(2, 3, PUT, wire.NOTHING)]]),
    ("two sums, one of them lost", False, [[(0, 9, ADDED, b":1\r\n")], [(0, 9, ADDED, b":1\r\n")]]),
    ("two sums, neither lost", True, [[(0, 9, ADDED, b":2\r\n")], [(0, 9, ADDED, b":1\r\n")]]),
]


def wrong_rows() -> list[str]:
    """The names of the rows that are decided wrongly."""
    return [name for name, wanted, clients in ROWS
            if linear.Search([[Event(*event) for event in events] for events in clients], rules=Both()).has_order(None) != wanted]


@dataclass
class Round:
    """What a process is to do: at which ports, with which digest of the sum, until when, and with which dice."""
    address: str
    frames: str
    digest: bytes
    until: float
    seed: str


class Player:
    """A client of one of the ports, and what it writes down. It speaks, and hears the answers when others have spoken too."""

    def __init__(self, todo: Round, seed: str, client: resp.Client | wire.Client, numbers: Sequence[int]) -> None:
        self.dice = random.Random(seed)
        self.todo = todo
        self.client = client
        self.numbers = numbers
        self.events: list[Event] = []
        self.calls: list[Asked | Call] = []
        self.begun = 0

    def speak(self) -> None:
        """Sends some calls in one piece."""
        keys = [self.dice.choice(KEYS) for _ in range(self.dice.choice((1, 1, 1, 2, 8)))]
        if isinstance(self.client, resp.Client):
            self.calls = [some_command(self.dice, key, not self.todo.frames) for key in keys]
            sent = b"".join(call.sent(self.todo.digest) for call in self.calls)
        else:
            self.calls = [some_call(self.dice, key) for key in keys]
            sent = wire.frames([call.body(self.numbers) for call in self.calls])
        self.begun = time.monotonic_ns()
        self.client.socket.sendall(sent)

    def hear(self) -> None:
        """Reads the answers."""
        for call in self.calls:
            answer = self.client.reply() if isinstance(self.client, resp.Client) else self.client.answer()
            self.events.append(Event(self.begun, time.monotonic_ns(), call, answer))


def play(todo: Round) -> list[list[Event]]:
    """What each client of one process saw until the round is over."""
    with contextlib.ExitStack() as stack:
        players = [Player(todo, f"{todo.seed} {number}", stack.enter_context(resp.Client(todo.address)), ()) for number in range(CLIENTS)]
        for number in range(CLIENTS if todo.frames else 0):
            client = stack.enter_context(wire.opened(todo.frames, 2))
            numbers = [0] * model.ADD + [int.from_bytes(client.ask(wire.register(ADD.sizes, ADD.code))[1:], "big")]
            players.append(Player(todo, f"{todo.seed} frames {number}", client, numbers))
        while time.monotonic() < todo.until:
            for player in players:
                player.speak()
            for player in players:
                player.hear()
    return [player.events for player in players]


def judged(history: tuple[bytes, Sequence[Sequence[Event]], Held]) -> str:
    """What is wrong with the history of a key, or nothing."""
    key, clients, first = history
    search = linear.Search(clients, rules=Both())
    try:
        if search.has_order(first):
            return ""
    except linear.Undecided:
        return f"the history of key {key.hex()} is not decided"
    return f"the history of key {key.hex()} has no order: {search.stuck()}"


class Rounds:
    """Rounds of calls to one server by all clients at once, as PLAY makes them in each process. A round is at most LONGEST seconds long."""

    LONGEST = 1.0

    def __init__(self, server: resp.Front | resp.Redis, pool: multiprocessing.pool.Pool, seed: int,
                 play: Callable[[Round], list[list[Event]]]) -> None:
        self.server = server
        self.pool = pool
        self.seed = seed
        self.play = play
        self.made = self.rounds = 0
        self.client = resp.Client(server.address)
        self.digest = resp.text_of(self.client.ask("SCRIPT", "LOAD", resp.SUM_SCRIPT)) if server.frames else b""

    def played(self, seconds: float) -> list[list[Event]]:
        """Makes calls for this long: the events of each client."""
        until = time.monotonic() + seconds
        todo = [Round(self.server.address, self.server.frames, self.digest, until, f"{self.seed} {self.rounds} {process}")
                for process in range(PROCESSES)]
        players = [events for process in self.pool.map(self.play, todo, 1) for events in process]
        self.made += sum(map(len, players))
        self.rounds += 1
        return players

    def judge(self, judged: Callable[[object], str], histories: Sequence[object]) -> None:
        """Fails if one of the histories has no order."""
        wrong = [line for line in self.pool.map(judged, histories, 1) if line]
        if wrong:
            raise Wrong("\n".join(wrong))

    def round(self, seconds: float) -> None:
        """Makes calls for this long, and judges what came of them."""
        raise NotImplementedError


def events_on(key: bytes, players: list[list[Event]]) -> list[list[Event]]:
    """Each client's events on this key."""
    return [[event for event in events if event.call.key == key] for events in players]


class Torture(Rounds):
    """What each key had at the end of the last round is what it has at the beginning of the next."""

    def __init__(self, server: resp.Front | resp.Redis, pool: multiprocessing.pool.Pool, seed: int) -> None:
        super().__init__(server, pool, seed, play)
        self.first: dict[bytes, Held] = dict.fromkeys(KEYS)

    def left(self) -> dict[bytes, Event]:
        """What each key has now, as an event."""
        begun = time.monotonic_ns()
        answers = {key: self.client.ask("GET", key) for key in KEYS}
        return {key: Event(begun, time.monotonic_ns(), Asked(b"GET", key), answer) for key, answer in answers.items()}

    def round(self, seconds: float) -> None:
        players = self.played(seconds)
        ends = self.left()
        self.judge(judged, [(key, [*events_on(key, players), [ends[key]]], self.first[key]) for key in KEYS])
        self.first = {key: None if end.answer == resp.NOTHING else resp.text_of(end.answer) for key, end in ends.items()}


def play_rounds(name: str, seconds: float, torture: Callable[..., Rounds], wrong_rows: list[str], summary: Callable[[Rounds], str]) -> None:
    """Plays rounds for as long as the words say, and tells what came of them. SECONDS is how long without words; WRONG_ROWS must be none."""
    words = argparse.ArgumentParser()
    words.add_argument("seconds", nargs="?", type=float, default=seconds)
    words.add_argument("seed", nargs="?", type=int, default=1)
    words.add_argument("--program", type=Path, default=wire.SERVER)
    asked = words.parse_args()
    if wrong_rows:
        sys.exit(f"{name}: FAILED, it decides these wrongly: {wrong_rows}")
    try:
        with multiprocessing.Pool(PROCESSES) as pool, resp.started(asked.program, *OPTIONS) as server:
            rounds = torture(server, pool, asked.seed)
            until = time.monotonic() + asked.seconds
            while time.monotonic() < until:
                rounds.round(min(rounds.LONGEST, asked.seconds))
        print(f"{name}: {summary(rounds)}")
    except (Wrong, wire.Ended, OSError) as wrong:
        sys.exit(f"{name}: FAILED, seed {asked.seed}: {type(wrong).__name__}: {wrong}")


def summary(torture: Rounds) -> str:
    """What was played."""
    clients = PROCESSES * CLIENTS
    return (f"{torture.made} events of {clients} clients of the Redis port and {clients if torture.server.frames else 0} of the "
            f"other, on {len(KEYS)} keys in {torture.rounds} rounds, are linearizable")


if __name__ == "__main__":
    play_rounds("redis_linear", 8, Torture, wrong_rows(), summary)
