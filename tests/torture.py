#!/usr/bin/env python3
"""Clients of the built mapd make all eleven calls on the same keys at once, with programs, alone and in pipelines, and now and then a
walk or a Register, in sessions of both versions of the protocol. First eight clients on eight keys, each with a worker of its own, and
then two hundred on sixty-four keys with four workers. Each writes down its calls, their answers and when it had them. Then each key's
history must be linearizable: linear.py decides.

By hand, after `rt run` in crates/mapd: python3 tests/torture.py [SECONDS [SEED]]. Each kind of load has half of the time, in rounds of
at most two seconds of calls; what a round leaves is read at its end, and is where the next one begins. Another server is tried by
--program, one version alone by --protocol, and one load alone by --load."""
from __future__ import annotations

import argparse
import contextlib
import multiprocessing
import random
import sys
import time
from collections.abc import Sequence
from dataclasses import dataclass
from pathlib import Path

sys.path.insert(0, str(Path(__file__).resolve().parent))
sys.dont_write_bytecode = True
import linear  # noqa: E402
import sequential as model  # noqa: E402
import wire  # noqa: E402
from linear import Event  # noqa: E402
from sequential import Call, Held  # noqa: E402
from wire import Wrong  # noqa: E402

PROCESSES = 8
# One is empty, and two are of one hash.
FEW_KEYS = [b"", b"Aa", b"BB", b"c", b"key 4", b"\x00" * 16, b"\xff" * 63, b"\x80" * 64]
ROUND = 2.0
# One pipeline in so many is a walk, and a session has so many pipelines.
WALKS = 100
SESSION = 300


@dataclass(frozen=True)
class Load:
    """How many clients there are in each process, on which keys, in their order, how deep their pipelines are, and for which server."""
    clients: int
    keys: Sequence[bytes]
    depths: Sequence[int]
    options: Sequence[str]


LOADS = {
    "few": Load(1, sorted(FEW_KEYS), (1, 1, 1, 2, 4, 16), ("--workers", str(PROCESSES), "--team", "2", "--stripes", "4")),
    "many": Load(25, sorted([*FEW_KEYS, *(b"many %d" % number for number in range(56))]), (1, 1, 2),
                 ("--workers", "4", "--team", "2", "--stripes", "4")),
}


@dataclass
class Round:
    """What a process is to do: where, by which load, with which programs, until when, and with which dice."""
    address: str
    load: Load
    numbers: list[int]
    until: float
    seed: str
    versions: Sequence[int]


class Player:
    """A client in one round, and what it writes down. It speaks, and hears the answers when others have spoken too."""

    def __init__(self, todo: Round, seed: str) -> None:
        self.todo = todo
        self.dice = random.Random(seed)
        self.events: list[Event] = []
        self.numbers = list(todo.numbers)
        self.version = 0
        self.client: wire.Client
        self.begun = 0
        # The calls that it waits for, or the walk.
        self.calls: list[Call] = []
        self.tag: int | None = None

    def begin(self) -> None:
        """Begins a session, with one program of its own beside those of another."""
        self.version = self.dice.choice(self.todo.versions)
        self.client = wire.opened(self.todo.address, self.version)
        place = self.dice.randrange(len(model.REGISTERED_BY[self.version]))
        self.numbers[place] = registered(self.client, model.PROGRAMS[place])

    def speak(self) -> None:
        """Sends some calls in one piece, or a walk."""
        self.calls, self.tag = [], None
        if self.dice.randrange(WALKS):
            self.calls = [model.some_call(self.dice, self.todo.load.keys, self.version)
                          for _ in range(self.dice.choice(self.todo.load.depths))]
            bodies = [call.body(self.numbers) for call in self.calls]
        else:
            self.tag = self.dice.choice((model.FOR_EACH, model.SEARCH, model.REPLACE_ALL))
            program, arg = walked_by(self.tag)
            bodies = [wire.walk(self.tag, self.numbers[program], arg)]
        self.begun = time.monotonic_ns()
        self.client.send(*bodies)

    def hear(self) -> None:
        """Reads the answers."""
        for call in self.calls:
            answer = self.client.answer()
            self.events.append(Event(self.begun, time.monotonic_ns(), call, answer, self.version))
        if self.tag is not None:
            self.hear_walk(self.tag)

    def hear_walk(self, tag: int) -> None:
        """Reads the answers to a walk: an event of each key of which it tells something."""
        answers = self.client.walked()
        ended = time.monotonic_ns()
        program, arg = walked_by(tag)
        keys = self.todo.load.keys
        items = items_of(answers, tag == model.REPLACE_ALL, len(keys))
        last = max(items) if tag == model.SEARCH and items else keys[-1]
        for key in keys:
            if key <= last:
                call = Call(tag, key, program=program, arg=arg)
                self.events.append(Event(self.begun, ended, call, items.pop(key, None), self.version))
        if items:
            raise Wrong(f"a walk gives keys that nobody put: {items}")


def walked_by(tag: int) -> tuple[int, bytes | None]:
    """The program of a walk, and its argument."""
    return (model.ADD, model.spelled(1)) if tag == model.REPLACE_ALL else (model.LOOK, None)


def play_sessions(players: list[Player], until: float) -> None:
    """A session of each player, side by side: all speak, and then all hear."""
    with contextlib.ExitStack() as stack:
        for player in players:
            player.begin()
            stack.callback(player.client.socket.close)
        for _ in range(SESSION):
            if time.monotonic() > until:
                break
            for player in players:
                player.speak()
            for player in players:
                player.hear()


def registered(client: wire.Client, program: model.Program) -> int:
    """The number of a program that this client registers."""
    answer = client.ask(wire.register(program.sizes, program.code))
    if answer[0] != 0x81:
        raise Wrong(f"a Register is answered {answer.hex()}")
    return int.from_bytes(answer[1:], "big")


def items_of(answers: list[bytes], replaces: bool, most: int) -> dict[bytes, bytes]:
    """The items of a walk, which must be in the order of keys, and as many as its End says unless it replaces."""
    items = {}
    for body in answers[:-1]:
        length = 2 + body[1]
        items[body[2:length]] = body[length + 2:]
    scanned, given, unfit = (int.from_bytes(answers[-1][at:at + 8], "big") for at in (1, 9, 17))
    is_whole = answers[-1][0] == wire.END and scanned <= most and given + unfit <= scanned
    if not is_whole or list(items) != sorted(items) or (not replaces and given != len(items)):
        raise Wrong(f"a walk is answered {[body.hex() for body in answers]}")
    return items


def play(todo: Round) -> list[list[Event]]:
    """What each client of one process saw in a round: sessions until it is over."""
    players = [Player(todo, f"{todo.seed} {number}") for number in range(todo.load.clients)]
    while time.monotonic() < todo.until:
        play_sessions(players, todo.until)
    return [player.events for player in players]


def judged(history: tuple[bytes, Sequence[Sequence[Event]], Held]) -> str:
    """What is wrong with the history of a key, or nothing."""
    key, clients, first = history
    search = linear.Search(clients)
    try:
        if search.has_order(first):
            return ""
    except linear.Undecided:
        return f"the history of key {key.hex()} is not decided"
    return f"the history of key {key.hex()} has no order: {search.stuck()}"


def registered_first(address: str) -> list[int]:
    """The numbers of all programs, which another session registers than those that call them."""
    with wire.opened(address, 2) as client:
        return [registered(client, program) for program in model.PROGRAMS]


def left(address: str, keys: Sequence[bytes]) -> list[Event]:
    """A Get of each key."""
    events = []
    with wire.opened(address, 2) as client:
        for key in keys:
            begun = time.monotonic_ns()
            answer = client.ask(wire.get(key))
            events.append(Event(begun, time.monotonic_ns(), Call(model.GET, key), answer))
    return events


def value_of(answer: bytes) -> Held:
    """The value that a Get gave."""
    return None if answer == wire.NOTHING else answer[3:]


def history_of(key: bytes, players: list[list[Event]], last: Event) -> list[list[Event]]:
    """What each client saw of a key, and what was left at the end."""
    return [[event for event in events if event.call.key == key] for events in players] + [[last]]


class Torture:
    """Rounds of calls to one server, and what each key had at the end of the last one."""

    def __init__(self, address: str, pool: multiprocessing.pool.Pool, load: Load, seed: int, versions: Sequence[int]) -> None:
        self.versions = versions
        self.address = address
        self.pool = pool
        self.load = load
        self.seed = seed
        self.numbers = registered_first(address)
        self.first: dict[bytes, Held] = dict.fromkeys(load.keys)
        self.made = 0
        self.too_long = 0
        self.rounds = 0

    def round(self, seconds: float) -> None:
        """Makes calls for so long, and judges what came of them."""
        until = time.monotonic() + seconds
        todo = [Round(self.address, self.load, self.numbers, until, f"{self.seed} {self.rounds} {process}", self.versions)
                for process in range(PROCESSES)]
        players = [events for process in self.pool.map(play, todo, 1) for events in process]
        ends = {event.call.key: event for event in left(self.address, self.load.keys)}
        histories = [(key, history_of(key, players, ends[key]), self.first[key]) for key in self.load.keys]
        wrong = [line for line in self.pool.map(judged, histories, 1) if line]
        if wrong:
            raise Wrong("\n".join(wrong))
        self.first = {key: value_of(event.answer) for key, event in ends.items()}
        self.made += sum(map(len, players))
        self.too_long += sum(event.answer == wire.VALUE_TOO_LONG for events in players for event in events)
        self.rounds += 1


def tortured(program: Path, load: Load, seconds: float, seed: int, versions: Sequence[int]) -> str:
    """Makes calls to a server of its own for so many seconds; what was found."""
    with multiprocessing.Pool(PROCESSES) as pool, wire.started(program, *load.options) as server:
        torture = Torture(server.address, pool, load, seed, versions)
        rest = seconds
        while rest > 0:
            torture.round(min(ROUND, rest))
            rest -= ROUND
    if len(versions) > 1 and not torture.too_long:
        raise Wrong("no answer was too long for version 1, which shows nothing")
    return (f"{torture.made} events of {PROCESSES * load.clients} clients on {len(load.keys)} keys in {torture.rounds} rounds are "
            f"linearizable; {torture.too_long} answers were too long for version 1")


def main() -> None:
    words = argparse.ArgumentParser()
    words.add_argument("seconds", nargs="?", type=float, default=20)
    words.add_argument("seed", nargs="?", type=int, default=1)
    words.add_argument("--program", type=Path, default=wire.SERVER)
    words.add_argument("--protocol", type=int, choices=(1, 2), help="sessions of this version alone")
    words.add_argument("--load", choices=tuple(LOADS), help="this load alone")
    asked = words.parse_args()
    wrong = linear.wrong_rows()
    if wrong:
        sys.exit(f"torture: FAILED, linear.py is wrong on {wrong}")
    versions = (asked.protocol,) if asked.protocol else (1, 2)
    loads = [asked.load] if asked.load else list(LOADS)
    for load in loads:
        try:
            print(f"torture: {tortured(asked.program, LOADS[load], asked.seconds / len(loads), asked.seed, versions)}")
        except (Wrong, wire.Ended, OSError) as wrong:
            sys.exit(f"torture: FAILED, load {load}, seed {asked.seed}: {wrong}")


if __name__ == "__main__":
    main()
