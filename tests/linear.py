#!/usr/bin/env python3
"""Decides whether what clients saw of one key is linearizable: whether the calls have an order in which each answer is that of a
sequential map (sequential.py), and in which a call that was answered before another was sent stands before it.

The search is Wing and Gong's, with Lowe's memory of the places that it has seen. By hand: python3 tests/linear.py decides histories
whose answer is known, of which most have no such order."""
from __future__ import annotations

import sys
from collections.abc import Sequence
from dataclasses import dataclass
from pathlib import Path
from typing import Protocol

sys.path.insert(0, str(Path(__file__).resolve().parent))
sys.dont_write_bytecode = True
import sequential as model  # noqa: E402
import wire  # noqa: E402
from sequential import Call, Held  # noqa: E402

MOST_PLACES = 20_000_000


@dataclass(frozen=True)
class Event:
    """A call, what was answered, and when it was sent and its answer read, by one clock; and the version of its session."""
    begun: int
    ended: int
    call: Call
    answer: Held
    version: int = 2


class Rules(Protocol):
    """What calls do: those of sequential.py, or others in its place (redis_linear.py)."""

    def step(self, call: Call, old: Held, /) -> tuple[Held, Held]:
        """The answer where the key has this old value, and the value that it then has."""

    def carried(self, answer: Held, version: int, /) -> Held:
        """The answer as a session of this version has it."""

    def changes_nothing(self, call: Call, answer: Held, /) -> bool:
        """Whether a call that has this answer leaves every value as it is."""


class Undecided(Exception):
    """The search has seen more places than it may."""


class Search:
    """A search for an order of the events of one key. A place is how many events of each client stand in the order so far, and the
    value that they leave; each client's events stand in the order in which it sent them."""

    def __init__(self, clients: Sequence[Sequence[Event]], most: int = MOST_PLACES, rules: Rules = model) -> None:
        self.clients = clients
        self.most = most
        self.rules = rules
        self.seen: set[tuple[tuple[int, ...], Held]] = set()
        self.furthest: tuple[tuple[int, ...], Held] = ((0,) * len(clients), None)

    def open_events(self, taken: tuple[int, ...]) -> list[tuple[int, Event]]:
        """The events that may come next, with their clients: none of those left was answered before they were sent."""
        heads = [(client, events[taken[client]]) for client, events in enumerate(self.clients) if taken[client] < len(events)]
        first_end = min((event.ended for _, event in heads), default=0)
        return [(client, event) for client, event in heads if event.begun <= first_end]

    def next_places(self, taken: tuple[int, ...], held: Held) -> list[tuple[tuple[int, ...], Held]]:
        """The places one event further. An event that changes nothing, wherever it stands, may as well come at once."""
        places = []
        for client, event in self.open_events(taken):
            answer, new = self.rules.step(event.call, held)
            if self.rules.carried(answer, event.version) != event.answer:
                continue
            place = taken[:client] + (taken[client] + 1,) + taken[client + 1:], new
            if self.rules.changes_nothing(event.call, answer):
                return [place]
            places.append(place)
        return places

    def has_order(self, first: Held) -> bool:
        """Whether the events have an order that begins with this value."""
        whole = tuple(len(events) for events in self.clients)
        waiting = [((0,) * len(whole), first)]
        while waiting:
            place = waiting.pop()
            if place in self.seen:
                continue
            self.seen.add(place)
            if len(self.seen) > self.most:
                raise Undecided
            if sum(place[0]) >= sum(self.furthest[0]):
                self.furthest = place
            if place[0] == whole:
                return True
            waiting.extend(self.next_places(*place))
        return False

    def stuck(self) -> str:
        """The furthest place of a search that found no order, and the events that might have come next."""
        taken, held = self.furthest
        lines = [f"with {sum(taken)} calls in order the value is {spoken(held)}; next may come"]
        for client, event in self.open_events(taken):
            lines.append(f"  client {client}, from {event.begun} to {event.ended}: {event.call}, answered {spoken(event.answer)}")
        return "\n".join(lines)


def spoken(data: Held) -> str:
    """Bytes in hex."""
    return "nothing" if data is None else data.hex()


def is_linearizable(clients: Sequence[Sequence[Event]], first: Held = None) -> bool:
    """Whether what these clients saw of one key has an order, where it began with this value."""
    return Search(clients).has_order(first)


KEY = b"k"
ONE, TWO, THREE = (model.spelled(number) for number in (1, 2, 3))


def put(new: bytes) -> Call:
    """A Put."""
    return Call(model.PUT, KEY, value=new)


def add(given: bytes) -> Call:
    """A Merge that adds."""
    return Call(model.MERGE, KEY, value=given, program=model.ADD)


GET = Call(model.GET, KEY)
REMOVE = Call(model.REMOVE, KEY)
REMOVE_QUIETLY = Call(model.COMPUTE, KEY, program=model.NOTHING_AT_ALL)
EACH = Call(model.FOR_EACH, KEY, program=model.LOOK)
ADD_TO_ALL = Call(model.REPLACE_ALL, KEY, program=model.ADD, arg=ONE)
LONG = bytes(257)
TAKE_LONG = Call(model.COMPUTE, KEY, program=model.TAKE, arg=LONG)
HAS_LONG, TOO_LONG = wire.value(LONG), wire.VALUE_TOO_LONG
NONE, HAS_ONE, HAS_TWO, HAS_THREE = wire.NOTHING, wire.value(ONE), wire.value(TWO), wire.value(THREE)

# What a history shows, whether it has an order, and each client's events: when sent, when answered, the call and the answer, and the
# version where it is 1.
ROWS = [
    ("nothing at all", True, []),
    ("a value that was put is read", True, [[(0, 1, put(ONE), NONE)], [(2, 3, GET, HAS_ONE)]]),
    ("a value that was put is not read", False, [[(0, 1, put(ONE), NONE)], [(2, 3, GET, NONE)]]),
    ("a read beside a put may miss it", True, [[(0, 3, put(ONE), NONE)], [(1, 2, GET, NONE)]]),
    ("a read beside a put may find it", True, [[(0, 3, put(ONE), NONE)], [(1, 2, GET, HAS_ONE)]]),
    ("a value that nobody put", False, [[(0, 3, put(ONE), NONE)], [(1, 2, GET, HAS_TWO)]]),
    ("a value that is read before it is put", False, [[(2, 3, put(ONE), NONE)], [(0, 1, GET, HAS_ONE)]]),
    ("two reads beside a put, the later one stale", False,
     [[(0, 9, put(ONE), NONE)], [(1, 2, GET, HAS_ONE)], [(3, 4, GET, NONE)]]),
    ("two reads in one pipeline, the later one stale", False,
     [[(0, 9, put(ONE), NONE)], [(1, 8, GET, HAS_ONE), (1, 8, GET, NONE)]]),
    ("two puts that both found nothing", False, [[(0, 9, put(ONE), NONE)], [(0, 9, put(TWO), NONE)]]),
    ("two puts, one after the other by what they found", True, [[(0, 9, put(ONE), HAS_TWO)], [(0, 9, put(TWO), NONE)]]),
    ("two puts that found each other", False, [[(0, 9, put(ONE), HAS_TWO)], [(0, 9, put(TWO), HAS_ONE)]]),
    ("two sums, one of them lost", False, [[(0, 9, add(ONE), HAS_ONE)], [(0, 9, add(ONE), HAS_ONE)]]),
    ("two sums, neither lost", True, [[(0, 9, add(ONE), HAS_TWO)], [(0, 9, add(ONE), HAS_ONE)]]),
    ("two sums, the later one first", False, [[(0, 1, add(ONE), HAS_TWO)], [(2, 3, add(ONE), HAS_ONE)]]),
    ("a sum that was made twice", False, [[(0, 1, add(ONE), HAS_ONE), (2, 3, GET, HAS_TWO)]]),
    ("a value that two removed", False,
     [[(0, 1, put(ONE), NONE)], [(2, 9, REMOVE, HAS_ONE)], [(2, 9, REMOVE, HAS_ONE)]]),
    ("a value that one of two removed", True,
     [[(0, 1, put(ONE), NONE)], [(2, 9, REMOVE, HAS_ONE)], [(2, 9, REMOVE, NONE)]]),
    ("a removal that answers nothing whether or not it removes", True,
     [[(2, 6, add(ONE), HAS_ONE), (6, 10, GET, NONE)], [(3, 5, REMOVE_QUIETLY, NONE)]]),
    ("a walk that misses a key", False, [[(0, 1, put(ONE), NONE)], [(2, 3, EACH, None)]]),
    ("a walk that gives a key", True, [[(0, 1, put(ONE), NONE)], [(2, 3, EACH, model.spelled(1, 8))]]),
    ("a replacement beside a read", True,
     [[(0, 1, put(ONE), NONE), (2, 9, ADD_TO_ALL, None)], [(3, 4, GET, HAS_ONE), (5, 6, GET, HAS_TWO)]]),
    ("a replacement made twice", False,
     [[(0, 1, put(ONE), NONE), (2, 9, ADD_TO_ALL, None)], [(3, 4, GET, HAS_TWO), (5, 6, GET, HAS_THREE)]]),
    ("a replacement undone", False,
     [[(0, 1, put(ONE), NONE), (2, 9, ADD_TO_ALL, None)], [(3, 4, GET, HAS_TWO), (5, 6, GET, HAS_ONE)]]),
    ("a long value, to either version", True, [[(0, 1, put(LONG), NONE), (2, 3, GET, HAS_LONG)], [(4, 5, GET, TOO_LONG, 1)]]),
    ("a long value that version 1 is given", False, [[(0, 1, put(LONG), NONE)], [(2, 3, GET, HAS_LONG, 1)]]),
    ("a long value that version 2 is refused", False, [[(0, 1, put(LONG), NONE)], [(2, 3, GET, TOO_LONG)]]),
    ("a short value that version 1 is refused", False, [[(0, 1, put(ONE), NONE)], [(2, 3, GET, TOO_LONG, 1)]]),
    ("a put that is answered by 65 is made", True,
     [[(0, 1, put(LONG), NONE)], [(2, 3, put(ONE), TOO_LONG, 1), (4, 5, GET, HAS_ONE, 1)]]),
    ("a put that is answered by 65 is not made", False,
     [[(0, 1, put(LONG), NONE), (4, 5, GET, HAS_LONG)], [(2, 3, put(ONE), TOO_LONG, 1)]]),
    ("a removal that is answered by 65 is made", True,
     [[(0, 1, put(LONG), NONE)], [(2, 3, REMOVE, TOO_LONG, 1), (4, 5, GET, NONE, 1)]]),
    ("a removal that is answered by 65 is made twice", False,
     [[(0, 1, put(LONG), NONE)], [(2, 3, REMOVE, TOO_LONG, 1), (4, 5, REMOVE, TOO_LONG, 1)]]),
    ("a program's long answer stands", True, [[(0, 1, TAKE_LONG, HAS_LONG)], [(2, 3, GET, TOO_LONG, 1)]]),
    ("a replacement that is not made", False, [[(0, 1, put(ONE), NONE), (2, 3, ADD_TO_ALL, None), (4, 5, GET, HAS_ONE)]]),
]


def wrong_rows() -> list[str]:
    """The names of the rows that are decided wrongly."""
    return [name for name, wanted, clients in ROWS
            if is_linearizable([[Event(*event) for event in events] for events in clients]) != wanted]


def main() -> None:
    wrong = wrong_rows()
    for name in wrong:
        print(f"linear: FAILED: {name}")
    print(f"linear: {len(ROWS) - len(wrong)} passed, {len(wrong)} failed")
    sys.exit(bool(wrong))


if __name__ == "__main__":
    main()
