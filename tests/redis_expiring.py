#!/usr/bin/env python3
"""Fifty connections make calls on ten keys that expire under them: each deadline is a few milliseconds ahead. Clients of the Redis port set
it, change it, take it away, ask for it, and make the calls of redis_linear.py; clients of the other port make calls that don't look at
the time. Each key's history must be linearizable, if an expiry is a removal at or after the deadline: nobody misses a key before its
deadline, and no client of the Redis port finds one whose deadline was over when it asked.

By hand, after `rt run` in crates/mapd: python3 tests/redis_expiring.py [SECONDS [SEED]]. Another server is tried by --program; if that is
redis-server, the clients of the Redis port are alone, without what Redis hasn't. By .ci/run behind the gate."""
from __future__ import annotations

import contextlib
import multiprocessing
import random
import sys
import time
from collections.abc import Iterator, Sequence
from pathlib import Path
from typing import Optional

sys.path.insert(0, str(Path(__file__).resolve().parent))
sys.dont_write_bytecode = True
import linear  # noqa: E402
import redis_linear as plain  # noqa: E402
import redis_wire as resp  # noqa: E402
import sequential as model  # noqa: E402
import wire  # noqa: E402
from linear import Event  # noqa: E402
from redis_linear import PROCESSES, Asked, Round, Rounds, events_on  # noqa: E402
from sequential import Call  # noqa: E402

REDIS_CLIENTS, FRAME_CLIENTS = 7, 3
KEYS = [*plain.KEYS, b"5", b"6", b"7", b"8", b"9"]
# How far ahead a deadline is, in milliseconds, and how far in the past now and then.
AHEAD, PAST = 40, 3
MILLISECOND = 1_000_000
# A search that sees more places than this is given up. (New values differ, and most calls tell the old one, so that few orders are open.)
MOST_PLACES = 500_000
TIMED = (b"PEXPIREAT", b"PERSIST", b"PEXPIRETIME", b"GETEX")
# The methods of the other port that put a value of their own, and so take a deadline away.
PUTS = (model.PUT, model.PUT_IF_ABSENT)

# A value and its deadline in milliseconds, if it has one; or no value.
Held = Optional[tuple[bytes, Optional[int]]]
Step = tuple[bytes, Held]


def value_of(held: Held) -> bytes | None:
    """The value alone."""
    return None if held is None else held[0]


def deadline_of(held: Held) -> int | None:
    """The deadline alone."""
    return None if held is None else held[1]


def is_allowed(rule: bytes, before: int | None, at: int) -> bool:
    """Whether PEXPIREAT with this rule sets the deadline."""
    if rule == b"NX":
        return before is None
    if rule == b"GT":
        return before is not None and at > before
    if rule == b"LT":
        return before is None or at < before
    return rule != b"XX" or before is not None


def timed_step(asked: Asked, held: Held) -> Step:
    """What a command on a deadline is answered, and leaves."""
    name, words = asked.name, asked.words
    if name == b"PEXPIRETIME":
        return resp.integer(-2 if held is None else -1 if held[1] is None else held[1]), held
    if name == b"GETEX":
        new = held if held is None or not words else (held[0], int(words[1]) if words[0] == b"PXAT" else None)
        return plain.told(value_of(held)), new
    if name == b"PERSIST":
        is_done = deadline_of(held) is not None
        return resp.integer(is_done), (held[0], None) if is_done else held
    is_done = held is not None and is_allowed(words[1] if words[1:] else b"", held[1], int(words[0]))
    return resp.integer(is_done), (held[0], int(words[0])) if is_done else held


def redis_step(asked: Asked, held: Held) -> Step:
    """What a command is answered, and leaves."""
    if asked.name in TIMED:
        return timed_step(asked, held)
    answer, new = plain.asked_step(asked, value_of(held))
    before = deadline_of(held)
    if asked.name == b"SET" and b"PXAT" in asked.words:
        after = int(asked.words[asked.words.index(b"PXAT") + 1])
    else:
        puts = asked.name in (b"SETNX", b"GETSET") or (asked.name == b"SET" and b"KEEPTTL" not in asked.words)
        after = None if puts else before
    is_refused = asked.name in (b"SET", b"SETNX") and new is value_of(held)
    return answer, None if new is None else (new, before if is_refused else after)


def frame_step(call: Call, held: Held) -> Step:
    """What a call of the other port is answered, and leaves."""
    answer, new = model.step(call, value_of(held))
    is_put = call.tag == model.PUT or (call.tag == model.PUT_IF_ABSENT and held is None)
    return answer, None if new is None else (new, None if is_put or held is None else held[1])


def changes_nothing(call: Asked | Call, answer: bytes) -> bool:
    """Whether a call that has this answer leaves all as it is."""
    if isinstance(call, Asked) and call.name in TIMED:
        is_get = call.name == b"GETEX" and not call.words
        return is_get or call.name == b"PEXPIRETIME" or answer in (resp.integer(0), resp.NOTHING)
    return plain.Both.changes_nothing(call, answer)


class Search(linear.Search):
    """A search for an order in which keys may expire. An event that stands next is made at a time up to the first end of those that are left,
    and not before it began."""

    def ways(self, event: Event, held: Held, first_end: int) -> Iterator[Held]:
        """What this event may find: the key as it is, or without a value, since its time is over."""
        at = deadline_of(held)
        if at is None or at >= event.begun // MILLISECOND or isinstance(event.call, Call):
            yield held
        if at is not None and at <= first_end // MILLISECOND:
            yield None

    def next_places(self, taken: tuple[int, ...], held: Held) -> list[tuple[tuple[int, ...], Held]]:
        """The places one event further."""
        places = []
        heads = self.open_events(taken)
        first_end = min(event.ended for event in (events[at] for events, at in zip(self.clients, taken) if at < len(events)))
        for client, event in heads:
            for found in self.ways(event, held, first_end):
                step = redis_step if isinstance(event.call, Asked) else frame_step
                answer, new = step(event.call, found)
                if answer != event.answer:
                    continue
                place = taken[:client] + (taken[client] + 1,) + taken[client + 1:], new
                if found is held and changes_nothing(event.call, answer):
                    return [place]
                places.append(place)
        return places


def now() -> int:
    """The time by the clock that the server reads too, in nanoseconds."""
    return time.time_ns()


def some_deadline(dice: random.Random) -> bytes:
    """A time that is soon over, or was just over."""
    return b"%d" % (now() // MILLISECOND + dice.randrange(-PAST, AHEAD))


def some_value(dice: random.Random) -> bytes:
    """A value that is seldom met again, a number of up to eight digits."""
    return b"%d" % dice.randrange(10**8)


def some_command(dice: random.Random, key: bytes, is_redis: bool) -> Asked:
    """A command on the key."""
    at = dice.random()
    if at < 0.3:
        asked = plain.some_command(dice, key, is_redis)
        is_told = asked.name in (b"GET", b"GETDEL", b"INCRBY", b"EVALSHA")
        return asked if is_told else Asked(b"GETSET", key, (some_value(dice),))
    if at < 0.6:
        life = (b"KEEPTTL",) if dice.random() < 0.2 else (b"PXAT", some_deadline(dice))
        return Asked(b"SET", key, (some_value(dice), *dice.choice(((b"GET",), (b"GET", b"XX"), (b"NX", b"GET"), (b"NX",))), *life))
    if at < 0.7:
        return Asked(b"PEXPIREAT", key, (some_deadline(dice), *dice.choice(((), (b"NX",), (b"XX",), (b"GT",), (b"LT",)))))
    if at < 0.85:
        return Asked(b"GETEX", key, dice.choice(((), (b"PXAT", some_deadline(dice)), (b"PERSIST",))))
    return Asked(dice.choice((b"PERSIST", b"PEXPIRETIME", b"PEXPIRETIME")), key)


def some_call(dice: random.Random, key: bytes) -> Call:
    """A request of the other port on the key."""
    call = plain.some_call(dice, key)
    return Call(call.tag, key, value=some_value(dice)) if call.tag in PUTS else call


class Player(plain.Player):
    """A client of one of the ports. It writes down the time of day."""

    def speak(self) -> None:
        """Sends some calls in one piece."""
        keys = [self.dice.choice(KEYS) for _ in range(self.dice.choice((1, 1, 1, 2, 4)))]
        if isinstance(self.client, resp.Client):
            self.calls = [some_command(self.dice, key, not self.todo.frames) for key in keys]
            sent = b"".join(call.sent(self.todo.digest) for call in self.calls)
        else:
            self.calls = [some_call(self.dice, key) for key in keys]
            sent = wire.frames([call.body(self.numbers) for call in self.calls])
        self.begun = now()
        self.client.socket.sendall(sent)

    def hear(self) -> None:
        """Reads the answers."""
        for call in self.calls:
            answer = self.client.reply() if isinstance(self.client, resp.Client) else self.client.answer()
            self.events.append(Event(self.begun, now(), call, answer))


def play(todo: Round) -> list[list[Event]]:
    """What each client of one process saw until the round is over."""
    with contextlib.ExitStack() as stack:
        players = [Player(todo, f"{todo.seed} {number}", stack.enter_context(resp.Client(todo.address)), ())
                   for number in range(REDIS_CLIENTS if todo.frames else REDIS_CLIENTS + FRAME_CLIENTS)]
        for number in range(FRAME_CLIENTS if todo.frames else 0):
            client = stack.enter_context(wire.opened(todo.frames, 2))
            known = client.ask(wire.register(plain.ADD.sizes, plain.ADD.code))
            players.append(Player(todo, f"{todo.seed} frames {number}", client, [0] * model.ADD + [int.from_bytes(known[1:], "big")]))
        while time.monotonic() < todo.until:
            for player in players:
                player.speak()
            for player in players:
                player.hear()
    return [player.events for player in players]


def judged(history: tuple[bytes, Sequence[Sequence[Event]]]) -> str:
    """What is wrong with the history of a key, or nothing."""
    key, clients = history
    search = Search(clients, MOST_PLACES)
    try:
        if search.has_order(None):
            return ""
    except linear.Undecided:
        return f"the history of key {key.hex()} is not decided"
    taken, held = search.furthest
    lines = [f"the history of key {key.hex()} has no order: with {sum(taken)} calls in order it is {held}; next may come"]
    lines += [f"  client {client}, from {event.begun} to {event.ended}: {event.call}, answered {event.answer!r}"
              for client, event in search.open_events(taken)]
    return "\n".join(lines)


K = KEYS[1]
GOT, SET_10, SET_NX = Asked(b"GET", K), Asked(b"SET", K, (b"7", b"PXAT", b"10")), Asked(b"SET", K, (b"8", b"NX"))
MORE, NO_END = Asked(b"PEXPIREAT", K, (b"20", b"GT")), Asked(b"PERSIST", K)
SEVEN, FRAME_GET, FRAME_PUT = resp.value(b"7"), Call(model.GET, K), Call(model.PUT, K, value=b"9")

# What a history shows, whether it has an order, and each client's events: when sent, when answered (in milliseconds), the call, the answer.
ROWS = [
    ("a key is found before its deadline", True, [[(0, 1, SET_10, resp.OK), (2, 9, GOT, SEVEN)]]),
    ("a key is missed before its deadline", False, [[(0, 1, SET_10, resp.OK), (2, 9, GOT, resp.NOTHING)]]),
    ("a key is missed after its deadline", True, [[(0, 1, SET_10, resp.OK), (11, 12, GOT, resp.NOTHING)]]),
    ("a key is found after its deadline", False, [[(0, 1, SET_10, resp.OK), (11, 12, GOT, SEVEN)]]),
    ("a key is found by a call that was sent before its deadline", True, [[(0, 1, SET_10, resp.OK), (9, 12, GOT, SEVEN)]]),
    ("the other port may find it", True, [[(0, 1, SET_10, resp.OK), (11, 12, FRAME_GET, wire.value(b"7"))]]),
    ("the other port may miss it", True, [[(0, 1, SET_10, resp.OK), (11, 12, FRAME_GET, wire.NOTHING)]]),
    ("the other port misses it too soon", False, [[(0, 1, SET_10, resp.OK), (2, 9, FRAME_GET, wire.NOTHING)]]),
    ("it comes back", False, [[(0, 1, SET_10, resp.OK), (9, 15, GOT, resp.NOTHING), (16, 17, FRAME_GET, wire.value(b"7"))]]),
    ("two take it before it is over", False, [[(0, 1, SET_10, resp.OK)], [(2, 8, SET_NX, resp.OK)]]),
    ("another takes it after that", True, [[(0, 1, SET_10, resp.OK)], [(2, 12, SET_NX, resp.OK)]]),
    ("a later deadline", True, [[(0, 1, SET_10, resp.OK), (2, 3, MORE, b":1\r\n"), (11, 12, GOT, SEVEN)]]),
    ("a later deadline that came too late", False, [[(0, 1, SET_10, resp.OK), (11, 12, MORE, b":1\r\n")]]),
    ("no deadline any more", True, [[(0, 1, SET_10, resp.OK), (2, 3, NO_END, b":1\r\n"), (99, 100, GOT, SEVEN)]]),
    ("a put takes the deadline away", True,
     [[(0, 1, SET_10, resp.OK), (2, 3, FRAME_PUT, wire.value(b"7")), (99, 100, GOT, resp.value(b"9"))]]),
]


def wrong_rows() -> list[str]:
    """The names of the rows that are decided wrongly."""
    return [name for name, wanted, clients in ROWS
            if Search([[Event(begun * MILLISECOND, ended * MILLISECOND, call, answer) for begun, ended, call, answer in events]
                       for events in clients]).has_order(None) != wanted]


class Torture(Rounds):
    """Each round begins without keys."""

    LONGEST = 0.4

    def __init__(self, server: resp.Front | resp.Redis, pool: multiprocessing.pool.Pool, seed: int) -> None:
        super().__init__(server, pool, seed, play)
        self.missed = 0

    def round(self, seconds: float) -> None:
        players = self.played(seconds)
        self.judge(judged, [(key, events_on(key, players)) for key in KEYS])
        self.client.ask("FLUSHALL")
        self.missed += sum(event.answer == resp.NOTHING for events in players for event in events)


def summary(torture: Torture) -> str:
    """What was played."""
    return (f"{torture.made} events of {PROCESSES * (REDIS_CLIENTS + FRAME_CLIENTS)} clients in {torture.rounds} rounds, "
            f"{torture.missed} of which found nothing: each key's history is linearizable")


if __name__ == "__main__":
    plain.play_rounds("redis_expiring", 6, Torture, wrong_rows(), summary)
