"""The load of keeping.py: servers that keep their map in a file, clients that write down what they did, and the judge of what a restart
brought back. Each client has keys of its own, so it knows their order; each value names its key's client and a count."""
from __future__ import annotations

import contextlib
import os
import random
import subprocess
import threading
import time
from collections.abc import Callable, Iterator, Sequence
from dataclasses import dataclass, field
from hashlib import sha1
from itertools import accumulate
from pathlib import Path
from typing import Optional

import redis_wire as resp
import sequential as model
import wire
from redis_wire import SUM_SCRIPT, Word
from wire import Wrong, same

ONE = model.spelled(1)
# The key that programs are tried on; a server that is killed meanwhile may have kept it.
PROBE = b"probe"
# The kinds of keys that a client has, and how many of each: with texts, with sums, and with deadlines.
COUNTS = {b"text": 24, b"sum": 8, b"time": 12}


class NotStarted(Wrong):
    """A server ended before it was ready: its status, and the lines that it told."""

    def __init__(self, status: int, lines: list[str]) -> None:
        super().__init__(f"not started, status {status}: {lines}")
        self.status, self.lines = status, lines


class Kept:
    """A started mapd that keeps its map in the file: `frames` and `redis` are its addresses."""

    def __init__(self, program: Path, file: Path, *options: str, limit: Callable[[], None] | None = None,
                 environment: dict[str, str] | None = None) -> None:
        self.process = subprocess.Popen(
            [str(program), "--listen", "127.0.0.1:0", "--redis", "127.0.0.1:0", "--keep", str(file), *options],
            stdin=subprocess.DEVNULL, stdout=subprocess.PIPE, stderr=subprocess.PIPE, bufsize=0, preexec_fn=limit,
            env={**os.environ, **(environment or {})})
        self.lines: list[str] = []
        self.reader = threading.Thread(target=self.read_lines, daemon=True)
        self.reader.start()
        with wire.killed_when_late(self.process):
            self.printed = self.process.stdout.readline()
        if self.printed != b"ready\n":
            status = self.finish()
            raise NotStarted(status, self.lines)
        self.frames = self.told("listening on ").removeprefix("listening on ")
        self.redis = self.told("redis on ").removeprefix("redis on ")

    def read_lines(self) -> None:
        """Collects what standard error is told."""
        for line in self.process.stderr:
            self.lines.append(line.decode(errors="replace").strip())

    def told(self, begin: str, seconds: float = wire.PATIENCE) -> str:
        """The first line that begins so; it may still have to come."""
        until = time.monotonic() + seconds
        while time.monotonic() < until:
            for line in list(self.lines):
                if line.startswith(begin):
                    return line
            time.sleep(0.01)
        raise Wrong(f"no line begins with {begin!r}: {self.lines}")

    def finish(self, patience: float = wire.PATIENCE) -> int:
        """Waits for its end, and gives its status."""
        try:
            self.process.wait(patience)
        except subprocess.TimeoutExpired as late:
            self.kill()
            raise Wrong("the server doesn't end") from late
        self.reader.join(1)
        self.printed += self.process.stdout.read()
        return self.process.returncode

    def kill(self) -> None:
        """Ends it by a signal that it can't see."""
        self.process.kill()
        self.process.wait()


class KeptRedis(Kept):
    """A redis-server that appends to a file in the same folder. It has no port for frames."""

    def __init__(self, program: Path, file: Path, *_options: str, limit: Callable[[], None] | None = None) -> None:
        port = resp.free_port()
        self.frames, self.redis, self.lines = "", f"127.0.0.1:{port}", []
        words = ["--port", str(port), "--bind", "127.0.0.1", "--databases", "1", "--save", "", "--appendonly", "yes", "--appendfsync",
                 "everysec", "--dir", str(file.parent)]
        self.process = subprocess.Popen([str(program), *words], stdin=subprocess.DEVNULL, stdout=subprocess.DEVNULL,
                                        stderr=subprocess.DEVNULL, preexec_fn=limit)
        resp.await_port(self.redis)


def start(program: Path, file: Path, *options: str) -> Kept:
    """A server of this program."""
    return (KeptRedis if program.name == "redis-server" else Kept)(program, file, *options)


@contextlib.contextmanager
def kept(program: Path, file: Path, *options: str, limit: Callable[[], None] | None = None) -> Iterator[Kept]:
    """A mapd that keeps its map in the file, and is killed at the end of the block, if it still runs."""
    server = Kept(program, file, *options, limit=limit)
    try:
        yield server
    finally:
        server.kill()


@dataclass(frozen=True)
class State:
    """A value, and between which two milliseconds its deadline is, if it has one."""
    value: bytes
    earliest: Optional[int] = None
    latest: Optional[int] = None

    def is_over(self, now: int) -> bool:
        """Whether its time may be over."""
        return self.earliest is not None and self.earliest <= now


Held = Optional[State]
# A step of one client: what it changes, when it was asked for, and when its answer was there.
Changes = dict[bytes, Held]


@dataclass
class Step:
    """What a client did to some of its keys in one step."""
    changes: Changes
    sent: float
    answered: Optional[float] = None


def may_be(state: Held, found: Held, now: int) -> bool:
    """Whether this is what a restart may bring back of this state."""
    if found is None:
        return state is None or state.is_over(now)
    if state is None or state.value != found.value:
        return False
    if state.earliest is None or state.latest is None or found.earliest is None:
        return state.earliest is None and found.earliest is None
    return state.earliest <= found.earliest <= state.latest


def millis() -> int:
    """The time in milliseconds since the epoch."""
    return time.time_ns() // 1_000_000


@dataclass
class Named:
    """A program or a script that was registered: its bytes, its number or name, and when it was answered."""
    code: bytes
    name: bytes | int
    answered: float


def constant_program(number: int) -> bytes:
    """A program that answers this number in 8 bytes."""
    return bytes.fromhex("7a040000") + number.to_bytes(4, "little") + bytes.fromhex("b700000008000000 9500000000000000")


CONSTANT_SIZES = (64, 1024, 8, 8)


@dataclass
class Moment:
    """What the clients of one round share: whether they ask for saves, whether the server was killed, and when each SAVE that was
    answered had been asked for."""
    asks: bool = True
    is_killed: bool = False
    saves: list[float] = field(default_factory=list)


class Player:
    """A client with connections of both protocols, and what it writes down. It begins with what is there of its keys."""

    def __init__(self, name: bytes, seed: str, found: Changes, moment: Moment) -> None:
        self.name, self.moment = name, moment
        self.dice = random.Random(seed)
        self.begun = {key: found.get(key) for key in keys_of(name)}
        self.now = dict(self.begun)
        self.steps: list[Step] = []
        self.named: list[Named] = []
        self.count = self.dice.randrange(1 << 30) << 20
        self.frames: wire.Client | None = None
        self.redis: resp.Client
        self.sum = 0

    def play(self, server: Kept, walks: bool) -> None:
        """Makes calls until the server is killed."""
        try:
            with contextlib.ExitStack() as stack:
                self.redis = stack.enter_context(resp.Client(server.redis))
                if server.frames:
                    self.frames = stack.enter_context(wire.opened(server.frames, 2))
                    self.sum = self.register(model.PROGRAMS[model.ADD].sizes, model.PROGRAMS[model.ADD].code)
                    self.load_script(SUM_SCRIPT)
                while True:
                    self.take_turn(walks)
        except (wire.Ended, OSError):
            if not self.moment.is_killed:
                raise

    def take_turn(self, walks: bool) -> None:
        """Sends some requests in one piece by one of the protocols, and reads the answers."""
        choice = self.dice.randrange(300)
        if choice == 0 and self.moment.asks:
            self.save()
        elif choice <= 2 and self.frames:
            self.count += 1
            self.register(CONSTANT_SIZES, constant_program(self.count % (1 << 31)))
        elif choice <= 4 and self.frames:
            self.count += 1
            self.load_script(SUM_SCRIPT + b"; %d\n" % self.count)
        elif choice <= 20 and walks and self.frames:
            self.replace_all()
        elif choice % 2 and self.frames:
            self.send_frames()
        else:
            self.send_commands()

    def step(self, changes: Changes) -> Step:
        """Writes down a step that is to be sent now."""
        self.now.update(changes)
        step = Step(changes, time.monotonic())
        self.steps.append(step)
        return step

    def text(self) -> bytes:
        """A value that was never there before."""
        self.count += 1
        value = b"%b.%d." % (self.name, self.count)
        return value.ljust(self.dice.choice((9, 9, 20, 100, 100, 1024)), b"x")

    def key(self, kind: bytes) -> bytes:
        """One of its keys of a kind."""
        return b"%b/%b/%d" % (self.name, kind, self.dice.randrange(COUNTS[kind]))

    def sum_after(self, key: bytes) -> State:
        """The key's sum after one more is added."""
        held = self.now[key]
        return State(model.spelled(1 + model.word(held.value if held else None)))

    def some_frame(self) -> tuple[bytes, Changes]:
        """A request, and what it changes."""
        choice = self.dice.randrange(8)
        if choice < 3:
            key = self.key(b"sum")
            return wire.merge(key, ONE, self.sum), {key: self.sum_after(key)}
        key = self.key(b"text")
        if choice == 3:
            return b"\x13" + wire.key_field(key), {key: None}
        value = self.text()
        return wire.put(key, value), {key: State(value)}

    def send_frames(self) -> None:
        """Some requests of the port for frames."""
        steps, bodies = [], []
        for _ in range(self.dice.choice((1, 1, 4, 16))):
            body, changes = self.some_frame()
            bodies.append(body)
            steps.append(self.step(changes))
        self.frames.send(*bodies)
        for step in steps:
            answer = self.frames.answer()
            if answer[0] == 0x85:
                raise Wrong(f"a request is refused: {answer!r}")
            step.answered = time.monotonic()

    def some_command(self) -> tuple[Sequence[Word], list[Changes]]:
        """A command, and what its steps change."""
        choice = self.dice.randrange(10)
        if choice < 5:
            return self.some_timed()
        if choice == 5 and not self.frames:
            key = self.key(b"sum")
            held = self.now[key]
            return ("INCR", key), [{key: State(b"%d" % (1 + int(held.value if held else 0)))}]
        if choice == 5:
            key = self.key(b"sum")
            return ("EVALSHA", sha1(SUM_SCRIPT).hexdigest(), 1, key, 1), [{key: self.sum_after(key)}]
        key = self.key(b"text")
        if choice == 6:
            return ("DEL", key), [{key: None}]
        if choice == 7:
            pairs = {self.key(b"text"): self.text() for _ in range(3)}
            words = [word for pair in pairs.items() for word in pair]
            return ("MSET", *words), [{key: State(value)} for key, value in pairs.items()]
        value = self.text()
        return ("SET", key, value), [{key: State(value)}]

    def some_timed(self) -> tuple[Sequence[Word], list[Changes]]:
        """A command on a key that may have a deadline, and what it changes."""
        key, value, choice = self.key(b"time"), self.text(), self.dice.randrange(6)
        if choice == 0:
            return ("DEL", key), [{key: None}]
        if choice == 1:
            return ("SET", key, value), [{key: State(value)}]
        after = self.dice.choice((30, 300, 3000, 3_600_000, 3_600_000))
        until = millis() + after
        if choice < 4:
            return ("SET", key, value, "PXAT", until), [{key: State(value, until, until)}]
        # the server adds its own time, which it looked at when its turn began
        return ("SET", key, value, "PX", after), [{key: State(value, until - 1000, until + 60_000)}]

    def send_commands(self) -> None:
        """Some commands of the Redis port."""
        sent, steps = [], []
        for _ in range(self.dice.choice((1, 1, 4, 16))):
            words, changes = self.some_command()
            sent.append(resp.command(*words))
            steps.append([self.step(change) for change in changes])
        self.redis.socket.sendall(b"".join(sent))
        for group in steps:
            reply = self.redis.reply()
            if reply[:1] == b"-":
                raise Wrong(f"a command is refused: {reply!r}")
            for step in group:
                step.answered = time.monotonic()

    def replace_all(self) -> None:
        """A walk that adds one to each sum. It is one step if there is one stripe, and no other client."""
        sums = [key for key, held in self.now.items() if held is not None and b"/sum/" in key]
        step = self.step({key: self.sum_after(key) for key in sums})
        answer = self.frames.walk(wire.walk(model.REPLACE_ALL, self.sum, ONE))[-1]
        same("the end of a walk", answer[0], wire.END)
        step.answered = time.monotonic()

    def save(self) -> None:
        """Asks for a save, which has all that was answered before."""
        sent = time.monotonic()
        reply = self.redis.ask("SAVE")
        if reply == resp.OK:
            self.moment.saves.append(sent)
        elif b"in progress" not in reply:
            raise Wrong(f"SAVE is answered by {reply!r}")

    def register(self, sizes: tuple[int, int, int, int], code: bytes) -> int:
        """Registers a program; its number."""
        answer = self.frames.ask(wire.register(sizes, code))
        same("the answer to a Register", answer[0], 0x81)
        number = int.from_bytes(answer[1:], "big")
        self.named.append(Named(code, number, time.monotonic()))
        return number

    def load_script(self, text: bytes) -> None:
        """Loads a script."""
        name = sha1(text).hexdigest().encode()
        same("the reply to SCRIPT LOAD", self.redis.ask("SCRIPT", "LOAD", text), resp.value(name))
        self.named.append(Named(text, name, time.monotonic()))


def keys_of(name: bytes) -> list[bytes]:
    """The keys of a client."""
    return [b"%b/%b/%d" % (name, kind, number) for kind, count in COUNTS.items() for number in range(count)]


def segments_of(player: Player, key: bytes) -> list[tuple[int, int, Held]]:
    """The states of a key, each with the counts of steps from which and before which it was so."""
    changes = [(0, player.begun[key])]
    changes += [(count, step.changes[key]) for count, step in enumerate(player.steps, 1) if key in step.changes]
    ends = [count for count, _ in changes[1:]] + [len(player.steps) + 1]
    return [(begin, end, state) for (begin, state), end in zip(changes, ends)]


def judge(player: Player, found: Changes, now: int, limit: float, killed: float, is_one_moment: bool) -> float:
    """Fails if this is not what may be there of a client's keys: all steps that were answered before the limit, and for each key what it
    was at one moment. If the map has one stripe, it is the same moment for all keys. Gives the age of the oldest step that is missing."""
    least = max((count for count, step in enumerate(player.steps, 1) if step.answered is not None and step.answered < limit), default=0)
    misses = [0] * (len(player.steps) + 2)
    oldest = 0.0
    for key in player.begun:
        segments = segments_of(player, key)
        fitting = [(begin, end) for begin, end, state in segments if may_be(state, found.get(key), now)]
        if not fitting or fitting[-1][1] <= least:
            wanted = [state for _, end, state in segments if end > least]
            raise Wrong(f"{key!r} is {found.get(key)!r:.200}, and must be one of {len(wanted)} states from {wanted[0]!r:.200} on; it was that "
                        f"between the steps {fitting} of {len(player.steps)}, and the first {least} must be there")
        for begin, end in fitting:
            misses[begin] -= 1
            misses[end] += 1
        end = fitting[-1][1]
        if end <= len(player.steps) and (answered := player.steps[end - 1].answered) is not None:
            oldest = max(oldest, killed - answered)
    fits = [len(player.begun) + change for change in accumulate(misses)]
    if is_one_moment and 0 not in fits[least:len(player.steps) + 1]:
        raise Wrong(f"no one moment has all keys of client {player.name!r}")
    return oldest


def read_back(server: Kept) -> Changes:
    """All entries, with their deadlines, but for the key that programs are tried on."""
    found: Changes = {}
    with resp.Client(server.redis) as client:
        keys = [resp.text_of(member) for member in resp.members_of(client.ask("KEYS", "*"))]
        for begin in range(0, len(keys), 200):
            some = keys[begin:begin + 200]
            client.socket.sendall(b"".join(resp.command("GET", key) + resp.command("PEXPIRETIME", key) for key in some))
            for key in some:
                value, deadline = client.reply(), int(client.reply()[1:])
                if value != resp.NOTHING and deadline != -2:
                    until = deadline if deadline >= 0 else None
                    found[key] = State(resp.text_of(value), until, until)
    found.pop(PROBE, None)
    return found


def played(server: Kept, players: list[Player], walks: bool, seconds: float, moment: Moment) -> tuple[float, float]:
    """Lets the clients play for these seconds, and kills the server in the middle. Gives how long a SAVE took, and the time of the kill."""
    faults: list[BaseException] = []

    def play(player: Player) -> None:
        try:
            player.play(server, walks)
        except BaseException as fault:  # noqa: B902: it is raised again by the thread that started this one
            faults.append(fault)

    threads = [threading.Thread(target=play, args=(player,)) for player in players]
    for thread in threads:
        thread.start()
    time.sleep(min(0.3, seconds / 2))
    took = time.monotonic()
    with resp.Client(server.redis) as client:
        if client.ask("SAVE") == resp.OK:
            moment.saves.append(took)
    took = time.monotonic() - took
    time.sleep(seconds)
    moment.is_killed = True
    killed = time.monotonic()
    server.kill()
    for thread in threads:
        thread.join()
    if faults:
        raise faults[0]
    return took, killed
