#!/usr/bin/env python3
"""Tries `mapd --keep FILE`: what a restart brings back.

  - killed: sixteen clients of both protocols, or one, and SIGKILL at a random moment. Then nothing is missing that was answered before a
    save, or longer ago than the saves are apart and take; nothing is there that never was, and each key is what it was at one moment.
    Programs have their numbers, scripts their names, and sqlite3 finds no fault in the file. docs/entries.sql finds what its batches have.
  - ended: after the last session, or SHUTDOWN, nothing is missing, with another number of stripes too.
  - appended: a save appends just what changed since the one before.
  - bounded: many changes of few keys, and the file doesn't get longer and longer.
  - anew: a save that takes all anew reads the file a few times at most, and not once for each stripe.
  - upgraded: a file of format 1 or 2 is refused, and the client in Python makes one of it that is taken.
  - foreign: files whose batches Python made. Sound ones are taken, and each fault in a batch is refused by its own line.
  - damaged: files of another kind, cut ones, ones with changed bits. Each is refused, or every entry is one that was there.
  - hindered: a file that can't be written, a full disk, a file that is removed, a second server.
  - asked: SAVE, BGSAVE, LASTSAVE and SHUTDOWN.

By hand, after `rt run` in crates/mapd: python3 tests/keeping.py [--rounds 500] [--bits 2000] [--seed N] [PART ..]. With `--program
redis-server` it plays the part `killed` on the file that Redis appends to. By .ci/run behind the gate."""
from __future__ import annotations

import argparse
import contextlib
import itertools
import os
import random
import resource
import shutil
import signal
import sqlite3
import subprocess
import sys
import tempfile
import threading
import time
from collections.abc import Callable, Iterator
from hashlib import sha1
from pathlib import Path
from typing import Optional

ROOT = Path(__file__).resolve().parent.parent
sys.path.insert(0, str(ROOT / "tests"))
sys.dont_write_bytecode = True
import kept_format as fmt  # noqa: E402
import keeping_load as load  # noqa: E402
import redis_wire as resp  # noqa: E402
import sequential as model  # noqa: E402
import wire  # noqa: E402
from keeping_load import Changes, Kept, Named, NotStarted, Player, State, kept  # noqa: E402
from kept_format import Batch, Change  # noqa: E402
from wire import Wrong, same  # noqa: E402

BPFMAP = ROOT / "crates/bpfmap/out/bpfmap"
CLIENTS = 16
# Entries that stay as they are, so that the map is larger than what changes.
BALLAST = {b"ballast %d" % number: State(b"%d" % number * 20) for number in range(5000)}
NOBODY = 65534
DEADLINE = 4_000_000_000_000
# The view of the entries for sqlite3.
ENTRIES = (ROOT / "docs/entries.sql").read_text(encoding="utf-8")


def is_redis(program: Path) -> bool:
    """Whether the program is redis-server."""
    return program.name == "redis-server"


def log_of(file: Path) -> Path:
    """The log beside a file."""
    return file.with_name(file.name + "-wal")


def copied(file: Path, folder: Path) -> Path:
    """A copy of a file and its log, in this folder."""
    folder.mkdir()
    for part in (file, log_of(file)):
        if part.exists():
            shutil.copy(part, folder / part.name)
    return folder / file.name


@contextlib.contextmanager
def opened_copy(file: Path) -> Iterator[sqlite3.Connection]:
    """A copy of a file and its log, opened by sqlite3."""
    with tempfile.TemporaryDirectory() as folder, contextlib.closing(sqlite3.connect(copied(file, Path(folder) / "copy"))) as data:
        yield data


def entries_by_sql(file: Path) -> Changes:
    """The entries that docs/entries.sql finds in a copy of the file. Fails if its batches have others, or sqlite3 finds a fault."""
    with opened_copy(file) as data:
        same("the integrity check", data.execute("pragma integrity_check").fetchall(), [("ok",)])
        data.executescript(ENTRIES)
        rows = data.execute("select stripe, key, value, deadline from entries").fetchall()
        found = {(stripe, key): (value, deadline) for stripe, key, value, deadline in rows}
        same("the entries by docs/entries.sql", found, fmt.entries_of(data))
    same("how many rows these are", len(rows), len(found))
    return {key: State(value, deadline, deadline) for (_, key), (value, deadline) in found.items()}


class Known:
    """The programs and scripts that a server must know, by their numbers and names."""

    def __init__(self) -> None:
        self.programs: dict[int, bytes] = {}
        self.scripts: dict[bytes, bytes] = {}

    def check(self, server: Kept, named: list[Named], limit: float) -> None:
        """Fails if one that was answered before the limit is unknown now, or has another number. The others may be there, or not."""
        for one in (one for one in named if one.answered < limit):
            self.note(one)
        with wire.opened(server.frames, 2) as client:
            for number, code in self.programs.items():
                self.check_program(client, number, code)
            client.ask(b"\x13" + wire.key_field(load.PROBE))
        with resp.Client(server.redis) as client:
            names = list(self.scripts)
            for begin in range(0, len(names), 1000):
                some = names[begin:begin + 1000]
                replies = resp.members_of(client.ask("SCRIPT", "EXISTS", *some))
                same("scripts that are known", replies, [resp.integer(1)] * len(some))
            for name in names[-3:]:
                client.ask("DEL", load.PROBE)
                same("a script's reply", client.ask("EVALSHA", name, 1, load.PROBE, 1), resp.integer(1))
            client.ask("DEL", load.PROBE)

    def note(self, one: Named) -> None:
        """It must be known from now on."""
        if isinstance(one.name, bytes):
            self.scripts[one.name] = one.code
        elif self.programs.setdefault(one.name, one.code) != one.code:
            raise Wrong(f"two programs have the number {one.name}")

    def check_program(self, client: wire.Client, number: int, code: bytes) -> None:
        """Fails if the program doesn't have this number, or answers something else."""
        is_sum = code == model.PROGRAMS[model.ADD].code
        sizes = model.PROGRAMS[model.ADD].sizes if is_sum else load.CONSTANT_SIZES
        client.send(b"\x13" + wire.key_field(load.PROBE), wire.compute(load.PROBE, number, load.ONE), wire.register(sizes, code))
        _, answer, registered = client.answer(), client.answer(), client.answer()
        constant = load.ONE if is_sum else model.spelled(int.from_bytes(code[4:8], "little"))
        same(f"the answer of program {number}", answer, wire.value(constant))
        same(f"the number of program {number}", registered, b"\x81" + wire.number_field(number))


def fill(server: Kept, entries: Changes) -> None:
    """Sets all these entries."""
    with resp.Client(server.redis) as client:
        keys = list(entries)
        for begin in range(0, len(keys), 500):
            some = keys[begin:begin + 500]
            client.socket.sendall(b"".join(set_command(key, entries[key]) for key in some))
            for _ in some:
                same("the reply to SET", client.reply(), resp.OK)


def set_command(key: bytes, state: State) -> bytes:
    """The command that makes this entry."""
    until = [] if state.earliest is None else ["PXAT", state.earliest]
    return resp.command("SET", key, state.value, *until)


class Rounds:
    """Servers on one file, each killed, and what is known of it: with clients of these names."""

    def __init__(self, program: Path, folder: Path, names: list[bytes], seed: int) -> None:
        folder.mkdir()
        self.program, self.file, self.names = program, folder / "map.db", names
        self.seed, self.dice = f"{seed} {names}", random.Random(f"{seed} {names}")
        self.found: Changes = {}
        self.known = Known()
        self.missing: list[float] = []

    def options(self, stripes: int) -> list[str]:
        """Options of a server with so many stripes."""
        return ["--stripes", str(stripes), "--workers", str(self.dice.choice((1, 2, 4)))]

    def start(self, stripes: int) -> Kept:
        """Starts a server; now and then one before it is killed while it starts."""
        if self.dice.randrange(4) == 0:
            with contextlib.suppress(NotStarted):
                limit = random_kill(self.dice.random() * 0.2)
                Kept(self.program, self.file, *self.options(stripes), limit=limit).kill()
        return load.start(self.program, self.file, *self.options(stripes))

    def play(self, number: int) -> None:
        """A round: what one more server is told, and what the next one brings back."""
        is_alone = len(self.names) == 1
        stripes = 1 if is_alone else self.dice.choice((1, 4, 16, 64))
        server = self.start(stripes)
        if not self.missing:
            fill(server, BALLAST)
        moment = load.Moment(asks=self.dice.random() < 0.5)
        players = [Player(name, f"{self.seed} {number} {name!r}", self.found, moment) for name in self.names]
        begun = time.monotonic()
        took, killed = load.played(server, players, is_alone, 0.2 + 5 * self.dice.random(), moment)
        # saves are a second apart; on a busy machine one may begin late, and take much longer than the one that was timed
        limit = max([killed - 2.5 - 10 * took, *moment.saves])
        if not is_redis(self.program):
            entries_by_sql(self.file)
        self.judge(players, limit, killed, stripes == 1)
        print(f"round {number}: {len(players)} clients, {stripes} stripes, {sum(len(player.steps) for player in players)} steps in "
              f"{killed - begun:.1f} s, {len(moment.saves)} saves asked for (one took {took:.3f} s); the oldest that is missing is "
              f"{self.missing[-1]:.2f} s old", flush=True)

    def judge(self, players: list[Player], limit: float, killed: float, is_one_moment: bool) -> None:
        """Starts the next server, and looks at what it brought back."""
        server = self.start(self.dice.choice((1, 4, 16, 64)))
        try:
            found, now = load.read_back(server), load.millis()
            for key, state in BALLAST.items():
                same(f"{key!r}, which never changes,", found.get(key), state)
            strange = set(found) - set(BALLAST) - {key for player in players for key in player.begun}
            same("keys that nobody put", strange, set())
            self.missing.append(max(load.judge(player, found, now, limit, killed, is_one_moment) for player in players))
            self.found = {key: state for key, state in found.items() if key not in BALLAST}
            if not is_redis(self.program):
                self.known.check(server, [one for player in players for one in player.named], limit)
        finally:
            server.kill()


def random_kill(seconds: float) -> Callable[[], None]:
    """Has a process that is started be killed after so long."""
    def prepare() -> None:
        signal.signal(signal.SIGALRM, signal.SIG_DFL)
        signal.setitimer(signal.ITIMER_REAL, seconds)
    return prepare


def killed(given: argparse.Namespace, folder: Path) -> None:
    """Servers are killed at random moments."""
    many = Rounds(given.program, folder / "many", [b"client%d" % client for client in range(CLIENTS)], given.seed)
    alone = Rounds(given.program, folder / "alone", [b"alone"], given.seed)
    for number in range(given.rounds):
        (alone if number % 3 == 2 else many).play(number)
    oldest = max(many.missing + alone.missing)
    print(f"killed: {given.rounds} rounds; the oldest step that was ever missing was {oldest:.2f} s old")


SAVED: Changes = {
    **{b"text %d" % number: State(b"%d." % number * (number + 1)) for number in range(40)},
    b"": State(b""), b"\x00" * 64: State(bytes(range(256)) * 4), b"timed": State(b"until", DEADLINE, DEADLINE),
}


def make_saved(given: argparse.Namespace, file: Path, known: Known) -> None:
    """A server that saves some entries, programs and scripts, and ends in order."""
    with kept(given.program, file) as server:
        fill(server, SAVED)
        name_some(server, known)
        shut_down(server)


def name_some(server: Kept, known: Known) -> None:
    """Registers three programs, and loads two scripts."""
    with wire.opened(server.frames, 2) as client:
        for code in [model.PROGRAMS[model.ADD].code, load.constant_program(1), load.constant_program(1 << 30)]:
            sizes = load.CONSTANT_SIZES if code[0] == 0x7A else model.PROGRAMS[model.ADD].sizes
            answer = client.ask(wire.register(sizes, code))
            known.note(Named(code, int.from_bytes(answer[1:], "big"), 0))
    with resp.Client(server.redis) as client:
        for text in (resp.SUM_SCRIPT, resp.SUM_SCRIPT + b"# another\n"):
            client.ask("SCRIPT", "LOAD", text)
            known.note(Named(text, sha1(text).hexdigest().encode(), 0))


def shut_down(server: Kept, *words: str) -> None:
    """Ends a server by SHUTDOWN: its connection ends without a reply, and its status is 0."""
    with resp.Client(server.redis) as client:
        client.send("SHUTDOWN", *words)
        same("the reply to SHUTDOWN", client.rest(), b"")
    same("the status after SHUTDOWN", server.finish(), 0)


def check_all(given: argparse.Namespace, file: Path, wanted: Changes, known: Known, *options: str) -> None:
    """Fails if a server on this file hasn't just these entries, programs and scripts."""
    with kept(given.program, file, *options) as server:
        same("the entries", load.read_back(server), wanted)
        known.check(server, [], 0)


def ended(given: argparse.Namespace, folder: Path) -> None:
    """Servers that end in order lose nothing."""
    file, known = folder / "map.db", Known()
    make_saved(given, file, known)
    same("the entries by SQL", entries_by_sql(file), SAVED)
    for stripes in ("1", "64", "2"):
        check_all(given, file, SAVED, known, "--stripes", stripes)
    for count in range(3):
        with kept(given.program, file, "--workers", "1", "--sessions", "1", "--keep-seconds", "3600", "--stripes", str(1 << count)) as server:
            with resp.Client(server.redis) as client:
                same("SET", client.ask("SET", "last", "session %d" % count), resp.OK)
                same("DEL", client.ask("DEL", "text %d" % count), resp.integer(1))
            same("the status", server.finish(), 0)
            same("what is printed", server.printed, b"ready\nserved 1\n")
        wanted = {key: state for key, state in SAVED.items() if key not in [b"text %d" % number for number in range(count + 1)]}
        wanted[b"last"] = State(b"session %d" % count)
        check_all(given, file, wanted, known)
    with kept(given.program, file, "--keep-seconds", "3600") as server:
        with resp.Client(server.redis) as client:
            client.ask("SET", "last", "never saved")
        shut_down(server, "NOSAVE")
    check_all(given, file, wanted, known)
    emptied(given, file)
    backed_up(given, folder)


def emptied(given: argparse.Namespace, file: Path) -> None:
    """After FLUSHALL, and a deadline that is over while no server runs, nothing is there."""
    with kept(given.program, file) as server:
        with resp.Client(server.redis) as client:
            client.ask("FLUSHALL")
            client.ask("SET", "short", "x", "PX", 400)
        shut_down(server)
    time.sleep(0.5)
    check_all(given, file, {}, Known())


def backed_up(given: argparse.Namespace, folder: Path) -> None:
    """A copy of both files, made while the process stands still amid a load, is whole: docs/KEEPING.md."""
    file, known = folder / "busy.db", Known()
    with kept(given.program, file) as server:
        fill(server, SAVED)
        name_some(server, known)
        with resp.Client(server.redis) as client:
            same("SAVE", client.ask("SAVE"), resp.OK)
        busy = threading.Thread(target=fill, args=(server, BALLAST))
        busy.start()
        time.sleep(0.1)
        server.process.send_signal(signal.SIGSTOP)
        copy = copied(file, folder / "backup")
        server.process.send_signal(signal.SIGCONT)
        busy.join()
    entries_by_sql(copy)
    with kept(given.program, copy) as server:
        found = load.read_back(server)
        same("what the copy has of what was saved", {key: found.get(key) for key in SAVED}, SAVED)
        same("what else it has", {key for key in set(found) - set(SAVED) if found[key] != BALLAST.get(key)}, set())
        known.check(server, [], 0)


FEW_KEYS = [b"few %d" % number for number in range(8000)]
# A save takes so many keys in one round, that is while it holds their stripe. The last batch of a round isn't full.
ROUND_KEYS = 250
# Keys that changed first are noted in lists, so they may be handed out twice: 128, and one more for each 1,024 entries.
LISTED = 135
# Twice what the entries need, 65,536, and those of two saves.
MOST_CHANGES = 4 * len(FEW_KEYS) + (1 << 16)


def sizes_of(file: Path) -> tuple[int, list[int]]:
    """How many changes the file has, and how many bytes each batch has, in their order."""
    with opened_copy(file) as data:
        lengths = [length for (length,) in data.execute("select length(changes) from batches order by number")]
        return sum(1 for _ in fmt.changes_of(data)), lengths


def are_rounds(what: str, lengths: list[int], entries: int) -> None:
    """These batches are of a stripe of so many entries, taken in rounds."""
    same(f"how many batches of {what} aren't full", sum(length < fmt.BATCH_BYTES for length in lengths), -(-entries // ROUND_KEYS))
    same(f"that some batches of {what} are full", any(length >= fmt.BATCH_BYTES for length in lengths), True)


def appended(given: argparse.Namespace, folder: Path) -> None:
    """A save appends just what changed since the last one, in rounds if that is much, and all but the last batch of a round are full."""
    file = folder / "map.db"
    with kept(given.program, file, "--stripes", "1", "--keep-seconds", "3600") as server, resp.Client(server.redis) as client:
        fill(server, {key: State(b"first " * 20) for key in FEW_KEYS})
        same("SAVE", client.ask("SAVE"), resp.OK)
        first, lengths = sizes_of(file)
        same("the changes after the first save", first, len(FEW_KEYS))
        are_rounds("the first save", lengths, len(FEW_KEYS))
        client.ask("SET", "new", "value")
        client.ask("DEL", FEW_KEYS[0])
        same("SAVE", client.ask("SAVE"), resp.OK)
        second, longer = sizes_of(file)
        same("the changes after the second save", second - first, 2)
        same("the batches of the first save", longer[:len(lengths)], lengths)
        fill(server, {key: State(b"again " * 20) for key in FEW_KEYS})
        same("SAVE", client.ask("SAVE"), resp.OK)
        third, longest = sizes_of(file)
        same(f"that all keys changed once more, {third - second}", len(FEW_KEYS) <= third - second <= len(FEW_KEYS) + LISTED, True)
        are_rounds("the third save", longest[len(longer):], len(FEW_KEYS) + 1)
    print(f"appended: {first} changes in {len(lengths)} batches, then {second - first} in {len(longer) - len(lengths)}, "
          f"and {third - second} in {len(longest) - len(longer)}")


def bounded(given: argparse.Namespace, folder: Path) -> None:
    """Few keys change again and again: neither the changes that the file has nor its pages get more and more."""
    file, counts, pages = folder / "map.db", [], []
    with kept(given.program, file, "--stripes", "64", "--keep-seconds", "3600") as server, resp.Client(server.redis) as client:
        for turn in range(given.turns):
            entries = {key: State(b"turn %d" % turn) for key in FEW_KEYS}
            fill(server, entries)
            same("SAVE", client.ask("SAVE"), resp.OK)
            with opened_copy(file) as data:
                counts.append(sum(1 for _ in fmt.changes_of(data)))
                pages += data.execute("pragma page_count").fetchone()
            same(f"that the changes after each save, {counts}, are at most {MOST_CHANGES}", counts[-1] <= MOST_CHANGES, True)
    same("the entries by SQL", entries_by_sql(file), entries)
    check_all(given, file, entries, Known())
    anew = next((turn for turn in range(1, given.turns) if counts[turn] < counts[turn - 1]), given.turns)
    same(f"that the pages after each save, {pages}, at most double after save {anew}", max(pages) <= 2 * max(pages[:anew]), True)
    print(f"bounded: of {given.turns * len(FEW_KEYS)} changes the file had {max(counts)} at most, in {max(pages)} pages")


# How often a save that takes all anew may read what the file has. Each row goes by its number, and the log is copied into the file.
MOST_READS = 6


def bytes_read(process: int) -> int:
    """How many bytes a process has read so far."""
    lines = Path(f"/proc/{process}/io").read_text(encoding="ascii").splitlines()
    return int(dict(line.split(": ") for line in lines)["rchar"])


def anew(given: argparse.Namespace, folder: Path) -> None:
    """The first save after a start takes all stripes anew: it reads the file a few times, however many stripes there are."""
    file, options = folder / "map.db", ("--stripes", "64", "--keep-seconds", "3600")
    entries = {b"key %d" % number: State(b"%d" % number * 100) for number in range(10_000)}
    with kept(given.program, file, *options) as server, resp.Client(server.redis) as client:
        fill(server, entries)
        same("SAVE", client.ask("SAVE"), resp.OK)
    size = file.stat().st_size + log_of(file).stat().st_size
    with kept(given.program, file, *options) as server, resp.Client(server.redis) as client:
        before = bytes_read(server.process.pid)
        same("SAVE", client.ask("SAVE"), resp.OK)
        read = bytes_read(server.process.pid) - before
        same(f"that of {size} bytes a save of all reads {read}, at most {MOST_READS} times as many", read <= MOST_READS * size, True)
    same("the entries by SQL", entries_by_sql(file), entries)
    print(f"anew: a save of 64 stripes reads {read / size:.1f} times what the file has")


def old_files(folder: Path, number: int, stripes: int, known: Known) -> tuple[Path, Path]:
    """A file of the format 1 or 2 that Python makes, with a program and a script, and a copy of it that has most in the log beside it."""
    folder.mkdir()
    file, add, code = folder / "old.db", model.PROGRAMS[model.ADD], load.constant_program(7)
    with contextlib.closing(sqlite3.connect(file)) as other:
        other.execute("pragma journal_mode = wal")
        # with this connection open, the next one leaves the log as it is
        other.execute("select * from sqlite_schema").fetchall()
        with fmt.made(file, number, stripes) as data:
            data.executemany("insert into programs values (?, ?, ?, ?, ?, ?)", [(0, *add.sizes, add.code), (1, *load.CONSTANT_SIZES, code)])
            data.execute("insert into scripts (text) values (?)", (resp.SUM_SCRIPT,))
            fmt.add_old(data, number, [Change(key, state.value, state.earliest) for key, state in SAVED.items()], stripes)
        copy = copied(file, folder / "with a log")
    same("the log has rows", log_of(copy).stat().st_size > copy.stat().st_size, True)
    for named in (add.code, 0), (code, 1), (resp.SUM_SCRIPT, sha1(resp.SUM_SCRIPT).hexdigest().encode()):
        known.note(Named(*named, 0))
    return file, copy


def upgrade(old: Path, new: Path) -> int:
    """Runs the tool that makes a file of format 3 of an older one; its status."""
    words = [sys.executable, "-B", "-m", "bpfmap.upgrade", str(old), str(new)]
    return subprocess.run(words, cwd=ROOT / "clients/python", stdin=subprocess.DEVNULL, stderr=subprocess.DEVNULL, check=False).returncode


def upgraded(given: argparse.Namespace, folder: Path) -> None:
    """A file of format 1 or 2 is refused, and the one that the client in Python makes of it is taken, with all that it had."""
    for number, stripes in itertools.product((1, 2), (1, 16)):
        known, new = Known(), folder / f"new {number}, {stripes}.db"
        old, with_log = old_files(folder / f"old {number}, {stripes}", number, stripes, known)
        before = with_log.read_bytes(), log_of(with_log).read_bytes()
        same("the status of the upgrade", upgrade(with_log, new), 0)
        same("the old file and its log", (with_log.read_bytes(), log_of(with_log).read_bytes()), before)
        same("the status of a second upgrade", upgrade(with_log, new), 1)
        same("the status of an upgrade of what is new", upgrade(new, folder / "newer.db"), 1)
        same("the entries by SQL", entries_by_sql(new), SAVED)
        same("what --kept says of the new file", report_of(given, new), None)
        for count in ("16", "4", "4"):
            check_all(given, new, SAVED, known, "--stripes", count)
        same("what --kept says of the old file", report_of(given, old), f"of an older format ({number})")
        same("what a server says of it", refusal_of(given, old), f"of an older format ({number})")


def line_on(file: Path, lines: list[str]) -> str:
    """What a line says of the file."""
    for line in lines:
        if line.startswith(f"{file}: "):
            return line.removeprefix(f"{file}: ")
    raise Wrong(f"no line says why {file} is refused: {lines}")


def refusal_of(given: argparse.Namespace, file: Path, *options: str) -> Optional[str]:
    """Why a server refuses the file, as it says; nothing if it takes it."""
    try:
        with kept(given.program, file, *options):
            return None
    except NotStarted as refused:
        same("the status", refused.status, 3)
        return line_on(file, refused.lines)


def reported(program: Path, word: str, file: Path) -> subprocess.CompletedProcess[bytes]:
    """What the program says of the file."""
    return subprocess.run([str(program), word, str(file)], stdin=subprocess.DEVNULL, capture_output=True, timeout=wire.PATIENCE, check=False)


def report_of(given: argparse.Namespace, file: Path) -> Optional[str]:
    """Why `mapd --kept` refuses the file, as it says; nothing if it finds the file sound. `bpfmap kept` must print the same, if it is built."""
    done = reported(given.program, "--kept", file)
    if BPFMAP.exists():
        again = reported(BPFMAP, "kept", file)
        same("what bpfmap kept says", (again.returncode, again.stdout, again.stderr), (done.returncode, done.stdout, done.stderr))
    if done.returncode == 0:
        same("the last line", done.stdout.splitlines()[-1:], [b"sound"])
        return None
    same("the status and what is printed", (done.returncode, done.stdout), (1, b""))
    return line_on(file, done.stderr.decode().splitlines())


SOUND = [Change(b"lasting", b"value"), Change(b"until", b"other value", DEADLINE), Change(b"lasting")]
DAMAGED, TOO_LONG = "damaged", "a key or a value in it is too long"


def faulty() -> Iterator[tuple[str, list[Batch], str]]:
    """Batches of a map of one stripe that no server writes, each with its name and why the file is refused."""
    lasting, until, removed = map(fmt.spelled, SOUND)
    for mark in (3, 4, 0x80, 0xff):
        yield f"a change of mark {mark}", [Batch(1, 0, lasting[:1] + bytes([mark]) + lasting[2:])], DAMAGED
    key, value = b"k" * 65, b"v" * 1025
    for number, change in enumerate([Change(key), Change(key, b""), Change(key, b"", DEADLINE), Change(b"", value), Change(b"", value, DEADLINE)]):
        yield f"the change {number} with one byte more than it may have", [Batch(1, 0, lasting + fmt.spelled(change))], TOO_LONG
    yield "the longest key that a byte says", [Batch(1, 0, b"\xff\x00")], TOO_LONG
    yield "the longest value that four bytes say", [Batch(1, 0, lasting[:9] + b"\xff" * 4)], TOO_LONG
    yield "a value of 65,536 bytes", [Batch(1, 0, lasting[:9] + b"\x00\x00\x01\x00" + bytes(65536))], TOO_LONG
    yield "a byte more", [Batch(1, 0, lasting + removed + b"\x00")], DAMAGED
    yield "a change that goes on in the next batch", [Batch(1, 0, until[:20]), Batch(2, 0, until[20:])], DAMAGED
    for stripe in (1, 2 ** 63 - 1, -1, -2 ** 63):
        yield f"the stripe {stripe}", [Batch(1, 0, lasting), Batch(2, stripe, lasting)], DAMAGED
    for number in (0, -1, -2 ** 63):
        yield f"the number {number}", [Batch(number, 0, lasting), Batch(1, 0, lasting)], DAMAGED


def foreign(given: argparse.Namespace, folder: Path) -> None:
    """Files that Python makes: sound ones are taken, and faulty ones refused, by a server and by --kept."""
    sound_batches(given, folder)
    for name, batches, line in faulty():
        file = fmt.make(folder / f"{name}.db", batches)
        same(f"what is said of {name}", (report_of(given, file), refusal_of(given, file)), (line, line))
    cut_batches(given, folder)
    stripe = fmt.stripe_of(b"lasting", 2)
    for name, placed, line in ("own", stripe, None), ("other", 1 - stripe, DAMAGED):
        file = fmt.make(folder / f"in its {name} stripe.db", [Batch(1, placed, fmt.spelled(SOUND[0]))], 2)
        same(f"what is said of a key in its {name} stripe", refusal_of(given, file, "--stripes", "2"), line)
    for number, line in (0, "not a file of this server's"), (1, "of an older format (1)"), (2, "of an older format (2)"), (4, "of a newer format (4)"):
        file = folder / f"format {number}.db"
        with fmt.made(file, number):
            pass
        same(f"what is said of the format {number}", (report_of(given, file), refusal_of(given, file)), (line, line))


def sound_batches(given: argparse.Namespace, folder: Path) -> None:
    """Files in which keys change again and again: each has what its last change says."""
    changes = [Change(key, b"before", DEADLINE) for key in SAVED] + [Change(key) for key in list(SAVED)[::2]]
    changes += [Change(b"gone", b"x"), Change(b"over", b"x"), *(Change(key, state.value, state.earliest) for key, state in SAVED.items())]
    changes += [Change(b"gone"), Change(b"never there"), Change(b"over", b"y", 1)]
    for stripes, most in itertools.product((1, 4, 64), (1, 200, fmt.BATCH_BYTES)):
        file = folder / f"sound, {stripes} stripes, batches of {most} bytes.db"
        batches = [batch._replace(number=batch.number ** 2) for batch in fmt.batches_of(changes, stripes, most)]
        fmt.make(file, [*batches, Batch(10 ** 9, 0, b"")], stripes)
        found = entries_by_sql(file)
        same("the entry that is over, by SQL", found.pop(b"over"), State(b"y", 1, 1))
        same("the entries by SQL", found, SAVED)
        same("what --kept says", report_of(given, file), None)
        check_all(given, file, SAVED, Known(), "--stripes", "4")


def cut_batches(given: argparse.Namespace, folder: Path) -> None:
    """A batch that is cut at each of its bytes: it is sound if it ends with a change."""
    whole = b"".join(map(fmt.spelled, SOUND))
    ends = {0, *itertools.accumulate(len(fmt.spelled(change)) for change in SOUND)}
    for end in range(len(whole) + 1):
        file = fmt.make(folder / f"cut at {end}.db", [Batch(1, 0, whole[:end])])
        line = None if end in ends else DAMAGED
        same(f"what is said of a batch that ends at {end}", (report_of(given, file), refusal_of(given, file)), (line, line))


def serves_truly(given: argparse.Namespace, file: Path, seen: dict[bytes, list[State]], known: Known) -> bool:
    """Whether a server takes the file. Fails if it then has an entry or a program that never was, or if it says nothing of why not."""
    try:
        server = Kept(given.program, file, "--workers", "1")
    except NotStarted as refused:
        same("the status is 1 or 3", refused.status in (1, 3), True)
        if not refused.lines:
            raise Wrong("nothing says why the file is refused") from refused
        return False
    try:
        for key, state in load.read_back(server).items():
            if state not in seen.get(key, []):
                raise Wrong(f"{key!r} is {state!r:.200}, which never was there")
        with wire.opened(server.frames, 2) as client:
            for number, code in known.programs.items():
                if client.ask(wire.compute(load.PROBE, number, load.ONE)) != wire.refused(66):
                    known.check_program(client, number, code)
    finally:
        server.kill()
    return True


def damaged(given: argparse.Namespace, folder: Path) -> None:
    """Files that are none of ours, and ours with damage."""
    file, known = folder / "map.db", Known()
    make_saved(given, file, known)
    seen = {key: [state] for key, state in SAVED.items()}
    other_files(given, file, folder, seen, known)
    like_ours(file, folder, given)
    with_log = folder / "with a log.db"
    for part in (file, log_of(file)):
        if part.exists():
            shutil.copy(part, with_log if part == file else log_of(with_log))
    with kept(given.program, with_log) as server:
        for count in range(4):
            changed = {b"text %d" % number: State(b"change %d of %d" % (count, number)) for number in range(0, 40, 3)}
            fill(server, changed)
            with resp.Client(server.redis) as client:
                same("SAVE", client.ask("SAVE"), resp.OK)
            for key, state in changed.items():
                seen[key].append(state)
    for name in (file, with_log):
        for part in (name, log_of(name)):
            if part.exists():
                cut_everywhere(given, name, part, seen, known)
                change_bits(given, name, part, seen, known)


def other_files(given: argparse.Namespace, file: Path, folder: Path, seen: dict[bytes, list[State]], known: Known) -> None:
    """A file of another kind is refused, and keeps what it has; an empty one becomes a new one."""
    text, other, empty = (folder / name for name in ("text.db", "other.db", "empty.db"))
    text.write_bytes(b"no database, but a text of some length\n" * 100)
    with contextlib.closing(sqlite3.connect(other)) as data, data:
        data.execute("create table batches (number integer primary key, note text)")
        data.execute("insert into batches (note) values ('mine')")
    for name in (text, other, folder, folder / "no folder" / "map.db"):
        same(f"{name.name} is taken", serves_truly(given, name, {}, Known()), False)
    same("the text", text.read_bytes()[:20], b"no database, but a t")
    with contextlib.closing(sqlite3.connect(other)) as data:
        same("the other batches", data.execute("select note from batches").fetchall(), [("mine",)])
    empty.touch()
    same("an empty file is taken", serves_truly(given, empty, {}, Known()), True)
    same("the file itself is taken", serves_truly(given, file, seen, known), True)


# What sqlite3 adds to a file that has our tables, and what it changes in their texts.
ADDED = ["create index more on batches (stripe)", "create view more as select changes from batches", "create table more (x)",
         "create trigger more after delete on batches begin delete from settings; end"]
CHANGED = [(") STRICT", ") strict"), ("stripe INTEGER NOT NULL", "stripe INTEGER NOT NULL CHECK (stripe >= 0)"), ("CREATE INDEX", "CREATE UNIQUE INDEX"),
           ("ON batches (stripe)", "ON batches (changes)"), ("ON batches (stripe)", "ON batches (stripe) WHERE stripe > 0"), ("by_stripe", "by_number")]


def like_ours(file: Path, folder: Path, given: argparse.Namespace) -> None:
    """Files that sqlite3 makes: one with just our tables is taken, and one with anything more or other in its list of objects is refused."""
    own = folder / "made by sqlite3"
    with contextlib.closing(sqlite3.connect(copied(file, own))) as data:
        texts = [text for text, in data.execute("select sql from sqlite_schema where sql is not null order by rowid")]
    same("the tables of a new file", texts, list(fmt.TEXTS[fmt.FORMAT]))
    lists = [texts, [*texts[-2::-1], texts[-1]], texts[1:], texts[:-1], *(texts + [more] for more in ADDED)]
    lists += [[text.replace(*change) for text in texts] for change in CHANGED]
    for number, made in enumerate(lists):
        name = own / f"{number}.db"
        with contextlib.closing(sqlite3.connect(name)) as data, data:
            for text in made:
                data.execute(text)
            if any("TABLE settings" in text for text in made):
                data.execute("insert into settings (name, value) values ('format', ?), ('stripes', 1)", (fmt.FORMAT,))
        same(f"a file made by {made} is taken", serves_truly(given, name, {}, Known()), made == texts)


@contextlib.contextmanager
def spoiled(file: Path, part: Path, change: Callable[[bytearray], None]) -> Iterator[Path]:
    """A copy of a file and its log, with one of both changed."""
    with tempfile.TemporaryDirectory() as folder:
        copy = copied(file, Path(folder) / "copy")
        place = copy.with_name(part.name)
        data = bytearray(place.read_bytes())
        change(data)
        place.write_bytes(data)
        yield copy


def cut_everywhere(given: argparse.Namespace, file: Path, part: Path, seen: dict[bytes, list[State]], known: Known) -> None:
    """The file, or its log, ends early."""
    size, taken, count = part.stat().st_size, 0, 0
    # a log has much room that nothing was written to
    for end in range(0, size, max(given.step, size // 100 // 512 * 512)):
        with spoiled(file, part, lambda data, end=end: data.__delitem__(slice(end, None))) as copy:
            taken += serves_truly(given, copy, seen, known)
            count += 1
    print(f"damaged: {part.name} of {size} bytes, cut at {count} places: {taken} are taken, and the others refused", flush=True)


def change_bits(given: argparse.Namespace, file: Path, part: Path, seen: dict[bytes, list[State]], known: Known) -> None:
    """One to three bits of the file, or of its log, are changed."""
    dice, taken = random.Random(given.seed), 0

    def change(data: bytearray) -> None:
        for _ in range(dice.randrange(1, 4)):
            data[dice.randrange(len(data))] ^= 1 << dice.randrange(8)

    if not part.stat().st_size:
        return
    for _ in range(given.bits):
        with spoiled(file, part, change) as copy:
            taken += serves_truly(given, copy, seen, known)
    print(f"damaged: {part.name}, with changed bits {given.bits} times: {taken} are taken, and the others refused", flush=True)


def hindered(given: argparse.Namespace, folder: Path) -> None:
    """What keeps a server from saving is told once, and the server goes on."""
    file, known = folder / "map.db", Known()
    make_saved(given, file, known)
    second_server(given, file)
    check_all(given, file, SAVED, known)
    if os.getuid() == 0:
        not_writable(given, file)
        check_all(given, file, SAVED, known)
    full_disk(given, folder / "full.db")
    removed(given, folder / "removed.db")


def second_server(given: argparse.Namespace, file: Path) -> None:
    """A second server on the same file is refused, and the first one goes on."""
    with kept(given.program, file) as server:
        try:
            Kept(given.program, file).kill()
        except NotStarted as refused:
            same("the status of a second server", (refused.status, bool(refused.lines)), (3, True))
        else:
            raise Wrong("two servers have one file")
        with resp.Client(server.redis) as client:
            same("SAVE beside it", client.ask("SAVE"), resp.OK)


def not_writable(given: argparse.Namespace, file: Path) -> None:
    """A server that may only read the file is refused. (Nobody may look into the folder of the repository, so the program is copied.)"""
    program = Path(shutil.copy(given.program, file.parent / "mapd"))
    program.chmod(0o755)
    file.chmod(0o444)
    try:
        Kept(program, file, limit=lambda: os.setuid(NOBODY)).kill()
    except NotStarted as refused:
        same("the status of one that may only read", (refused.status, bool(refused.lines)), (3, True))
    else:
        raise Wrong("a server takes a file that it can't write")
    file.chmod(0o644)


def ignore_limits() -> None:
    """Has a process be told by an error that a file may not grow, and not be ended by a signal."""
    signal.signal(signal.SIGXFSZ, signal.SIG_IGN)


def bound_files(server: Kept, file: Path) -> None:
    """Lets the server's files grow by 64 KiB at most."""
    size = max(part.stat().st_size for part in (file, log_of(file)) if part.exists())
    resource.prlimit(server.process.pid, resource.RLIMIT_FSIZE, (size + (64 << 10), resource.RLIM_INFINITY))


def full_disk(given: argparse.Namespace, file: Path) -> None:
    """The disk is full: it is told once, clients go on, and what they did is saved when there is room again."""
    large: Changes = {b"large %d" % number: State(b"%d" % number * 100) for number in range(given.large)}
    with kept(given.program, file, limit=ignore_limits) as server:
        bound_files(server, file)
        fill(server, large)
        with resp.Client(server.redis) as client:
            same("SAVE on a full disk is refused", client.ask("SAVE")[:1], b"-")
            time.sleep(2.5)
            same("a SET meanwhile", client.ask("SET", "meanwhile", "x"), resp.OK)
            same("the number of lines that tell of it", sum("saves fail" in line for line in server.lines), 1)
            resource.prlimit(server.process.pid, resource.RLIMIT_FSIZE, (resource.RLIM_INFINITY, resource.RLIM_INFINITY))
            time.sleep(2.5)
            client.ask("SAVE")
            same("SAVE when there is room", client.ask("SAVE"), resp.OK)
        server.kill()
    entries_by_sql(file)
    check_all(given, file, {**large, b"meanwhile": State(b"x")}, Known())


def removed(given: argparse.Namespace, file: Path) -> None:
    """The file is removed while the server runs: the server goes on, and ends."""
    with kept(given.program, file) as server:
        file.unlink()
        with resp.Client(server.redis) as client:
            for count in range(3):
                same("SET", client.ask("SET", "key", count), resp.OK)
                client.ask("SAVE")
            same("GET", client.ask("GET", "key"), resp.value(b"2"))
            client.send("SHUTDOWN")
            client.rest()
        server.finish()


def asked(given: argparse.Namespace, folder: Path) -> None:
    """The commands of Redis that save."""
    file = folder / "map.db"
    with kept(given.program, file, "--keep-seconds", "3600") as server, resp.Client(server.redis) as client:
        begun = int(time.time())
        client.ask("SET", "a", "1")
        same("SAVE", client.ask("SAVE"), resp.OK)
        last = int(client.ask("LASTSAVE")[1:])
        same("LASTSAVE is the time of the save", begun <= last <= time.time(), True)
        same("the entries by SQL", entries_by_sql(file), {b"a": State(b"1")})
        time.sleep(1.1)
        client.ask("SET", "b", "2")
        same("BGSAVE", client.ask("BGSAVE"), b"+Background saving started\r\n")
        until = time.monotonic() + wire.PATIENCE
        while int(client.ask("LASTSAVE")[1:]) == last:
            same("BGSAVE ends in time", time.monotonic() < until, True)
            time.sleep(0.02)
        same("the entries by SQL", entries_by_sql(file), {b"a": State(b"1"), b"b": State(b"2")})
        same("a wrong word", client.ask("SHUTDOWN", "NOW-OR-NEVER")[:1], b"-")
        same("it still serves", client.ask("GET", "b"), resp.value(b"2"))
        server.kill()
    check_all(given, file, {b"a": State(b"1"), b"b": State(b"2")}, Known())


PARTS = {part.__name__: part for part in (killed, ended, appended, bounded, anew, upgraded, foreign, damaged, hindered, asked)}


def main() -> int:
    parser = argparse.ArgumentParser(description=__doc__.splitlines()[0])
    parser.add_argument("--program", type=Path, default=wire.SERVER, help="the server to try")
    parser.add_argument("--rounds", type=int, default=20, help="how often a server is killed")
    parser.add_argument("--bits", type=int, default=40, help="how often bits of a file are changed")
    parser.add_argument("--step", type=int, default=512, help="the bytes between two places at which a file is cut")
    parser.add_argument("--turns", type=int, default=30, help="how often all of a few keys change, and are saved")
    parser.add_argument("--large", type=int, default=5000, help="how many large entries are to find the disk full")
    parser.add_argument("--seed", type=int, default=1, help="where the dice begin")
    parser.add_argument("part", nargs="*", help=f"these parts alone: {', '.join(PARTS)}")
    given = parser.parse_args()
    parts = given.part or (["killed"] if is_redis(given.program) else list(PARTS))
    for name in parts:
        with tempfile.TemporaryDirectory() as folder:
            Path(folder).chmod(0o755)
            begun = time.monotonic()
            PARTS[name](given, Path(folder))
            print(f"keeping: {name} holds, in {time.monotonic() - begun:.0f} s", flush=True)
    return 0


if __name__ == "__main__":
    sys.exit(main())
