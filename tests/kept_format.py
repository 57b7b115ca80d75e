"""The file in which `mapd --keep` keeps a map, by crates/kept_file/README.md: changes as bytes and back, the entries that a file has, and
files that sqlite3 makes, of formats 1, 2 and 3."""
from __future__ import annotations

import contextlib
import sqlite3
import struct
from collections.abc import Iterable, Iterator
from io import BytesIO
from pathlib import Path
from typing import NamedTuple, Optional

from wire import Wrong

FORMAT = 3
MOST_KEY, MOST_VALUE = 64, 1024
# With this many bytes a batch is written.
BATCH_BYTES = 1 << 14

SETTINGS = "CREATE TABLE settings (name TEXT NOT NULL PRIMARY KEY, value INTEGER NOT NULL) STRICT"
PROGRAMS = ("CREATE TABLE programs (number INTEGER PRIMARY KEY, key_size INTEGER NOT NULL, old_size INTEGER NOT NULL, "
            "arg_size INTEGER NOT NULL, result_size INTEGER NOT NULL, bytes BLOB NOT NULL) STRICT")
SCRIPTS = "CREATE TABLE scripts (number INTEGER PRIMARY KEY, text BLOB NOT NULL) STRICT"
BATCHES = "CREATE TABLE batches (number INTEGER PRIMARY KEY, stripe INTEGER NOT NULL, changes BLOB NOT NULL) STRICT"
ENTRIES = ("CREATE TABLE entries (stripe INTEGER NOT NULL, key BLOB NOT NULL, value BLOB NOT NULL, deadline INTEGER, "
           "PRIMARY KEY (stripe, key)) STRICT")
BY_STRIPE = "CREATE INDEX batches_by_stripe ON batches (stripe)"
# The texts that make a file's tables and their index, by its format.
TEXTS = {1: (SETTINGS, PROGRAMS, SCRIPTS, ENTRIES), 2: (SETTINGS, PROGRAMS, SCRIPTS, BATCHES), 3: (SETTINGS, PROGRAMS, SCRIPTS, BATCHES, BY_STRIPE)}

REMOVED, LASTING, UNTIL = range(3)


class Change(NamedTuple):
    """What a key has from then on: no value if it has nothing, and a deadline or none."""

    key: bytes
    value: Optional[bytes] = None
    deadline: Optional[int] = None


class Batch(NamedTuple):
    """A row of batches."""

    number: int
    stripe: int
    changes: bytes


# The entries of a file: for each stripe and key the value and the deadline.
Entries = dict[tuple[int, bytes], tuple[bytes, Optional[int]]]


def stripe_of(key: bytes, stripes: int) -> int:
    """The stripe of a key: Java's hash of its bytes, by the number of stripes."""
    hashed = 1
    for byte in key:
        hashed = (31 * hashed + byte) % (1 << 32)
    return hashed % stripes


def spelled(change: Change) -> bytes:
    """A change as bytes."""
    if change.value is None:
        return bytes([len(change.key), REMOVED]) + change.key
    kind, deadline = (LASTING, b"") if change.deadline is None else (UNTIL, struct.pack("<Q", change.deadline))
    return bytes([len(change.key), kind]) + change.key + deadline + struct.pack("<I", len(change.value)) + change.value


def batched(changes: Iterable[Change], most: int = BATCH_BYTES) -> Iterator[bytes]:
    """The batches of these changes, as a save of one stripe cuts them."""
    batch = b""
    for change in changes:
        batch += spelled(change)
        if len(batch) >= most:
            yield batch
            batch = b""
    if batch:
        yield batch


def taken(stream: BytesIO, count: int) -> bytes:
    """The next bytes."""
    data = stream.read(count)
    if len(data) < count:
        raise Wrong(f"a change is cut after {stream.getvalue()!r:.200}")
    return data


def read(batch: bytes) -> Iterator[Change]:
    """The changes of a batch."""
    stream = BytesIO(batch)
    while stream.tell() < len(batch):
        length, kind = taken(stream, 2)
        key, value, deadline = taken(stream, length), None, None
        if kind == UNTIL:
            deadline, = struct.unpack("<Q", taken(stream, 8))
        if kind != REMOVED:
            value = taken(stream, *struct.unpack("<I", taken(stream, 4)))
        if length > MOST_KEY or kind > UNTIL or value is not None and len(value) > MOST_VALUE:
            raise Wrong(f"no server writes the kind {kind} for {key!r:.200} and {value!r:.200}")
        yield Change(key, value, deadline)


def settings_of(data: sqlite3.Connection) -> dict[str, int]:
    """The settings of a file."""
    return dict(data.execute("SELECT name, value FROM settings"))


def changes_of(data: sqlite3.Connection) -> Iterator[tuple[int, Change]]:
    """All changes of a file in their order, each with its stripe. Fails if a stripe isn't that of the key."""
    stripes = settings_of(data).get("stripes", 0)
    for number, stripe, changes in data.execute("SELECT number, stripe, changes FROM batches ORDER BY number"):
        for change in read(changes):
            if number < 1 or not stripes or stripe != stripe_of(change.key, stripes):
                raise Wrong(f"the batch {number} of stripe {stripe} of {stripes} has {change.key!r}")
            yield stripe, change


def entries_of(data: sqlite3.Connection) -> Entries:
    """The entries of a file."""
    entries: Entries = {}
    for stripe, (key, value, deadline) in changes_of(data):
        entries.pop((stripe, key), None)
        if value is not None:
            entries[stripe, key] = value, deadline
    return entries


def batches_of(changes: Iterable[Change], stripes: int, most: int = BATCH_BYTES) -> list[Batch]:
    """The batches of these changes, one stripe after the other."""
    of_stripes: dict[int, list[Change]] = {}
    for change in changes:
        of_stripes.setdefault(stripe_of(change.key, stripes), []).append(change)
    rows = [(stripe, batch) for stripe, some in sorted(of_stripes.items()) for batch in batched(some, most)]
    return [Batch(number, stripe, batch) for number, (stripe, batch) in enumerate(rows, 1)]


@contextlib.contextmanager
def made(file: Path, number: int = FORMAT, stripes: int = 1) -> Iterator[sqlite3.Connection]:
    """A new file that sqlite3 makes, with the tables and the settings of a file of the format of this number. It has no checksums."""
    with contextlib.closing(sqlite3.connect(file)) as data, data:
        for text in TEXTS.get(number, TEXTS[FORMAT]):
            data.execute(text)
        data.executemany("INSERT INTO settings (name, value) VALUES (?, ?)", [("format", number), ("stripes", stripes)])
        yield data


def make(file: Path, batches: Iterable[Batch], stripes: int = 1) -> Path:
    """Makes a file with these batches."""
    with made(file, FORMAT, stripes) as data:
        add(data, batches)
    return file


def add(data: sqlite3.Connection, batches: Iterable[Batch]) -> None:
    """Enters these batches into a file."""
    data.executemany("INSERT INTO batches (number, stripe, changes) VALUES (?, ?, ?)", batches)


def add_old(data: sqlite3.Connection, number: int, changes: list[Change], stripes: int) -> None:
    """Enters these entries into a file of format 1 or 2."""
    if number == 2:
        add(data, batches_of(changes, stripes))
        return
    data.executemany("INSERT INTO entries (stripe, key, value, deadline) VALUES (?, ?, ?, ?)",
                     [(stripe_of(key, stripes), key, value, deadline) for key, value, deadline in changes])
