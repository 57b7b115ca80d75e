"""Makes a file for `mapd --keep` of one of format 1 or 2, which servers wrote until November 2026: `python3 -m bpfmap.upgrade OLD NEW`.

No server may have the old file open. It stays as it is; the log beside it, OLD-wal, is read too. The new file has the same entries,
programs and scripts. It has no checksums.
"""

import argparse
import os
import sqlite3
import struct
import sys
from contextlib import closing
from pathlib import Path
from typing import Iterable, Iterator, Optional, Sequence, Tuple

_BATCHES = "CREATE TABLE batches (number INTEGER PRIMARY KEY, stripe INTEGER NOT NULL, changes BLOB NOT NULL) STRICT"
_BY_STRIPE = "CREATE INDEX batches_by_stripe ON batches (stripe)"
# The tables that stay as they are, by the format of the old file.
_SAME_TABLES = {1: ("settings", "programs", "scripts"), 2: ("settings", "programs", "scripts", "batches")}
_BATCH_BYTES = 16_384


def _change(key: bytes, value: bytes, deadline: Optional[int]) -> bytes:
    """The change after which a key has a value."""
    until = b"" if deadline is None else struct.pack("<Q", deadline)
    return bytes([len(key), 2 if until else 1]) + key + until + struct.pack("<I", len(value)) + value


def _batches(entries: Iterable[Tuple[int, bytes, bytes, Optional[int]]]) -> Iterator[Tuple[int, bytes]]:
    """The batches of entries that come stripe by stripe, each with its stripe."""
    stripe, changes = 0, bytearray()
    for next_stripe, key, value, deadline in entries:
        if changes and (next_stripe != stripe or len(changes) >= _BATCH_BYTES):
            yield stripe, bytes(changes)
            changes.clear()
        stripe = next_stripe
        changes += _change(key, value, deadline)
    if changes:
        yield stripe, bytes(changes)


def _add_entries(old: sqlite3.Connection, new: sqlite3.Connection) -> None:
    """Writes the entries of a file of format 1 into the new one, as batches."""
    new.execute(_BATCHES)
    entries = old.execute("SELECT stripe, key, value, deadline FROM entries ORDER BY stripe")
    new.executemany("INSERT INTO batches (stripe, changes) VALUES (?, ?)", _batches(entries))


def _copy(old: sqlite3.Connection, number: int, new: sqlite3.Connection) -> None:
    """Writes what the old file of this format has into the new one, which is empty."""
    for name in _SAME_TABLES[number]:
        (text,) = old.execute("SELECT sql FROM sqlite_schema WHERE name = ?", (name,)).fetchone()
        new.execute(text)
        for row in old.execute(f"SELECT * FROM {name}"):
            new.execute(f"INSERT INTO {name} VALUES ({', '.join('?' * len(row))})", row)
    new.execute("UPDATE settings SET value = 3 WHERE name = 'format'")
    if number == 1:
        _add_entries(old, new)
    new.execute(_BY_STRIPE)


def upgrade(old_name: str, new_name: str) -> None:
    """Makes the new file. It must not be there."""
    with closing(sqlite3.connect(Path(old_name).resolve().as_uri() + "?mode=ro", uri=True)) as old:
        (number,) = old.execute("SELECT value FROM settings WHERE name = 'format'").fetchone() or (0,)
        if number not in _SAME_TABLES:
            raise ValueError("not of format 1 or 2")
        open(new_name, "xb").close()
        try:
            with closing(sqlite3.connect(new_name)) as new, new:
                _copy(old, number, new)
        except BaseException:
            os.remove(new_name)
            raise


def main() -> None:
    parser = argparse.ArgumentParser(prog="python3 -m bpfmap.upgrade", description="Makes a file for mapd --keep of one of format 1 or 2.")
    parser.add_argument("old")
    parser.add_argument("new")
    given = parser.parse_args()
    try:
        upgrade(given.old, given.new)
    except (OSError, ValueError, sqlite3.Error) as error:
        sys.exit(f"{given.old}: {error}")


if __name__ == "__main__":
    main()
