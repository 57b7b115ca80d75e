#!/usr/bin/env python3
"""Sends the sessions of tests/frames.txt to the built mapd, each to a map of its own, over a socket: the answers are those of the rows.
Each is sent in one piece to a map of 64 stripes. The first kilobyte of a session is sent to one of 4 stripes in pieces of 5 bytes as well.

By hand, after `rt run` in crates/mapd: python3 tests/server_rows.py."""
from __future__ import annotations

import argparse
import sys
from collections.abc import Iterator
from concurrent.futures import ThreadPoolExecutor
from pathlib import Path

sys.path.insert(0, str(Path(__file__).resolve().parent))
sys.dont_write_bytecode = True
import wire  # noqa: E402

ROWS = Path(__file__).with_name("frames.txt")
MOST_IN_PIECES = 1024
ONE_SESSION = ["--workers", "1", "--team", "2", "--sessions", "1"]

Row = tuple[bytes, bytes, str]


def bytes_of(text: str, names: dict[str, bytes]) -> bytes:
    """The bytes of a text in hex, in which names stand for theirs, and 6b*64 for 64 times 6b."""
    parts = []
    for word in text.split():
        digits, _, times = word.partition("*")
        part = names[digits] if digits in names else bytes.fromhex(digits)
        parts.append(part * int(times or 1))
    return b"".join(parts)


def rows() -> Iterator[Row]:
    """What is sent, what is answered and the name, of each row but those whose body is cut."""
    names: dict[str, bytes] = {}
    for line in ROWS.read_text().splitlines():
        name, sign, text = line.partition(" = ")
        if line.startswith(("#", "cut ")) or not line:
            continue
        if sign and "|" not in line:
            names[name] = bytes_of(text, names)
            continue
        sent, answers, _status, name = (field.strip() for field in line.split("|", 3))
        yield bytes_of(sent, names), bytes_of(answers, names), name


def send_in_pieces(client: wire.Client, sent: bytes) -> bytes:
    """Sends five bytes a write."""
    for at in range(0, len(sent), 5):
        client.socket.sendall(sent[at:at + 5])
    return client.exchange(b"")


def answers_to(program: Path, sent: bytes, in_pieces: bool) -> tuple[bytes, int, bytes]:
    """What a new server answers, its status and what it prints."""
    server = wire.Server(program, [*ONE_SESSION, "--stripes", "4" if in_pieces else "64"])
    try:
        with wire.Client(server.address) as client:
            answers = send_in_pieces(client, sent) if in_pieces else client.exchange(sent)
        return answers, server.finish(), server.printed
    finally:
        server.process.kill()


def faults(program: Path, row: Row) -> list[str]:
    """What is wrong with a row, by each way in which it is sent."""
    sent, wanted, name = row
    found = []
    for in_pieces in [False, True] if len(sent) <= MOST_IN_PIECES else [False]:
        came = answers_to(program, sent, in_pieces)
        if came != (wanted, 0, b"ready\nserved 1\n"):
            found.append(f"{name}{', in pieces' if in_pieces else ''}: {came!r:.300}, not {wanted!r:.200}")
    return found


def main() -> None:
    words = argparse.ArgumentParser()
    words.add_argument("--program", default=wire.SERVER)
    program = words.parse_args().program
    table = list(rows())
    with ThreadPoolExecutor(4) as pool:
        wrong = sum(pool.map(lambda row: faults(program, row), table), [])
    for line in wrong:
        print(f"server_rows: FAILED: {line}")
    print(f"server_rows: {len(table)} sessions, {len(wrong)} failed")
    sys.exit(bool(wrong) or len(table) < 100)


if __name__ == "__main__":
    main()
