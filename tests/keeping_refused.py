#!/usr/bin/env python3
"""Refuses each request for memory of a `mapd --keep FILE` in turn: while it loads the file, while it saves, and while it ends. Either it
ends before it is ready, says why, and leaves the file as it was; or it serves. Then the next server has all that was there before, and
what this one answered and saved.

By hand, after `rt run` in crates/mapd: python3 tests/keeping_refused.py. It needs gcc, for refuse.c. By .ci/run behind the gate, which
refuses each fifth request (--stride 5)."""
from __future__ import annotations

import argparse
import contextlib
import shutil
import sys
import tempfile
from pathlib import Path

sys.path.insert(0, str(Path(__file__).resolve().parent))
sys.dont_write_bytecode = True
import keeping  # noqa: E402
import keeping_load as load  # noqa: E402
import redis_wire as resp  # noqa: E402
import wire  # noqa: E402
from keeping_load import Changes, Kept, NotStarted, State, kept  # noqa: E402
from refusing import refuse_each  # noqa: E402
from wire import Wrong, same  # noqa: E402

MOST_REQUESTS = 20_000
NEW = {b"new": State(b"one more")}


class Asked:
    """What a server was asked and answered, as far as it answered."""

    def __init__(self, server: Kept) -> None:
        self.set = self.saved = b""
        with contextlib.suppress(OSError, wire.Ended), resp.Client(server.redis) as client:
            self.set = client.ask("SET", "new", NEW[b"new"].value)
            self.saved = client.ask("SAVE")
        # a connection may end for want of memory, also the one that asks for the end; one request alone is refused, so the next one is kept
        for _ in range(2):
            with contextlib.suppress(OSError, wire.Ended), resp.Client(server.redis) as client:
                client.send("SHUTDOWN")
                client.rest()
        self.status = server.finish()
        if self.status == 1:
            # it was ready, but had no memory for its worker
            same("what is printed, and answered", (server.printed, self.set), (b"ready\nrefused 9 at 0\n", b""))
        else:
            same("the status is 0 or 3", self.status in (0, 3), True)

    def is_kept(self) -> bool:
        """Whether the new entry must be there."""
        return self.set == resp.OK and (self.saved == resp.OK or self.status == 0)

    def may_be_kept(self) -> bool:
        """Whether the new entry may be there."""
        return self.status != 1 and self.set != resp.NO_MEMORY

    def way(self) -> str:
        """How it went."""
        if self.status == 1:
            return "no worker"
        if self.status == 3:
            return "a last save that failed"
        if self.saved and self.saved != resp.OK:
            return "a save that failed"
        return "no matter" if self.set == resp.OK else "a refused call"


def check_left(program: Path, file: Path, known: keeping.Known, asked: Asked | None) -> None:
    """Fails if the next server hasn't what must be there."""
    with kept(program, file) as server:
        found: Changes = load.read_back(server)
        new = found.pop(b"new", None)
        same("what was there before", found, keeping.SAVED)
        if asked is None or not asked.may_be_kept():
            same("an entry that was never set", new, None)
        elif asked.is_kept() or new is not None:
            same("the new entry", new, NEW[b"new"])
        known.check(server, [], 0)


def refuse(program: Path, saved: Path, known: keeping.Known, folder: Path, request: int) -> str:
    """Runs a server on a copy of the file with this request for memory refused; how it went, or nothing if there was no such request."""
    mark = folder / "refused"
    mark.unlink(missing_ok=True)
    shutil.rmtree(folder / "copy", ignore_errors=True)
    file = keeping.copied(saved, folder / "copy")
    environment = {"LD_PRELOAD": str(folder / "refuse.so"), "REFUSED_REQUEST": str(request), "REFUSED_FILE": str(mark)}
    asked = None
    try:
        server = Kept(program, file, "--workers", "1", "--stripes", "1", "--keep-seconds", "3600", environment=environment)
    except NotStarted as ended:
        if ended.status not in (1, 3) or not (ended.lines or ended.status == 1):
            raise Wrong(f"it ended with {ended.status}, {ended.lines}") from ended
        way = "refused before it was ready"
    else:
        try:
            asked = Asked(server)
        finally:
            server.kill()
        way = asked.way()
    if not mark.exists():
        return ""
    check_left(program, file, known, asked)
    return way


def main() -> None:
    words = argparse.ArgumentParser(description=__doc__.splitlines()[0])
    words.add_argument("--program", type=Path, default=wire.SERVER, help="the server to try")
    words.add_argument("--stride", type=int, default=1, help="each request whose number this divides is refused")
    given = words.parse_args()
    if not shutil.which("gcc"):
        print("keeping_refused: no gcc here, so nothing was refused")
        return
    known = keeping.Known()
    with contextlib.ExitStack() as stack:
        folder = Path(stack.enter_context(tempfile.TemporaryDirectory()))
        keeping.make_saved(given, folder / "map.db", known)
        refuse_each("keeping_refused", MOST_REQUESTS // given.stride,
                    lambda made, number: refuse(given.program, folder / "map.db", known, made, number * given.stride),
                    ("refused before it was ready",))


if __name__ == "__main__":
    main()
