"""All entries as lines of text, and back: `python3 -m bpfmap dump` and `load`."""

import sys
import time
from typing import Iterable, Iterator, List, Optional, Sequence, TextIO, Tuple

from .client import Client
from .errors import BpfmapError
from .forms import from_hex, to_hex
from .map import copy_of
from .pipeline import Pipeline
from .programs import Function
from .protocol import Pending

_BATCH = 1_000
_PROGRAM = "program"


class Progress:
    """A line on standard error, once a second has gone by, and then each second anew."""

    def __init__(self, out: TextIO) -> None:
        self._out = out
        self._began = time.monotonic()
        self._told = self._began

    def tell(self, done: int) -> None:
        """Says how many entries are done, if a second went by since that was last said."""
        now = time.monotonic()
        if now - self._told >= 1:
            self._told = now
            self._write(done, now)

    def end(self, done: int) -> None:
        """Ends the line, if there is one."""
        if self._told > self._began:
            self._write(done, time.monotonic())
            self._out.write("\n")

    def _write(self, done: int, now: float) -> None:
        self._out.write(f"\rload: {done:,} entries, {done / (now - self._began):,.0f} a second")
        self._out.flush()


def dump(client: Client, programs: Sequence[Tuple[str, Function]], out: TextIO) -> None:
    """Writes a line for each program, and one for each entry: key and value in hex.

    A server does not say which programs it has, so these are given by their names: `load` registers them.
    """
    for name, made in programs:
        out.write(f"{_PROGRAM} {' '.join(map(str, made[1:]))} {made.units.hex()} {name}\n")
    limits = client.limits
    with client.for_each(copy_of(limits.value)) as walk:
        for key, value in walk:
            out.write(f"{to_hex(key)} {to_hex(value)}\n")
        unfit = walk.counts.unfit
    if unfit:
        told = f"entries have values above {limits.value} bytes, which version {limits.version} does not carry"
        raise BpfmapError(f"{unfit} {told}; all others were printed")


def load(client: Client, lines: Iterable[str], out: TextIO, printed: Optional[TextIO] = None) -> int:
    """Puts the entry of each line, and registers each program, whose number and name are printed. Returns how many lines there were."""
    progress = Progress(out)
    done = 0
    for batch in _batches(lines):
        _put_batch(client, batch, done, printed)
        done += len(batch)
        progress.tell(done)
    progress.end(done)
    return done


def _batches(lines: Iterable[str]) -> Iterator[List[str]]:
    batch: List[str] = []
    for line in lines:
        batch.append(line)
        if len(batch) == _BATCH:
            yield batch
            batch = []
    if batch:
        yield batch


def _put_batch(client: Client, batch: List[str], before: int, printed: Optional[TextIO]) -> None:
    pipeline = client.pipeline()
    calls: "List[Pending[object]]" = []
    for number, line in enumerate(batch, before + 1):
        try:
            calls.append(_add(pipeline, line))
        except (ValueError, BpfmapError) as error:
            raise SystemExit(f"line {number}: {error}; the {before} lines before it were put") from error
    try:
        pipeline.execute()
    except BpfmapError as error:
        failed = next(i for i, call in enumerate(calls) if call.error is not None)
        print(f"line {before + failed + 1}: {error}", file=sys.stderr)
        raise
    for line, call in zip(batch, calls):
        if line.startswith(_PROGRAM) and printed is not None:
            printed.write(f"{call.result()} {line.split(maxsplit=6)[6].strip()}\n")


def _add(pipeline: Pipeline, line: str) -> "Pending[object]":
    words = line.split(maxsplit=6)
    if words and words[0] == _PROGRAM:
        if len(words) != 7:
            raise ValueError("a program has four sizes, its units in hex, and a name")
        sizes = [int(word) for word in words[1:5]]
        return pipeline.register(Function(from_hex(words[5]), *sizes))  # type: ignore[return-value]
    if len(words) != 2:
        raise ValueError("a line has a key and a value in hex, and a blank between them")
    return pipeline.put(from_hex(words[0]), from_hex(words[1]))  # type: ignore[return-value]
