#!/usr/bin/env python3
"""Sees that each block of code of each page (*.md) is tested, or marked as not meant to be. A block is fenced, or indented by four
outside lists. It is one of these:

  - It is run or compared here, as PLAYED in listings_played.py says.
  - Another test runs it, as CLAIMED says. That test has to name the page.
  - A comment on the line before it says why not: <!-- not run: WHY -->

The programs are the built bpfmap and mapd. If a tool is missing (redis-cli, sqlite3, xxd, clang), the blocks that need it are not run, and
it says so. With --look it runs nothing, and looks only whether each block has its place.

By hand, after `rt run` in crates/bpfmap and crates/mapd: python3 tests/listings.py. By .ci/run after the gate."""
from __future__ import annotations

import argparse
import itertools
import os
import re
import subprocess
import sys
import tempfile
from collections.abc import Iterator
from pathlib import Path
from typing import Optional

sys.path.insert(0, str(Path(__file__).resolve().parent))
sys.dont_write_bytecode = True
import pages  # noqa: E402
import wire  # noqa: E402
from listings_played import PLAYED, Block, Missing, Play, Tools  # noqa: E402
from pages import HEADING, ROOT, Page, kinds_of  # noqa: E402
from wire import Wrong  # noqa: E402

# What may go wrong with a block. Python's own faults come of pages that read otherwise than before.
FAILURES = (Missing, Wrong, wire.Ended, OSError, ValueError, IndexError, subprocess.SubprocessError)
MARK = re.compile(r"^\s*<!-- not run: *(.*?) *-->$")

PYTHON_PAGES = "clients/python/tests/test_pages.py"
JAVA_PAGES = "clients/java/tests/bpfmap/AllTests.java"

# A page, which of its blocks (`is_meant` says how that reads), and the test that runs them.
CLAIMED: list[tuple[str, str, str]] = [
    ("README.md", "from bpfmap import SUM, Client, function", PYTHON_PAGES),
    ("clients/c/README.md", "```c", "clients/c/test"),
    ("clients/c/README.md", "```sh", "clients/c/test"),
    ("clients/c/README.md", "```text", "clients/c/test"),
    ("clients/java/README.md", "```sh", "clients/java/test"),
    ("clients/java/README.md", "```java", JAVA_PAGES),
    ("clients/java/README.md", "```text", JAVA_PAGES),
    ("clients/python/README.md", "```python", PYTHON_PAGES),
    ("clients/python/README.md", "crates/mapd/out/mapd --listen 127.0.0.1:7070 & sleep 1", PYTHON_PAGES),
    ("clients/python/README.md", "python3 -m bpfmap put alice 30", PYTHON_PAGES),
    ("docs/RECIPES.md", "```sh", "tests/recipes.py"),
    ("docs/RECIPES.md", "```python", "tests/recipes.py"),
    ("docs/RECIPES.md", "```text", "tests/recipes.py"),
    ("docs/REDIS.md", "```python 3", "tests/redis_client.py"),
    ("docs/REDIS.md", "```text 3", "tests/redis_client.py"),
    ("docs/SERVER.md", "# /etc/stunnel/mapd.conf", "tests/tls.sh"),
    ("docs/SERVER.md", "# /etc/stunnel/map.conf", "tests/tls.sh"),
    ("docs/SHARDING.md", "# /etc/nutcracker/nutcracker.yml", "tests/redis_sharded.py"),
    ("docs/SHARDING.md", "import hashlib", "tests/redis_client.py"),
    ("examples/clients/README.md", "```text 3", PYTHON_PAGES),
]


def spans_of(lines: list[str]) -> Iterator[tuple[int, int, int]]:
    """The blocks among these lines: on which line each one begins with its fence, if it has one, and from where to where its text is."""
    kinds = [*kinds_of(lines), ""]
    at = 0
    while at < len(lines):
        begin = at
        if kinds[at] == "fence":
            at = kinds.index("fence", at + 1) if "fence" in kinds[at + 1:] else len(lines)
            yield begin, begin + 1, at
        elif kinds[at] == "indented":
            while kinds[at + 1] == "indented" or (kinds[at + 1:at + 3] == ["", "indented"] and not lines[at + 1].strip()):
                at += 1
            yield begin, begin, at + 1
        at += 1


def blocks_of(page: Page) -> list[Block]:
    """The blocks of a page, in their order."""
    lines, blocks = page.text.splitlines(), []
    outside = pages.lines_outside_blocks(page.text)
    for begin, first, end in spans_of(lines):
        is_fenced = first > begin
        kind = lines[begin].strip().strip("`~") if is_fenced else "indented"
        body = [line if is_fenced else line[4:] for line in lines[first:end]]
        headings = [line for line in outside[:begin] if HEADING.match(line)]
        mark = MARK.match(lines[begin - 1]) if begin else None
        blocks.append(Block(page.name, begin + 1, kind, "".join(line + "\n" for line in body), headings[-1] if headings else "",
                            mark.group(1) if mark else None, ""))
    return [block._replace(below=below.text) if below.kind == "text" else block for block, below in zip(blocks, blocks[1:])] + blocks[-1:]


def is_meant(block: Block, which: str) -> bool:
    """Whether these words mean the block: ```sh by its kind, ```sh 3 if there are three of them, ### NAME by how the heading above it
    begins, and else by its first line, which may go on if two dots end the words."""
    if which.startswith("```"):
        return which[3:].split()[0] == block.kind
    if which.startswith("### "):
        return block.heading.startswith(which)
    line = block.text.partition("\n")[0]
    return line.startswith(which[:-2]) if which.endswith("..") else line == which


def tests_of(block: Block) -> list[str]:
    """The other tests that run the block."""
    return [test for page, which, test in CLAIMED if page == block.page and is_meant(block, which)]


def plays_of(block: Block) -> list[Play]:
    """What is done with the block here."""
    return [play for page, which, play in PLAYED if page == block.page and is_meant(block, which)]


def fault_of(block: Block) -> Optional[str]:
    """What is wrong with the block's place, if anything is."""
    places = len(tests_of(block)) + len(plays_of(block)) + (block.reason is not None)
    if block.reason == "":
        return "its mark gives no reason"
    if places == 0:
        return "nothing runs it, and no mark before it says why"
    return f"it has {places} places, and needs one" if places > 1 else None


def faults_of_rows(blocks: list[Block]) -> Iterator[str]:
    """Rows of both tables that mean no block, and tests that don't name the page that they are said to run."""
    for page, which, *_ in [*CLAIMED, *PLAYED]:
        count = sum(block.page == page and is_meant(block, which) for block in blocks)
        counted = re.fullmatch(r"```\w+ (\d+)", which)
        if count == 0 or counted and count != int(counted[1]):
            yield f"{page}: a row means {count} blocks: {which}"
    for page, _, test in CLAIMED:
        if not (ROOT / test).is_file() or Path(page).name not in (ROOT / test).read_text(encoding="utf-8"):
            yield f"{page}: {test} does not name it"


def faults_of_marks(page: Page) -> Iterator[str]:
    """Marks that stand before no block."""
    lines = [*page.text.splitlines(), ""]
    begins = {begin for begin, _, _ in spans_of(lines)}
    alone = (at for at, line in enumerate(lines) if MARK.match(line) and at + 1 not in begins)
    yield from (f"{page.name}:{at + 1}: the mark stands before no block" for at in alone)


def play_page(blocks: list[Block], bpfmap: Path, mapd: Path) -> Iterator[tuple[Block, Exception]]:
    """Runs and compares these blocks of one page in a folder of their own, and tells of those that fail or can't be run."""
    with tempfile.TemporaryDirectory() as folder:
        tools = Tools(bpfmap.resolve(), mapd.resolve(), Path(folder))
        for block in blocks:
            try:
                plays_of(block)[0](block, tools)
            except FAILURES as failure:
                yield block, failure


def play_all(blocks: list[Block], bpfmap: Path, mapd: Path) -> Iterator[str]:
    """Runs and compares these blocks: yields the faults, and prints for each tool that is missing how many were left out."""
    missing: dict[str, int] = {}
    for _, group in itertools.groupby(blocks, key=lambda block: block.page):
        for block, failure in play_page(list(group), bpfmap, mapd):
            if isinstance(failure, Missing):
                missing[str(failure)] = missing.get(str(failure), 0) + 1
            else:
                yield f"{block.page}:{block.line}: {failure}"
    for tool, count in missing.items():
        print(f"listings: no {tool} here; blocks that were not run for that: {count}")


def main() -> int:
    parser = argparse.ArgumentParser(description=__doc__.splitlines()[0])
    parser.add_argument("--look", action="store_true", help="run nothing")
    parser.add_argument("--bpfmap", type=Path, default=ROOT / "crates/bpfmap/out/bpfmap", help="the bpfmap to run")
    parser.add_argument("--program", type=Path, default=wire.SERVER, help="the mapd to run")
    parser.add_argument("page", nargs="*", help="run the blocks of these pages alone")
    given = parser.parse_args()
    read = list(pages.pages())
    blocks = [block for page in read for block in blocks_of(page)]
    faults = [f"{block.page}:{block.line}: {fault}" for block in blocks if (fault := fault_of(block))]
    faults += [*faults_of_rows(blocks), *(fault for page in read for fault in faults_of_marks(page))]
    played = [block for block in blocks if plays_of(block)]
    if not given.look:
        for program in (given.bpfmap, given.program):
            if not os.access(program, os.X_OK):
                sys.exit(f"{program} is not built; run the gate first")
        faults += play_all([block for block in played if not given.page or block.page in given.page], given.bpfmap, given.program)
    print("".join(f"FAILED: {fault}\n" for fault in faults), end="")
    claimed, marked = sum(bool(tests_of(block)) for block in blocks), sum(block.reason is not None for block in blocks)
    print(f"listings: {len(blocks)} blocks: {len(played)} are run or compared here, {claimed} by other tests, {marked} are marked; "
          f"{len(faults)} faults")
    return 1 if faults else 0


if __name__ == "__main__":
    sys.exit(main())
