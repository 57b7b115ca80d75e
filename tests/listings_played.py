"""How listings.py runs or compares the blocks of pages that no other test does: PLAYED has a row for each."""
from __future__ import annotations

import contextlib
import os
import re
import shutil
import signal
import subprocess
from collections.abc import Callable, Iterator
from itertools import zip_longest
from pathlib import Path
from typing import NamedTuple, Optional

import redis_wire as resp
import wire
from wire import Wrong, same

ROOT = Path(__file__).resolve().parent.parent
# How long a block may run, in seconds.
PATIENCE = 120
# What blocks of a shell need that a machine may not have.
TOOLS = ("redis-cli", "sqlite3", "xxd")
RT_TRY = re.compile(r"cd crates/(\w+) && rt try (?:--seconds \d+ )?-- ")
STARTED = re.compile(r"^(mapd .*127\.0\.0\.1:(\d+).*) &$", re.MULTILINE)


class Block(NamedTuple):
    """A block: its page, the line on which it begins, its kind (the word after the fence, or `indented`), its text, the heading above
    it, the reason in its mark, if it has one, and the text of the next block, if that is one of text."""

    page: str
    line: int
    kind: str
    text: str
    heading: str
    reason: Optional[str]
    below: str


class Missing(Exception):
    """A tool is missing."""


def need(*tools: str) -> None:
    """Fails if one of these tools is missing."""
    for tool in tools:
        if not shutil.which(tool):
            raise Missing(tool)


class Tools:
    """The built programs, and a folder in which blocks are run: the repository's files are there as links."""

    def __init__(self, bpfmap: Path, mapd: Path, folder: Path) -> None:
        self.mapd, self.folder, programs = mapd, folder, folder / "programs"
        for path in ROOT.iterdir():
            if not path.name.startswith("."):
                (folder / path.name).symlink_to(path)
        programs.mkdir()
        (programs / "bpfmap").symlink_to(bpfmap)
        (programs / "mapd").symlink_to(mapd)
        self.environment = {**os.environ, "PATH": f"{programs}:{os.environ['PATH']}", "BPFMAP": str(bpfmap), "PYTHONDONTWRITEBYTECODE": "1"}

    def bpfmap(self, *words: str, text: str = "") -> str:
        """What bpfmap prints on both streams, with these words and this input."""
        run = subprocess.run([self.environment["BPFMAP"], *words], input=text, capture_output=True, text=True, timeout=PATIENCE, check=False)
        return run.stdout + run.stderr

    def check(self, text: str, *words: str) -> str:
        """What bpfmap's `check` prints of a program's text."""
        return self.bpfmap("check", *words, text=self.bpfmap("asm", text=text))

    def shell(self, text: str) -> str:
        """What a shell prints on both streams. What it leaves running is ended."""
        need(*(tool for tool in TOOLS if re.search(rf"\b{tool}\b", text)))
        process = subprocess.Popen(["bash", "-c", text], cwd=self.folder, env=self.environment, text=True, start_new_session=True,
                                   stdin=subprocess.DEVNULL, stdout=subprocess.PIPE, stderr=subprocess.STDOUT)
        try:
            return process.communicate(timeout=PATIENCE)[0]
        except subprocess.TimeoutExpired as late:
            raise Wrong(f"it does not end: {late}") from late
        finally:
            with contextlib.suppress(ProcessLookupError):
                os.killpg(process.pid, signal.SIGKILL)
            process.communicate()


Play = Callable[[Block, Tools], None]


def first(pattern: str, text: str) -> str:
    """What the first group of the pattern matches in this text."""
    found = re.search(pattern, text, re.MULTILINE)
    if not found:
        raise Wrong(f"it has nothing like {pattern}")
    return found[1]


def agree(found: str, wanted: str) -> None:
    """Fails at the first line in which the two differ."""
    for one, other in zip_longest(found.splitlines(), wanted.splitlines()):
        same("a line that is printed", one, other)


def on_free_ports(text: str) -> str:
    """A block of a shell, with the built programs and with free ports in place of those of the page. If it starts a server, it waits for
    it, and what the server prints is left out."""
    text = RT_TRY.sub(r"\1 ", text).replace("crates/mapd/out/mapd", "mapd").replace("../../", "")
    if "redis-cli -p" not in text:
        text = text.replace("redis-cli ", "redis-cli -p 6379 ")
    for port in ("7070", "6379"):
        text = text.replace(port, str(resp.free_port()))
    return STARTED.sub(
        r"\1 > /dev/null 2>&1 &\nuntil (exec 9<> /dev/tcp/127.0.0.1/\2) 2> /dev/null; do kill -0 $! || exit; sleep 0.1; done", text)


def prints(wanted: Optional[str] = None) -> Play:
    """Runs a block of a shell. It must print this or, if nothing is given, the block of text below it."""
    def play(block: Block, tools: Tools) -> None:
        agree(tools.shell(on_free_ports(block.text)), block.below if wanted is None else wanted)
    return play


def is_told(_: Block, __: Tools) -> None:
    """What the block above it prints, which is compared with it."""


def serves(block: Block, tools: Tools) -> None:
    """Starts the server of a block, and waits until it listens."""
    agree(tools.shell(on_free_ports(block.text.rstrip() + " &\n")), "")


def transcript(block: Block, tools: Tools) -> None:
    """Runs the lines that begin with a dollar: each must print what stands below it."""
    for part in ("\n" + block.text).split("\n$ ")[1:]:
        command, _, wanted = part.partition("\n")
        agree(tools.shell(f"({command}) 2> /dev/null"), wanted)


def program_and_run(block: Block, tools: Tools) -> None:
    """A program, which is saved as `p.hex`, and runs of it."""
    text, _, runs = block.text.partition("\n\n")
    (tools.folder / "p.hex").write_text(tools.bpfmap("asm", text=text + "\n"), encoding="utf-8")
    transcript(block._replace(text=runs), tools)


def masked_load(block: Block, tools: Tools) -> None:
    """A load at a computed place: it lies inside an old value of 8 bytes, and not inside one of 2."""
    text = block.text + "mov64 r0, -1\nexit\n"
    agree(tools.check(text, "--old", "8"), "accepted\n")
    same("its refusal", tools.check(text, "--old", "2")[:13], "refused 43 at")


def explained(block: Block, tools: Tools) -> None:
    """The lines of `check --explain`, of the program in them."""
    text = "".join(f"{line}\n" for line in re.findall(r"^\d+: ([^;\n]+)", block.text, re.MULTILINE))
    hex_text = tools.bpfmap("asm", text=text)
    agree(tools.shell(f"bpfmap check --explain --old 8 2> /dev/null << 'END'\n{hex_text}END"), block.text)


def session(block: Block, tools: Tools) -> None:
    """A session of `bpfmap exec`, whose answers stand below it as bytes, with what they mean after them."""
    dump = tools.shell(block.text)
    found = bytes.fromhex("".join(line[10:49] for line in dump.splitlines()))
    wanted = bytes.fromhex("".join(line.split("   ")[0] for line in block.below.splitlines()))
    agree("\n".join(body.hex() for body in wire.bodies_of(found)), "\n".join(body.hex() for body in wire.bodies_of(wanted)))
    same("what is answered", found, wanted)


def stripped(text: str) -> str:
    """A text without blanks at the ends of its lines, between two newlines."""
    return "\n" + "".join(line.strip() + "\n" for line in text.splitlines())


def stands_in(path: str) -> Play:
    """Compares a block with a file, in which its lines must stand one after the other, or its only line as a part of one."""
    def play(block: Block, _: Tools) -> None:
        lines = stripped(block.text)
        wanted = lines.strip() if lines.count("\n") == 2 else lines
        same(f"whether it stands in {path}", wanted in stripped((ROOT / path).read_text(encoding="utf-8")), True)
    return play


def is_in_gate(block: Block, _: Tools) -> None:
    """Commands of the gate: each stands in it as a line, alone or behind `play`."""
    lines = [line.removeprefix("play ") for line in stripped((ROOT / ".ci/run").read_text(encoding="utf-8")).splitlines()]
    same("what the gate does not run", [line for line in block.text.splitlines() if line not in lines], [])


def is_run_by_gate(block: Block, _: Tools) -> None:
    """A run of the crate's program: what it prints is what the gate wants of it."""
    agree("$ rt run\n" + (ROOT / block.page).with_name("stdout").read_text(encoding="utf-8"), block.text)


def is_told_of(block: Block, _: Tools) -> None:
    """A run of the program of the crate that the block names: the page tells what the gate wants of it."""
    crate = first(r"cd crates/(\w+)", block.text)
    printed = (ROOT / "crates" / crate / "stdout").read_text(encoding="utf-8")
    same("that the page tells it", f"prints `{printed.strip()}`" in (ROOT / block.page).read_text(encoding="utf-8"), True)


def without_mending(text: str) -> Iterator[str]:
    """The lines of a program in C that is refused, without those that mend it."""
    is_kept = True
    for line in text.splitlines():
        if line.startswith(("#ifdef", "#ifndef")):
            is_kept = line.startswith("#ifndef")
        elif line.startswith(("#else", "#endif")):
            is_kept = line == "#endif" or not is_kept
        elif is_kept:
            yield line


def refused_in_c(block: Block, tools: Tools) -> None:
    """Lines of the program in C that the heading names; or a listing and, after an empty line, what `check` says of it."""
    name = first(r"`(\w+\.c)`", block.heading)
    source = (ROOT / "examples/c/refused" / name).read_text(encoding="utf-8")
    listing, _, told = block.text.partition("\n\n")
    if told.startswith("refused "):
        agree(tools.check(listing + "\n", *first(r"sizes: ([\w -]+)", source).split()), told)
    else:
        same(f"whether it stands in {name}", stripped(block.text) in stripped("\n".join(without_mending(source))), True)


def first_in_c(block: Block, tools: Tools) -> None:
    """The first program in C, by whichever clang there is. The page says in backquotes what its run prints."""
    need("clang", "llvm-objcopy", "llvm-readelf", "gcc")
    printed = tools.shell(on_free_ports(re.sub(r"^apt-get .*\n", "", block.text))).splitlines()[-1]
    same(f"whether the page says {printed}", f"It prints `{printed}`." in (ROOT / block.page).read_text(encoding="utf-8"), True)


def built_and_refused(block: Block, tools: Tools) -> None:
    """What `build` says of a program that is refused, by clang 19."""
    need("clang-19", "llvm-objcopy-19", "llvm-readelf-19", "llvm-symbolizer-19")
    agree(tools.shell("cp examples/c/refused/local_array.c my.c; CLANG=clang-19 examples/c/build my.c > my.hex"), block.text)


def same_text(block: Block, tools: Tools) -> None:
    """A program's text, which becomes a program and then a text again."""
    text = first(r'"(.+)"', block.text).replace("\\n", "\n")
    agree(tools.bpfmap("disasm", text=tools.bpfmap("asm", text=text)), text)


def refused_text(block: Block, tools: Tools) -> None:
    """A program's text, and the number and unit by which it is refused."""
    text, refusal = first(r'"(.+)"', block.text).replace("\\n", "\n"), first(r"(\d+ at \d+)$", block.text)
    same("the verdict", tools.check(text).partition("\n")[0], f"refused {refusal}")


def script(block: Block, tools: Tools) -> None:
    """A script of the Redis port, which adds up numbers."""
    with resp.started(tools.mapd) as server, resp.Client(server.address) as client:
        same("what it replies", [client.ask("EVAL", block.text, 1, "key", number) for number in (2, 3)], [b":2\r\n", b":5\r\n"])


def report(block: Block, tools: Tools) -> None:
    """What `--kept` says of a file with 200 entries and a script."""
    file = str(tools.folder / "report.db")
    server = resp.Front(tools.mapd, ["--keep", file])
    try:
        with resp.Client(server.address) as client:
            client.ask("SCRIPT", "LOAD", "#!bpf merge bytes 64 8 8 8\nmov64 r0, 0\nexit\n")
            for number in range(200):
                client.ask("SET", f"key {number:4}", "value", *(("EX", 3600) if number % 3 == 0 else ()))
            client.send("SHUTDOWN")
            client.rest()
        server.process.wait(PATIENCE)
    finally:
        server.end()
    agree(tools.shell(f"mapd --kept {file}"), block.text)


def backup(block: Block, tools: Tools) -> None:
    """A copy of a map that is served meanwhile."""
    (tools.folder / "backup").mkdir()
    server = resp.Front(tools.mapd, ["--keep", str(tools.folder / "map.db")])
    try:
        with resp.Client(server.address) as client:
            for words in (("user:1", "alice"), ("user:2", "bob", "EXAT", 4_102_444_800), ("page", "x")):
                same("a SET", client.ask("SET", *words), resp.OK)
        text = block.text.replace("$(pidof mapd)", str(server.process.pid)).replace("6379", server.address.rpartition(":")[2])
        agree(tools.shell(text), "OK\n")
        agree(tools.shell("sqlite3 backup/map.db 'pragma integrity_check'"), "ok\n")
    finally:
        server.end()


def query(block: Block, tools: Tools) -> None:
    """A query of the copy that the block above made."""
    need("redis-cli")
    agree(tools.shell(block.text), "user:1|5|\nuser:2|3|2100-01-01 00:00:00\n")


# A page, which of its blocks (`is_meant` of listings.py says how that reads), and what is done with them.
PLAYED: list[tuple[str, str, Play]] = [
    ("README.md", "cd crates/counters && rt try", is_told_of),
    ("README.md", "cd crates/mapd && rt try --seconds 3600 -- --listen 127.0.0.1:7070", serves),
    ("README.md", "rt ci", is_in_gate),
    ("crates/bpf_assembler/README.md", r'let program = assemble(alloc, "mov64 r0, 8\nexit\n")?;', same_text),
    ("crates/bpfmap/README.md", r"$ printf 'mov64 r0, -1\nexit\n' | bpfmap asm", transcript),
    ("crates/counters/README.md", "$ rt run", is_run_by_gate),
    ("crates/explanations/README.md", "```indented", stands_in("tests/commands.txt")),
    ("crates/kept_report/README.md", "format 3", report),
    ("crates/mapd/README.md", "$ mapd --listen 127.0.0.1:0 --sessions 0", transcript),
    ("crates/redis_scripts/README.md", "#!bpf merge integer 64 8 8 8", script),
    ("crates/verifier/README.md", "```indented", refused_text),
    ("docs/C.md", "apt-get install clang-19 llvm-19", first_in_c),
    ("docs/C.md", "### `", refused_in_c),
    ("docs/C.md", "build: my.c: ..", built_and_refused),
    ("docs/KEEPING.md", "redis-cli -p 6379 save", backup),
    ("docs/KEEPING.md", 'sqlite3 -init docs/entries.sql backup/map.db "', query),
    ("docs/PROGRAMS.md", "ldb r9, [r1+0]", masked_load),
    ("docs/PROGRAMS.md", "ldd r0, [r2+0]", program_and_run),
    ("docs/PROTOCOL.md", "printf '%s' '", session),
    ("docs/PROTOCOL.md", "```text 1", is_told),
    ("docs/RECIPES.md", "```indented", serves),
    ("docs/REDIS.md", "mapd --redis 127.0.0.1:6379 &", prints("OK\nhello\n")),
    ("docs/REFUSALS.md", "```indented", explained),
    ("docs/RUST.md", "```indented", stands_in("crates/counters/src/counters.rt")),
    ("docs/SERVER.md", "mapd --listen 127.0.0.1:7070 &", prints()),
    ("docs/SERVER.md", "```text 1", is_told),
    ("examples/clients/README.md", "crates/mapd/out/mapd --listen 127.0.0.1:7070 &", prints()),
    ("tests/README.md", "bash tests/commands.sh", is_in_gate),
]
