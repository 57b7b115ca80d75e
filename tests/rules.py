#!/usr/bin/env python3
"""Breaks the rules of the verifier and of the machine one at a time, in a second implementation (model.py, model_verifier.py), and tells
which of them no row of tests/programs.txt and tests/words.txt notices: there must be none. Unbroken, it gives what each row says.

It runs none of the crates: python3 tests/rules.py [--list] [NAME..]."""
from __future__ import annotations

import argparse
import functools
import sys
from collections.abc import Iterator
from concurrent.futures import ProcessPoolExecutor
from pathlib import Path
from typing import NamedTuple, Optional

HERE = Path(__file__).resolve().parent
sys.path[:0] = [str(HERE), str(HERE.parent / "clients/python")]
sys.dont_write_bytecode = True
from bpfmap.assembler import assemble  # noqa: E402
from broken_rules import BROKEN  # noqa: E402
from model_verifier import Sizes, Verifier, checked, ran  # noqa: E402

DEFAULTS = {"key": 64, "old": 256, "arg": 256, "result": 256}
TESTS_OF_WORDS = ("jeq", "jgt", "jge", "jset", "jne", "jsgt", "jsge", "jlt", "jle", "jslt", "jsle")


class Row(NamedTuple):
    """A program with its sizes, what it is run on if it is run, and what is printed."""

    name: str
    code: bytes
    sizes: Sizes
    given: Optional[dict[str, Optional[bytes]]]
    printed: str

    def printed_by(self, rules: Verifier) -> str:
        """What the model prints; the fault of a rule that is broken so that nothing can be said."""
        try:
            return checked(rules, self.code, self.sizes) if self.given is None else ran(rules, self.code, self.sizes, self.given)
        except (ArithmeticError, AttributeError, IndexError, KeyError, StopIteration, TypeError, ValueError) as fault:
            return f"{type(fault).__name__}: {fault}"


def code_of(text: str) -> bytes:
    """The bytes of a row's program, which stands there as text or as hex."""
    if text.startswith("asm "):
        return assemble(text[4:].encode().decode("unicode_escape"))
    return bytes.fromhex(text)


def row_of(name: str, command: str, code: bytes, printed: str) -> Row:
    """The row of one command."""
    words = command.split()
    options = dict(zip(words[1::2], words[2::2]))
    sizes = {window: int(options.get("--" + window, size)) for window, size in DEFAULTS.items()}
    texts = {"key": options.get("--with-key", ""), "old": options.get("--with-old"), "arg": options.get("--with-arg")}
    given = {window: None if text is None else bytes.fromhex(text.strip("'")) for window, text in texts.items()}
    return Row(name, code, sizes, given if words[0] == "run" else None, printed)


def program_rows() -> Iterator[Row]:
    """The rows of programs.txt that check or run a program."""
    for line in (HERE / "programs.txt").read_text().splitlines():
        if not line or line.startswith("#"):
            continue
        commands, text, _, printed, _, name = (field.strip() for field in (line + "|").split("|", 5))
        name = name.strip("|") or commands
        for command in commands.split(" ; "):
            if command.split()[0] in ("check", "run") and "--explain" not in command:
                yield row_of(name, command, code_of(text), printed)


def run_row(name: str, words: str, lines: list[str], printed: str) -> Row:
    """A program that begins with two words in r1 and r9, and is run."""
    a, b = (int(word, 16) for word in words.split())
    text = [f"wide r1, {a}", f"wide r9, {b}", "mov64 r0, 0", "stxd [r10-8], r9", *lines, "exit"]
    return row_of(f"{name} on {words}", "run --result 16", assemble("".join(line + "\n" for line in text)), printed)


def word_rows() -> Iterator[Row]:
    """The rows of words.txt."""
    for line in (HERE / "words.txt").read_text().splitlines():
        if not line or line.startswith("#"):
            continue
        name, words, wanted = (field.strip() for field in (line + " ").split("|"))
        if name in ("32", "64"):
            lines = []
            for place, jump in enumerate(TESTS_OF_WORDS):
                lines += ["mov64 r0, 1", f"{jump}{name} r1, r9, +1", "mov64 r0, 0", f"stxb [r4+{place}], r0"]
            lines.append(f"mov64 r0, {len(TESTS_OF_WORDS)}")
            held = [int(jump in wanted.split()) for jump in TESTS_OF_WORDS]
        else:
            lines = [*(part.strip() for part in name.split(";")), "stxd [r4+0], r1", "mov64 r0, 8"]
            held = list(int(wanted, 16).to_bytes(8, "little"))
        yield run_row(name, words, lines, "bytes" + "".join(f" {byte:02x}" for byte in held))


def noticing(rules: Verifier, rows: list[Row]) -> Optional[Row]:
    """The first row that the rules don't give."""
    return next((row for row in rows if row.printed_by(rules) != row.printed), None)


@functools.cache
def all_rows() -> list[Row]:
    return [*program_rows(), *word_rows()]


def noticed(name: str) -> Optional[Row]:
    """The first row that notices the broken rule of this name."""
    return noticing(next(rule for rule in BROKEN if rule.__name__ == name)(), all_rows())


def main() -> None:
    words = argparse.ArgumentParser(description=__doc__)
    words.add_argument("names", nargs="*", help="only these broken rules")
    words.add_argument("--list", action="store_true", help="tell which row notices each")
    asked = words.parse_args()
    rows = all_rows()
    wrong = noticing(Verifier(), rows)
    if wrong is not None:
        sys.exit(f"rules: FAILED, {wrong.name}: unbroken, it prints '{wrong.printed_by(Verifier())}', not '{wrong.printed}'")
    names = [rule.__name__ for rule in BROKEN if not asked.names or rule.__name__ in asked.names]
    with ProcessPoolExecutor() as pool:
        found = dict(zip(names, pool.map(noticed, names, chunksize=8)))
    for name, row in found.items():
        if row is None or asked.list:
            print(f"{name}: {'NOTICED BY NO ROW' if row is None else row.name}")
    missed = sum(row is None for row in found.values())
    print(f"rules: {len(found)} rules broken one at a time, {missed} noticed by no row of {len(rows)}")
    sys.exit(1 if missed else 0)


if __name__ == "__main__":
    main()
