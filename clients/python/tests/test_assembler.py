"""The rows of tests/commands.txt, programs.txt and instructions.txt that begin with a text or give one."""

import re
import unittest
from typing import Iterator, List, NamedTuple

from bpfmap import COPY, SUM, Refused, assemble, copy_text

from .server import ROOT

# The escapes of printf that the rows have.
_ESCAPE = re.compile(r"\\(n|t|r|x[0-9a-f]{2})")
_REFUSED = re.compile(r"refused (\d+) at (\d+)")


class Row(NamedTuple):
    """A row of commands.txt; the name says file and line."""

    name: str
    command: str
    input: str
    output: str


def plain(text: str) -> str:
    """The text that printf makes."""
    return _ESCAPE.sub(lambda found: found.group(0).encode().decode("unicode_escape"), text)


def rows_of(file: str) -> Iterator[Row]:
    """The rows of a file that reads as commands.txt."""
    for number, line in enumerate((ROOT / "tests" / file).read_text().splitlines(), 1):
        columns = [column.strip(" ") for column in line.split("|")]
        if len(columns) > 3 and not line.startswith("#"):
            yield Row(f"{file}, line {number}", columns[0], columns[1], columns[3])


def outcome(text: str) -> str:
    """What `bpfmap asm` prints of a text."""
    try:
        return "\n".join(unit.hex(" ") for unit in units(assemble(text)))
    except Refused as error:
        return f"refused {error.number} at {error.place}"


def units(program: bytes) -> List[bytes]:
    """A program, eight bytes after eight."""
    return [program[at : at + 8] for at in range(0, len(program), 8)]


class RowsTest(unittest.TestCase):
    """Each row that says what a text is."""

    def test_asm(self) -> None:
        """A text and its units, or its refusal."""
        rows = [row for row in rows_of("commands.txt") if row.command == "asm" and row.output]
        for row in rows:
            with self.subTest(row.name):
                self._compare(outcome(plain(row.input)), plain(row.output))
        told = {_REFUSED.match(row.output).group(1) for row in rows if row.output.startswith("refused")}
        self.assertEqual(told, {"20", "21", "22", "23", "24"})

    def _compare(self, got: str, wanted: str) -> None:
        """A text that ends in ... is a beginning."""
        beginning = wanted[:-3] if wanted.endswith("...") else wanted
        self.assertEqual(got[: len(beginning)] if wanted != beginning else got, beginning)

    def test_disasm(self) -> None:
        """Units and their text, the other way round."""
        rows = [row for row in rows_of("commands.txt") if row.command == "disasm" and "refused" not in row.output]
        for row in rows:
            with self.subTest(row.name):
                self.assertEqual(assemble(plain(row.output) + "\n"), bytes.fromhex(plain(row.input)))
        self.assertGreater(len(rows), 10)

    def test_instructions(self) -> None:
        """Each instruction three times."""
        lines = (ROOT / "tests/instructions.txt").read_text().splitlines()
        rows = [line.split(" | ") for line in lines if line and not line.startswith("#")]
        for text, wanted in rows:
            with self.subTest(text):
                self.assertEqual(assemble(text + "\n"), bytes.fromhex(plain(wanted)))
        self.assertGreater(len(rows), 400)

    def test_texts_of_programs(self) -> None:
        """The rows of programs.txt have texts that are all well-formed."""
        texts = [(row.name, plain(row.input[4:])) for row in rows_of("programs.txt") if row.input.startswith("asm ")]
        for name, text in texts:
            with self.subTest(name):
                self.assertRegex(outcome(text), r"^([0-9a-f]{2}[ \n]?)+$")
        self.assertGreater(len(texts), 300)


class TextTest(unittest.TestCase):
    """Texts beside the rows."""

    def test_limits(self) -> None:
        self.assertEqual(len(assemble("exit\n" * 4_096)), 32_768)
        self.assertEqual(outcome("exit\n" * 4_097), "refused 24 at 4097")
        self.assertEqual(outcome("exit\n" * 4_095 + "wide r0, 1\n"), "refused 24 at 4096")
        self.assertEqual(outcome("exit\n" * 4_096 + "nop\n"), "refused 20 at 4097")

    def test_long_digits(self) -> None:
        for text in ("mov64 r0, " + "9" * 10_000, "mov64 r" + "9" * 10_000, "ja +" + "9" * 10_000):
            self.assertEqual(outcome(text + "\n"), "refused 22 at 1")

    def test_digits_of_other_scripts(self) -> None:
        self.assertEqual(outcome("mov64 r0, \u0663\n"), "refused 21 at 1")

    def test_ready_programs(self) -> None:
        sums = "7920000000000000 7939000000000000 0f90000000000000 7b04000000000000 b700000008000000 9500000000000000"
        self.assertEqual(assemble(SUM), bytes.fromhex(sums))
        self.assertEqual(len(assemble(COPY)), 66 * 8)
        self.assertEqual(len(assemble(copy_text(1_024))), 258 * 8)
