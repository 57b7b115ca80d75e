"""Programs from object files, as clang makes them of the programs of examples/c."""

import os
import re
import shutil
import subprocess
import tempfile
import unittest
from pathlib import Path

from bpfmap import SUM, Client, ObjectFault, assemble, program_bytes

from .server import HOST, ROOT, MapdTest

_CLANG = os.environ.get("CLANG", "clang")
_HEADER = ROOT / "examples/c"
_WINDOWS = {"key", "old", "arg", "result"}


def compile_text(text: str, *words: str) -> bytes:
    """The object of a program in C; its header is there."""
    with tempfile.TemporaryDirectory() as folder:
        made = Path(folder) / "object.o"
        command = [_CLANG, "-target", "bpf", "-mcpu=v3", "-O2", "-w", f"-I{_HEADER}", *words, "-x", "c", "-c", "-", "-o", str(made)]
        subprocess.run(command, input=text, text=True, check=True)
        return made.read_bytes()


@unittest.skipUnless(shutil.which(_CLANG), "there is no clang")
class ObjectTest(unittest.TestCase):
    """Objects that have a program, and objects that have more."""

    def _fault(self, text: str, message: str, *words: str) -> None:
        made = compile_text(text, *words)
        self.assertRaisesRegex(ObjectFault, message, program_bytes, made)

    def test_counter(self) -> None:
        made = compile_text((_HEADER / "counter.c").read_text())
        units = program_bytes(made)
        self.assertEqual(len(units), 6 * 8)
        self.assertEqual(units[-8:], assemble("exit\n"))

    def test_object_with_debug_sections(self) -> None:
        text = (_HEADER / "counter.c").read_text()
        self.assertEqual(program_bytes(compile_text(text, "-g")), program_bytes(compile_text(text)))

    def test_call(self) -> None:
        text = '#include "bpfmap.h"\nu64 other(u64);\nPROGRAM\n{\n    return other(key_length);\n}\n'
        self._fault(text, "a relocation, of 'other'")

    def test_data(self) -> None:
        text = '#include "bpfmap.h"\nu64 kept = 7;\nPROGRAM\n{\n    return NOTHING;\n}\n'
        self._fault(text, "a section '.data'")

    def test_second_function(self) -> None:
        text = '#include "bpfmap.h"\nu64 other(u64 x)\n{\n    return x;\n}\nPROGRAM\n{\n    return NOTHING;\n}\n'
        self._fault(text, "a function 'other' beside the program")

    def test_no_function(self) -> None:
        self._fault("int unused;\n", "no PROGRAM|a section")

    def test_object_that_is_cut(self) -> None:
        made = compile_text((_HEADER / "counter.c").read_text())
        for length in range(4, len(made), 7):
            with self.subTest(length):
                self._read_cut(made[:length])

    def _read_cut(self, content: bytes) -> None:
        try:
            program_bytes(content)
        except ObjectFault:
            pass


class FileTest(unittest.TestCase):
    """What is told from what."""

    def test_object_for_another_machine(self) -> None:
        made = b"\x7fELF\x02\x01" + bytes(12) + (62).to_bytes(2, "little") + bytes(100)
        self.assertRaisesRegex(ObjectFault, "machine 62", program_bytes, made)
        self.assertRaises(ObjectFault, program_bytes, b"\x7fELF\x01\x01" + bytes(100))

    def test_files(self) -> None:
        with tempfile.TemporaryDirectory() as folder:
            file = Path(folder) / "program"
            for content in (SUM, assemble(SUM).hex(" "), assemble(SUM).hex("\n").upper()):
                file.write_text(content)
                self.assertEqual(program_bytes(file), assemble(SUM))


@unittest.skipUnless(shutil.which(_CLANG), "there is no clang")
class ExamplesTest(MapdTest):
    """The programs of examples/c that clang makes without a jump back: each is registered with the sizes in its head."""

    def test_examples(self) -> None:
        accepted = 0
        with Client(HOST, self.port) as client:
            for file in sorted(_HEADER.glob("*.c")):
                sizes = re.search(r"^(?:/\*| \*) sizes: (.*)$", file.read_text(), re.MULTILINE)
                if sizes is not None:
                    self._register(client, file, sizes.group(1).split())
                    accepted += 1
        self.assertEqual(accepted, 18)

    def _register(self, client: Client, file: Path, words: "list[str]") -> None:
        sizes = {name[2:]: int(number) for name, number in zip(words[::2], words[1::2])}
        self.assertEqual(set(sizes), _WINDOWS)
        with self.subTest(file.name):
            client.register(compile_text(file.read_text()), **sizes)
