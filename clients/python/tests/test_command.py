"""`python3 -m bpfmap`, run as a process or by its main."""

import io
import os
import shutil
import socket
import subprocess
import sys
import tempfile
import time
import unittest
from pathlib import Path
from typing import Iterator

from bpfmap import SUM, Client, NoConnectionInTime, assemble
from bpfmap.bench import percentiles
from bpfmap.dump import load
from bpfmap.forms import address_of

from .server import HOST, ROOT, MapdTest

_PACKAGE = Path(__file__).resolve().parents[1]


class CommandTest(MapdTest):
    """Commands against a fresh server, one after the other."""

    def _run(self, *words: str, typed: str = "") -> "tuple[int, str, str]":
        environment = {**os.environ, "BPFMAP_SERVER": f"{HOST}:{self.port}"}
        command = [sys.executable, "-m", "bpfmap", *words]
        done = subprocess.run(
            command, input=typed, capture_output=True, text=True, cwd=_PACKAGE, env=environment, timeout=60, check=False
        )
        return done.returncode, done.stdout, done.stderr

    def _prints(self, wanted: str, *words: str, status: int = 0) -> None:
        self.assertEqual(self._run(*words), (status, wanted, ""))

    def test_calls(self) -> None:
        self._prints("nothing\n", "get", "a", status=4)
        self._prints("nothing\n", "put", "a", "x")
        self._prints("x\n", "put", "a", "\u00e4")
        self._prints("\u00e4\n", "get", "a")
        self._prints("c3a4\n", "--as", "hex", "get", "61")
        self._prints("1\n", "count")
        self._prints("\u00e4\n", "remove", "a")
        self._prints("nothing\n", "--as", "hex", "put", "-", "-")
        self._prints("-\n", "--as", "hex", "get", "-")

    def test_calls_that_have_a_condition(self) -> None:
        """An absent key has a status of its own, and so has the answer false."""
        for words in (("remove", "a"), ("replace", "a", "x"), ("compute-if-present", "a", "copy")):
            self._prints("nothing\n", *words, status=4)
        self._prints("nothing\n", "put-if-absent", "a", "x")
        self._prints("x\n", "put-if-absent", "a", "y")
        self._prints("x\n", "replace", "a", "y")
        self._prints("false\n", "replace-if", "a", "x", "z", status=4)
        self._prints("true\n", "replace-if", "a", "y", "z")
        self._prints("false\n", "remove-if", "a", "x", status=4)
        self._prints("z\n", "compute", "a", "copy")
        self._prints("true\n", "remove-if", "a", "z")
        self._prints("8\n", "--as", "number", "compute-if-absent", "n", "sum", "--arg", "8")

    def test_walks(self) -> None:
        self._prints("", "for-each", "copy", status=4)
        self._run("load", "-", typed="61 0700000000000000\n62 0800000000000000\n63 " + "01" * 9 + "\n")
        self._prints("a 7\nb 8\nc 18519084246547628289\n", "--as", "number", "for-each", "copy")
        self._prints("61 0700000000000000\n", "--as", "hex", "search", "copy")
        status, out, errors = self._run("--as", "number", "for-each", "sum", "--sizes", "64", "8", "8", "8", "--arg", "1")
        self.assertEqual((status, out), (0, "a 8\nb 9\n"))
        self.assertIn("1 entries did not fit the program's windows", errors)
        self._prints("scanned 3, given 2, unfit 1\n", "--as", "number", "replace-all", "sum", "--sizes", *"64 8 8 8".split(), "--arg", "1")
        self._prints("8\n", "--as", "number", "get", "a")

    @unittest.skipUnless(shutil.which(os.environ.get("CLANG", "clang")), "there is no clang")
    def test_program_in_c(self) -> None:
        """A C file is compiled, with the sizes in its head; others may be given."""
        counter = str(ROOT / "examples/c/counter.c")
        self._prints("41\n", "--as", "number", "merge", "hits", "41", counter)
        self._prints("42\n", "--as", "number", "merge", "hits", "1", counter)
        self._prints("0\n", "register", counter)  # it has the number of its first use
        status, out, errors = self._run("register", counter, "--sizes", "64", "8", "8", "7")
        self.assertEqual((status, out), (1, ""))
        self.assertIn("refused 43 OutOfWindow at unit 3: declare the size greater", errors)
        with tempfile.TemporaryDirectory() as folder:
            file = Path(folder) / "wrong.c"
            file.write_text("this is no C")
            status, _, errors = self._run("register", str(file))
        self.assertEqual(status, 1)
        self.assertIn("can't compile", errors)

    def test_programs_in_a_dump(self) -> None:
        """They are registered by load, which prints their numbers in the other server."""
        with tempfile.TemporaryDirectory() as folder:
            file = Path(folder) / "my sum.bpf"
            file.write_text(SUM)
            self._run("put", "a", "x")
            status, dumped, _ = self._run("dump", "--program", str(file))
            self.assertEqual((status, dumped), (0, f"program 64 256 256 256 {assemble(SUM).hex()} {file}\n61 78\n"))
            self.assertEqual(self._run("load", "-", typed=dumped), (0, f"1 {file}\n", ""))
        self._prints("1\n", "--as", "number", "merge", "hits", "1", "1")
        status, _, errors = self._run("load", "-", typed="program 64 8 8 00 x\n")
        self.assertEqual(status, 1)
        self.assertIn("line 1: a program has four sizes, its units in hex, and a name", errors)

    def test_addresses(self) -> None:
        self._prints("0\n", "--server", f"localhost:{self.port}", "count")
        for word in ("::1:7070", "host:", "host:x", "host:70700", ":7070", "[::1]:x"):
            status, _, errors = self._run("--server", word, "count")
            self.assertEqual(status, 2, word)
            self.assertRegex(errors, "is no HOST:PORT|has no port")

    def test_output_that_nobody_reads(self) -> None:
        self._run("load", "-", typed="".join(f"{number:04x} {'07' * 100}\n" for number in range(400)))
        words = f"{sys.executable} -m bpfmap --server {HOST}:{self.port} dump | head -n 1"
        done = subprocess.run(["bash", "-c", words], cwd=_PACKAGE, capture_output=True, text=True, timeout=60, check=False)
        self.assertEqual((done.stdout, done.stderr), ("0000 " + "07" * 100 + "\n", ""))

    def test_merge(self) -> None:
        self._prints("1\n", "--as", "number", "merge", "hits", "1", "sum")
        self._prints("42\n", "--as", "number", "merge", "hits", "41", "0")
        self._prints("1\n", "register", "sum", "--sizes", "64", "8", "8", "8")
        status, out, errors = self._run("register", "sum", "--sizes", "64", "8", "8", "7")
        self.assertEqual((status, out), (1, ""))
        self.assertRegex(errors, "refused 43 OutOfWindow at unit 3")
        self._prints("43\n", "--as", "number", "merge", "hits", "1", "1")

    def test_load_and_dump(self) -> None:
        entries = "- -\n61 01\n6100 ff\n62 -\n"
        with tempfile.TemporaryDirectory() as folder:
            file = Path(folder) / "entries"
            file.write_text(entries)
            self._prints("", "load", str(file))
        self._prints(entries, "dump")
        self.assertEqual(self._run("load", "-", typed="63 07\n"), (0, "", ""))
        self._prints(entries + "63 07\n", "dump")

    def test_versions(self) -> None:
        """A value that version 1 does not carry is loaded and printed by version 2; by version 1 the call is made all the same."""
        line = "61 " + "07" * 1_024 + "\n"
        self.assertEqual(self._run("load", "-", typed="60 01\n" + line), (0, "", ""))
        self._prints("60 01\n" + line, "dump")
        status, out, errors = self._run("--protocol", "1", "dump")
        self.assertEqual((status, out), (1, "60 01\n"))
        self.assertRegex(errors, "1 entries have values above 256 bytes, which version 1 does not carry")
        status, out, errors = self._run("--protocol", "1", "remove", "a")
        self.assertEqual((status, out), (1, ""))
        self.assertRegex(errors, "refused 65 ValueTooLong")
        self._prints("nothing\n", "--protocol", "2", "get", "a", status=4)
        status, _, errors = self._run("--protocol", "1", "load", "-", typed=line)
        self.assertEqual(status, 1)
        self.assertRegex(errors, "line 1: refused 1 TooLong")
        self.assertEqual(self._run("--protocol", "3", "count")[0], 2)

    def test_faulty_line(self) -> None:
        for line in ("6", "61", "61 6", "61 01 02", "zz 01", "61" * 65 + " 01"):
            status, out, errors = self._run("load", "-", typed=f"60 01\n{line}\n")
            self.assertEqual((status, out), (1, ""), line)
            self.assertIn("line 2: ", errors)

    def test_progress(self) -> None:
        """A line is told when loading takes longer than a second, and not before."""

        def slow() -> Iterator[str]:
            for number in range(4):
                yield from (f"{number:02x}{entry:04x} 01\n" for entry in range(1_000))
                time.sleep(0.6 if number < 2 else 0)

        with Client(HOST, self.port) as client:
            out = io.StringIO()
            self.assertEqual(load(client, ["61 01\n"], out), 1)
            self.assertEqual(out.getvalue(), "")
            self.assertEqual(load(client, slow(), out), 4_000)
            told = r"\rload: [\d,]+ entries, [\d,]+ a second"
            self.assertRegex(out.getvalue(), rf"^({told})+\rload: 4,000 entries, [\d,]+ a second\n$")
            self.assertEqual(client.count(), 4_001)

    def test_bench(self) -> None:
        for words in (("--call", "merge"), ("--call", "put", "--pipeline", "10", "--size", "100"), ()):
            status, out, errors = self._run("bench", "--requests", "200", "--clients", "2", "--keys", "5", *words)
            self.assertEqual((status, errors), (0, ""))
            self.assertRegex(out, r"200 calls by 2 clients, 5 keys.*\nrate: [\d,]+ calls a second\nlatency of each .*50% .*100% ")

    def test_bench_counts(self) -> None:
        """Each merge of the bench adds 1."""
        self._run("bench", "--requests", "200", "--clients", "2", "--keys", "1", "--call", "merge", "--pipeline", "4")
        self._prints("200\n", "--as", "number", "get", "bench-0")

    def test_statuses(self) -> None:
        self.assertEqual(self._run("merge", "a", "1", "no such file")[0], 2)
        self.assertEqual(self._run("nonsense")[0], 2)
        self.assertEqual(self._run("get", "k" * 65)[0], 1)
        self.mapd.kill()
        self.assertEqual(self._run("get", "a")[0], 3)


class AddressTest(unittest.TestCase):
    """Addresses as they are written."""

    def test_addresses(self) -> None:
        addresses = {
            "127.0.0.1:7070": ("127.0.0.1", 7070),
            "[::1]:80": ("::1", 80),
            "[::1]": ("::1", 7070),
            "example.org:1": ("example.org", 1),
            "example.org": ("example.org", 7070),
        }
        for word, address in addresses.items():
            self.assertEqual(address_of(word), address)

    def test_ipv6(self) -> None:
        """A client over IPv6, where the machine has it."""
        try:
            listener = socket.create_server(("::1", 0), family=socket.AF_INET6)
        except OSError:
            self.skipTest("this machine has no ::1")
        with listener:
            port = listener.getsockname()[1]
            with self.assertRaisesRegex(NoConnectionInTime, "is each worker of the server taken"):
                Client(*address_of(f"[::1]:{port}"), timeout=0.2)


class PercentilesTest(unittest.TestCase):
    """Percentiles of known numbers."""

    def test_percentiles(self) -> None:
        thousand = [float(number) for number in range(1000, 0, -1)]
        self.assertEqual(percentiles(thousand), [(50.0, 500.0), (90.0, 900.0), (99.0, 990.0), (99.9, 999.0), (100.0, 1000.0)])
        self.assertEqual({latency for _, latency in percentiles([7.0])}, {7.0})
