"""What the pages print: each block of README.md, the client on the repository's front page, and the programs of examples/clients."""

import os
import re
import shutil
import subprocess
import sys
import tempfile
import unittest
from pathlib import Path
from typing import List

from bpfmap import Client, Map

from .server import HOST, ROOT, MapdTest

_PACKAGE = Path(__file__).resolve().parents[1]
_EXAMPLES = ROOT / "examples/clients"


class PagesTest(MapdTest):
    """Each against a fresh server, on its port."""

    def setUp(self) -> None:
        super().setUp()
        self.page = (_PACKAGE / "README.md").read_text()

    def test_counter(self) -> None:
        """The first block of a shell as it stands, but for the server, which runs already, and the paths."""
        server, script = self._blocks("sh")[0].split("\n", 1)
        self.assertEqual(server, "crates/mapd/out/mapd --listen 127.0.0.1:7070 & sleep 1")
        self.assertEqual(self._run_shell(script), "1\n42\n")
        self.assertIn("It prints 1 and 42.", self.page)

    def test_blocks_of_python(self) -> None:
        """Each prints what stands behind it, on a map that is empty."""
        wanted = ["b'hello'\n", "30 nobody 1\n42\n", "10\n", "b'0000' b'x' b'x'\nb'0001' b'x' b'x'\n"]
        blocks = self._blocks("python")
        self.assertEqual(len(blocks), len(wanted))
        for block, printed in zip(blocks, wanted):
            with self.subTest(block):
                self._empty()
                self.assertEqual(self._run_python(block), printed)
                for line in printed.splitlines():
                    self.assertIn(line, self.page.split(block)[1])

    def test_front_page(self) -> None:
        """The client of the repository's own README prints what stands below it, and counts up with each run."""
        page = (ROOT / "README.md").read_text()
        block = re.findall(r"```python\n(.*?)```", page, re.DOTALL)[0]
        first = self._run_python(block)
        self.assertIn(f"`{first.strip()}`", page.split(block)[1])
        self.assertEqual(self._run_python(block), first.replace("\\x01", "\\x02"))

    def _empty(self) -> None:
        with Client(HOST, self.port) as client:
            Map(client).clear()

    @unittest.skipUnless(shutil.which("clang"), "there is no clang")
    def test_command_line(self) -> None:
        printed = self._run_shell(self._blocks("sh")[1]).splitlines()
        self.assertEqual(printed[:6], ["nothing", "30", "nothing", "status 4", "5", "2"])
        self.assertRegex(printed[6], r"^\d+ .*/examples/c/counter.c$")
        self.assertEqual(len(printed), 7)

    def _blocks(self, language: str) -> List[str]:
        return re.findall(rf"```{language}\n(.*?)```", self.page, re.DOTALL)

    def _run_python(self, block: str) -> str:
        environment = {**os.environ, "PYTHONPATH": str(_PACKAGE)}
        words = [sys.executable, "-c", block.replace("7070", str(self.port))]
        return subprocess.run(words, env=environment, capture_output=True, text=True, timeout=60, check=True).stdout

    def _run_shell(self, script: str) -> str:
        environment = {**os.environ, "BPFMAP_SERVER": f"{HOST}:{self.port}", "PYTHONPATH": str(_PACKAGE)}
        with tempfile.TemporaryDirectory() as folder:
            script = script.replace("/tmp/", f"{folder}/").replace("7070", str(self.port)).replace("python3", sys.executable)
            script = script.replace("clients/python", str(_PACKAGE)).replace("examples/c/", f"{ROOT}/examples/c/")
            done = subprocess.run(
                ["bash", "-e", "-c", script], cwd=folder, env=environment, capture_output=True, text=True, timeout=60, check=False
            )
        self.assertEqual((done.returncode, done.stderr), (0, ""))
        return done.stdout

    def test_examples(self) -> None:
        page = (_EXAMPLES / "README.md").read_text()
        blocks = dict(re.findall(r"\*\*(\w+)\*\*.*?```text\n(.*?)```", page, re.DOTALL))
        self.assertEqual(set(blocks), {"hit_counter", "token_bucket", "session_store"})
        for name, wanted in blocks.items():
            with self.subTest(name):
                self.assertEqual(self._run_example(name), wanted)

    def _run_example(self, name: str) -> str:
        environment = {**os.environ, "PYTHONPATH": str(_PACKAGE)}
        words = [sys.executable, str(_EXAMPLES / f"python/{name}.py"), HOST, str(self.port)]
        return subprocess.run(words, env=environment, capture_output=True, text=True, timeout=60, check=True).stdout
