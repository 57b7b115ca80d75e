"""The package as pip installs it, without a network and without setuptools."""

import os
import subprocess
import sys
import tempfile
import unittest
import zipfile
from pathlib import Path

import bpfmap

from .server import HOST
from .telling import TellingServer

_PACKAGE = Path(__file__).resolve().parents[1]
_HAS_PIP = subprocess.run([sys.executable, "-m", "pip", "--version"], capture_output=True, check=False).returncode == 0


@unittest.skipUnless(_HAS_PIP, "there is no pip")
class InstallTest(unittest.TestCase):
    """What `pip install ./clients/python` does, into a folder."""

    def _pip(self, *words: str) -> None:
        command = [sys.executable, "-m", "pip", *words, "--no-index", "--no-deps", "--no-build-isolation", "--disable-pip-version-check"]
        done = subprocess.run(command, capture_output=True, text=True, timeout=60, check=False)
        self.assertEqual(done.returncode, 0, done.stdout + done.stderr)

    def test_install(self) -> None:
        """The console script, the version, the header for C and the types are there; the package is found without the repository."""
        with tempfile.TemporaryDirectory() as folder, TellingServer() as server:
            self._pip("install", "--target", folder, str(_PACKAGE))
            script = Path(folder) / "bin/bpfmap-client"
            environment = {**os.environ, "PYTHONPATH": folder}
            words = [str(script), "--server", f"{HOST}:{server.port}", "get", "a"]
            done = subprocess.run(words, env=environment, cwd=folder, capture_output=True, text=True, timeout=60, check=False)
            self.assertEqual((done.returncode, done.stdout, done.stderr), (0, "\x10:a\n", ""))
            for name in ("py.typed", "bpfmap.h", "map.py"):
                self.assertTrue((Path(folder) / "bpfmap" / name).exists(), name)

    def test_wheel(self) -> None:
        with tempfile.TemporaryDirectory() as folder:
            self._pip("wheel", "--wheel-dir", folder, str(_PACKAGE))
            (wheel,) = Path(folder).iterdir()
            self.assertEqual(wheel.name, f"bpfmap-{bpfmap.__version__}-py3-none-any.whl")
            with zipfile.ZipFile(wheel) as archive:
                self.assertIsNone(archive.testzip())
                metadata = archive.read(f"bpfmap-{bpfmap.__version__}.dist-info/METADATA").decode()
            self.assertIn("Requires-Python: >=3.9\n", metadata)
