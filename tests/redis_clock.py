"""A clock that a test holds, for mapd and for a redis-server: their time of day is what the test says, by clock.c. So both see the same
millisecond, and hours pass at once."""
from __future__ import annotations

import shutil
import subprocess
import tempfile
from pathlib import Path

# When the clock begins, in milliseconds since the epoch.
BEGIN = 1_800_000_000_000


def is_possible() -> bool:
    """Whether clock.c can be built here."""
    return shutil.which("gcc") is not None


class Held:
    """A held clock: `environment` has a program started with it."""

    def __init__(self, begin: int = BEGIN) -> None:
        self.folder = tempfile.TemporaryDirectory()
        library, self.file = Path(self.folder.name) / "clock.so", Path(self.folder.name) / "now"
        subprocess.run(["gcc", "-O1", "-shared", "-fPIC", "-o", library, Path(__file__).with_name("clock.c")], check=True)
        self.environment = {"LD_PRELOAD": str(library), "HELD_CLOCK": str(self.file)}
        self.file.write_bytes(bytes(8))
        self.set(begin)

    def __enter__(self) -> Held:
        return self

    def __exit__(self, *_: object) -> None:
        self.folder.cleanup()

    def set(self, now: int) -> None:
        """It is this millisecond now. (The file is written in place, in one write.)"""
        self.now = now
        with self.file.open("r+b") as file:
            file.write(now.to_bytes(8, "little"))

    def move(self, by: int) -> None:
        """So many milliseconds pass; fewer than none if it goes back."""
        self.set(self.now + by)
