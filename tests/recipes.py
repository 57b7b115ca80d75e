#!/usr/bin/env python3
"""Runs each block of docs/RECIPES.md against the built mapd: it must print what stands below it. The blocks of a shell need redis-cli.

By hand, after `rt run` in crates/mapd: python3 tests/recipes.py. By .ci/run behind the gate."""
from __future__ import annotations

import argparse
import os
import re
import shutil
import subprocess
import sys
import tempfile
from pathlib import Path

sys.path.insert(0, str(Path(__file__).resolve().parent))
sys.dont_write_bytecode = True
import redis_wire as resp  # noqa: E402
import wire  # noqa: E402

ROOT = Path(__file__).resolve().parent.parent
BLOCK = re.compile(r"```(\w+)\n(.*?)```\n", re.DOTALL)


def port_of(address: str) -> str:
    """The port of an address."""
    return address.rpartition(":")[2]


def printed_by(kind: str, text: str, frames: str, redis: str) -> str:
    """What a block prints, with these addresses in place of those of the page."""
    text = text.replace("7070", port_of(frames)).replace("redis-cli ", f"redis-cli -p {port_of(redis)} ")
    words = [sys.executable, "-c", text] if kind == "python" else ["bash", "-c", text]
    environment = {**os.environ, "PYTHONPATH": str(ROOT / "clients/python"), "PYTHONDONTWRITEBYTECODE": "1"}
    with tempfile.TemporaryDirectory() as folder:
        run = subprocess.run(words, cwd=folder, env=environment, capture_output=True, text=True, timeout=60, check=False)
    return run.stdout + run.stderr


def main() -> int:
    parser = argparse.ArgumentParser(description=__doc__.splitlines()[0])
    parser.add_argument("--program", type=Path, default=wire.SERVER, help="the server to try")
    parser.add_argument("--ports", nargs=2, metavar="ADDRESS", help="a server that runs: its port for frames, and its Redis port")
    given = parser.parse_args()
    front = None if given.ports else resp.Front(given.program, [])
    frames, redis = given.ports or (front.frames, front.address)
    blocks = BLOCK.findall((ROOT / "docs/RECIPES.md").read_text(encoding="utf-8"))
    has_cli, passed, failed = shutil.which("redis-cli") is not None, 0, 0
    try:
        for (kind, text), (_, wanted) in zip(blocks[0::2], blocks[1::2]):
            if kind == "sh" and not has_cli:
                continue
            with resp.Client(redis) as client:
                client.ask("FLUSHALL")
            found = printed_by(kind, text, frames, redis)
            passed, failed = passed + (found == wanted), failed + (found != wanted)
            if found != wanted:
                print(f"FAILED: this block prints {found!r}, and not {wanted!r}:\n{text}")
    finally:
        if front:
            front.end()
    print("" if has_cli else "recipes: no redis-cli here (Debian's package redis-tools), so no block of a shell was run\n", end="")
    print(f"recipes: {passed} blocks passed, {failed} failed")
    return 1 if failed or [kind for kind, _ in blocks[1::2] if kind != "text"] else 0


if __name__ == "__main__":
    sys.exit(main())
