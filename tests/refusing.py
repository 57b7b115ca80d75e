"""Refuses each request for memory of a program in turn, by refuse.c."""
import subprocess
import sys
import tempfile
from collections import Counter
from collections.abc import Callable
from pathlib import Path


def refuse_each(name: str, most: int, refuse: Callable[[Path, int], str], wanted: tuple[str, ...]) -> None:
    """Calls refuse(folder, request) for each request from 1 on; it says what came of that, or nothing if there are no more.

    The folder has refuse.so. Ends the process if a call fails, if more than `most` requests are made, or if one of the
    wanted ways never came.
    """
    ways: Counter[str] = Counter()
    with tempfile.TemporaryDirectory() as made:
        folder = Path(made)
        subprocess.run(["gcc", "-O1", "-shared", "-fPIC", "-fno-builtin", "-o", folder / "refuse.so",
                        Path(__file__).with_name("refuse.c")], check=True)
        for request in range(1, most):
            try:
                way = refuse(folder, request)
            except Exception as wrong:
                sys.exit(f"{name}: FAILED, request {request} refused: {wrong!r}")
            if not way:
                break
            ways[way] += 1
        else:
            sys.exit(f"{name}: FAILED, {most - 1} requests were refused, and there are more")
    if not all(ways[way] for way in wanted):
        sys.exit(f"{name}: FAILED, too little was refused: {dict(ways)}")
    print(f"{name}: {sum(ways.values())} requests, {', '.join(f'{count} with {way}' for way, count in ways.items())}")
