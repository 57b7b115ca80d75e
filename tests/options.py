#!/usr/bin/env python3
"""Compares what four places say of the options of mapd: their names, from which number to which, and what they are if they aren't given.
The places are crates/map_server/src/words.rt, docs/man/mapd.8, docs/SERVER.md, and `mapd --help`, if mapd is built.

python3 tests/options.py [--program PROGRAM]. By .ci/run behind the gate."""
from __future__ import annotations

import argparse
import re
import subprocess
import sys
from pathlib import Path
from typing import NamedTuple, Optional

sys.path.insert(0, str(Path(__file__).resolve().parent))
sys.dont_write_bytecode = True
import wire  # noqa: E402

ROOT = Path(__file__).resolve().parent.parent
WORDS = ROOT / "crates/map_server/src/words.rt"
ABSENT = r"[\d,]+|without end|never|no bound"


class Limits(NamedTuple):
    """From which number to which, and the default; a text has none of the three."""

    bounds: Optional[tuple[int, int]]
    default: Optional[str]


def limits(text: str, default: str) -> Limits:
    """What a text says: the first `1 to 32` in it, and the default by this pattern."""
    range_found = re.search(r"(\d[\d,]*) to (\d[\d,]*)", text)
    bounds = (number(range_found.group(1)), number(range_found.group(2))) if range_found else None
    default_found = re.search(default, text)
    return Limits(bounds, default_found.group(1).replace(",", "") if default_found else None)


def number(text: str) -> int:
    """A number that may have commas or underscores in it."""
    return int(text.replace(",", "").replace("_", ""))


def in_words() -> dict[str, Limits]:
    """What words.rt has as help, if its code says the same of range and default; else this fails."""
    text = WORDS.read_text(encoding="utf-8")
    calls = re.findall(r'\b\w+_option\(\s*alloc,\s*"([\w-]+)",(.*?)\n        \)\)', text, re.DOTALL)
    defaults = {name.lower().replace("_", "-"): number(value) for name, value in re.findall(r"const (\w+)_DEFAULT: u\d+ = ([\d_]+);", text)}
    found = {name: limits(call, rf"\[default: ({ABSENT})\]") for name, call in calls}
    for name, call in calls:
        coded = re.search(r"\.range\((\d+)\.\.=(\d+)\)", call)
        if coded and found[name].bounds != (int(coded.group(1)), int(coded.group(2))):
            raise wire.Wrong(f"words.rt: the help of --{name} says {found[name].bounds}, and its code {coded.group()}")
    for name, value in defaults.items():
        wire.same(f"words.rt: the default in the help of --{name}", found[name].default, str(value))
    return found


def in_help(program: Path) -> dict[str, Limits]:
    """What `mapd --help` prints."""
    printed = subprocess.run([program, "--help"], capture_output=True, text=True, check=True).stdout
    items = re.split(r"\n +(?:-\w, )?--(?=[\w-]+)", printed)[1:]
    named = {re.match(r"[\w-]+", item).group(): item for item in items}
    return {name: limits(" ".join(item.split()), rf"\[default: ({ABSENT})\]") for name, item in named.items() if name not in ("help", "version")}


def in_manual() -> dict[str, Limits]:
    """What the page of the manual has; each option must be in its synopsis, too."""
    text = (ROOT / "docs/man/mapd.8").read_text(encoding="utf-8")
    synopsis = set(re.findall(r"^\.(?:Op )?Fl Fl ([\w-]+)(?: Ar|$)", text.split(".Sh DESCRIPTION")[0], re.MULTILINE))
    found = {}
    for item in re.split(r"^\.It Fl ", text.split(".Sh EXIT STATUS")[0], flags=re.MULTILINE)[1:]:
        name = re.match(r"Fl ([\w-]+)", item)
        if name:
            prose = " ".join(line for line in item.splitlines()[1:] if not line.startswith(".")).replace("  ", " ")
            found[name.group(1)] = limits(prose, rf"({ABSENT}) if it is not given")
    wire.same("mapd.8: the options of the synopsis", synopsis, set(found))
    return found


def in_page() -> dict[str, Limits]:
    """What the table of docs/SERVER.md has; each option must be in the line above it, too."""
    text = (ROOT / "docs/SERVER.md").read_text(encoding="utf-8")
    line = next(line for line in text.splitlines() if line.startswith("`mapd --listen HOST:PORT "))
    found = {}
    for name, bounds, default in re.findall(r"^\| `--([\w-]+)` \|([^|]*)\|([^|]*)\|", text, re.MULTILINE):
        numbers = [number(one) for one in re.findall(r"\d[\d,]*", bounds.replace(", ", " "))]
        absent = re.fullmatch(rf"({ABSENT})( seconds?)?", default.strip())
        found[name] = Limits((numbers[0], numbers[-1]) if numbers else None, absent.group(1).replace(",", "") if absent else None)
    wire.same("SERVER.md: the options of the line above the table", set(re.findall(r"--([\w-]+)", line)), set(found))
    return found


def main() -> int:
    parser = argparse.ArgumentParser(description=__doc__.splitlines()[0])
    parser.add_argument("--program", type=Path, default=wire.SERVER, help="the server whose help is read")
    given = parser.parse_args()
    wanted = in_words()
    places = {"docs/man/mapd.8": in_manual(), "docs/SERVER.md": in_page()}
    if given.program.exists():
        places["mapd --help"] = in_help(given.program)
    faults = []
    for place, found in places.items():
        for name in sorted(set(wanted) | set(found)):
            if wanted.get(name) != found.get(name):
                faults.append(f"--{name}: {place} has {found.get(name)}, and words.rt {wanted.get(name)}")
    print(*faults, sep="\n", end="\n" if faults else "")
    print(f"options: {len(wanted)} options in words.rt, in {' and '.join(places)}: {len(faults)} differences")
    return 1 if faults else 0


if __name__ == "__main__":
    sys.exit(main())
