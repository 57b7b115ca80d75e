"""Programs in C: compiled by clang with the words of examples/c/build, with their sizes from the head of the file."""

import os
import re
import shutil
import struct
import subprocess
import tempfile
from pathlib import Path
from typing import Dict, List, Optional, Tuple

from .elf import read_object
from .errors import ObjectFault

_NAMES = ("clang-21", "clang-20", "clang-19", "clang-18", "clang")
_SIZES = re.compile(r"^(?:/\*| \*) sizes: *(.*?) *(?:\*/)?$", re.MULTILINE)
_SIZE = re.compile(r"--(key|old|arg|result) ([0-9]+)")
# How a program in which a jump leads back is compiled once more.
_AGAIN = (["-w", "-mllvm", "-disable-block-placement"], ["-w", "-O1"])
_LONG_JUMP = (0x05, 0x06)


def sizes_in(text: str) -> Dict[str, int]:
    """Returns the sizes in the head of a C file: `sizes: --key 64 --old 8 --arg 8 --result 8`. It is empty if there are none."""
    found = _SIZES.search(text)
    return {name: int(size) for name, size in _SIZE.findall(found.group(1))} if found else {}


def compile_c(file: Path, header: Optional[Path] = None) -> bytes:
    """Compiles a C file, and returns its program's units. `header` is the folder of bpfmap.h, if it is not beside the file.

    A program in which a jump leads back is compiled once more in each of two ways, and the first that has no such jump is taken.
    Raises ObjectFault if there is no clang, if it refuses the file, or if the object has more than one program.
    """
    clang, cpu = _find_clang()
    command = [clang, "-target", "bpf", f"-mcpu={cpu}", "-O2", "-Wall", "-Wextra", f"-I{file.parent}"]
    command += [f"-I{folder}" for folder in _headers(header)]
    units = _compile(command, file)
    for way in _AGAIN if _jumps_back(units) else ():
        again = _compile(command + way, file)
        if not _jumps_back(again):
            return again
    return units


def _headers(header: Optional[Path]) -> List[Path]:
    """The folders that may have bpfmap.h: the given one, this package's if it is installed, and the repository's."""
    package = Path(__file__).resolve().parent
    folders = ([header] if header is not None else []) + [package, package.parents[2] / "examples/c"]
    return [folder for folder in folders if (folder / "bpfmap.h").exists()]


def _compile(command: List[str], file: Path) -> bytes:
    with tempfile.TemporaryDirectory() as folder:
        made = Path(folder) / "object.o"
        done = subprocess.run([*command, "-c", str(file), "-o", str(made)], capture_output=True, text=True, check=False)
        if done.returncode:
            raise ObjectFault(f"{command[0]} can't compile {file}:\n{done.stderr.strip()}")
        return read_object(made.read_bytes())


def _find_clang() -> Tuple[str, str]:
    """The first clang that makes code of BPF's version 4, else of version 3. CLANG names another one."""
    names = os.environ["CLANG"].split() if os.environ.get("CLANG") else _NAMES
    found = [path for path in map(shutil.which, names) if path]
    for cpu in ("v4", "v3"):
        for clang in found:
            if _knows(clang, cpu):
                return clang, cpu
    raise ObjectFault("there is no clang that makes BPF code: install clang, or name one by CLANG")


def _knows(clang: str, cpu: str) -> bool:
    command = [clang, "-target", "bpf", f"-mcpu={cpu}", "-x", "c", "-c", "-", "-o", os.devnull]
    done = subprocess.run(command, input="int unused;", text=True, capture_output=True, check=False)
    return done.returncode == 0


def _jumps_back(units: bytes) -> bool:
    """Whether the distance of a jump is less than 0."""
    at = 0
    while at < len(units):
        opcode, _, offset, imm = struct.unpack_from("<BBhi", units, at)
        if opcode & 7 in _LONG_JUMP and (imm if opcode == 0x06 else offset) < 0:
            return True
        at += 16 if opcode == 0x18 else 8
    return False
