"""Programs as the callers have them: bytes, text or files, and functions, which have their sizes too."""

import os
import re
from pathlib import Path
from typing import NamedTuple, Optional, Union

from .assembler import assemble
from .clang import compile_c, sizes_in
from .elf import MAGIC, read_object

# Bytes are a program's units or an object file, a str is assembler text, and a path leads to a file of C (named .c), of an
# object, of hex or of assembler text.
Program = Union[bytes, str, "os.PathLike[str]"]

# How long a window is, in bytes; None is the default, or the size in the head of a C file.
Size = Optional[int]

_HEX = re.compile(r"\s*([0-9a-fA-F]{2}\s*)*")


def program_bytes(program: Program) -> bytes:
    """Returns the bytes of a program. Raises Refused 20 to 24 for a faulty text, ObjectFault for an object that is no program."""
    if isinstance(program, os.PathLike):
        file = Path(program)
        return compile_c(file) if file.suffix == ".c" else _file_bytes(file.read_bytes())
    if isinstance(program, str):
        return assemble(program)
    if program[:4] == MAGIC:
        return read_object(program)
    return bytes(program)


def _file_bytes(content: bytes) -> bytes:
    if content[:4] == MAGIC:
        return read_object(content)
    text = content.decode()
    return bytes.fromhex(text) if _HEX.fullmatch(text) else assemble(text)


class Function(NamedTuple):
    """A program with the sizes of its windows, in bytes: make one by `function`.

    Where a call takes a program's number it takes a Function too. Each connection then registers it once, before the first call
    that runs it. So it never means another program, whatever became of the server meanwhile.
    """

    units: bytes
    key: int
    old: int
    arg: int
    result: int


def function(program: Program, key: Size = None, old: Size = None, arg: Size = None, result: Size = None) -> Function:
    """Makes a Function of a program. Sizes that are not given stand in the head of a C file, else they are 64, 256, 256 and 256."""
    sizes = {"key": 64, "old": 256, "arg": 256, "result": 256}
    if isinstance(program, os.PathLike) and Path(program).suffix == ".c":
        sizes.update(sizes_in(Path(program).read_text()))
    given = {"key": key, "old": old, "arg": arg, "result": result}
    sizes.update({name: size for name, size in given.items() if size is not None})
    return Function(program_bytes(program), **sizes)


class Registered(int):
    """The number of a program that a client registered. It is an int, and holds for that client alone.

    Another client refuses it by StaleProgram. Its own client goes on with it over each further connection that it opens: the
    program is registered there anew.
    """

    function: Function
    client: bytes

    def __new__(cls, number: int, made_of: Function, client: bytes) -> "Registered":
        made = super().__new__(cls, number)
        made.function = made_of
        made.client = client
        return made

    def __reduce__(self) -> "tuple[type, tuple[int, Function, bytes]]":
        return type(self), (int(self), self.function, self.client)


# What a call takes that runs a program. A plain int is sent as it is.
Runnable = Union[int, Function]


def copy_text(longest: int) -> str:
    """A program that answers the old value as it is, where that has at most so many bytes, a multiple of 8.

    The windows of old value and result are declared that long: `client.register(copy_text(1024), old=1024, result=1024)`.
    """
    words = [f"ldd r0, [r2+{at}]\nstxd [r4+{at}], r0\n" for at in range(0, longest, 8)]
    return "".join(words) + "mov64 r0, r7\nexit\n"


# Adds the argument to the old value, as numbers of 8 bytes, little-endian; an absent one counts as 0.
SUM = "ldd r0, [r2+0]\nldd r9, [r3+0]\nadd64 r0, r9\nstxd [r4+0], r0\nmov64 r0, 8\nexit\n"

# Answers an old value of at most 256 bytes as it is; for_each with it gives all such entries, and counts the others as unfit.
COPY = copy_text(256)
