"""Programs from object files that clang made for BPF. What an object may have stands in docs/C.md."""

import struct
from typing import List, NamedTuple

from .errors import ObjectFault

MAGIC = b"\x7fELF"
_BPF = 247
_SYMBOLS = 2
_WITH_ADDENDS, _RELOCATIONS = 4, 9
_LOADED = 2
_FUNCTION = 2


class _Section(NamedTuple):
    """A header of a section, with its name."""

    name: str
    kind: int
    flags: int
    offset: int
    size: int
    link: int
    info: int


class _Symbol(NamedTuple):
    """A symbol's name and whether it is a function."""

    name: str
    kind: int


class _Object:
    """The sections and symbols of an object file."""

    def __init__(self, content: bytes) -> None:
        self._content = content
        if content[:6] != MAGIC + b"\x02\x01":
            raise ObjectFault("this is no object file of 64 bits, little-endian")
        (machine,) = self._unpack("<H", 18)
        if machine != _BPF:
            raise ObjectFault(f"the object is for machine {machine}, not for BPF: compile with clang -target bpf")
        (self._headers,) = self._unpack("<Q", 40)
        header_size, count, names_at = self._unpack("<3H", 58)
        raw = [self._unpack("<IIQQQQIIQQ", self._headers + i * header_size) for i in range(count)]
        if names_at >= count:
            raise ObjectFault("the object has no names of sections")
        names = raw[names_at][4]
        self.sections = [_Section(self._text(names + r[0]), r[1], r[2], r[4], r[5], r[6], r[7]) for r in raw]
        self.symbols = self._read_symbols()

    def _unpack(self, layout: str, offset: int) -> "tuple[int, ...]":
        try:
            return struct.unpack_from(layout, self._content, offset)
        except struct.error as error:
            raise ObjectFault("the object file is cut short") from error

    def _text(self, offset: int) -> str:
        return self._content[offset : self._content.find(b"\0", offset)].decode(errors="replace")

    def _read_symbols(self) -> List[_Symbol]:
        table = next((s for s in self.sections if s.kind == _SYMBOLS), None)
        if table is None or table.link >= len(self.sections):
            raise ObjectFault("the object has no symbols")
        names = self.sections[table.link].offset
        raw = [self._unpack("<IB", table.offset + at) for at in range(0, table.size, 24)]
        return [_Symbol(self._text(names + name), info & 15) for name, info in raw]

    def bytes_of(self, section: _Section) -> bytes:
        """The bytes of a section."""
        return self._content[section.offset : section.offset + section.size]

    def relocated_name(self, section: _Section) -> str:
        """The name that the first relocation of a section needs."""
        (info,) = self._unpack("<Q", section.offset + 8)
        symbol = info >> 32
        return self.symbols[symbol].name if symbol < len(self.symbols) else ""


def read_object(content: bytes) -> bytes:
    """The instructions of the object's one function, `program`. ObjectFault where the object has more than these."""
    made = _Object(content)
    text_at = next((i for i, s in enumerate(made.sections) if s.name == ".text"), None)
    if text_at is None:
        raise ObjectFault("the object has no instructions")
    for section in made.sections:
        _check_section(made, section, text_at)
    functions = [s.name for s in made.symbols if s.kind == _FUNCTION]
    beside = next((name for name in functions if name != "program"), None)
    if beside is not None:
        raise ObjectFault(f"the object has a function '{beside}' beside the program: make it ALWAYS_INLINE")
    if not functions:
        raise ObjectFault("there is no PROGRAM in the object")
    return made.bytes_of(made.sections[text_at])


def _check_section(made: _Object, section: _Section, text_at: int) -> None:
    if section.kind in (_RELOCATIONS, _WITH_ADDENDS) and section.info == text_at and section.size:
        name = made.relocated_name(section)
        raise ObjectFault(f"the object has a relocation, of '{name}': a program calls nothing and has no data")
    if section.flags & _LOADED and section.size and section.name != ".text":
        raise ObjectFault(f"the object has a section '{section.name}', which can't be carried along with the instructions")
