"""The text of docs/PROGRAMS.md to the bytes of a program."""

import struct
from dataclasses import dataclass
from typing import Dict, Tuple

from .errors import Refused

_MOST_BYTES = 4096 * 8
_DIGITS = frozenset("0123456789")


@dataclass
class _Unit:
    """The fields of an instruction; `upper` is the second unit's number of a wide one."""

    opcode: int
    dst: int = 0
    src: int = 0
    offset: int = 0
    imm: int = 0
    upper: int = 0

    def encode(self) -> bytes:
        """The eight bytes of the unit; sixteen of a wide instruction."""
        unit = struct.pack("<BBhi", self.opcode, self.src * 16 + self.dst, self.offset, self.imm)
        if self.opcode == 0x18:
            unit += struct.pack("<Ii", 0, self.upper)
        return unit


# What stands behind a name: fields and the signs between them.
_Operands = Tuple[str, ...]
_NONE: _Operands = ()
_ONE: _Operands = ("dst",)
_TWO: _Operands = ("dst", ", ", "src")
_CHANGE: _Operands = ("dst", ", ", "src or imm")
_WIDE: _Operands = ("dst", ", ", "wide")
_LOAD: _Operands = ("dst", ", ", "[", "src", "offset", "]")
_STORE: _Operands = ("[", "dst", "offset", "]", ", ", "src")
_STORE_NUMBER: _Operands = ("[", "dst", "offset", "]", ", ", "imm")
_JUMP: _Operands = ("offset",)
_LONG_JUMP: _Operands = ("distance",)
_BRANCH: _Operands = ("dst", ", ", "src or imm", ", ", "offset")

_CHANGES = {
    "add": 0, "sub": 1, "mul": 2, "div": 3, "or": 4, "and": 5, "lsh": 6, "rsh": 7, "mod": 9, "xor": 10, "mov": 11, "arsh": 12,
}  # fmt: skip
_CONDITIONS = {
    "jeq": 1, "jgt": 2, "jge": 3, "jset": 4, "jne": 5, "jsgt": 6, "jsge": 7, "jlt": 10, "jle": 11, "jslt": 12, "jsle": 13,
}  # fmt: skip
_SIZES = {"b": 0x10, "h": 0x08, "w": 0x00, "d": 0x18}


def _instructions() -> "Dict[str, Tuple[_Operands, _Unit]]":
    """Each name's operands, and the fields that the name alone gives."""
    names = {
        "exit": (_NONE, _Unit(0x95)),
        "ja": (_JUMP, _Unit(0x05)),
        "jal": (_LONG_JUMP, _Unit(0x06)),
        "wide": (_WIDE, _Unit(0x18)),
        "neg32": (_ONE, _Unit(0x84)),
        "neg64": (_ONE, _Unit(0x87)),
        "sdiv32": (_CHANGE, _Unit(0x34, offset=1)),
        "sdiv64": (_CHANGE, _Unit(0x37, offset=1)),
        "smod32": (_CHANGE, _Unit(0x94, offset=1)),
        "smod64": (_CHANGE, _Unit(0x97, offset=1)),
    }
    names.update({f"{name}32": (_CHANGE, _Unit(16 * code + 4)) for name, code in _CHANGES.items()})
    names.update({f"{name}64": (_CHANGE, _Unit(16 * code + 7)) for name, code in _CHANGES.items()})
    names.update({f"{name}64": (_BRANCH, _Unit(16 * code + 5)) for name, code in _CONDITIONS.items()})
    names.update({f"{name}32": (_BRANCH, _Unit(16 * code + 6)) for name, code in _CONDITIONS.items()})
    names.update({f"sx{bits}to32": (_TWO, _Unit(0xBC, offset=bits)) for bits in (8, 16)})
    names.update({f"sx{bits}to64": (_TWO, _Unit(0xBF, offset=bits)) for bits in (8, 16, 32)})
    orders = {"le": 0xD4, "be": 0xDC, "swap": 0xD7}
    names.update({f"{name}{bits}": (_ONE, _Unit(orders[name], imm=bits)) for name in orders for bits in (16, 32, 64)})
    names.update({f"ld{letter}": (_LOAD, _Unit(0x61 + size)) for letter, size in _SIZES.items()})
    names.update({f"lds{letter}": (_LOAD, _Unit(0x81 + _SIZES[letter])) for letter in "bhw"})
    names.update({f"st{letter}": (_STORE_NUMBER, _Unit(0x62 + size)) for letter, size in _SIZES.items()})
    names.update({f"stx{letter}": (_STORE, _Unit(0x63 + size)) for letter, size in _SIZES.items()})
    return names


_INSTRUCTIONS = _instructions()


class _Line:
    """A line that is read from left to right; its first fault is raised."""

    def __init__(self, text: str, place: int) -> None:
        self._text = text
        self._place = place
        self._at = 0

    def fault(self, number: int) -> Refused:
        """A refusal at this line."""
        return Refused(number, self._place)

    def read(self) -> _Unit:
        """The instruction of the line."""
        name = self._text.split(" ", 1)[0]
        if name not in _INSTRUCTIONS:
            raise self.fault(20)
        operands, named = _INSTRUCTIONS[name]
        unit = _Unit(named.opcode, offset=named.offset, imm=named.imm)
        self._at = len(name)
        if operands:
            self._sign(" ")
        for operand in operands:
            self._operand(operand, unit)
        if self._at < len(self._text):
            raise self.fault(23)
        return unit

    def _operand(self, operand: str, unit: _Unit) -> None:
        if operand == "src or imm":
            operand = "src" if self._text.startswith("r", self._at) else "imm"
            unit.opcode += 8 if operand == "src" else 0
        if operand == "dst":
            unit.dst = self._register()
        elif operand == "src":
            unit.src = self._register()
        elif operand == "imm":
            unit.imm = self._number(self._is_at("-"), 31)
        elif operand == "wide":
            number = self._number(False, 64)
            unit.upper, unit.imm = struct.unpack("<2i", struct.pack("<2I", number >> 32, number & 0xFFFFFFFF))
        elif operand == "offset":
            unit.offset = self._distance(15)
        elif operand == "distance":
            unit.imm = self._distance(31)
        else:
            self._sign(operand)

    def _is_at(self, sign: str) -> bool:
        return self._text.startswith(sign, self._at)

    def _sign(self, sign: str) -> None:
        if not self._is_at(sign):
            raise self.fault(21)
        self._at += len(sign)

    def _register(self) -> int:
        self._sign("r")
        digits = self._digits()
        if len(digits) > 2 or int(digits) > 10:
            raise self.fault(22)
        return int(digits)

    def _distance(self, bits: int) -> int:
        """A number that always has a sign."""
        is_negative = self._is_at("-")
        if not is_negative:
            self._sign("+")
        return self._number(is_negative, bits)

    def _number(self, is_negative: bool, bits: int) -> int:
        """A number below 2 to the power of `bits`; a negative one may be that less 1 further from 0."""
        if is_negative:
            self._sign("-")
        digits = self._digits()
        if is_negative and digits == "0":
            raise self.fault(21)
        # Longer digits are out of range, and Python is slow at them.
        if len(digits) > 20 or int(digits) - is_negative >= 1 << bits:
            raise self.fault(22)
        return -int(digits) if is_negative else int(digits)

    def _digits(self) -> str:
        start = self._at
        while self._text[self._at : self._at + 1] in _DIGITS:
            self._at += 1
        digits = self._text[start : self._at]
        if digits == "" or (digits[0] == "0" and digits != "0"):
            raise self.fault(21)
        return digits


def assemble(text: str) -> bytes:
    """The program's bytes. The first faulty line's first fault is raised: Refused 20 to 24, its place the line."""
    if not text:
        raise Refused(24, 0)
    lines = text.split("\n")
    has_rest = lines[-1] != ""
    if not has_rest:
        lines.pop()
    units = bytearray()
    for place, text_of_line in enumerate(lines, 1):
        line = _Line(text_of_line, place)
        units += line.read().encode()
        if has_rest and place == len(lines):
            raise line.fault(23)
        if len(units) > _MOST_BYTES:
            raise line.fault(24)
    return bytes(units)
