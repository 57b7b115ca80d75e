"""Programs of BPF changed at random, for guided.py: a unit's field, units inserted, removed, moved or taken from another program, and the
declared sizes. And the faults of bytes that spell no program, from RFC 9669 and docs/REFUSALS.md; it shares nothing with the crates."""
from __future__ import annotations

import random
from typing import NamedTuple, Optional

UNIT = 8
MOST_UNITS = 4096
# Programs are kept this short, since the model is slow.
LENGTH = 48
WINDOWS = ("key", "old", "arg", "result")

ALU_CODES = (0, 1, 2, 3, 4, 5, 6, 7, 9, 10, 11, 12)
TEST_CODES = (1, 2, 3, 4, 5, 6, 7, 10, 11, 12, 13)
DIVISIONS = (3, 9)
MOVE = 11
IMMEDIATES = (0, 1, -1, 2, 7, 8, 15, 16, 31, 32, 63, 64, 255, 256, 4095, 1 << 16, (1 << 31) - 1, -(1 << 31), -8, -512)
OFFSETS = (0, 1, 2, 4, 7, 8, 16, 63, 64, -1, -2, -4, -8, -16, -24, -504, -512, 255, 1023, 32767, -32768)
SIZES = (0, 1, 2, 7, 8, 9, 16, 24, 64, 65, 256, 1023, 1024, 1025, 65535)


def uses() -> dict[int, frozenset[str]]:
    """The opcodes, each with the fields that it uses."""
    found = {0x05: "o", 0x06: "i", 0x18: "di", 0x84: "d", 0x87: "d", 0x95: "", 0xD4: "di", 0xD7: "di", 0xDC: "di"}
    for code in ALU_CODES:
        for kind in (4, 7):
            offset = "o" if code in DIVISIONS else ""
            found[code << 4 | kind] = "di" + offset
            found[code << 4 | 8 | kind] = "ds" + ("o" if code == MOVE else offset)
    for code in TEST_CODES:
        for kind in (5, 6):
            found |= {code << 4 | kind: "dio", code << 4 | 8 | kind: "dso"}
    found |= {opcode: "dso" for opcode in (0x71, 0x69, 0x61, 0x79, 0x91, 0x89, 0x81, 0x73, 0x6B, 0x63, 0x7B)}
    found |= {opcode: "dio" for opcode in (0x72, 0x6A, 0x62, 0x7A)}
    return {opcode: frozenset(fields) for opcode, fields in found.items()}


USES = uses()
OPCODES = sorted(USES)
JUMPS = frozenset(opcode for opcode in OPCODES if opcode in (0x05, 0x06) or (opcode & 7 in (5, 6) and opcode != 0x95))


class Unit(NamedTuple):
    """Eight bytes by their fields."""

    opcode: int
    dst: int = 0
    src: int = 0
    offset: int = 0
    imm: int = 0

    def bytes(self) -> bytes:
        fields = self.offset.to_bytes(2, "little", signed=True) + self.imm.to_bytes(4, "little", signed=True)
        return bytes([self.opcode, self.src << 4 | self.dst]) + fields


def units_of(code: bytes) -> list[Unit]:
    """The whole units of a program's bytes."""
    units = []
    for at in range(0, len(code) - UNIT + 1, UNIT):
        offset, imm = code[at + 2:at + 4], code[at + 4:at + 8]
        units.append(Unit(code[at], code[at + 1] & 15, code[at + 1] >> 4, int.from_bytes(offset, "little", signed=True),
                          int.from_bytes(imm, "little", signed=True)))
    return units


def code_of(units: list[Unit]) -> bytes:
    return b"".join(unit.bytes() for unit in units)


# ---- faults


def has_bad_width(unit: Unit) -> bool:
    """Whether an offset or a number names a width or a sign that there is not."""
    code, kind = unit.opcode >> 4, unit.opcode & 7
    if kind not in (4, 7):
        return False
    if code in DIVISIONS:
        return unit.offset not in (0, 1)
    if code == MOVE and unit.opcode & 8:
        return unit.offset not in ((0, 8, 16) if kind == 4 else (0, 8, 16, 32))
    return code == 13 and unit.imm not in (16, 32, 64)


def fault_of_unit(unit: Unit, second: Optional[Unit]) -> Optional[int]:
    """The least fault of an instruction; the second unit is that of a wide one."""
    if unit.opcode not in USES:
        return 13
    used = USES[unit.opcode]
    if any(field in used and register > 10 for field, register in (("d", unit.dst), ("s", unit.src))):
        return 14
    if any(field not in used and value for field, value in zip("dsoi", unit[1:])):
        return 15
    if has_bad_width(unit):
        return 16
    if unit.opcode == 0x18:
        return 17 if second is None else 15 if any(second[:4]) else None
    return None


def fault_of(code: bytes) -> Optional[tuple[int, int]]:
    """The number and the unit of the first fault, if the bytes spell no program."""
    for number, is_fault in ((10, not code), (11, len(code) % UNIT), (12, len(code) > MOST_UNITS * UNIT)):
        if is_fault:
            return number, 0
    units, at = units_of(code), 0
    while at < len(units):
        number = fault_of_unit(units[at], units[at + 1] if at + 1 < len(units) else None)
        if number:
            return number, at
        at += 2 if units[at].opcode == 0x18 else 1
    return None


# ---- changes


def made_up(dice: random.Random) -> Unit:
    """Any instruction, mostly one with small numbers; a wide one lacks its second unit."""
    opcode = dice.choice(OPCODES)
    used = USES[opcode]
    unit = Unit(opcode, dice.randrange(11) if "d" in used else 0, dice.randrange(11) if "s" in used else 0)
    if "o" in used:
        unit = unit._replace(offset=offset_of(dice, opcode))
    if "i" in used:
        unit = unit._replace(imm=dice.choice((16, 32, 64)) if opcode >> 4 == 13 and opcode & 7 in (4, 7) else number_of(dice))
    return unit


def offset_of(dice: random.Random, opcode: int) -> int:
    if opcode & 7 in (4, 7):
        return dice.choice((0, 1)) if opcode >> 4 in DIVISIONS else dice.choice((0, 8, 16))
    return dice.randrange(8) if opcode in JUMPS else dice.choice(OFFSETS)


def number_of(dice: random.Random) -> int:
    return dice.choice(IMMEDIATES) if dice.randrange(4) else dice.randrange(-(1 << 31), 1 << 31)


def with_field_changed(unit: Unit, dice: random.Random) -> Unit:
    """One field with another value: mostly of those that the opcode uses."""
    field = dice.choice(sorted(USES.get(unit.opcode, "")) or ["i"])
    if not dice.randrange(6):
        field = "c"
    if field == "c":
        return unit._replace(opcode=dice.choice(OPCODES))
    if field == "d":
        return unit._replace(dst=dice.randrange(11))
    if field == "s":
        return unit._replace(src=dice.randrange(11))
    if field == "o":
        near = unit.offset + dice.choice((-8, -4, -1, 1, 4, 8))
        return unit._replace(offset=near if dice.randrange(2) and -32768 <= near < 32768 else offset_of(dice, unit.opcode))
    near = unit.imm + dice.choice((-1, 1))
    return unit._replace(imm=near if not dice.randrange(3) and -(1 << 31) <= near < 1 << 31 else number_of(dice))


def changed(units: list[Unit], other: list[Unit], dice: random.Random) -> list[Unit]:
    """The units with one change, which may take some of another program's."""
    units, at = list(units), dice.randrange(len(units) + 1)
    kind = dice.randrange(8)
    if kind < 3 and at < len(units):
        units[at] = with_field_changed(units[at], dice)
    elif kind < 5:
        units[at:at] = [made_up(dice)]
    elif kind == 5:
        del units[at:at + dice.choice((1, 1, 2, 4))]
    elif kind == 6:
        first = dice.randrange(len(other) + 1)
        units[at:at] = other[first:first + dice.choice((1, 2, 4, 8))]
    elif at < len(units):
        to = dice.randrange(len(units))
        units[at], units[to] = units[to], units[at]
    return units


def repaired(units: list[Unit], dice: random.Random) -> list[Unit]:
    """The units with what is not used made zero, each wide one whole, jumps forward and inside, and an EXIT at the end."""
    fixed: list[Unit] = []
    for unit in units:
        used = USES.get(unit.opcode)
        if used is None:
            continue
        values = [value if field in used else 0 for field, value in zip("dsoi", unit[1:])]
        unit = Unit(unit.opcode, min(values[0], 10), min(values[1], 10), *values[2:])
        if has_bad_width(unit):
            unit = unit._replace(imm=32) if unit.opcode >> 4 == 13 else unit._replace(offset=0)
        fixed.append(unit)
        if unit.opcode == 0x18:
            fixed.append(Unit(0, imm=number_of(dice)))
    if not fixed or fixed[-1].opcode != 0x95:
        fixed.append(Unit(0x95))
    return with_jumps_inside(fixed, dice)


def with_jumps_inside(units: list[Unit], dice: random.Random) -> list[Unit]:
    """Each jump that leads elsewhere leads to an instruction ahead instead."""
    starts, at = [], 0
    while at < len(units):
        starts.append(at)
        at += 2 if units[at].opcode == 0x18 else 1
    for at in starts:
        unit = units[at]
        distance = unit.imm if unit.opcode == 6 else unit.offset
        if unit.opcode in JUMPS and (distance < 0 or at + 1 + distance not in starts):
            to = dice.choice([start for start in starts if start > at] or [at + 1]) - at - 1
            units[at] = unit._replace(imm=to) if unit.opcode == 6 else unit._replace(offset=to)
    return units


def sizes_changed(sizes: tuple[int, ...], dice: random.Random) -> tuple[int, ...]:
    changed_sizes = list(sizes)
    changed_sizes[dice.randrange(4)] = dice.choice(SIZES)
    return tuple(changed_sizes)
