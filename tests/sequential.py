"""A map of one key at a time, by the tables of docs/PROTOCOL.md alone: what a request answers on an old value, and what value it
leaves. Its programs are those of docs/PROGRAMS.md and more; each stands here as bytes and, beside them, as what it means."""
from __future__ import annotations

import random
from collections.abc import Callable, Sequence
from dataclasses import dataclass
from typing import Optional

import wire

GET, PUT, PUT_IF_ABSENT, REMOVE, REMOVE_IF, REPLACE, REPLACE_IF = range(0x10, 0x17)
COMPUTE, COMPUTE_IF_ABSENT, COMPUTE_IF_PRESENT, MERGE = range(0x17, 0x1B)
SEARCH, FOR_EACH, REPLACE_ALL = range(0x20, 0x23)
CALLS = range(GET, MERGE + 1)
WORD = 1 << 64

Held = Optional[bytes]
Function = Callable[[bytes, Held, Held], Held]
# An answer, or nothing where a walk tells nothing of the key, and the value that is left.
Step = tuple[Held, Held]


@dataclass(frozen=True)
class Program:
    """A program: its declared sizes, its bytes, and what it means."""
    sizes: tuple[int, int, int, int]
    code: bytes
    function: Function

    def unfit(self, key: bytes, old: Held, arg: Held) -> int:
        """The first window that is too small: 1 key, 2 old value, 3 argument; 0 where all fit."""
        for number, (window, size) in enumerate(zip((key, old, arg), self.sizes), 1):
            if window is not None and len(window) > size:
                return number
        return 0


def word(data: Held, place: int = 0) -> int:
    """The number of 8 bytes at a place; what is not there is zeros."""
    return int.from_bytes((data or b"")[place:place + 8], "little")


def spelled(*words: int) -> bytes:
    """Numbers of 8 bytes."""
    return b"".join((number % WORD).to_bytes(8, "little") for number in words)


def compare_and_set(_key: bytes, old: Held, arg: Held) -> bytes:
    """Replaces the payload, and raises the version, where the versions agree."""
    if word(old) == word(arg):
        return spelled(word(old) + 1, word(arg, 8))
    return spelled(word(old), word(old, 8))


def append(_key: bytes, old: Held, arg: Held) -> bytes:
    """Appends the argument's byte to a list of at most 7."""
    held = (old or b"").ljust(8, b"\0")
    count = held[0]
    if count >= 7:
        return held
    longer = bytearray(held)
    longer[count + 1] = (arg or b"").ljust(1, b"\0")[0]
    longer[0] = count + 1
    return bytes(longer)


def touch(_key: bytes, old: Held, arg: Held) -> Held:
    """Gives a session a new time; one that is absent is not made."""
    return None if old is None else spelled(word(old), word(arg))


PROGRAMS: list[Program] = [
    # Answers nothing.
    Program((64, 256, 256, 256), bytes.fromhex("b7000000ffffffff 9500000000000000"), lambda key, old, arg: None),
    # Add.
    Program((64, 8, 8, 8), bytes.fromhex("""
        7920000000000000 7939000000000000 0f90000000000000 7b04000000000000 b700000008000000 9500000000000000"""),
        lambda key, old, arg: spelled(word(old) + word(arg))),
    # Compare and set by a version.
    Program((64, 16, 16, 16), bytes.fromhex("""
        7920000000000000 7939000000000000 af09000000000000 bf95000000000000 8705000000000000 4f95000000000000
        770500003f000000 1705000001000000 1f50000000000000 7b04000000000000 7929080000000000 7930080000000000
        af90000000000000 5f50000000000000 af90000000000000 7b04080000000000 b700000010000000 9500000000000000"""),
        compare_and_set),
    # Append with a bound.
    Program((64, 8, 1, 8), bytes.fromhex("""
        7920000000000000 7b04000000000000 7129000000000000 3509060007000000 7135000000000000 bf40000000000000
        0f90000000000000 7350010000000000 0709000001000000 7394000000000000 b700000008000000 9500000000000000"""),
        append),
    # Session touch.
    Program((64, 16, 8, 16), bytes.fromhex("""
        7929000000000000 7b94000000000000 7939000000000000 7b94080000000000 770700003f000000 2707000011000000
        b700000010000000 1f70000000000000 9500000000000000"""), touch),
    # The old value's first 8 bytes and its length.
    Program((64, 16, 0, 16), bytes.fromhex("""
        7920000000000000 7b04000000000000 7b74080000000000 b700000010000000 9500000000000000"""),
        lambda key, old, arg: spelled(word(old), -1 if old is None else len(old))),
]
# A program whose windows only version 2 registers: the argument as it is.
TAKE_CODE = b"".join(bytes([0x79, 0x30, at % 256, at // 256, 0, 0, 0, 0, 0x7B, 0x04, at % 256, at // 256, 0, 0, 0, 0])
                     for at in range(0, 1024, 8)) + bytes.fromhex("bf80000000000000 9500000000000000")
PROGRAMS.append(Program((64, 1024, 1024, 1024), TAKE_CODE, lambda key, old, arg: arg))
NOTHING_AT_ALL, ADD, COMPARE_AND_SET, APPEND, TOUCH, LOOK, TAKE = range(len(PROGRAMS))
# Those that a session of this version may register.
REGISTERED_BY = {1: PROGRAMS[:TAKE], 2: PROGRAMS}


@dataclass(frozen=True)
class Call:
    """A request on one key, by its tag: the value that it brings, the one that it expects, its program's place in PROGRAMS and that
    one's argument. A walk is a request on each key."""
    tag: int
    key: bytes
    value: Held = None
    expected: Held = None
    program: int | None = None
    arg: Held = None

    def body(self, numbers: Sequence[int]) -> bytes:
        """The body of the request, where the programs have these numbers."""
        body = bytes([self.tag]) + wire.key_field(self.key)
        if self.tag in (REMOVE_IF, REPLACE_IF):
            body += wire.value_field(self.expected)
        if self.tag in (PUT, PUT_IF_ABSENT, REPLACE, REPLACE_IF, MERGE):
            body += wire.value_field(self.value)
        if self.program is not None:
            body += wire.number_field(numbers[self.program])
        if self.tag in (COMPUTE, COMPUTE_IF_ABSENT, COMPUTE_IF_PRESENT):
            body += wire.arg_field(self.arg)
        return body


def told(held: Held) -> bytes:
    """The answer Value."""
    return b"\x82" + wire.arg_field(held)


def carried(answer: Held, version: int) -> Held:
    """An answer as a session of this version has it: one whose value is too long for it is refused."""
    is_long = answer is not None and answer[0] == 0x82 and len(answer) - 3 > wire.LONGEST_VALUE[version]
    return wire.VALUE_TOO_LONG if is_long else answer


def stored(call: Call, old: Held) -> Step:
    """A call without a program."""
    absent = old is None
    matches = not absent and old == call.expected
    if call.tag == GET:
        return told(old), old
    if call.tag == PUT:
        return told(old), call.value
    if call.tag == PUT_IF_ABSENT:
        return told(old), call.value if absent else old
    if call.tag == REMOVE:
        return told(old), None
    if call.tag == REMOVE_IF:
        return (wire.YES, None) if matches else (wire.NO, old)
    if call.tag == REPLACE:
        return told(old), None if absent else call.value
    if call.tag == REPLACE_IF:
        return (wire.YES, call.value) if matches else (wire.NO, old)
    raise ValueError(call)


def computed(call: Call, old: Held) -> Step:
    """A call with a program."""
    absent = old is None
    if call.tag == COMPUTE_IF_ABSENT and not absent:
        return told(old), old
    if call.tag == COMPUTE_IF_PRESENT and absent:
        return told(None), None
    if call.tag == MERGE and absent:
        return told(call.value), call.value
    program = PROGRAMS[call.program]
    arg = call.value if call.tag == MERGE else call.arg
    unfit = program.unfit(call.key, old, arg)
    if unfit:
        return bytes([0x84, unfit]), old
    new = program.function(call.key, old, arg)
    return told(new), new


def walked(call: Call, old: Held) -> Step:
    """What a walk does to one key: its item of a Search or ForEach, or nothing; a ReplaceAll tells nothing of the key."""
    program = PROGRAMS[call.program]
    if old is None or program.unfit(call.key, old, call.arg):
        return None, old
    new = program.function(call.key, old, call.arg)
    if call.tag == REPLACE_ALL:
        return None, old if new is None else new
    return new, old


def step(call: Call, old: Held) -> Step:
    """The answer to a call where its key has this old value, and the value that it then has."""
    if call.tag in (SEARCH, FOR_EACH, REPLACE_ALL):
        return walked(call, old)
    return stored(call, old) if call.program is None else computed(call, old)


def changes_nothing(call: Call, answer: Held) -> bool:
    """Whether a call that has this answer, of version 2, leaves every value as it is."""
    if call.tag in (GET, SEARCH, FOR_EACH) or answer == wire.NO:
        return True
    if call.tag in (PUT_IF_ABSENT, REPLACE):
        return (answer == wire.NOTHING) == (call.tag == REPLACE)
    return call.program is not None and answer is not None and answer[0] == 0x84


def some_value(dice: random.Random, version: int) -> bytes:
    """A value that is often met again: a small number, a version and a payload, a list of bytes, or a longer one, up to the longest of
    this version of the protocol."""
    kind = dice.randrange(8)
    if kind < 4:
        return spelled(dice.randrange(4))
    if kind < 6:
        return spelled(dice.randrange(3), dice.randrange(3))
    return dice.choice((b"", b"\x01", b"\xff" * 17, b"\x00" * wire.LONGEST_VALUE[version]))


def some_call(dice: random.Random, keys: Sequence[bytes], version: int = 1, programs: int = len(PROGRAMS)) -> Call:
    """One of the eleven calls on one of the keys, as a session of this version may send it, by one of the first so many programs."""
    tag, key = dice.choice(CALLS), dice.choice(keys)
    if tag in (GET, REMOVE):
        return Call(tag, key)
    if tag in (PUT, PUT_IF_ABSENT, REPLACE):
        return Call(tag, key, value=some_value(dice, version))
    if tag == REMOVE_IF:
        return Call(tag, key, expected=some_value(dice, version))
    if tag == REPLACE_IF:
        return Call(tag, key, value=some_value(dice, version), expected=some_value(dice, version))
    program = dice.randrange(programs)
    if tag == MERGE:
        return Call(tag, key, value=some_value(dice, version), program=program)
    return Call(tag, key, program=program, arg=dice.choice((None, some_value(dice, version))))
