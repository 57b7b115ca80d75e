"""What can go wrong: refusals by the server, windows that are too small, and connections that break."""

from typing import Dict, Tuple

# Number, name and sentence of each refusal that a client can meet: those of docs/REFUSALS.md, of 40 to 47 how to mend the
# program, and of 60 to 64 and 66 those of docs/PROTOCOL.md.
REFUSALS: Dict[int, Tuple[str, str]] = {
    1: ("TooLong", "a key has more than 64 bytes, a value or argument more than 1,024 (in version 1 of the protocol 256)"),
    9: ("NoMemory", "a request for memory was refused"),
    10: ("Empty", "there is no byte"),
    11: ("NotWholeUnits", "the number of bytes is no multiple of 8"),
    12: ("TooManyUnits", "there are more than 4,096 units (in version 1 of the protocol 512)"),
    13: ("UnknownOpcode", "the opcode is no instruction's"),
    14: ("BadRegister", "a register field that the instruction uses is above 10"),
    15: ("UnusedNotZero", "a field that the instruction doesn't use is not zero"),
    16: (
        "BadWidth",
        "an offset of DIV or MOD other than 0 and 1, one of MOV with a register that is none of 0, 8, 16 (and 32 at 64 bits), "
        "an END of other than 16, 32 or 64 bits",
    ),
    17: ("CutWide", "a wide instruction has no second unit"),
    20: ("UnknownName", "the bytes up to the first blank, newline or end are no name"),
    21: (
        "BadOperand",
        "an operand, a separator or the blank after the name is missing or ill-formed, or a number has a needless zero or is -0",
    ),
    22: ("OutOfRange", "a well-formed number doesn't fit its field"),
    23: ("Trailing", "after the last operand stands anything but a newline, the text's end included"),
    24: (
        "BadCount",
        "the text is empty (line 0), or this line has no other fault and its instruction passes 4,096 units",
    ),
    30: ("BackwardJump", "a jump's distance is below 0"),
    31: ("JumpOut", "a jump goes to the number of units or past it"),
    32: ("JumpIntoWide", "a jump goes to the second unit of a wide instruction"),
    33: ("FallsOffEnd", "the last instruction is neither EXIT nor an unconditional jump"),
    40: ("UnwrittenRegister", "write the register on every way that leads here"),
    41: ("WriteToR10", "copy it first: mov64 r9, r10"),
    42: (
        "NotAWindow",
        "keep addresses apart from numbers where ways meet, and move them by 64-bit ADD and SUB alone",
    ),
    43: ("OutOfWindow", "declare the size greater, or mask or test the number that was added"),
    44: ("ReadOnly", "store to result or stack"),
    45: (
        "UnwrittenBytes",
        "store all bytes that the load may touch first, at fixed places, on every way",
    ),
    46: (
        "BadExitValue",
        "write the answer's bytes without a gap on every way, or give each answer an EXIT of its own",
    ),
    47: ("SizesTooLarge", "declare less"),
    60: ("BadLength", "a length of 0, or above 32,777 (in version 1 and before a Hello 8,192)"),
    61: ("UnknownRequest", "a tag that is not in the table"),
    62: (
        "BadField",
        "cut fields, a key above 64 bytes, a value above 1,024 (in version 1 and before a Hello 256), "
        "or ff ff in place of a value",
    ),
    63: ("TrailingBytes", "bytes after the last field"),
    64: (
        "WrongVersion",
        "a Hello of a version other than 1 and 2, a first request that is no Hello, or a second Hello",
    ),
    65: ("ValueTooLong", "the answer has a value of more than 256 bytes, which version 1 does not carry; the call was made"),
    66: ("UnknownProgram", "no program has this number"),
}

_PLACES = {**{n: "unit" for n in (*range(10, 18), *range(30, 34), *range(40, 48))}, **{n: "line" for n in range(20, 25)}}


class BpfmapError(Exception):
    """What this package raises, but for faults of the caller's Python (TypeError, OverflowError)."""


class Refused(BpfmapError):
    """The server, or this package in its place, refused a request. Nothing was done, unless the number is 65.

    65 comes in version 1 alone, in place of an answer whose value is too long for it: the call was made, and its change stands.

    `number` is the refusal's, `place` the unit of a program or the line of a text, else 0; `name` and `sentence` say what it means.
    `advice` says what to do, if that depends on more than the number.
    """

    def __init__(self, number: int, place: int = 0, advice: str = "") -> None:
        self.number = number
        self.place = place
        self.advice = advice
        self.name, self.sentence = REFUSALS.get(number, ("Unknown", "this client knows no refusal of this number"))
        where = f" at {_PLACES[number]} {place}" if number in _PLACES else ""
        super().__init__(f"refused {number} {self.name}{where}: {self.sentence}" + (f"; {advice}" if advice else ""))

    def __reduce__(self) -> "Tuple[type, Tuple[int, int, str]]":
        return type(self), (self.number, self.place, self.advice)


class Unfit(BpfmapError):
    """The program was not run, since its `window` ("key", "old" or "arg") is too small. The entry is as before."""

    def __init__(self, window: str) -> None:
        self.window = window
        super().__init__(f"unfit {window}: the program's window for it was declared too small")

    def __reduce__(self) -> "Tuple[type, Tuple[str]]":
        return type(self), (self.window,)


class ObjectFault(BpfmapError):
    """An object file holds more than one function's instructions, or is no object for BPF; or a C file can't be compiled."""


class StaleProgram(BpfmapError):
    """A program's number was answered to another client. Nothing was sent: there the number may mean another program."""


class OtherProcess(BpfmapError):
    """A walk, or an AsyncClient, was taken along into another process by fork. Nothing was sent; open one in this process."""


class ConnectionBroken(BpfmapError, ConnectionError):
    """The connection ended before the answer. It is always one of the two below, which say whether the call may be repeated."""


class NotSent(ConnectionBroken):
    """The call failed before its first byte was sent: it was not made, and may safely be made again over another connection."""


class MayHaveBeenMade(ConnectionBroken):
    """The call failed between its first byte and the last of its answer: the server may have made it. It is not made again."""


class TimedOut(ConnectionBroken, TimeoutError):
    """No answer, or no connection, came in time. It is always one of the two below."""


class NoConnectionInTime(TimedOut, NotSent):
    """No connection came in time, or none of a pool was free. The call was not sent."""


class NoAnswerInTime(TimedOut, MayHaveBeenMade):
    """No byte of an answer came in time. The connection was closed; the call may have been made."""


class ProtocolFault(MayHaveBeenMade):
    """The server sent what docs/PROTOCOL.md does not have in this place. The connection was closed."""
