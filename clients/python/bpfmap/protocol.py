"""Frames of docs/PROTOCOL.md: requests to bytes, responses from bytes. Nothing here reads or writes a stream."""

import struct
from collections import deque
from typing import Callable, Deque, Dict, Generic, List, NamedTuple, Optional, TypeVar

from .errors import ProtocolFault, Refused, Unfit
from .programs import Function

LONGEST_KEY = 64
# What a Register's body has before its program: the tag and four sizes.
_BEFORE_PROGRAM = 9
_WINDOWS = {1: "key", 2: "old", 3: "arg"}
_ABSENT = b"\xff\xff"
_HELLO, _REGISTERED, _VALUE, _DONE, _UNFIT, _REFUSED, _ITEM, _END = range(0x80, 0x88)

T = TypeVar("T")


class Limits(NamedTuple):
    """A version of the protocol, and what it can carry: the longest value or argument and the longest body of a frame, in bytes."""

    version: int
    value: int
    body: int

    @property
    def program(self) -> int:
        """The longest program that a frame can hold, in bytes."""
        return self.body - _BEFORE_PROGRAM


VERSIONS: Dict[int, Limits] = {1: Limits(1, 256, 8_192), 2: Limits(2, 1_024, 32_777)}
LATEST = 2


def limits_of(version: int) -> Limits:
    """The limits of a version; ValueError where there is no such version."""
    if version not in VERSIONS:
        raise ValueError(f"this client knows no version {version} of the protocol")
    return VERSIONS[version]


class Entry(NamedTuple):
    """A key and what a walk's program answered for it."""

    key: bytes
    value: bytes


class Counts(NamedTuple):
    """What a walk counted: entries of the table, answers, and entries that did not fit the program."""

    scanned: int
    given: int
    unfit: int


class Walked(NamedTuple):
    """A whole walk: its entries in the order of keys, and its counts."""

    items: List[Entry]
    counts: Counts


class Request(Generic[T]):
    """A frame to be sent, and how the last frame of its answer is read. Only a walk has frames of items before that one."""

    __slots__ = ("frame", "read", "has_items")

    # What a FunctionRequest and a RegisterRequest have of their own.
    function: Optional[Function] = None
    made: Optional[Function] = None

    def __init__(self, sent: bytes, read: "Callable[[Deque[Entry], bytes], T]", has_items: bool = False) -> None:
        self.frame = sent
        self.read = read
        self.has_items = has_items

    def bind(self, number: int) -> None:
        """Puts the function's number into the frame."""
        raise NotImplementedError


class FunctionRequest(Request[T]):
    """A request that runs a function. The number that it has on the connection still has to be put into the frame, at this place."""

    def __init__(self, request: Request[T], function: Function, place: int) -> None:
        super().__init__(request.frame, request.read, request.has_items)
        self.function = function
        self._place = place

    def bind(self, number: int) -> None:
        """Puts the function's number into the frame."""
        self.frame = self.frame[: self._place] + number_field(number) + self.frame[self._place + 8 :]


class RegisterRequest(Request[T]):
    """A request that registers a function."""

    def __init__(self, sent: bytes, read: "Callable[[Deque[Entry], bytes], T]", made: Function) -> None:
        super().__init__(sent, read)
        self.made = made


# What calls have that are no walks.
_NO_ITEMS: Deque[Entry] = deque()


class Pending(Generic[T]):
    """A call whose answer has still to come, and then its answer or error."""

    __slots__ = ("request", "items", "is_done", "_given", "_answer", "_error")

    def __init__(self, request: Request[T]) -> None:
        self.request = request
        self.items: Deque[Entry] = deque() if request.has_items else _NO_ITEMS
        self._given = 0
        self._answer: Optional[T] = None
        self._error: Optional[Exception] = None
        self.is_done = False

    def take(self, body: bytes) -> bool:
        """Takes the next frame's body; true where it was the last one of this answer."""
        try:
            if self.request.has_items and body[:1] == bytes([_ITEM]):
                self.items.append(_read_item(body))
                self._given += 1
                return False
            self._answer = self.request.read(self.items, body)
            self._check_given()
        except (Refused, Unfit) as error:
            self._error = error
        self.is_done = True
        return True

    def _check_given(self) -> None:
        answer = self._answer
        if isinstance(answer, Walked) and answer.counts.given != self._given:
            raise ProtocolFault(f"the server sent {self._given} items and counts {answer.counts.given}")

    def fail(self, error: Exception) -> None:
        """Ends the call by an error."""
        self._error = error
        self.is_done = True

    @property
    def error(self) -> Optional[Exception]:
        """The error that the call ended by, if there is one."""
        return self._error

    def result(self) -> T:
        """The call's answer; raises its error. A call that was not sent yet has neither."""
        if not self.is_done:
            raise RuntimeError("the call was not sent yet: execute the pipeline first")
        if self._error is not None:
            raise self._error
        return self._answer  # type: ignore[return-value]


class FrameReader:
    """Cuts what a stream brings into the bodies of frames, none longer than this."""

    def __init__(self, longest_body: int) -> None:
        self._longest_body = longest_body
        self._bytes = bytearray()
        self._start = 0
        self._bodies: Deque[bytes] = deque()

    def feed(self, piece: bytes) -> None:
        """Takes the next bytes of the stream."""
        if not self._bytes and 4 < len(piece) == 4 + int.from_bytes(piece[:4], "big") <= 4 + self._longest_body:
            # One frame, as most answers come.
            self._bodies.append(piece[4:])
            return
        self._bytes += piece
        while self._cut():
            pass
        del self._bytes[: self._start]
        self._start = 0

    def _cut(self) -> bool:
        if len(self._bytes) - self._start < 4:
            return False
        (length,) = struct.unpack_from(">I", self._bytes, self._start)
        if not 1 <= length <= self._longest_body:
            raise ProtocolFault(f"the server sent a frame of length {length}")
        end = self._start + 4 + length
        if len(self._bytes) < end:
            return False
        self._bodies.append(bytes(self._bytes[self._start + 4 : end]))
        self._start = end
        return True

    def next(self) -> Optional[bytes]:
        """The next frame's body, where one is whole."""
        return self._bodies.popleft() if self._bodies else None

    @property
    def has_rest(self) -> bool:
        """Whether bytes are there that nobody took."""
        return bool(self._bodies or self._bytes)


def frame(tag: int, *fields: bytes) -> bytes:
    """A frame of this tag and these fields."""
    body = b"".join((bytes([tag]), *fields))
    return struct.pack(">I", len(body)) + body


def key_field(key: bytes) -> bytes:
    """A key with its length; one that is too long is refused with 1."""
    if type(key) is not bytes:  # pylint: disable=unidiomatic-typecheck
        key = _as_bytes(key, "key")
    if len(key) > LONGEST_KEY:
        raise Refused(1)
    return bytes([len(key)]) + key


def value_field(value: bytes, longest: int) -> bytes:
    """A value with its length; one that is too long is refused with 1."""
    if type(value) is not bytes:  # pylint: disable=unidiomatic-typecheck
        value = _as_bytes(value, "value")
    if len(value) > longest:
        raise Refused(1)
    return struct.pack(">H", len(value)) + value


def _as_bytes(given: object, name: str) -> bytes:
    """The bytes of what is like bytes. What is not is refused by a sentence that says what to write in its place."""
    if isinstance(given, (bytes, bytearray, memoryview)):
        return bytes(given)
    kind = type(given).__name__
    advice = 'write b"..", or encode it: name.encode()' if isinstance(given, str) else "encode it first"
    raise TypeError(f"a {name} is bytes, and not {kind}: {advice}; bpfmap.Map takes keys and values of str, int and json")


def arg_field(arg: Optional[bytes], longest: int) -> bytes:
    """An argument, or that there is none."""
    return _ABSENT if arg is None else value_field(arg, longest)


def number_field(number: int, size: int = 8) -> bytes:
    """A number of so many bytes."""
    return number.to_bytes(size, "big")


def read_hello(_: Deque[Entry], body: bytes) -> int:
    """The version that the server answers."""
    return _fields(_HELLO, ">B", body)[0]


def read_registered(_: Deque[Entry], body: bytes) -> int:
    """The number of a program that was registered."""
    return _fields(_REGISTERED, ">Q", body)[0]


def read_value(_: Deque[Entry], body: bytes) -> Optional[bytes]:
    """A value, or nothing."""
    _expect(_VALUE, body)
    if body[1:] == _ABSENT:
        return None
    value, end = _take_value(body, 1)
    _expect_end(body, end)
    return value


def read_done(_: Deque[Entry], body: bytes) -> bool:
    """Whether the call was done."""
    done = _fields(_DONE, ">B", body)[0]
    if done > 1:
        raise ProtocolFault(f"the server sent {body.hex()}: neither true nor false")
    return bool(done)


def read_counts(_: Deque[Entry], body: bytes) -> Counts:
    """The counts of a walk."""
    return Counts(*_fields(_END, ">QQQ", body))


def read_count(_: Deque[Entry], body: bytes) -> int:
    """How many entries there are."""
    scanned, given, unfit = _fields(_END, ">QQQ", body)
    if given or unfit:
        raise ProtocolFault(f"the server sent {body.hex()}: a count has neither answers nor unfit entries")
    return scanned


def read_walked(items: Deque[Entry], body: bytes) -> Walked:
    """The end of a walk, with the entries that came before it."""
    return Walked(list(items), read_counts(items, body))


def _read_item(body: bytes) -> Entry:
    end = 2 + body[1] if len(body) > 1 else 2
    value, value_end = _take_value(body, end)
    _expect_end(body, value_end)
    return Entry(body[2:end], value)


def _take_value(body: bytes, start: int) -> "tuple[bytes, int]":
    if len(body) < start + 2:
        raise ProtocolFault(f"the server sent {body.hex()}: a field is cut short")
    (length,) = struct.unpack_from(">H", body, start)
    end = start + 2 + length
    return body[start + 2 : end], end


def _expect_end(body: bytes, end: int) -> None:
    if len(body) != end:
        raise ProtocolFault(f"the server sent {body.hex()}: its fields do not end with the frame")


def _expect(tag: int, body: bytes) -> None:
    """Raises what the server refused; a frame of another tag is a fault."""
    if body[0] == tag:
        return
    if body[0] == _REFUSED:
        raise Refused(*_fields(_REFUSED, ">BI", body))
    if body[0] == _UNFIT and tag == _VALUE:
        window = _fields(_UNFIT, ">B", body)[0]
        if window in _WINDOWS:
            raise Unfit(_WINDOWS[window])
    raise ProtocolFault(f"the server sent {body.hex()} in place of a response {tag:02x}")


def _fields(tag: int, layout: str, body: bytes) -> "tuple[int, ...]":
    _expect(tag, body)
    _expect_end(body, 1 + struct.calcsize(layout))
    return struct.unpack_from(layout, body, 1)
