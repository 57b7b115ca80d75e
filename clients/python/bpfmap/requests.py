"""Each request of docs/PROTOCOL.md as a frame, with how its answer is read."""

import os
from typing import Deque, Optional, TypeVar, Union

from .errors import ProtocolFault, Refused, StaleProgram
from .programs import Function, Program, Registered, Runnable, Size, function
from .protocol import (
    Counts,
    Entry,
    FunctionRequest,
    Limits,
    RegisterRequest,
    Request,
    Walked,
    arg_field,
    frame,
    key_field,
    number_field,
    read_count,
    read_counts,
    read_done,
    read_hello,
    read_registered,
    read_value,
    read_walked,
    value_field,
)

T = TypeVar("T")
Value = Optional[bytes]
_BEFORE_FIELDS = 5


class Requests:
    """The requests of a client, by the limits of its version. What no frame of that version can hold is refused here.

    `client` tells this client's program numbers from those of others.
    """

    def __init__(self, limits: Limits) -> None:
        self.limits = limits
        self.client = os.urandom(8)

    def hello(self) -> Request[int]:
        """Begins a session."""
        return Request(frame(0x00, bytes([self.limits.version])), self._read_hello)

    def register(
        self, program: Union[Program, Function], key: Size = None, old: Size = None, arg: Size = None, result: Size = None
    ) -> Request[int]:
        """Hands in a program with the sizes of its windows. One that no frame can hold is refused as the server would refuse it."""
        made = program if isinstance(program, Function) else function(program, key, old, arg, result)
        if len(made.units) > self.limits.program:
            raise Refused(11 if len(made.units) % 8 else 12)
        sizes = b"".join(number_field(size, 2) for size in made[1:])

        def read(items: Deque[Entry], body: bytes) -> Registered:
            return Registered(read_registered(items, body), made, self.client)

        return RegisterRequest(frame(0x01, sizes, made.units), read, made)

    def get(self, key: bytes) -> Request[Value]:
        """Asks for a key's value."""
        return Request(frame(0x10, key_field(key)), read_value)

    def put(self, key: bytes, value: bytes) -> Request[Value]:
        """Enters a value."""
        return Request(frame(0x11, key_field(key), self._value(value)), read_value)

    def put_if_absent(self, key: bytes, value: bytes) -> Request[Value]:
        """Enters a value where there is none."""
        return Request(frame(0x12, key_field(key), self._value(value)), read_value)

    def remove(self, key: bytes) -> Request[Value]:
        """Removes a key."""
        return Request(frame(0x13, key_field(key)), read_value)

    def remove_if(self, key: bytes, expected: bytes) -> Request[bool]:
        """Removes a key that has this value."""
        return Request(frame(0x14, key_field(key), self._value(expected)), read_done)

    def replace(self, key: bytes, value: bytes) -> Request[Value]:
        """Enters a value where there is one."""
        return Request(frame(0x15, key_field(key), self._value(value)), read_value)

    def replace_if(self, key: bytes, expected: bytes, value: bytes) -> Request[bool]:
        """Enters a value in place of this one."""
        return Request(frame(0x16, key_field(key), self._value(expected), self._value(value)), read_done)

    def compute(self, key: bytes, program: Runnable, arg: Value) -> Request[Value]:
        """Runs a program on an entry or its absence."""
        return self._compute(0x17, key, program, arg)

    def compute_if_absent(self, key: bytes, program: Runnable, arg: Value) -> Request[Value]:
        """Runs a program where there is no entry."""
        return self._compute(0x18, key, program, arg)

    def compute_if_present(self, key: bytes, program: Runnable, arg: Value) -> Request[Value]:
        """Runs a program on an entry."""
        return self._compute(0x19, key, program, arg)

    def merge(self, key: bytes, value: bytes, program: Runnable) -> Request[Value]:
        """Enters a value, or what a program makes of the old one and it."""
        sent = frame(0x1A, key_field(key), self._value(value), number_field(number_of(program)))
        return self._with_function(Request(sent, read_value), program, len(sent) - 8)

    def search(self, program: Runnable, arg: Value, threshold: int) -> Request[Walked]:
        """Asks for the least key that a program has an answer for."""
        sent = frame(0x20, number_field(number_of(program)), self._arg(arg), number_field(threshold))
        return self._with_function(Request(sent, read_walked, has_items=True), program, _BEFORE_FIELDS)

    def for_each(self, program: Runnable, arg: Value, threshold: int) -> Request[Walked]:
        """Asks for a program's answers for all entries."""
        sent = frame(0x21, number_field(number_of(program)), self._arg(arg), number_field(threshold))
        return self._with_function(Request(sent, read_walked, has_items=True), program, _BEFORE_FIELDS)

    def replace_all(self, program: Runnable, arg: Value) -> Request[Counts]:
        """Replaces each value by a program's answer."""
        sent = frame(0x22, number_field(number_of(program)), self._arg(arg))
        return self._with_function(Request(sent, read_counts), program, _BEFORE_FIELDS)

    def count(self) -> Request[int]:
        """Asks how many entries there are."""
        return Request(frame(0x23), read_count)

    def _value(self, value: bytes) -> bytes:
        return value_field(value, self.limits.value)

    def _arg(self, arg: Value) -> bytes:
        return arg_field(arg, self.limits.value)

    def _compute(self, tag: int, key: bytes, program: Runnable, arg: Value) -> Request[Value]:
        first = key_field(key)
        sent = frame(tag, first, number_field(number_of(program)), self._arg(arg))
        return self._with_function(Request(sent, read_value), program, _BEFORE_FIELDS + len(first))

    def _with_function(self, request: Request[T], program: Runnable, place: int) -> Request[T]:
        """Notes which function's number has to be put into the frame; a plain int is there already."""
        if type(program) is int:  # pylint: disable=unidiomatic-typecheck
            return request
        if isinstance(program, Registered):
            self._check_owner(program)
            return FunctionRequest(request, program.function, place)
        return FunctionRequest(request, program, place) if isinstance(program, Function) else request

    def _check_owner(self, program: Registered) -> None:
        if program.client != self.client:
            raise StaleProgram(
                f"the program's number {int(program)} was answered to another client, and may mean another program here: register "
                "the program with this client, or pass bpfmap.function(program), which each connection registers by itself"
            )

    def _read_hello(self, items: Deque[Entry], body: bytes) -> int:
        version = read_hello(items, body)
        if version != self.limits.version:
            raise ProtocolFault(f"the server speaks version {version}, this client {self.limits.version}")
        return version


def number_of(program: Runnable) -> int:
    """The number that is written into a frame; that of a function comes later."""
    if isinstance(program, int):
        return program
    if isinstance(program, Function):
        return 0
    advice = "register it, or pass bpfmap.function(program)"
    raise TypeError(f"a program is a number or a Function, and not {type(program).__name__}: {advice}")
