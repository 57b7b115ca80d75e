"""How keys, values, programs and addresses are written on a command line."""

import argparse
from pathlib import Path
from typing import Optional, Sequence, Tuple

from .programs import SUM, Function, Runnable, copy_text, function
from .protocol import Limits

DEFAULT_SERVER = "127.0.0.1:7070"
_DEFAULT_PORT = 7070
_NUMBER_BYTES = 8
FORMS = ("text", "hex", "number")


class Form:
    """How keys and values are written: as text, in hex, or values as numbers."""

    def __init__(self, name: str) -> None:
        self._name = name

    def key(self, word: str) -> bytes:
        """Returns the key that a word stands for."""
        return from_hex(word) if self._name == "hex" else word.encode()

    def value(self, word: str) -> bytes:
        """Returns the value that a word stands for."""
        if self._name == "hex":
            return from_hex(word)
        if self._name == "number":
            return (int(word) % (1 << 64)).to_bytes(_NUMBER_BYTES, "little")
        return word.encode()

    def show(self, value: Optional[bytes]) -> str:
        """Returns how a value is printed, or that there is none."""
        if value is None:
            return "nothing"
        if self._name == "number":
            return str(int.from_bytes(value, "little"))
        return self.show_key(value)

    def show_key(self, key: bytes) -> str:
        """Returns how a key is printed."""
        return to_hex(key) if self._name == "hex" else key.decode(errors="backslashreplace")


def from_hex(word: str) -> bytes:
    """Returns the bytes of a word in hex; - is no byte."""
    return b"" if word == "-" else bytes.fromhex(word)


def to_hex(value: bytes) -> str:
    """Returns bytes in hex; no byte is -."""
    return value.hex() or "-"


def program_of(word: str, sizes: Optional[Sequence[int]], limits: Limits) -> Runnable:
    """Returns the program that a word stands for: a number that a server answered, `sum`, `copy`, or a file's name.

    `copy` answers every value as it is: walks with it give all entries.
    """
    if word.isdecimal():
        return int(word)
    if word == "copy":
        return function(copy_text(limits.value), old=limits.value, arg=limits.value, result=limits.value)
    return function_of(word, sizes)


def function_of(word: str, sizes: Optional[Sequence[int]]) -> Function:
    """Returns the function of a file, or `sum`. Sizes that are not given stand in the head of a C file."""
    return function(SUM if word == "sum" else Path(word), *(sizes or ()))


def address_of(word: str) -> Tuple[str, int]:
    """Returns host and port: of `127.0.0.1:7070`, `[::1]:7070`, `example.org:7070` or `example.org`."""
    host, port = _halves(word)
    if not host or ":" in host and not word.startswith("["):
        raise argparse.ArgumentTypeError(f"{word} is no HOST:PORT; an IPv6 address stands in brackets: [::1]:7070")
    if not port.isdecimal() or not 0 < int(port) < 1 << 16:
        raise argparse.ArgumentTypeError(f"{word} has no port from 1 to 65535 after its last colon")
    return host, int(port)


def _halves(word: str) -> Tuple[str, str]:
    if word.startswith("["):
        host, _, rest = word[1:].partition("]")
        return host, rest[1:] if rest.startswith(":") else rest or str(_DEFAULT_PORT)
    if ":" not in word:
        return word, str(_DEFAULT_PORT)
    host, _, port = word.rpartition(":")
    return host, port

