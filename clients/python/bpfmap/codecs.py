"""How keys and values of Python become bytes and come back."""

import json
import struct
from typing import Any, Callable, Generic, NamedTuple, TypeVar

T = TypeVar("T")
_SIGN = 1 << 63


class Codec(Generic[T]):
    """A name, how a value becomes bytes, and how bytes become the value again."""

    def __init__(self, name: str, encode: "Callable[[T], bytes]", decode: "Callable[[bytes], T]") -> None:
        self.name = name
        self.encode = encode
        self.decode = decode

    def __repr__(self) -> str:
        return f"<codec {self.name}>"


class _Kind(NamedTuple):
    """What a codec takes."""

    type: type
    name: str


def _check(given: object, kind: _Kind) -> None:
    if not isinstance(given, kind.type) or isinstance(given, bool) and kind.type is int:
        raise TypeError(f"this codec takes {kind.name}, and not {type(given).__name__}: choose another codec, or convert it")


_BYTES, _TEXT, _INT = _Kind(bytes, "bytes"), _Kind(str, "str"), _Kind(int, "int")


def _same(given: bytes) -> bytes:
    _check(given, _BYTES)
    return given


def _from_text(given: str) -> bytes:
    _check(given, _TEXT)
    return given.encode()


def _from_int(given: int) -> bytes:
    _check(given, _INT)
    return given.to_bytes(8, "little", signed=True)


def _to_int(found: bytes) -> int:
    return int.from_bytes(found, "little", signed=True)


def _from_ordered(given: int) -> bytes:
    _check(given, _INT)
    return struct.pack(">Q", given + _SIGN)


def _to_ordered(found: bytes) -> int:
    number: int = struct.unpack(">Q", found)[0]
    return number - _SIGN


def _from_json(given: Any) -> bytes:
    return json.dumps(given, ensure_ascii=False, separators=(",", ":"), sort_keys=True).encode()


# Bytes as they are.
BYTES: Codec[bytes] = Codec("bytes", _same, bytes)
# Text, in UTF-8.
TEXT: Codec[str] = Codec("text", _from_text, bytes.decode)
# Numbers of 64 bits with a sign, little-endian: as programs read them, and as Map.increment adds to them.
INT: Codec[int] = Codec("int", _from_int, _to_int)
# Numbers of 64 bits with a sign, so that keys are in the order of the numbers.
ORDERED_INT: Codec[int] = Codec("ordered int", _from_ordered, _to_ordered)
# All that json has. Equal values have equal bytes, so replace_if and remove_if find them.
JSON: Codec[Any] = Codec("json", _from_json, json.loads)
