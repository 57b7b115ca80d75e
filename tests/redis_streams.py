"""Random commands for redis.py: each that mapd serves as Redis does, with words that are right, nearly right and wrong; and the pieces
in which a client may send them."""
from __future__ import annotations

import random
import re
from collections.abc import Callable, Iterator

from redis_wire import Word, as_word, command

Words = list[Word]
Maker = Callable[[random.Random], Words]

# Keys with values of any size, and keys that grow: these begin each stream without values, so that none gets longer than mapd allows.
KEYS = [b"", b"a", b"b", b"k", b"key:1", b"key:2", b"key:10", b"Aa", b"BB", b"h?llo", b"[x]", b"back\\slash", b"\r\n", b"\x00" * 3,
        b"\xff" * 63, b"z" * 64]
GROWN = [b"g", b"grown:1", b"grown:2", b"\x80grown"]
MOST = 60
MOST_GROWN = 200
MOST_ADDED = 12
NUMBERS = [0, 1, -1, 9, 10, 99, 100, -100, 2**31, -2**31 - 1, 2**53, 2**63 - 1, -2**63, 2**63 - 2, -2**63 + 1]
NO_NUMBERS = [b"", b" 1", b"1 ", b"+1", b"-0", b"01", b"-01", b"1.0", b"1e3", b"0x10", b"--1", b"-", b"1\x00", b"9223372036854775808",
              b"-9223372036854775809", b"18446744073709551616", b"a", "\u0661".encode()]
# Not `**`: Redis says that it doesn't match the empty key.
PATTERNS = [b"*", b"?", b"", b"a", b"key:*", b"key:?", b"*:1", b"k*1*", b"[a-c]", b"[^a]", b"[x", b"[c-a]", b"\\[x]", b"h\\?llo",
            b"*\\", b"h[?]llo", b"[\\x]", b"back\\\\*", b"?" * 64, b"*\xff", b"\r\n", b"???", b"[^]", b"[]", b"[a-", b"z*z*z*", b"g*",
            b"*z*z*z*z*z*z*z*z*b", b"*[z]*[^y]*z", b"*\\**", b"[\\]]", b"[a\\-c]", b"[--a]", b"[a-c-e]", b"[^-a]", b"[", b"[^", b"\\"]
# The release of redis-py's Lock, which both know by its digest.
RELEASE = "c3f8721cbb97f72bc19e972846bd7aaf91901658"


def key(dice: random.Random) -> bytes:
    """A key."""
    return dice.choice(KEYS if dice.random() < 0.7 else GROWN)


def some_bytes(dice: random.Random, most: int) -> bytes:
    """Bytes of any kind, seldom many of them."""
    size = dice.choice((0, 1, 2, 5, 16, most)) if dice.random() < 0.7 else dice.randrange(most + 1)
    return dice.randbytes(size) if dice.random() < 0.5 else dice.choice((b"a", b"x", b"\r\n", b"7", b"-", b"\x00")) * (size // 2)


def value(dice: random.Random, name: bytes) -> Word:
    """A value for this key: a number, nearly one, or bytes."""
    kind = dice.randrange(4)
    if kind < 2:
        return dice.choice(NUMBERS) if dice.random() < 0.5 else dice.randrange(-1000, 1000)
    return dice.choice(NO_NUMBERS) if kind == 2 else some_bytes(dice, MOST_GROWN if name in GROWN else 1024)


def number(dice: random.Random) -> Word:
    """A number, or nearly one."""
    if dice.random() < 0.15:
        return dice.choice(NO_NUMBERS)
    return dice.choice(NUMBERS) if dice.random() < 0.3 else dice.randrange(-30, 31)


def keys(dice: random.Random) -> list[bytes]:
    """Some keys, some of them twice."""
    return [key(dice) for _ in range(dice.choice((1, 1, 2, 3, 12)))]


def on_key(name: str, *rest: Callable[[random.Random], Word]) -> Maker:
    """A command on a key and words that it takes after it."""
    return lambda dice: [name, key(dice), *(make(dice) for make in rest)]


def with_value(name: str, *rest: Word) -> Maker:
    """A command on a key and a value, and fixed words after them."""
    def make(dice: random.Random) -> Words:
        taken = key(dice)
        return [name, taken, value(dice, taken), *rest]
    return make


def set_with_options(dice: random.Random) -> Words:
    """A SET with options in any order and case, some of which can't stand together."""
    options = [dice.choice(("NX", "XX", "GET", "KEEPTTL", "nx", "Xx", "gEt", "FOO", "")) for _ in range(dice.choice((0, 0, 1, 1, 2, 3)))]
    return [*with_value("SET")(dice), *options]


def set_each(dice: random.Random) -> Words:
    """An MSET, in which now and then a value is missing."""
    words: Words = ["MSET"]
    for name in keys(dice):
        words += [name, value(dice, name)]
    return words[:-1] if dice.random() < 0.1 else words


def set_range(dice: random.Random) -> Words:
    """A SETRANGE on a key that grows, or one whose offset is refused."""
    offset = dice.choice((0, 1, 5, dice.randrange(MOST_GROWN))) if dice.random() < 0.9 else dice.choice((-1, b"x", b"", -2**63))
    return ["SETRANGE", dice.choice(GROWN), offset, some_bytes(dice, MOST_ADDED)]


def append(dice: random.Random) -> Words:
    """An APPEND to a key that grows."""
    return ["APPEND", dice.choice(GROWN), some_bytes(dice, MOST_ADDED)]


def release(dice: random.Random) -> Words:
    """The release of a lock, by a token that the key may have."""
    name = key(dice)
    return ["EVALSHA", dice.choice((RELEASE, RELEASE.upper())), 1, name, value(dice, name)]


def unknown_script(dice: random.Random) -> Words:
    """A script that nobody loaded, by a digest or none; or a number of keys that can't be."""
    digest = dice.choice(("%040x" % dice.getrandbits(160), "0" * 40, "x" * 40, "a", ""))
    return dice.choice((["EVALSHA", digest, 1, key(dice)], ["SCRIPT", "EXISTS", digest, RELEASE[:39]], ["EVALSHA", digest, "x", "a"],
                        ["EVALSHA", digest, -1], ["EVALSHA", digest, 2, "a"], ["EVAL", "text", "x", "a"], ["EVAL", "text", -1, "a"],
                        ["EVAL", "text", 3, "a", "b"]))


def unknown(dice: random.Random) -> Words:
    """A command that neither knows, with arguments that its text has."""
    name = dice.choice(("foo", "GETT", "", "a" * 140, "x\r\ny", "na\x00me", "%s", "'"))
    return [name, *(some_bytes(dice, 100) for _ in range(dice.randrange(5)))]


def faulty_scan(dice: random.Random) -> Words:
    """A SCAN that is refused."""
    return ["SCAN", *dice.choice((["x"], ["1x"], ["18446744073709551616"], ["0", "COUNT"], ["0", "COUNT", "x"], ["0", "COUNT", 0],
                                  ["0", "COUNT", -1], ["0", "MATCH"], ["0", "FOO", "x"], ["0", "TYPE"], [" 0"], []))]


def some_name(dice: random.Random) -> str:
    """A name of a client, or what can't be one."""
    return dice.choice(("me", "a b", "", "x\ny", "\x7f", "a" * 64, "\u00e4"))


def connection(dice: random.Random) -> Words:
    """A command that touches no key."""
    return list(dice.choice((
        ["PING"], ["PING", some_bytes(dice, 64)], ["PING", "a", "b"], ["ECHO", some_bytes(dice, 300)], ["ECHO"], ["SELECT", 0],
        ["SELECT", 1], ["SELECT", "x"], ["SELECT", -1], ["SELECT", b""], ["SELECT", 2**40], ["CLIENT", "SETNAME", some_name(dice)],
        ["CLIENT", "SETNAME", some_name(dice)], ["CLIENT", "GETNAME"], ["CLIENT"], ["CLIENT", "FOO"], ["CLIENT", "SETNAME"],
        ["CLIENT", "ID", "x"], ["AUTH", "x"], ["AUTH"], ["AUTH", "a", "b"], ["AUTH", "default", "b"], ["HELLO", 2, "FOO"],
        ["HELLO", 2, "SETNAME"], ["HELLO", 4], ["HELLO", 1], ["HELLO", "x"], ["RESET"], ["SCRIPT"], ["SCRIPT", "FOO"], ["SCRIPT", "LOAD"],
        ["CONFIG"], ["CONFIG", "GET"], ["COMMAND", "FOO"], ["CONFIG", "FOO"], ["DBSIZE", "x"], ["FLUSHALL", "x"],
        ["FLUSHDB", "SYNC", "x"], ["KEYS"], ["RANDOMKEY", "x"], ["SAVE", "x"], ["LASTSAVE", "x"], ["BGSAVE", "x"],
        ["BGSAVE", "SCHEDULE", "x"], ["SHUTDOWN", "x"], ["SHUTDOWN", "SAVE", "NOSAVE"], ["DEBUG"], ["INFO", "x"])))


def with_wrong_count(dice: random.Random, name: str, least: int, most: int) -> Words:
    """This command with words too few or too many, where it takes this many; 99 are as many as you like."""
    count = dice.randrange(least) if most == 99 or dice.random() < 0.5 else most + dice.randrange(1, 4)
    return [name, *([b"x"] * count)]


def wrong_count(dice: random.Random) -> Words:
    """A command with words too few or too many."""
    name, least, most = dice.choice((
        ("GET", 1, 1), ("SET", 2, 99), ("SETNX", 2, 2), ("GETSET", 2, 2), ("GETDEL", 1, 1), ("STRLEN", 1, 1), ("APPEND", 2, 2),
        ("TYPE", 1, 1), ("TTL", 1, 1), ("PTTL", 1, 1), ("INCR", 1, 1), ("DECR", 1, 1), ("INCRBY", 2, 2), ("DECRBY", 2, 2),
        ("GETRANGE", 3, 3), ("SUBSTR", 3, 3), ("SETRANGE", 3, 3), ("MGET", 1, 99), ("MSET", 2, 99), ("DEL", 1, 99), ("UNLINK", 1, 99),
        ("EXISTS", 1, 99), ("TOUCH", 1, 99), ("EVALSHA", 2, 99), ("EVAL", 2, 99)))
    return with_wrong_count(dice, name, least, most)


def flush(dice: random.Random) -> Words:
    """All keys go, in one of the ways of saying so."""
    return [dice.choice(("FLUSHALL", "FLUSHDB")), *dice.choice(([], ["SYNC"], ["ASYNC"], ["async"]))]


# How often, and which command.
COMMANDS: list[tuple[int, Maker]] = [
    (12, on_key("GET")), (8, with_value("SET")), (12, set_with_options), (4, with_value("SETNX")), (4, with_value("GETSET")),
    (3, on_key("GETDEL")), (3, on_key("STRLEN")), (2, on_key("TYPE")), (2, on_key("TTL")), (1, on_key("PTTL")), (5, on_key("INCR")),
    (5, on_key("DECR")), (7, on_key("INCRBY", number)), (7, on_key("DECRBY", number)), (5, append), (5, set_range),
    (4, on_key("GETRANGE", number, number)), (1, on_key("SUBSTR", number, number)), (4, lambda dice: ["MGET", *keys(dice)]), (4, set_each),
    (3, lambda dice: [dice.choice(("DEL", "UNLINK")), *keys(dice)]), (3, lambda dice: [dice.choice(("EXISTS", "TOUCH")), *keys(dice)]),
    (6, connection), (3, wrong_count), (2, unknown), (1, unknown_script), (3, release), (1, faulty_scan), (1, flush)]


def in_any_case(dice: random.Random, name: Word) -> bytes:
    """A command's name as somebody may write it."""
    text = as_word(name)
    return dice.choice((text, text, text.lower(), text.swapcase(), text.title()))


def some_command(dice: random.Random, commands: list[tuple[int, Maker]]) -> list[bytes]:
    """One of these commands."""
    words = dice.choices([make for _, make in commands], [weight for weight, _ in commands])[0](dice)
    return [in_any_case(dice, words[0]), *map(as_word, words[1:])]


# What letters stand for after a backslash between double quotes.
LETTERS = {10: b"n", 13: b"r", 9: b"t", 8: b"b", 7: b"a"}


def in_double_quotes(dice: random.Random, word: bytes) -> bytes:
    """A word between double quotes; some of its bytes have an escape that they need not."""
    told = b""
    for byte in word:
        itself = bytes([byte])
        needs_one = byte in b"\0\n\"\\"
        ways = [b"\\x%02x" % byte, b"\\x%02X" % byte]
        if byte in LETTERS:
            ways.append(b"\\" + LETTERS[byte])
        if byte not in b"\0\nnrtbax":
            ways.append(b"\\" + itself)
        told += dice.choice(ways) if needs_one or dice.random() < 0.2 else itself
    return b"\"" + told + b"\""


def in_single_quotes(word: bytes) -> bytes | None:
    """A word between single quotes; nothing if it can't be."""
    return None if word[-1:] == b"\\" or any(byte in b"\0\n" for byte in word) else b"'" + word.replace(b"'", b"\\'") + b"'"


def in_line(dice: random.Random, word: bytes) -> bytes:
    """A word as it may stand in a line: without quotes, in quotes, or half and half."""
    plain = re.match(rb"[!#-&(-~]*", word)[0]
    if plain and plain == word and dice.random() < 0.7:
        return word
    front = plain[:dice.randrange(len(plain) + 1)] if dice.random() < 0.3 else b""
    rest = word[len(front):]
    single = in_single_quotes(rest) if dice.random() < 0.5 else None
    return front + (single or in_double_quotes(dice, rest))


def spelled(dice: random.Random, words: list[bytes]) -> bytes:
    """A command as an array, or sometimes as a line, if it can be one."""
    if dice.random() < 0.15 and words[0][:1] not in b"*$" and sum(map(len, words)) < 10000:
        told = [in_line(dice, word) for word in words]
        return dice.choice((b"", b" ", b"\v")) + dice.choice((b" ", b"  ", b" \t", b" \f")).join(told) + dice.choice((b"\r\n", b"\n", b" \r\n"))
    return command(*words)


def nothing(dice: random.Random) -> bytes:
    """What stands for no command now and then."""
    return dice.choice((b"*0\r\n", b"*-1\r\n", b"\r\n", b"\n", b"  \r\n")) if dice.random() < 0.03 else b""


def cut(dice: random.Random, sent: bytes) -> Iterator[bytes]:
    """The pieces in which the bytes are sent."""
    places = sorted(dice.randrange(len(sent) + 1) for _ in range(dice.choice((0, 1, 2, 5, 20))))
    for begin, end in zip([0, *places], [*places, len(sent)]):
        if begin < end:
            yield sent[begin:end]


# Ends of a stream that are no command: what Redis calls each, it says in its reply, and ends the connection.
FAULTS = [
    b"*x\r\n", b"*1x\r\n", b"*01\r\n$4\r\nPING\r\n", b"* 1\r\n", b"*1\r\n+4\r\n", b"*1\r\n4\r\n", b"*2\r\n$3\r\nGET\r\nxx\r\n",
    b"*1\r\n$x\r\n", b"*1\r\n$-1\r\n", b"*1\r\n$04\r\n", b"*1\r\n$\r\n", b"*9999999999\r\n", b"*1\r\n$99999999999999999999\r\n",
    b"GET \"a\r\n", b"GET 'a\r\n", b"SET a \"b\"c\r\n", b"GET \"a\\\"\r\n", b"GET 'a\\'\r\n", b"GET a'b'\"c\"\n", b"GET \"\\x4\n\"\n", b"a" * 70000, b"*1\r\n\r\n", b"*\r\n$4\r\nPING\r\n", b"*-0\r\n", b"*+1\r\n"]
