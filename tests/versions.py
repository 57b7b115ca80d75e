#!/usr/bin/env python3
"""Sessions of both versions of the protocol on one map of the built mapd, by docs/PROTOCOL.md: what one version puts the other finds,
replaces, removes and walks over, and where an answer's value is too long for version 1 it has 65, and the call was made.

A scene has one session of each version, both open at once, and turns: a version, its request and the answers. It is played three ways,
each on a map of its own: each turn by itself; neighbouring turns of one version in one piece, with the Hello; and all byte by byte. A
last refusal of a frame ends its session.

By hand, after `rt run` in crates/mapd: python3 tests/versions.py. Another server is tried by --program."""
from __future__ import annotations

import argparse
import itertools
import sys
from collections.abc import Iterator, Sequence
from concurrent.futures import ThreadPoolExecutor
from dataclasses import dataclass
from pathlib import Path

sys.path.insert(0, str(Path(__file__).resolve().parent))
sys.dont_write_bytecode = True
import sequential as model  # noqa: E402
import wire  # noqa: E402

OPTIONS = ["--workers", "2", "--team", "2"]
NONE, TOO_LONG = wire.NOTHING, wire.VALUE_TOO_LONG
A, B, C = b"a", b"b", b"c"
SHORT, OTHER = b"x", b"yz"
EDGE, LEAST, LONG, LONGEST = bytes(256), bytes(257), bytes(range(150)) * 2, bytes(range(256)) * 4
SIZES = (64, 1024, 1024, 1024)
JUMPS = bytes.fromhex("4506000001000000")
EXIT = bytes.fromhex("9500000000000000")
NOTHING_AT_ALL = bytes.fromhex("b7000000ffffffff 9500000000000000")
# The old value as it is; 1,024 bytes, whatever it is; its length in 8 bytes.
COPY = b"".join(bytes([0x79, 0x20, at % 256, at // 256, 0, 0, 0, 0, 0x7B, 0x04, at % 256, at // 256, 0, 0, 0, 0])
                for at in range(0, 1024, 8)) + bytes.fromhex("bf70000000000000 9500000000000000")
GROW = b"".join(bytes([0x7A, 0x04, at % 256, at // 256, 7, 0, 0, 0]) for at in range(0, 1024, 8)) + bytes.fromhex(
    "b700000000040000 9500000000000000")
GROWN = model.spelled(7) * 128
LENGTH = bytes.fromhex("7b74000000000000 b700000008000000 9500000000000000")


@dataclass(frozen=True)
class Turn:
    """A request by the session of this version, and its answers."""
    version: int
    request: bytes
    answers: Sequence[bytes]


def old(request: bytes, *answers: bytes) -> Turn:
    """A turn of version 1."""
    return Turn(1, request, answers)


def new(request: bytes, *answers: bytes) -> Turn:
    """A turn of version 2."""
    return Turn(2, request, answers)


def both(request: bytes, *answers: bytes) -> list[Turn]:
    """A turn of each version."""
    return [old(request, *answers), new(request, *answers)]


get, put, merge = wire.get, wire.put, wire.merge


def put_if_absent(key: bytes, value: bytes) -> bytes:
    """The body of a PutIfAbsent."""
    return b"\x12" + wire.key_field(key) + wire.value_field(value)


def remove(key: bytes) -> bytes:
    """The body of a Remove."""
    return b"\x13" + wire.key_field(key)


def remove_if(key: bytes, expected: bytes) -> bytes:
    """The body of a RemoveIf."""
    return b"\x14" + wire.key_field(key) + wire.value_field(expected)


def replace(key: bytes, value: bytes) -> bytes:
    """The body of a Replace."""
    return b"\x15" + wire.key_field(key) + wire.value_field(value)


def replace_if(key: bytes, expected: bytes, value: bytes) -> bytes:
    """The body of a ReplaceIf."""
    return b"\x16" + wire.key_field(key) + wire.value_field(expected) + wire.value_field(value)


def compute(key: bytes, number: int, tag: int = model.COMPUTE) -> bytes:
    """The body of a Compute, or another call that is spelled like it, without an argument."""
    return bytes([tag]) + wire.key_field(key) + wire.number_field(number) + wire.arg_field(None)


def walk(tag: int, number: int) -> bytes:
    """The body of a walk without an argument."""
    return wire.walk(tag, number, None)


def registered(number: int) -> bytes:
    """The answer Registered."""
    return b"\x81" + wire.number_field(number)


def item(key: bytes, value: bytes) -> bytes:
    """The answer Item."""
    return bytes([wire.ITEM]) + wire.key_field(key) + wire.value_field(value)


def end(scanned: int, given: int, unfit: int = 0) -> bytes:
    """The answer End."""
    return bytes([wire.END]) + b"".join(map(wire.number_field, (scanned, given, unfit)))


def programs() -> list[Turn]:
    """Version 2 registers COPY, GROW, LENGTH and a program of nothing, as 0 to 3."""
    codes = (COPY, GROW, LENGTH, NOTHING_AT_ALL)
    return [new(wire.register(SIZES, code), registered(number)) for number, code in enumerate(codes)]


UNFIT_OLD = b"\x84\x02"
COMPUTES = (model.COMPUTE, model.COMPUTE_IF_ABSENT, model.COMPUTE_IF_PRESENT)
COMPUTE_IF_ABSENT, COMPUTE_IF_PRESENT = COMPUTES[1:]

SCENES: dict[str, list[Turn]] = {
    "a value that is too long, by both versions": [
        new(put(A, LONG), NONE), new(get(A), wire.value(LONG)), old(get(A), TOO_LONG), old(remove(A), TOO_LONG), old(get(A), NONE),
        old(wire.register((64, 1024, 0, 0), model.PROGRAMS[model.ADD].code), wire.refused(47)), old(put(A, LONG), wire.refused(62))],
    "values that both versions carry": [
        turn for value in (b"", SHORT, EDGE) for turn in (
            new(put(A, value), NONE), *both(get(A), wire.value(value)), old(remove(A), wire.value(value)),
            old(put(A, value), NONE), *both(get(A), wire.value(value)), new(remove(A), wire.value(value)))],
    "values that version 2 alone carries": [
        turn for value in (LEAST, LONG, LONGEST) for turn in (
            new(put(A, value), NONE), old(get(A), TOO_LONG), new(get(A), wire.value(value)), old(remove(A), TOO_LONG),
            *both(get(A), NONE))],
    "a Put whose old value is too long is made": [
        new(put(A, LONG), NONE), old(put(A, SHORT), TOO_LONG), *both(get(A), wire.value(SHORT)), old(put(A, OTHER), wire.value(SHORT))],
    "a PutIfAbsent that finds a long value changes nothing": [
        new(put(A, LONG), NONE), old(put_if_absent(A, SHORT), TOO_LONG), new(get(A), wire.value(LONG)),
        old(put_if_absent(B, SHORT), NONE), *both(get(B), wire.value(SHORT))],
    "a Replace whose old value is too long is made": [
        new(put(A, LONG), NONE), old(replace(A, SHORT), TOO_LONG), *both(get(A), wire.value(SHORT)), old(replace(B, SHORT), NONE)],
    "calls whose answers have no value are answered as ever": [
        new(put(A, LONG), NONE), old(remove_if(A, SHORT), wire.NO), old(replace_if(A, SHORT, OTHER), wire.NO),
        new(get(A), wire.value(LONG)), new(replace_if(A, LONG, SHORT), wire.YES), old(replace_if(A, SHORT, OTHER), wire.YES),
        new(replace_if(A, OTHER, LONGEST), wire.YES), new(remove_if(A, LONGEST), wire.YES), *both(get(A), NONE)],
    "a Compute whose answer is too long is made": [
        *programs(), old(compute(A, 1), TOO_LONG), new(get(A), wire.value(GROWN)), old(get(A), TOO_LONG),
        new(put(A, SHORT), wire.value(GROWN)), old(compute(A, 1), TOO_LONG), new(get(A), wire.value(GROWN)),
        old(compute(A, 0), TOO_LONG), new(get(A), wire.value(GROWN)), old(compute(A, 2), wire.value(model.spelled(1024))),
        *both(get(A), wire.value(model.spelled(1024)))],
    "a Compute of nothing removes a long value": [
        *programs(), new(put(A, LONGEST), NONE), old(compute(A, 3), NONE), *both(get(A), NONE)],
    "a ComputeIfAbsent": [
        *programs(), old(compute(A, 1, COMPUTE_IF_ABSENT), TOO_LONG), new(get(A), wire.value(GROWN)),
        old(compute(A, 2, COMPUTE_IF_ABSENT), TOO_LONG), new(get(A), wire.value(GROWN)),
        old(compute(B, 2, COMPUTE_IF_ABSENT), wire.value(model.spelled(-1)))],
    "a ComputeIfPresent": [
        *programs(), old(compute(A, 1, COMPUTE_IF_PRESENT), NONE), old(put(A, SHORT), NONE),
        old(compute(A, 1, COMPUTE_IF_PRESENT), TOO_LONG), new(get(A), wire.value(GROWN)),
        old(compute(A, 3, COMPUTE_IF_PRESENT), NONE), *both(get(A), NONE)],
    "a Merge": [
        *programs(), old(merge(A, SHORT, 1), wire.value(SHORT)), old(merge(A, OTHER, 1), TOO_LONG), new(get(A), wire.value(GROWN)),
        old(merge(A, OTHER, 2), wire.value(model.spelled(1024))), new(merge(B, LONGEST, 0), wire.value(LONGEST)),
        old(merge(B, SHORT, 0), TOO_LONG), new(get(B), wire.value(LONGEST)), old(merge(B, SHORT, 3), NONE), *both(get(B), NONE)],
    "a program whose window is too small": [
        old(wire.register((64, 256, 256, 256), NOTHING_AT_ALL), registered(0)), new(put(A, LEAST), NONE),
        *[turn for tag in (model.COMPUTE, COMPUTE_IF_PRESENT) for turn in both(compute(A, 0, tag), UNFIT_OLD)],
        *both(merge(A, SHORT, 0), UNFIT_OLD), old(compute(A, 0, COMPUTE_IF_ABSENT), TOO_LONG), old(compute(A, 5), wire.refused(66)),
        *both(walk(model.FOR_EACH, 0), end(1, 0, 1)), new(get(A), wire.value(LEAST))],
    "a ForEach with one item that is too long": [
        *programs(), new(put(A, SHORT), NONE), new(put(B, LEAST), NONE), new(put(C, OTHER), NONE), old(walk(model.FOR_EACH, 0), TOO_LONG),
        new(walk(model.FOR_EACH, 0), item(A, SHORT), item(B, LEAST), item(C, OTHER), end(3, 3)), old(get(A), wire.value(SHORT)),
        old(put(B, EDGE), TOO_LONG), *both(walk(model.FOR_EACH, 0), item(A, SHORT), item(B, EDGE), item(C, OTHER), end(3, 3))],
    "a ForEach with short items of long values": [
        *programs(), new(put(A, LONGEST), NONE), new(put(B, LONG), NONE),
        *both(walk(model.FOR_EACH, 2), item(A, model.spelled(1024)), item(B, model.spelled(300)), end(2, 2)),
        *both(walk(model.FOR_EACH, 3), end(2, 0))],
    "a ForEach of which every item is too long": [
        *programs(), *both(walk(model.FOR_EACH, 1), end(0, 0)),
        *[old(put(model.spelled(number), SHORT), NONE) for number in range(100)], old(walk(model.FOR_EACH, 1), TOO_LONG),
        old(wire.COUNT, end(100, 0))],
    "a Search": [
        *programs(), *both(walk(model.SEARCH, 0), end(0, 0)), new(put(A, SHORT), NONE), new(put(B, LONG), NONE),
        *both(walk(model.SEARCH, 0), item(A, SHORT), end(2, 1)), old(remove(A), wire.value(SHORT)),
        old(walk(model.SEARCH, 0), TOO_LONG), new(walk(model.SEARCH, 0), item(B, LONG), end(1, 1)),
        *both(walk(model.SEARCH, 2), item(B, model.spelled(300)), end(1, 1)), *both(walk(model.SEARCH, 3), end(1, 0)),
        old(wire.COUNT, end(1, 0))],
    "a Count and a ReplaceAll": [
        *programs(), new(put(A, LONGEST), NONE), new(put(B, SHORT), NONE), *both(wire.COUNT, end(2, 0)),
        *both(walk(model.REPLACE_ALL, 0), end(2, 2)), *both(walk(model.REPLACE_ALL, 3), end(2, 0)), new(get(A), wire.value(LONGEST)),
        old(walk(model.REPLACE_ALL, 1), end(2, 2)), new(get(B), wire.value(GROWN)), old(get(B), TOO_LONG),
        old(walk(model.REPLACE_ALL, 2), end(2, 2)), *both(get(A), wire.value(model.spelled(1024)))],
    "programs of either version are called by both": [
        old(wire.register((64, 256, 256, 256), NOTHING_AT_ALL), registered(0)), new(wire.register(SIZES, LENGTH), registered(1)),
        old(wire.register(SIZES, LENGTH), wire.refused(47)), old(wire.register((64, 256, 0, 8), LENGTH), registered(2)),
        *[turn for number in (1, 2) for turn in both(compute(A, number, COMPUTE_IF_ABSENT), wire.value(model.spelled(-1)))],
        *both(compute(A, 0), NONE)],
    "the longest program is called by both": [
        new(wire.register((64, 0, 0, 0), JUMPS * 4094 + NOTHING_AT_ALL), registered(0)), *both(compute(A, 0), NONE),
        old(wire.register((64, 0, 0, 0), JUMPS * 511 + NOTHING_AT_ALL), wire.refused(12)),
        new(wire.register((64, 0, 0, 0), JUMPS * 511 + NOTHING_AT_ALL), registered(1)),
        old(wire.register((64, 0, 0, 0), JUMPS * 510 + NOTHING_AT_ALL), registered(2)), *both(compute(A, 1), NONE)],
    "a frame that is too long for version 1 alone": [
        new(wire.register((64, 0, 0, 0), EXIT * 4096), wire.refused(40)), old(wire.register((64, 0, 0, 0), EXIT * 1023), wire.refused(60))],
    "a frame that is too long for version 2": [
        old(put(A, SHORT), NONE), new(wire.register((64, 0, 0, 0), EXIT * 4097), wire.refused(60))],
    "a frame that version 1 refuses, beside version 2": [
        new(put(A, LONG), NONE), old(get(A), TOO_LONG), old(put(A, LEAST), wire.refused(62)), new(get(A), wire.value(LONG)),
        new(put(A, b""), wire.value(LONG))],
    "a value of 1,025 bytes": [old(put(A, SHORT), NONE), new(put(A, LONGEST + b"x"), wire.refused(62))],
    "many refusals in one piece, and what is between them": [
        new(put(A, LONGEST), NONE), *[turn for _ in range(200) for turn in (old(get(A), TOO_LONG), old(get(B), NONE))],
        new(get(A), wire.value(LONGEST))],
}

Piece = tuple[int, bytes, int]


def pieces(turns: Sequence[Turn], is_joined: bool) -> Iterator[Piece]:
    """What is sent, by which version, and how many answers come to it. A session's first piece has its Hello."""
    begun: set[int] = set()
    groups = [list(group) for _, group in itertools.groupby(turns, lambda turn: turn.version)] if is_joined else [[turn] for turn in turns]
    for group in groups:
        version = group[0].version
        bodies = [turn.request for turn in group]
        count = sum(len(turn.answers) for turn in group)
        if version not in begun:
            bodies.insert(0, wire.hello(version))
            count += 1
        begun.add(version)
        yield version, wire.frames(bodies), count


def wanted_of(turns: Sequence[Turn], version: int) -> list[bytes]:
    """All answers to the session of a version."""
    return [wire.welcome(version), *(answer for turn in turns if turn.version == version for answer in turn.answers)]


def received(client: wire.Client, count: int) -> list[bytes]:
    """So many answers, or those that come before the stream ends."""
    answers = []
    try:
        for _ in range(count):
            answers.append(client.answer())
    except (wire.Ended, TimeoutError):
        pass
    return answers


def sent(client: wire.Client, data: bytes, size: int) -> None:
    """Sends bytes, so many a write; a server that refuses a frame may have ended before it has them all."""
    try:
        for at in range(0, len(data), size):
            client.socket.sendall(data[at:at + size])
    except ConnectionError:
        pass


def rest_of(client: wire.Client) -> bytes:
    """Ends what is sent, and gives all that comes until the server ends the stream."""
    with client:
        try:
            client.close_writing()
        except OSError:
            # The server has reset a stream of which it refused a frame.
            pass
        return client.rest()


def played(address: str, turns: Sequence[Turn], is_joined: bool, size: int) -> dict[int, list[bytes]]:
    """The answers to each session. What comes behind the last one is one answer more."""
    versions = {turn.version for turn in turns}
    clients = {version: wire.Client(address) for version in versions}
    answers: dict[int, list[bytes]] = {version: [] for version in versions}
    for version, data, count in pieces(turns, is_joined):
        sent(clients[version], data, size or len(data))
        answers[version] += received(clients[version], count)
    for version, client in clients.items():
        rest = rest_of(client)
        if rest:
            answers[version].append(rest)
    return answers


WAYS = {"each turn by itself": (False, 0), "in one piece": (True, 0), "byte by byte": (True, 1)}


def faults(program: Path, name: str, turns: Sequence[Turn]) -> list[str]:
    """What is wrong with a scene, by each way in which it is played."""
    found = []
    for way, (is_joined, size) in WAYS.items():
        versions = sorted({turn.version for turn in turns})
        server = wire.Server(program, OPTIONS)
        try:
            answers = played(server.address, turns, is_joined, size)
            found += [told for version in versions for told in differences(f"{name}, {way}", turns, version, answers[version])]
        except OSError as error:
            found.append(f"{name}, {way}: {type(error).__name__}: {error}")
        finally:
            server.process.kill()
            server.process.communicate()
    return found


def differences(name: str, turns: Sequence[Turn], version: int, answers: list[bytes]) -> list[str]:
    """The first answer that differs."""
    for number, (one, other) in enumerate(itertools.zip_longest(answers, wanted_of(turns, version))):
        if one != other:
            came, wanted = (body.hex() if body is not None else "nothing" for body in (one, other))
            return [f"{name}: answer {number} of version {version} is {came:.80}, not {wanted:.80}"]
    return []


def main() -> None:
    words = argparse.ArgumentParser()
    words.add_argument("--program", default=wire.SERVER)
    program = words.parse_args().program
    with ThreadPoolExecutor(4) as pool:
        wrong = sum(pool.map(lambda scene: faults(program, *scene), SCENES.items()), [])
    for line in wrong:
        print(f"versions: FAILED: {line}")
    print(f"versions: {len(SCENES)} scenes, each in {len(WAYS)} ways, {len(wrong)} failed")
    sys.exit(bool(wrong))


if __name__ == "__main__":
    main()
