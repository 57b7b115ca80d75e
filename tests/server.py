#!/usr/bin/env python3
"""The clients of tests/server.sh: python3 tests/server.py PART ADDRESS [HEX ...] plays one part against a server at the address, and
fails where an answer is not the one that docs/PROTOCOL.md gives. A part is a function below that is named in PARTS."""
from __future__ import annotations

import contextlib
import random
import socket
import sys
import time
from concurrent.futures import Future, ThreadPoolExecutor
from pathlib import Path

sys.path.insert(0, str(Path(__file__).resolve().parent))
sys.dont_write_bytecode = True
import one_hash  # noqa: E402
import sequential as model  # noqa: E402
import wire  # noqa: E402
from wire import Wrong, same  # noqa: E402

ADD = model.PROGRAMS[model.ADD]
ONE = model.spelled(1)
DEPTH = 64


def number(count: int) -> bytes:
    """The answer that gives a number of 8 bytes."""
    return wire.value(model.spelled(count))


def registered(client: wire.Client, program: model.Program) -> int:
    """The number of a program that this client registers."""
    answer = client.ask(wire.register(program.sizes, program.code))
    same("the answer to a Register", answer[0], 0x81)
    return int.from_bytes(answer[1:], "big")


def register_add(client: wire.Client) -> int:
    """The number of the program that adds."""
    return registered(client, ADD)


def is_silent(client: wire.Client, seconds: float) -> bool:
    """Whether nothing comes for so long."""
    client.socket.settimeout(seconds)
    try:
        client.fill(1)
        return False
    except TimeoutError:
        return True
    finally:
        client.socket.settimeout(wire.PATIENCE)


def crowd(address: str) -> None:
    """32 clients are served at once, more than there are workers, and each sees what all have put."""
    with contextlib.ExitStack() as stack:
        clients = [stack.enter_context(wire.opened(address)) for _ in range(32)]
        for name, client in enumerate(clients):
            same("a Put", client.ask(wire.put(bytes([name]), model.spelled(name))), wire.NOTHING)
        for client in clients:
            client.send(*[wire.get(bytes([name])) for name in range(32)])
        for client in clients:
            same("what all have put", [client.answer() for _ in clients], [number(name) for name in range(32)])


def sessions(address: str) -> None:
    """A hundred sessions one after the other: what one put the next one has, and the program of the first is known to all."""
    with wire.opened(address) as client:
        program = register_add(client)
    for count in range(1, 100):
        with wire.opened(address) as client:
            same("a sum", client.ask(wire.merge(b"sum", ONE, program)), number(count))


def pipeline(address: str, program: int, name: bytes) -> list[int]:
    """Fifty pipelines of 64 sums, on a key of its own and on one that all clients have; what the latter gave."""
    shared = []
    with wire.opened(address) as client:
        for before in range(0, 50 * DEPTH // 2, DEPTH // 2):
            client.send(*[wire.merge(key, ONE, program) for _ in range(DEPTH // 2) for key in (name, b"all")])
            answers = [client.answer() for _ in range(DEPTH)]
            same("sums of its own", answers[::2], [number(before + count) for count in range(1, DEPTH // 2 + 1)])
            shared += [model.word(answer[3:]) for answer in answers[1::2]]
    return shared


def pipelines(address: str) -> None:
    """Four clients send deep pipelines; each sum on the key that they share is answered to one of them."""
    with wire.opened(address) as client:
        program = register_add(client)
    with ThreadPoolExecutor(4) as pool:
        shared = list(pool.map(lambda name: pipeline(address, program, name), (b"a", b"b", b"c", b"d")))
    same("the sums of each client rise", [sums == sorted(sums) for sums in shared], [True] * 4)
    same("all sums", sorted(sum(shared, [])), list(range(1, 4 * 50 * DEPTH // 2 + 1)))


def reset(address: str) -> None:
    """Connections are reset in the middle of a frame, before a Hello, and with answers that nobody read."""
    client = wire.opened(address)
    same("a Put", client.ask(wire.put(b"kept", b"1")), wire.NOTHING)
    client.socket.sendall(wire.frame(wire.put(b"cut", b"2"))[:-1])
    client.reset()
    wire.Client(address).reset()
    client = wire.opened(address)
    same("a Put", client.ask(wire.put(b"long", bytes(256))), wire.NOTHING)
    client.send(*[wire.get(b"long")] * 2000)
    client.reset()
    with wire.opened(address) as client:
        same("what was answered", client.ask(wire.get(b"kept")), wire.value(b"1"))
        same("what was answered", client.ask(wire.get(b"long")), wire.value(bytes(256)))
        same("what was never whole", client.ask(wire.get(b"cut")), wire.NOTHING)


def cut(address: str) -> None:
    """A stream ends inside a frame: what was whole is answered, and then the stream ends."""
    with wire.Client(address) as client:
        sent = wire.frames([wire.HELLO, wire.put(b"whole", b"1"), wire.get(b"whole")])
        answers = client.exchange(sent + wire.frame(wire.put(b"cut", b"2"))[:-1])
        same("all answers", answers, wire.frames([wire.WELCOME, wire.NOTHING, wire.value(b"1")]))


def flood(client: wire.Client, requests: bytes, most: int) -> int:
    """Sends requests without reading until nothing is taken any more; how many bytes were sent."""
    sent = 0
    client.socket.settimeout(0.5)
    with contextlib.suppress(TimeoutError):
        while sent < most:
            sent += client.socket.send(requests)
    client.socket.settimeout(wire.PATIENCE)
    return sent


def unread(address: str) -> None:
    """A client sends and does not read; another goes on meanwhile; then the first one reads, and has every answer."""
    with wire.opened(address) as deaf, wire.opened(address) as other:
        for buffer in (socket.SO_SNDBUF, socket.SO_RCVBUF):
            deaf.socket.setsockopt(socket.SOL_SOCKET, buffer, 65536)
        program = register_add(other)
        same("a Put", deaf.ask(wire.put(b"long", bytes(256))), wire.NOTHING)
        request = wire.frame(wire.get(b"long"))
        most = 64 << 20
        sent = flood(deaf, request * 1000, most)
        same("sending came to a stop", sent < most, True)
        for count in range(1, 301):
            same("a sum beside it", other.ask(wire.merge(b"sum", ONE, program)), number(count))
            same("a Get beside it", other.ask(wire.get(b"long")), wire.value(bytes(256)))
        whole = -(-sent // len(request))
        answers = deaf.exchange((request * whole)[sent:])
        same("all answers", answers == wire.frame(wire.value(bytes(256))) * whole, True)


def at_once(address: str, sent: str, wanted: str) -> None:
    """The bytes, given in hex, are sent in one piece, and these are the answers."""
    with wire.Client(address) as client:
        same("all that is answered", client.exchange(bytes.fromhex(sent)).hex(), wanted)


def byte_by_byte(address: str, sent: str, wanted: str) -> None:
    """The same, sent one byte a write."""
    with wire.Client(address) as client:
        for byte in bytes.fromhex(sent):
            client.socket.sendall(bytes([byte]))
        same("all that is answered", client.rest().hex(), wanted)


def fault(address: str) -> None:
    """A frame is refused; the refusal is read although much is sent behind it, and the next session has what came before."""
    with wire.opened(address) as client:
        sent = wire.frames([wire.put(b"before", b"1"), b"\x7f", wire.put(b"behind", b"2")])
        answers = client.exchange(sent + bytes(200_000))
        same("the last answers", answers, wire.frames([wire.NOTHING, wire.refused(61)]))
    with wire.opened(address) as client:
        same("a Put before the fault", client.ask(wire.get(b"before")), wire.value(b"1"))
        same("a Put behind the fault", client.ask(wire.get(b"behind")), wire.NOTHING)


def served_or_told(address: str) -> wire.Client | None:
    """A client whose session has begun; none if it was told 9, and its connection ended."""
    client = wire.Client(address)
    answer = client.ask(wire.HELLO)
    if answer == wire.WELCOME:
        return client
    same("what one more is told", answer + client.rest(), wire.refused(9))
    client.socket.close()
    return None


def descriptors(address: str) -> None:
    """More clients come than there are descriptors: one more is told 9, those that are served go on, and whoever comes when they ended
    has what they put."""
    tried = [served_or_told(address) for _ in range(20)]
    clients = [client for client in tried if client is not None]
    same("some are served, and some are not", 0 < len(clients) < len(tried), True)
    for name, client in enumerate(clients):
        same("a Put", client.ask(wire.put(bytes([name]), model.spelled(name))), wire.NOTHING)
    for name, client in enumerate(clients):
        same("a Get", client.ask(wire.get(bytes([name]))), number(name))
        client.socket.close()
    time.sleep(0.2)
    with wire.opened(address) as client:
        for name in range(len(clients)):
            same("what was put", client.ask(wire.get(bytes([name]))), number(name))


def fill(client: wire.Client, prefix: bytes) -> list[bytes]:
    """Puts long values until a hundred were refused for want of memory, or the session ended since it got none itself; the keys of the others."""
    kept: list[bytes] = []
    refusals = 0
    for count in range(0, 2_000_000, DEPTH):
        names = [prefix + model.spelled(count + place) for place in range(DEPTH)]
        try:
            client.send(*[wire.put(name, name * 16) for name in names])
            answers = [(name, client.answer()) for name in names]
        except (wire.Ended, OSError):
            return kept
        for name, answer in answers:
            if answer == wire.refused(9):
                refusals += 1
            else:
                same("a Put", answer, wire.NOTHING)
                kept.append(name)
        if refusals > 100:
            return kept
    raise Wrong("memory never ran out")


def sums_beside(client: wire.Client, program: int, filled: list[Future]) -> tuple[int, int]:
    """Adds one again and again until the others are done, or the session ended since it got no memory: how many sums were answered, and asked for."""
    count = 0
    while not all(future.done() for future in filled):
        try:
            answer = client.ask(wire.merge(b"sum", ONE, program))
        except (wire.Ended, OSError):
            return count, count + 1
        count += 1
        same("a sum beside them", answer, number(count))
    return count, count


def opened_in_time(address: str) -> wire.Client:
    """A client whose session has begun. It tries for two seconds, since the memory of sessions that ended is free only when the server has seen it."""
    for _ in range(20):
        try:
            return wire.opened(address)
        except (wire.Ended, OSError):
            time.sleep(0.1)
    return wire.opened(address)


def memory(address: str) -> None:
    """Two clients put until memory is refused, a third one goes on beside them; all that was answered is found, in a new session."""
    with wire.opened(address) as first, wire.opened(address) as second, wire.opened(address) as third:
        same("a Put", third.ask(wire.put(b"sum", model.spelled(0))), wire.NOTHING)
        program = register_add(third)
        with ThreadPoolExecutor(2) as pool:
            filled = [pool.submit(fill, client, prefix) for client, prefix in ((first, b"1"), (second, b"2"))]
            answered, asked = sums_beside(third, program, filled)
        names = filled[0].result() + filled[1].result()
    with opened_in_time(address) as client:
        sums = client.ask(wire.get(b"sum"))
        if sums != number(answered):
            same("the sums", sums, number(asked))
        for begun in range(0, len(names), DEPTH):
            some = names[begun:begun + DEPTH]
            client.send(*map(wire.get, some))
            for name in some:
                same("what was put", client.answer(), wire.value(name * 16))


def calls_on(address: str, numbers: list[int], keys: list[bytes]) -> one_hash.Map:
    """Fifty pipelines of 64 calls on these keys by a client of its own: each answer is that of a map without hashes, which is given."""
    table = one_hash.Map()
    dice = random.Random(keys[0])
    with wire.opened(address, 2) as client:
        for _ in range(50):
            calls = one_hash.calls_on(dice, keys, DEPTH, 2)
            client.send(*[call.body(numbers) for call in calls])
            for call in calls:
                same(f"the answer to {call}", client.answer(), table.answer(call))
    return table


def keys_of_one_hash(address: str) -> None:
    """Four clients at once make all calls on 32 keys of one hash, each on eight of them, and a walk finds what they left."""
    whole = one_hash.Map()
    with wire.opened(address, 2) as client:
        numbers = [registered(client, program) for program in model.PROGRAMS]
        with ThreadPoolExecutor(4) as pool:
            tables = list(pool.map(lambda part: calls_on(address, numbers, one_hash.KEYS[part::4]), range(4)))
        one_hash.check_shown(tables)
        for table in tables:
            whole.values |= table.values
        walk = wire.walk(model.FOR_EACH, numbers[model.LOOK], None)
        same("a walk", client.walk(walk), whole.items(model.LOOK, None))
        same("a Count", client.ask(wire.COUNT), wire.end(len(whole.values), 0, 0))


def most_units(answer: bytes) -> bytes:
    """A program of 4,096 units, of which all but the last two jump to the next one; it answers this number of bytes, or nothing."""
    return bytes.fromhex("4506000001000000") * 4094 + bytes.fromhex("b7000000") + answer + bytes.fromhex("9500000000000000")


def use_longest(address: str, numbers: tuple[int, int], name: int) -> None:
    """A client of version 2 makes each kind of call with the longest values and programs, and walks."""
    nothing, take = numbers
    with wire.opened(address, 2) as client:
        for count in range(20):
            key, data = bytes([name]) * 64, bytes([count]) * 1024
            same("a Compute", client.ask(wire.compute(key, take, data)), wire.value(data))
            same("a Put", client.ask(wire.put(key, data)), wire.value(data))
            same("a Merge", client.ask(wire.merge(key, data[::-1], take)), wire.value(data))
            same("a ReplaceIf", client.ask(b"\x16" + wire.key_field(key) + wire.value_field(data) * 2), wire.YES)
            answers = client.walk(wire.walk(model.FOR_EACH, take, data))
            same("each item of a walk", {answer[-1024:] for answer in answers[:-1]}, {data})
            same("a Compute of the longest program", client.ask(wire.compute(key, nothing, data)), wire.NOTHING)
            same("a Get", client.ask(wire.get(key)), wire.NOTHING)


def longest(address: str) -> None:
    """The longest programs and values by four clients at once, and a walk by each over what all have."""
    with wire.opened(address, 2) as client:
        nothing = registered(client, model.Program((64, 1024, 1024, 1024), most_units(b"\xff" * 4), lambda key, old, arg: None))
        take = registered(client, model.PROGRAMS[model.TAKE])
        for number in range(100):
            same("a Put", client.ask(wire.put(model.spelled(number), bytes(1024))), wire.NOTHING)
        refused = client.ask(wire.register((64, 1024, 1024, 1024), most_units(b"\x01\x00\x00\x00")))
        same("a program of 4,096 units that is refused", refused, wire.refused(46, 4095))
    with ThreadPoolExecutor(4) as pool:
        list(pool.map(lambda name: use_longest(address, (nothing, take), name), range(4)))


def segments_in(client: wire.Client) -> int:
    """How many segments with data have come to this client, by its system: at least one for each write of the server."""
    info = client.socket.getsockopt(socket.IPPROTO_TCP, socket.TCP_INFO, 256)
    return int.from_bytes(info[152:156], sys.byteorder)


def few_writes(address: str) -> None:
    """A pipeline's answers come together, and those of short exchanges at once: the server neither writes each by itself nor waits
    with a short one for the client's system to say that the one before came (40 ms)."""
    with wire.opened(address, 2) as client:
        before = segments_in(client)
        for _ in range(20):
            client.send(*[wire.get(b"k")] * 100)
            same("answers", {client.answer() for _ in range(100)}, {wire.NOTHING})
        same("20 pipelines of 100 are answered by at most 60 segments", segments_in(client) - before <= 60, True)
        times = []
        for _ in range(51):
            begun = time.monotonic()
            client.send(wire.get(b"k"))
            client.send(wire.get(b"k"))
            same("two answers", [client.answer(), client.answer()], [wire.NOTHING] * 2)
            times.append(time.monotonic() - begun)
        same("two short answers come in less than 35 ms, mostly", sorted(times)[25] < 0.035, True)


def idle(address: str) -> None:
    """A session that says nothing for a while, and then is answered."""
    with wire.Client(address) as client:
        same("nothing comes of itself", is_silent(client, 0.3), True)
        client.hello()


PARTS = {part.__name__: part for part in (
    crowd, sessions, pipelines, few_writes, reset, cut, unread, at_once, byte_by_byte, fault, descriptors, memory, keys_of_one_hash,
    idle, longest)}


def main() -> None:
    try:
        PARTS[sys.argv[1]](*sys.argv[2:])
    except (Wrong, one_hash.Wrong, wire.Ended, OSError) as wrong:
        sys.exit(f"{sys.argv[1]}: {type(wrong).__name__}: {wrong}")


if __name__ == "__main__":
    main()
