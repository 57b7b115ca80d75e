#!/usr/bin/env python3
"""Many clients of the built mapd at once, all connected from the first to the last: 2,000 that count, each a key of its own and one that
all share, beside 1,000 that say nothing, and then beside some that never read and some that send a byte now and then.

By hand, after `rt run` in crates/mapd: python3 tests/crowd.py. Another server is tried by --program, and other numbers of clients by
--clients and --silent. It needs as many descriptors as there are clients, and says so if it may not have them. MAPD_IS_CHECKED says that
the program is built with checks, so that its memory tells nothing."""
from __future__ import annotations

import argparse
import contextlib
import os
import resource
import socket
import sys
import time
from pathlib import Path

sys.path.insert(0, str(Path(__file__).resolve().parent))
sys.dont_write_bytecode = True
import sequential as model  # noqa: E402
import wire  # noqa: E402
from wire import Client, Server, Wrong, same  # noqa: E402

ADD = model.PROGRAMS[model.ADD]
ONE = model.spelled(1)
ROUNDS = 3
# What a silent client may cost at most, in bytes of the server's memory.
MOST_BYTES = 2048
# What a client that never reads is sent, and how many bytes it asks for.
LONG = bytes(1024)
UNREAD = 2000


def allow_descriptors(count: int) -> int:
    """Lets this process and its children have this many descriptors, if the system does; how many they may have."""
    soft, hard = resource.getrlimit(resource.RLIMIT_NOFILE)
    with contextlib.suppress(ValueError, OSError):
        resource.setrlimit(resource.RLIMIT_NOFILE, (count, max(count, hard)))
    with contextlib.suppress(ValueError, OSError):
        resource.setrlimit(resource.RLIMIT_NOFILE, (max(soft, min(count, hard)), hard))
    return resource.getrlimit(resource.RLIMIT_NOFILE)[0]


def memory_of(server: Server) -> int:
    """How many bytes of memory the server has now."""
    status = Path(f"/proc/{server.process.pid}/status").read_text()
    line = next(line for line in status.splitlines() if line.startswith("VmRSS:"))
    return int(line.split()[1]) * 1024


def descriptors_of(server: Server) -> int:
    """How many descriptors the server has now."""
    return len(list(Path(f"/proc/{server.process.pid}/fd").iterdir()))


def connected(server: Server, stack: contextlib.ExitStack, count: int) -> list[Client]:
    """This many clients, which the server has accepted."""
    wanted = descriptors_of(server) + count
    clients = [stack.enter_context(Client(server.address)) for _ in range(count)]
    deadline = time.monotonic() + wire.PATIENCE
    while descriptors_of(server) < wanted and time.monotonic() < deadline:
        time.sleep(0.01)
    same("the descriptors of the server", descriptors_of(server), wanted)
    return clients


def silent(server: Server, stack: contextlib.ExitStack, count: int) -> list[Client]:
    """This many clients that say nothing; each may cost little memory."""
    before = memory_of(server)
    clients = connected(server, stack, count)
    each = (memory_of(server) - before) / count
    print(f"crowd: {count} silent clients, {each:.0f} bytes of the server's memory each")
    if "MAPD_IS_CHECKED" not in os.environ:
        same(f"a silent client costs less than {MOST_BYTES} bytes", each < MOST_BYTES, True)
    return clients


def answers_to(clients: list[Client], requests: list[list[bytes]]) -> list[list[bytes]]:
    """What each client is answered, when all have sent all of their requests."""
    for client, bodies in zip(clients, requests):
        client.send(*bodies)
    return [[client.answer() for _ in bodies] for client, bodies in zip(clients, requests)]


def count_all(clients: list[Client]) -> None:
    """Each client counts a key of its own and one that all share: each count is exact, and no sum is answered twice."""
    begun = answers_to(clients, [[wire.HELLO, wire.register(ADD.sizes, ADD.code)]] * len(clients))
    same("what Hellos are answered", {answers[0] for answers in begun}, {wire.WELCOME})
    same("the programs' numbers", len({answers[1] for answers in begun}), 1)
    program = int.from_bytes(begun[0][1][1:], "big")
    shared = []
    for count in range(1, ROUNDS + 1):
        asked = [[wire.merge(model.spelled(name), ONE, program), wire.merge(b"all", ONE, program)] for name in range(len(clients))]
        answers = answers_to(clients, asked)
        same("each client's own count", {answer[0] for answer in answers}, {wire.value(model.spelled(count))})
        shared += [model.word(answer[1][3:]) for answer in answers]
    same("the shared counts", sorted(shared), list(range(1, ROUNDS * len(clients) + 1)))


def never_read(clients: list[Client]) -> None:
    """Each of these asks for two megabytes, and reads nothing of it."""
    for client in clients:
        client.socket.setsockopt(socket.SOL_SOCKET, socket.SO_RCVBUF, 4096)
        client.socket.setblocking(False)
        requests = wire.frames([wire.hello(2), wire.put(b"long", LONG), *[wire.get(b"long")] * UNREAD])
        with contextlib.suppress(BlockingIOError):
            client.socket.send(requests)


def drip(clients: list[Client], sent: bytes) -> None:
    """Each of these sends one byte."""
    for client in clients:
        client.socket.sendall(sent)


def work_beside(server: Server, stack: contextlib.ExitStack, count: int) -> None:
    """A hundred clients work beside those that never read and those that drip, and none of them waits for those."""
    deaf = connected(server, stack, count)
    dripping = connected(server, stack, count)
    working = connected(server, stack, 100)
    never_read(deaf)
    begun = answers_to(working, [[wire.HELLO]] * len(working))
    same("what Hellos are answered", begun, [[wire.WELCOME]] * len(working))
    hello = wire.frame(wire.HELLO)
    for byte in range(len(hello)):
        drip(dripping, hello[byte:byte + 1])
        asked = [[wire.put(b"work" + model.spelled(name), model.spelled(byte)), wire.get(b"work" + model.spelled(name))]
                 for name in range(len(working))]
        answers = answers_to(working, asked)
        same("what each put", {answer[1] for answer in answers}, {wire.value(model.spelled(byte))})
    same("what those who dripped are answered", {client.answer() for client in dripping}, {wire.WELCOME})


def play(program: Path, clients: int, quiet: int) -> None:
    """All parts, on one server."""
    server = Server(program, ["--workers", "4", "--stripes", "64", "--clients", "65535"])
    try:
        with contextlib.ExitStack() as stack:
            stack.enter_context(wire.opened(server.address))
            quiet_ones = silent(server, stack, quiet)
            begun = time.monotonic()
            count_all(connected(server, stack, clients))
            print(f"crowd: {clients} clients counted in {time.monotonic() - begun:.1f} s")
            work_beside(server, stack, clients // 10)
            begun_late = answers_to(quiet_ones, [[wire.HELLO]] * quiet)
            same("what the silent ones are answered", begun_late, [[wire.WELCOME]] * quiet)
        same("the status", server.stop(), -15)
    finally:
        server.process.kill()


def main() -> None:
    words = argparse.ArgumentParser()
    words.add_argument("--program", type=Path, default=wire.SERVER)
    words.add_argument("--clients", type=int, default=2000)
    words.add_argument("--silent", type=int, default=1000)
    given = words.parse_args()
    needed = given.silent + given.clients + given.clients // 5 + 300
    allowed = allow_descriptors(needed)
    if allowed < needed:
        print(f"crowd: {needed} descriptors are needed and {allowed} allowed, so nothing was tried")
        return
    try:
        play(given.program, given.clients, given.silent)
    except (Wrong, wire.Ended, OSError) as wrong:
        sys.exit(f"crowd: FAILED: {type(wrong).__name__}: {wrong}")
    print("crowd: passed")


if __name__ == "__main__":
    main()
