#!/usr/bin/env python3
"""Tries the built mapd where something is wanting or limited: descriptors that run out and come back, a listener that fails for good,
threads that can't be made, clients beyond the limit, a map beyond its memory, silent clients and deaf ones, one that drips after a
refusal, and sessions that are counted.

By hand, after `rt run` in crates/mapd: python3 tests/server_limits.py. Behind the gate, which builds the program."""
from __future__ import annotations

import argparse
import contextlib
import ctypes
import os
import resource
import select
import shutil
import socket
import subprocess
import sys
import tempfile
import time
from collections.abc import Callable
from pathlib import Path

sys.path.insert(0, str(Path(__file__).resolve().parent))
sys.dont_write_bytecode = True
import wire  # noqa: E402
from wire import Wrong, same, started  # noqa: E402

NOBODY = 65534
PIDFD_OPEN, PIDFD_GETFD = 434, 438
SOON = 5.0


def told_line(server: wire.Server, seconds: float = SOON) -> str:
    """The next line that standard error is told; empty if there is none in time."""
    ready, _, _ = select.select([server.process.stderr], [], [], seconds)
    return server.process.stderr.readline().decode().strip() if ready else ""


def descriptors_of(server: wire.Server) -> list[Path]:
    """The descriptors that the server has."""
    return list(Path(f"/proc/{server.process.pid}/fd").iterdir())


def is_answered(client: wire.Client, seconds: float) -> bool:
    """Whether the client's Hello is answered in time."""
    client.socket.settimeout(seconds)
    try:
        return client.answer() == wire.WELCOME
    except (TimeoutError, wire.Ended):
        return False
    finally:
        client.socket.settimeout(wire.PATIENCE)


def accepts_are_tried_again(program: Path) -> None:
    """No descriptor is left for a further client. It waits, and is served when there are some again; nothing is lost meanwhile."""
    with started(program, "--workers", "2") as server, wire.opened(server.address) as first:
        same("a Put", first.ask(wire.put(b"kept", b"1")), wire.NOTHING)
        _, hard = resource.prlimit(server.process.pid, resource.RLIMIT_NOFILE)
        resource.prlimit(server.process.pid, resource.RLIMIT_NOFILE, (3, hard))
        waiting = [wire.Client(server.address) for _ in range(3)]
        for client in waiting:
            client.send(wire.HELLO)
        same("a Get beside them", first.ask(wire.get(b"kept")), wire.value(b"1"))
        first.socket.close()
        same("the beginning of the line", told_line(server)[:14], "accepts wait: ")
        resource.prlimit(server.process.pid, resource.RLIMIT_NOFILE, (1000, hard))
        for client in waiting:
            same("one who waited is answered", is_answered(client, SOON), True)
            same("a Get by one who waited", client.ask(wire.get(b"kept")), wire.value(b"1"))
            client.socket.close()
        with wire.opened(server.address) as one, wire.opened(server.address) as other:
            same("a Get by both workers", [one.ask(wire.get(b"kept")), other.ask(wire.get(b"kept"))], [wire.value(b"1")] * 2)
            same("the line", told_line(server), "accepts go on")


def stop_listening(server: wire.Server) -> None:
    """Ends the server's listening socket from outside, so that each accept fails for good."""
    system = ctypes.CDLL(None, use_errno=True)
    process = system.syscall(PIDFD_OPEN, server.process.pid, 0)
    for name in descriptors_of(server):
        if not os.readlink(name).startswith("socket:"):
            continue
        found = system.syscall(PIDFD_GETFD, process, int(name.name), 0)
        if found < 0:
            raise Wrong("the listening socket can't be reached")
        with socket.socket(fileno=found) as taken:
            if taken.getsockopt(socket.SOL_SOCKET, socket.SO_ACCEPTCONN):
                taken.shutdown(socket.SHUT_RDWR)
                os.close(process)
                return
    raise Wrong("no listening socket is found")


def failed_accepts_end_the_server(program: Path) -> None:
    """Each worker's accept fails: it is told of, what was served is counted, and the status is 3."""
    with started(program, "--workers", "2") as server:
        with wire.opened(server.address) as client:
            same("a Put", client.ask(wire.put(b"a", b"1")), wire.NOTHING)
        stop_listening(server)
        status = server.finish()
        same("the status", status, 3)
        same("what is printed", server.printed, b"ready\nserved 1\n")
        told = sorted(server.told.decode().splitlines())[1:]
        same("who ended", [line.split(":")[0] for line in told], ["worker 0 ended", "worker 1 ended"])


def a_failed_port_ends_the_server(program: Path) -> None:
    """There are two ports, and accepts at one of them fail: no worker takes a client from either port any more."""
    with started(program, "--workers", "2", "--redis", "127.0.0.1:0") as server:
        with wire.opened(server.address) as client:
            same("a Put", client.ask(wire.put(b"a", b"1")), wire.NOTHING)
        stop_listening(server)
        same("the status", server.finish(), 3)
        same("what is printed", server.printed, b"ready\nserved 1\n")
        told = sorted(server.told.decode().splitlines())
        same("who ended", [line.split(":")[0] for line in told[2:]], ["worker 0 ended", "worker 1 ended"])


def with_few_threads(most: int) -> Callable[[], None]:
    """What lets a process of nobody have so many threads."""
    def limit() -> None:
        resource.setrlimit(resource.RLIMIT_NPROC, (most, most))
        os.setgroups([])
        os.setgid(NOBODY)
        os.setuid(NOBODY)
    return limit


def missing_threads_are_told(program: Path) -> None:
    """Fewer threads can be made than there are workers: it is told how many run."""
    if os.getuid() != 0:
        print("server_limits: not root, so no thread was refused")
        return
    with tempfile.TemporaryDirectory() as folder:
        os.chmod(folder, 0o755)
        copy = Path(folder) / "mapd"
        shutil.copy(program, copy)
        os.chmod(copy, 0o755)
        process = subprocess.Popen(
            [str(copy), "--listen", "127.0.0.1:0", "--workers", "4", "--sessions", "0"], stdin=subprocess.DEVNULL,
            stdout=subprocess.PIPE, stderr=subprocess.PIPE, preexec_fn=with_few_threads(3))
        printed, told = process.communicate(timeout=wire.PATIENCE)
    same("the status and what is printed", (process.returncode, printed), (0, b"ready\nserved 0\n"))
    same("what is told", told.decode().splitlines()[1:], ["3 of 4 workers run: no further thread could be made"])


def clients_beyond_the_limit_are_told(program: Path) -> None:
    """One client more than there may be is refused with 9, and its stream ends; when one leaves there is room again."""
    with started(program, "--workers", "4", "--clients", "2") as server:
        with wire.opened(server.address) as first, wire.opened(server.address) as second:
            with wire.Client(server.address) as third:
                same("what one more is told", third.exchange(wire.frame(wire.HELLO)), wire.frame(wire.refused(9)))
            same("a Put", first.ask(wire.put(b"a", b"1")), wire.NOTHING)
            same("a Get", second.ask(wire.get(b"a")), wire.value(b"1"))
        time.sleep(0.3)
        with wire.opened(server.address) as late:
            same("a Get when they have left", late.ask(wire.get(b"a")), wire.value(b"1"))


def a_full_map_serves_on(program: Path) -> None:
    """A map whose memory is full refuses a new key with 9. It takes all else, and if keys go it takes new ones."""
    value, keys = bytes(200), []
    with started(program, "--memory", "6", "--stripes", "1") as server, wire.opened(server.address) as client:
        while len(keys) < 20_000 and client.ask(wire.put(b"%d" % len(keys), value)) == wire.NOTHING:
            keys.append(b"%d" % len(keys))
        same("how many keys there is room for", 5_000 <= len(keys) <= 10_000, True)
        same("one key more", client.ask(wire.put(b"more", value)), wire.refused(9))
        same("a present key", client.ask(wire.put(keys[0], b"new")), wire.value(value))
        with wire.opened(server.address) as late:
            same("a Get of a later client", late.ask(wire.get(keys[0])), wire.value(b"new"))
        for key in keys[1:]:
            same("a Remove", client.ask(wire.remove(key)), wire.value(value))
        same("a new key when there is room", client.ask(wire.put(b"more", value)), wire.NOTHING)


def programs_have_a_share(program: Path) -> None:
    """Programs of more than a sixteenth of the memory are refused with 9; those that are known are taken, and so are entries."""
    begin, end = bytes.fromhex("b705000001000000"), bytes.fromhex("b7000000ffffffff 9500000000000000")
    long = [wire.register((64, 0, 8, 8), begin * (3998 + more) + end) for more in range(4)]
    with started(program, "--memory", "6") as server, wire.opened(server.address, 2) as client:
        for number, sent in enumerate(long[:3]):
            same("one of three programs of 4,000 units", client.ask(sent), b"\x81" + wire.number_field(number))
        same("a fourth", client.ask(long[3]), wire.refused(9))
        with wire.opened(server.address, 2) as late:
            same("the first again", late.ask(long[0]), b"\x81" + wire.number_field(0))
            same("an entry", late.ask(wire.put(b"a", b"1")), wire.NOTHING)


def heavy_clients_make_room(program: Path) -> None:
    """Clients that are owed more than their share, all together, are let go; one that is owed nothing stays, and new ones come."""
    requests = wire.frames([wire.get(b"long")] * 2000)
    with contextlib.ExitStack() as stack:
        server = stack.enter_context(started(program, "--workers", "1", "--memory", "12"))
        light = stack.enter_context(wire.opened(server.address, 2))
        same("a Put", light.ask(wire.put(b"long", bytes(1024))), wire.NOTHING)
        before = len(descriptors_of(server))
        deaf = [stack.enter_context(wire.opened(server.address, 2)) for _ in range(40)]
        for client in deaf:
            client.socket.setblocking(False)
        until = time.monotonic() + 2 * SOON
        while time.monotonic() < until and len(descriptors_of(server)) - before > 20:
            for client in deaf:
                with contextlib.suppress(BlockingIOError, ConnectionError):
                    client.socket.send(requests)
            same("a Get beside them", light.ask(wire.get(b"long")), wire.value(bytes(1024)))
        same("how many deaf ones are left", len(descriptors_of(server)) - before <= 20, True)
        with wire.opened(server.address, 2) as late:
            same("a Get of a later client", late.ask(wire.get(b"long")), wire.value(bytes(1024)))


def ends_within(client: wire.Client, seconds: float) -> float | None:
    """After how long the client's stream ends; none if it does not in time."""
    begun = time.monotonic()
    client.socket.settimeout(seconds)
    try:
        client.rest()
    except TimeoutError:
        return None
    return time.monotonic() - begun


def silent_clients_are_let_go(program: Path) -> None:
    """A client that says nothing for a second is let go, and one that asks now and then is not."""
    with started(program, "--workers", "2", "--idle", "1") as server:
        with wire.opened(server.address) as busy, wire.opened(server.address) as silent:
            begun = time.monotonic()
            while time.monotonic() - begun < 2.5:
                same("a Put", busy.ask(wire.put(b"a", b""))[:1], b"\x82")
                time.sleep(0.2)
            after = ends_within(silent, 1.0)
            same("the silent one is let go", after is not None, True)
            same("a Get by the busy one", busy.ask(wire.get(b"a")), wire.value(b""))


def drips_end(program: Path) -> None:
    """A client is refused, and sends a byte now and then: it is let go after half a second, and the worker serves the next one."""
    with started(program, "--workers", "1") as server:
        with wire.opened(server.address) as client:
            client.send(b"\x7f")
            same("the refusal", client.answer(), wire.refused(61))
            begun = time.monotonic()
            with contextlib.suppress(ConnectionError):
                while time.monotonic() - begun < 10:
                    client.socket.send(b"\x00")
                    time.sleep(0.1)
            same("it is let go in time", time.monotonic() - begun < 2, True)
        with wire.opened(server.address) as next_one:
            same("a Put by the next one", next_one.ask(wire.put(b"a", b"1")), wire.NOTHING)


def deaf_clients_are_let_go(program: Path) -> None:
    """A client that takes nothing of its answers for a second is let go, although it goes on to send; one that takes them is not."""
    with started(program, "--workers", "1", "--idle", "1") as server, wire.opened(server.address, 2) as busy:
        same("a Put", busy.ask(wire.put(b"long", bytes(1024))), wire.NOTHING)
        before = len(descriptors_of(server))
        with wire.opened(server.address, 2) as deaf:
            deaf.socket.setblocking(False)
            requests = wire.frames([wire.get(b"long")] * 64)
            begun = time.monotonic()
            while time.monotonic() - begun < 8 and (time.monotonic() - begun < 1 or len(descriptors_of(server)) > before):
                with contextlib.suppress(BlockingIOError, ConnectionError):
                    deaf.socket.send(requests)
                same("a Get beside it", busy.ask(wire.get(b"long")), wire.value(bytes(1024)))
                time.sleep(0.01)
            same("the deaf one is let go", len(descriptors_of(server)), before)


def sessions_are_counted_at_once(program: Path) -> None:
    """A worker that serves three sessions has three clients at once; a fourth one is not answered, and the server ends with the three."""
    with started(program, "--workers", "1", "--sessions", "3") as server:
        with contextlib.ExitStack() as stack:
            three = [stack.enter_context(wire.opened(server.address)) for _ in range(3)]
            fourth = stack.enter_context(wire.Client(server.address))
            fourth.send(wire.HELLO)
            same("a fourth one is answered", is_answered(fourth, 0.3), False)
            same("a Put", three[0].ask(wire.put(b"a", b"1")), wire.NOTHING)
            same("a Get by another", three[1].ask(wire.get(b"a")), wire.value(b"1"))
        same("the status", server.finish(), 0)
        same("what is printed", server.printed, b"ready\nserved 3\n")


def workers_without_descriptors_are_told(program: Path) -> None:
    """There is no descriptor for each worker: the server does not begin."""
    run = subprocess.run(
        [str(program), "--listen", "127.0.0.1:0", "--workers", "32"], stdin=subprocess.DEVNULL, capture_output=True, timeout=wire.PATIENCE,
        preexec_fn=lambda: resource.setrlimit(resource.RLIMIT_NOFILE, (16, 16)), check=False)
    same("the status and what is printed", (run.returncode, run.stdout), (3, b""))
    same("what is told", run.stderr[:14], b"failed listen\n")


def one_worker_answers_each(program: Path) -> None:
    """One worker has two clients, one after the other, of which each is answered what it asks."""
    with started(program, "--workers", "1", "--sessions", "2") as server:
        with wire.opened(server.address) as first:
            same("a Put", first.ask(wire.put(b"a", b"1")), wire.NOTHING)
            same("a Put", first.ask(wire.put(b"b", b"2")), wire.NOTHING)
            same("a Get", first.ask(wire.get(b"a")), wire.value(b"1"))
        with wire.opened(server.address) as second:
            same("a Get by the other", second.ask(wire.get(b"b")), wire.value(b"2"))
        same("the status", server.finish(), 0)
        same("what is printed", server.printed, b"ready\nserved 2\n")


PARTS = (accepts_are_tried_again, failed_accepts_end_the_server, a_failed_port_ends_the_server, missing_threads_are_told,
         clients_beyond_the_limit_are_told, a_full_map_serves_on, programs_have_a_share, heavy_clients_make_room,
         silent_clients_are_let_go, deaf_clients_are_let_go, drips_end, one_worker_answers_each, sessions_are_counted_at_once,
         workers_without_descriptors_are_told)


def main() -> None:
    words = argparse.ArgumentParser()
    words.add_argument("--program", type=Path, default=wire.SERVER)
    words.add_argument("--only", default="")
    given = words.parse_args()
    failed = 0
    tried = [part for part in PARTS if given.only in part.__name__]
    for part in tried:
        try:
            part(given.program)
        except (Wrong, wire.Ended, OSError, subprocess.SubprocessError) as wrong:
            failed += 1
            print(f"server_limits: FAILED: {part.__name__}: {type(wrong).__name__}: {wrong}")
    print(f"server_limits: {len(tried)} parts, {failed} failed")
    sys.exit(bool(failed))


if __name__ == "__main__":
    main()
