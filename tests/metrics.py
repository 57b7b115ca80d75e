#!/usr/bin/env python3
"""The port of `mapd --metrics`: each path and method, heads that come in pieces or are wrong, readers that hang, and the numbers after
calls that are known. If promtool is installed, it reads the page too.

By hand, after `rt run` in crates/mapd: python3 tests/metrics.py. --only names a part. By .ci/run behind the gate."""
from __future__ import annotations

import contextlib
import json
import random
import re
import shutil
import socket
import subprocess
import sys
import tempfile
import time
import urllib.request
from collections.abc import Callable, Iterator
from concurrent.futures import ThreadPoolExecutor
from pathlib import Path
from typing import NamedTuple

sys.path.insert(0, str(Path(__file__).resolve().parent))
sys.dont_write_bytecode = True
import redis_wire  # noqa: E402
import wire  # noqa: E402
from wire import Wrong, same  # noqa: E402

GAUGES = {"mapd_entries", "mapd_resident_bytes", "mapd_uptime_seconds", "mapd_clients", "mapd_last_save_seconds", "mapd_save_failing",
          "mapd_longest_wait_microseconds", "mapd_longest_hold_microseconds", "mapd_bytes"}
COUNTERS = {f"mapd_{name}_total" for name in
            ("clients_came", "clients_refused", "commands", "requests", "walks", "refusals", "expired", "hits", "misses", "stripe_waits")}
# What changes by itself.
PASSING = {"mapd_resident_bytes", "mapd_uptime_seconds", "mapd_stripe_waits_total", "mapd_longest_wait_microseconds",
           "mapd_longest_hold_microseconds", "mapd_bytes"}
# Those that come in several lines, each with a label of this key.
LABELS = {"mapd_commands_total": "command", "mapd_requests_total": "request", "mapd_refusals_total": "number", "mapd_bytes": "kind"}
DASHBOARD = Path(__file__).resolve().parent.parent / "docs" / "dashboard.json"
TYPE = "text/plain; version=0.0.4; charset=utf-8"
HEAD_BYTES = 4096
# How long a reader may take, and what comes on top of that at most.
READER_SECONDS, SLACK = 2.0, 3.0


class Ports(NamedTuple):
    """A server and its three addresses."""

    server: wire.Server
    frames: str
    commands: str
    metrics: str


@contextlib.contextmanager
def started(program: Path, *options: str) -> Iterator[Ports]:
    """A server with all three ports and these options."""
    with wire.started(program, "--redis", "127.0.0.1:0", "--metrics", "127.0.0.1:0", *options) as server:
        if not server.is_ready():
            raise Wrong(f"the server isn't ready: {server.process.stderr.read()!r:.300}")
        commands, metrics = (server.process.stderr.readline().decode().strip() for _ in range(2))
        same("the line of the Redis port", commands.startswith("redis on 127.0.0.1:"), True)
        same("the line of the metrics' port", metrics.startswith("metrics on 127.0.0.1:"), True)
        yield Ports(server, server.address, commands.removeprefix("redis on "), metrics.removeprefix("metrics on "))


def connected(address: str) -> socket.socket:
    """A connection to the address."""
    host, _, port = address.rpartition(":")
    return socket.create_connection((host, int(port)), timeout=wire.PATIENCE)


def rest_of(connection: socket.socket) -> bytes:
    """All bytes up to the end."""
    return b"".join(iter(lambda: connection.recv(65536), b""))


def exchange(address: str, *pieces: bytes, ends: bool = False) -> bytes:
    """What is answered to these pieces, which are sent one after the other."""
    with connected(address) as connection:
        connection.setsockopt(socket.IPPROTO_TCP, socket.TCP_NODELAY, 1)
        for piece in pieces:
            connection.sendall(piece)
        if ends:
            connection.shutdown(socket.SHUT_WR)
        return rest_of(connection)


def head_and_body(answer: bytes) -> tuple[str, dict[str, str], bytes]:
    """The status line, the fields and the body of an answer."""
    head, _, body = answer.partition(b"\r\n\r\n")
    status, *lines = head.decode().split("\r\n")
    return status, dict(line.split(": ", 1) for line in lines), body


def page_of(address: str) -> str:
    """The page, as a client of HTTP reads it."""
    with urllib.request.urlopen(f"http://{address}/metrics", timeout=wire.PATIENCE) as answer:
        body = answer.read()
        same("the status", answer.status, 200)
        same("the type", answer.headers["Content-Type"], TYPE)
        same("the length", answer.headers["Content-Length"], str(len(body)))
        same("the connection", answer.headers["Connection"], "close")
    return body.decode()


def labelled(address: str) -> dict[str, int]:
    """The numbers with their labels, those of a name after a line of help and one with its type."""
    numbers, names = {}, []
    for text in re.split(r"^# HELP ", page_of(address), flags=re.MULTILINE)[1:]:
        about, kind, *lines = text.splitlines()
        name = about.split(" ")[0]
        names.append(name)
        same("the line of help", re.fullmatch(rf"{name} [A-Z0-9].*\.", about) is not None, True)
        same("the line of the type", kind, f"# TYPE {name} {'gauge' if name in GAUGES else 'counter'}")
        for line in lines:
            series, value = line.split(" ")
            label = rf'{name}\{{{LABELS[name]}="[A-Za-z0-9_|]+"\}}' if name in LABELS else name
            same("the name and the label of a number", re.fullmatch(label, series) is not None, True)
            numbers[series] = int(value)
        same(f"whether {name} has its lines", len(lines) > 1 or name not in LABELS and len(lines) == 1, True)
    same("the names", sorted(names), sorted(GAUGES | COUNTERS))
    return numbers


def told(address: str) -> dict[str, int]:
    """The numbers, each summed over its labels."""
    sums: dict[str, int] = {}
    for series, number in labelled(address).items():
        name = series.split("{")[0]
        sums[name] = sums.get(name, 0) + number
    return sums


Read = Callable[[str], dict[str, int]]


def growth(address: str, calls: Callable[[], None], read: Read = told) -> dict[str, int]:
    """How much each number grows by these calls, if it does; but for memory and time."""
    before = read(address)
    calls()
    after = read(address)
    more = {name: number - before.get(name, 0) for name, number in after.items()}
    return {name: number for name, number in more.items() if number and name.split("{")[0] not in PASSING}


def by_label(address: str, name: str, calls: Callable[[], None]) -> dict[str, int]:
    """How much the numbers of this name grow by these calls, by their labels."""
    more = growth(address, calls, labelled)
    return {series.split('"')[1]: number for series, number in more.items() if series.startswith(name + "{")}


def request(method: str = "GET", target: str = "/metrics", version: str = "HTTP/1.1", fields: int = 1) -> bytes:
    """The head of a request."""
    lines = [f"{method} {target} {version}", *(f"Field-{number}: here" for number in range(fields))]
    return "".join(f"{line}\r\n" for line in lines).encode() + b"\r\n"


def pages_and_heads(program: Path) -> None:
    """Which head has which answer."""
    with started(program) as ports:
        told(ports.metrics)
        rows = [
            (request(), 200), (request(version="HTTP/1.0"), 200), (request(target="/metrics?a=b"), 200), (request("HEAD"), 200), (request(fields=64), 200),
            (request(target="/"), 404), (request(target="/metrics/"), 404), (request(target="/metric"), 404), (request("POST", "/other"), 404),
            (request(target="/Metrics"), 404), (request(target="*"), 404),
            (request("POST"), 405), (request("DELETE", "/metrics?a"), 405), (request("get"), 405), (request("GETS"), 405), (request("HEA"), 405),
            (request(fields=65), 400), (request(version="HTTP/2.0"), 400), (b"hello\r\n\r\n", 400), (b"\0\1\2\3", 400), (b"GET /metrics\r\n\r\n", 400),
            (b"*1\r\n$4\r\nPING\r\n", 400), (b"GET  /metrics HTTP/1.1\r\n\r\n", 400),
        ]
        for sent, number in rows:
            status, fields, body = head_and_body(exchange(ports.metrics, sent))
            same(f"the status of {sent!r:.60}", status.split(" ")[:2], ["HTTP/1.1", str(number)])
            same("whether the method is told", fields.get("Allow"), "GET, HEAD" if number == 405 else None)
            same("whether there is a body", bool(body), number == 200 and not sent.startswith(b"HEAD"))
            if not sent.startswith(b"HEAD"):
                same("the length", fields["Content-Length"], str(len(body)))
        same("the length of a HEAD", int(head_and_body(exchange(ports.metrics, request("HEAD")))[1]["Content-Length"]) > 1000, True)


def pieces_and_ends(program: Path) -> None:
    """Heads that come in single bytes, that are as long as they may be, too long, or end too soon."""
    with started(program) as ports:
        sent = request()
        for pieces in ([bytes([one]) for one in sent], [sent[:-1], sent[-1:]], [b"\r\n\r\n" + sent]):
            same("a head in pieces", exchange(ports.metrics, *pieces).startswith(b"HTTP/1.1 200 "), True)
        long = b"GET /metrics HTTP/1.1\r\nField: "
        for size, number in ((HEAD_BYTES, 200), (HEAD_BYTES + 1, 400), (1_000_000, 400)):
            answer = exchange(ports.metrics, long + b"a" * (size - len(long) - 4) + b"\r\n\r\n") if size <= HEAD_BYTES + 1 else flood(ports.metrics, long, size)
            same(f"a head of {size} bytes", answer[:13], f"HTTP/1.1 {number} ".encode())
        for end in range(1, len(sent)):
            same("a head that ends too soon", exchange(ports.metrics, sent[:end], ends=True)[:13], b"HTTP/1.1 400 ")


def flood(address: str, begin: bytes, size: int) -> bytes:
    """What is answered to a head without an end; the connection may end while it is sent."""
    with connected(address) as connection:
        with contextlib.suppress(ConnectionError):
            connection.sendall(begin + b"a" * size)
        try:
            return rest_of(connection)
        except ConnectionError:
            return b"HTTP/1.1 400 "


def is_quick(what: str, call: Callable[[], object], seconds: float) -> None:
    """The call takes no longer."""
    began = time.monotonic()
    call()
    took = time.monotonic() - began
    if took > seconds:
        raise Wrong(f"{what} took {took:.1f} s, and {seconds} at most are allowed")


def readers_that_hang(program: Path) -> None:
    """Some send nothing, a part of a head, or byte by byte without an end; some don't read. Clients of the map don't notice."""
    with started(program) as ports, contextlib.ExitStack() as stack:
        client = stack.enter_context(wire.opened(ports.frames))
        for sent in (b"", b"GET /met", request()):
            hanging = stack.enter_context(connected(ports.metrics))
            hanging.sendall(sent)
            time.sleep(0.3)
            is_quick("a call beside a reader that hangs", lambda: [client.ask(wire.get(b"key")) for _ in range(20)], 1.0)
        is_quick("the page after readers that hang", lambda: told(ports.metrics), 2 * READER_SECONDS + SLACK)
        with connected(ports.metrics) as slow, contextlib.suppress(ConnectionError):
            is_quick("a reader that drips", lambda: drip(slow), READER_SECONDS + SLACK)
        silent = stack.enter_context(connected(ports.metrics))
        is_quick("the end of a silent reader", lambda: same("what it reads", rest_of(silent), b""), READER_SECONDS + SLACK)
        resets = [connected(ports.metrics) for _ in range(50)]
        for connection in resets:
            connection.setsockopt(socket.SOL_SOCKET, socket.SO_LINGER, b"\1\0\0\0\0\0\0\0")
            connection.close()
        told(ports.metrics)


def drip(connection: socket.socket) -> None:
    """Sends a field without an end, byte by byte, until the connection ends."""
    connection.sendall(b"GET /metrics HTTP/1.1\r\nField: ")
    for _ in range(1000):
        connection.sendall(b"a")
        time.sleep(0.05)


def numbers_after_calls(program: Path) -> None:
    """What is told grows by what clients do."""
    with started(program, "--clients", "2") as ports:
        first = told(ports.metrics)
        same("a number of a new server that isn't 0", {name for name, number in first.items() if number} - PASSING, set())
        same("whether the process has memory", first["mapd_resident_bytes"] > 1_000_000, True)
        with wire.opened(ports.frames) as client, redis_wire.Client(ports.commands) as other:
            other.ask("PING")
            same("clients", growth(ports.metrics, lambda: refused_client(ports)), {"mapd_clients_came_total": 1, "mapd_clients_refused_total": 1})
            same("clients that are there", told(ports.metrics)["mapd_clients"], 2)
            puts = growth(ports.metrics, lambda: [client.ask(wire.put(bytes([name]), b"")) for name in range(10)])
            same("puts", puts, {"mapd_entries": 10, "mapd_requests_total": 10})
            same("a walk", growth(ports.metrics, lambda: other.ask("DBSIZE")), {"mapd_commands_total": 1, "mapd_walks_total": 1})
            reads = growth(ports.metrics, lambda: [other.ask("GET", name) for name in (b"\0", b"\1", b"none")])
            same("reads", reads, {"mapd_commands_total": 3, "mapd_hits_total": 2, "mapd_misses_total": 1})
            same("a key that goes", growth(ports.metrics, lambda: expire(other, ports.metrics)), {"mapd_commands_total": 1, "mapd_expired_total": 1})
        same("the time", told(ports.metrics)["mapd_uptime_seconds"] < 60, True)


def refused_client(ports: Ports) -> None:
    """One client more than there may be."""
    with connected(ports.frames) as late:
        rest_of(late)


def expire(client: redis_wire.Client, metrics: str) -> None:
    """A key that is over soon, and is swept away."""
    client.ask("SET", "soon", "1", "PX", "20")
    for _ in range(100):
        if told(metrics)["mapd_expired_total"]:
            return
        time.sleep(0.1)
    raise Wrong("no key was swept away")


REQUESTS = {
    "get": wire.get(b"a"), "put": wire.put(b"a", b"xy"), "put_if_absent": b"\x12\x01a\0\1z", "remove": wire.remove(b"a"),
    "remove_if": b"\x14\x01a\0\1z", "replace": b"\x15\x01a\0\1z", "replace_if": b"\x16\x01a\0\1z\0\1w", "compute": wire.compute(b"a", 99, None),
    "compute_if_absent": b"\x18" + wire.compute(b"a", 99, None)[1:], "compute_if_present": b"\x19" + wire.compute(b"a", 99, b"b")[1:],
    "merge": wire.merge(b"a", b"b", 99), "search": wire.walk(0x20, 99, None), "for_each": wire.walk(0x21, 99, b"a"),
    "replace_all": wire.walk(0x22, 99, None), "count": b"\x23",
}
# Those that name the program 99, which is not there.
WITHOUT_PROGRAM = ("compute", "compute_if_absent", "compute_if_present", "merge", "search", "for_each", "replace_all")


def kinds_of_requests(program: Path) -> None:
    """Each request is counted by its name, and each refusal by its number."""
    chance = random.Random(11)
    with started(program) as ports, wire.opened(ports.frames) as client:
        for name, sent in REQUESTS.items():
            often = chance.randrange(1, 9)
            more = growth(ports.metrics, lambda: [client.ask(sent) for _ in range(often)], labelled)
            wanted = {f'mapd_requests_total{{request="{name}"}}': often}
            if name in WITHOUT_PROGRAM:
                wanted['mapd_refusals_total{number="66"}'] = often
            same(f"what {name} counts", {series: number for series, number in more.items() if series.split("{")[0] in LABELS}, wanted)
        bad = wire.register((0, 0, 0, 0), b"\x95" + bytes(6))
        same("a program that is refused", by_label(ports.metrics, "mapd_refusals_total", lambda: client.ask(bad)), {"11": 1})
        same("its request", labelled(ports.metrics)['mapd_requests_total{request="register"}'], 1)
        for number, faulty in ((60, bytes(4)), (61, wire.frame(b"\x7f")), (62, wire.frame(b"\x10\x05a")), (63, wire.frame(b"\x23\0")), (64, wire.frame(b"\0\2"))):
            same(f"the fault {number}", by_label(ports.metrics, "mapd_refusals_total", lambda: ended_by(ports, faulty)), {str(number): 1})
        same("all Hellos", labelled(ports.metrics)['mapd_requests_total{request="hello"}'], 6)


def ended_by(ports: Ports, faulty: bytes) -> None:
    """A session that ends since a frame is refused."""
    with wire.opened(ports.frames) as client:
        client.socket.sendall(faulty)
        client.rest()


def kinds_of_commands(program: Path) -> None:
    """Each command is counted by its name, in the page and in INFO."""
    chance = random.Random(12)
    rows = {"get": "GET a", "set": "SET a b", "mget": "MGET a b", "client|id": "CLIENT ID", "config|get": "CONFIG GET save", "config": "CONFIG foo",
            "append": "APPEND a", "unknown": "NONE", "slowlog|len": "SLOWLOG LEN", "dbsize": "DBSIZE", "eval": "EVAL"}
    with started(program, "--workers", "2") as ports, redis_wire.Client(ports.commands) as one, redis_wire.Client(ports.commands) as other:
        sent = {name: chance.randrange(1, 9) for name in rows}

        def ask() -> None:
            for name, often in sent.items():
                for _ in range(often):
                    chance.choice((one, other)).ask(*rows[name].split(" "))

        same("the commands", by_label(ports.metrics, "mapd_commands_total", ask), sent)
        told_by_info = redis_wire.text_of(one.ask("INFO", "commandstats")).decode()
        lines = dict(re.findall(r"^cmdstat_(\S+):calls=(\d+)\r$", told_by_info, re.MULTILINE))
        del sent["unknown"]
        same("INFO commandstats", {name: int(number) for name, number in lines.items()}, {**sent, "info": 1})
        same("whether INFO has it without a word", b"cmdstat_" in redis_wire.text_of(one.ask("INFO")), False)
        same("whether INFO ALL has it", b"cmdstat_" in redis_wire.text_of(one.ask("INFO", "ALL")), True)


def numbers_of_saves_and_memory(program: Path) -> None:
    """The time of a save, and memory that is refused."""
    with tempfile.TemporaryDirectory() as folder, started(program, "--keep", f"{folder}/kept.db", "--memory", "1") as ports:
        with redis_wire.Client(ports.commands) as client:
            began = int(time.time())
            same("SAVE", client.ask("SAVE"), b"+OK\r\n")
            saved = told(ports.metrics)
            same("the time of the save", began - 1 <= saved["mapd_last_save_seconds"] <= int(time.time()), True)
            same("a save that fails", saved["mapd_save_failing"], 0)
            same("errors so far", redis_wire.text_of(client.ask("INFO", "errorstats")), b"# Errorstats\r\n\r\n")
            more = growth(ports.metrics, lambda: same("a SET past the memory", client.ask("SET", "key", "value")[:4], b"-OOM"))
            same("the error in INFO", redis_wire.text_of(client.ask("INFO", "errorstats")), b"# Errorstats\r\nerrorstat_OOM:count=1\r\n\r\n")
            same("the label of refusals", by_label(ports.metrics, "mapd_refusals_total", lambda: client.ask("MSET", "key", "value")), {"OOM": 1})
            with wire.opened(ports.frames) as frames:
                same("the number of refusals", by_label(ports.metrics, "mapd_refusals_total", lambda: frames.ask(wire.put(b"key", b"value"))), {"9": 1})
            same("refusals", more.get("mapd_refusals_total"), 1)
            same("entries", more.get("mapd_entries"), None)


def waits_are_counted(program: Path) -> None:
    """If clients of several workers run long programs on one key, some of their calls wait, and the numbers tell so."""
    sizes, least = (64, 1024, 8, 8), 100
    begin, divide = bytes.fromhex("b705000001000000"), bytes.fromhex("3705000003000000")
    long = begin + divide * 4000 + bytes.fromhex("7a04000001000000 b700000008000000 9500000000000000")
    with started(program, "--workers", "4") as ports, contextlib.ExitStack() as stack:
        same("waits at first", told(ports.metrics)["mapd_stripe_waits_total"] < least, True)
        clients = [stack.enter_context(wire.opened(ports.frames, 2)) for _ in range(8)]
        number = int.from_bytes(clients[0].ask(wire.register(sizes, long))[1:], "big")
        until = time.monotonic() + wire.PATIENCE
        while (found := told(ports.metrics))["mapd_stripe_waits_total"] < least and time.monotonic() < until:
            for client in clients:
                client.send(*[wire.compute(b"key", number, None)] * 64)
            for client in clients:
                for _ in range(64):
                    client.answer()
        same("waits of calls", found["mapd_stripe_waits_total"] >= least, True)
        same("the longest wait", 0 < found["mapd_longest_wait_microseconds"] < 10_000_000, True)


def bytes_of(address: str) -> dict[str, int]:
    """The numbers of bytes, by their kinds."""
    return {series.split('"')[1]: number for series, number in labelled(address).items() if series.startswith("mapd_bytes{")}


def more_bytes(address: str, calls: Callable[[], None]) -> dict[str, int]:
    """How many bytes of each kind come by these calls."""
    before = bytes_of(address)
    calls()
    return {kind: number - before[kind] for kind, number in bytes_of(address).items()}


def bytes_by_kind(program: Path) -> None:
    """Rows grow with entries, the index with keys and deadlines, programs with Registers, and sessions with clients and what they have sent in part."""
    many, value, sizes = 1000, bytes(1000), (64, 1024, 8, 8)
    units = bytes.fromhex("b705000001000000") * 3999 + bytes.fromhex("7a04000001000000 b700000008000000 9500000000000000")
    with started(program, "--workers", "2") as ports:
        same("the kinds", sorted(bytes_of(ports.metrics)), ["index", "programs", "rows", "sessions"])
        same("what is kept for nobody", [bytes_of(ports.metrics)[kind] for kind in ("programs", "sessions")], [0, 0])
        with wire.opened(ports.frames, 2) as client, redis_wire.Client(ports.commands) as other, wire.opened(ports.frames, 2) as fresh:
            other.ask("PING")
            kept = bytes_of(ports.metrics)["sessions"]
            same("what is kept for three clients", 2550 <= kept < 100_000, True)
            more = more_bytes(ports.metrics, lambda: [client.ask(wire.put(b"%d" % number, value)) for number in range(many)])
            same("entries", (more["rows"] >= many * len(value), more["rows"] < 3 * many * len(value), 8 * many < more["index"] < 100 * many), (True, True, True))
            more = more_bytes(ports.metrics, lambda: [other.ask("EXPIRE", b"%d" % number, "3600") for number in range(many)])
            same("deadlines", (more["rows"], 100 * many < more["index"] < 3000 * many), (0, True))
            more = more_bytes(ports.metrics, lambda: [client.ask(wire.register(sizes, units)) for _ in range(3)])
            same("one program, sent three times", more["programs"], 32 * 4002 + 256)
            for one, part in ((fresh, wire.frame(wire.put(b"a", value))[:-1]), (other, b"*2\r\n$3\r\nGET\r\n$900\r\n" + bytes(800))):
                more = more_bytes(ports.metrics, lambda: begin(ports.metrics, one, part))
                same("a request in part", len(part) <= more["sessions"] < 10 * len(part), True)
            same("KEYS", len(redis_wire.members_of(other_walk(ports))), many)
            same("the longest hold", 0 < told(ports.metrics)["mapd_longest_hold_microseconds"] < 10_000_000, True)
        until = time.monotonic() + wire.PATIENCE
        while bytes_of(ports.metrics)["sessions"] and time.monotonic() < until:
            time.sleep(0.05)
        same("what is kept when all have left", bytes_of(ports.metrics)["sessions"], 0)
        panels = json.loads(DASHBOARD.read_text())["panels"]
        asked = {name for panel in panels for target in panel["targets"] for name in re.findall(r"mapd_\w+", target["expr"])}
        same("what the dashboard asks for and nobody tells", asked - set(told(ports.metrics)), set())


def other_walk(ports: Ports) -> bytes:
    """What a walk over all keys finds."""
    with redis_wire.Client(ports.commands) as client:
        return client.ask("KEYS", "*")


def begin(metrics: str, client: wire.Client | redis_wire.Client, part: bytes) -> None:
    """Sends a part of a request, and waits until it is kept."""
    before, until = bytes_of(metrics)["sessions"], time.monotonic() + wire.PATIENCE
    client.socket.sendall(part)
    while bytes_of(metrics)["sessions"] == before and time.monotonic() < until:
        time.sleep(0.01)


def the_server_goes_on(program: Path) -> None:
    """Random bytes and many readers at once; and a server ends in time while a reader hangs."""
    chance = random.Random(7)
    with started(program) as ports, wire.opened(ports.frames) as client, ThreadPoolExecutor(16) as pool:
        for _ in range(50):
            with contextlib.suppress(ConnectionError):
                exchange(ports.metrics, chance.randbytes(chance.randrange(1, 200)), ends=True)
        pages = [pool.submit(told, ports.metrics) for _ in range(64)]
        for page in pages:
            page.result()
        same("a call", client.ask(wire.get(b"key")), wire.NOTHING)
    with started(program, "--workers", "1", "--sessions", "1") as ports, connected(ports.metrics):
        time.sleep(0.3)
        wire.opened(ports.frames).close_writing()
        is_quick("the end of the server", lambda: same("the status", ports.server.finish(), 0), 1.5)
        same("the last line", ports.server.printed, b"ready\nserved 1\n")


def ports_and_passes(program: Path) -> None:
    """A port that is taken, and no pass for the one who counts."""
    with socket.create_server(("127.0.0.1", 0)) as taken:
        address = f"127.0.0.1:{taken.getsockname()[1]}"
        run = subprocess.run([program, "--listen", "127.0.0.1:0", "--metrics", address], capture_output=True, timeout=wire.PATIENCE, check=False)
        same("a port that is taken", (run.returncode, run.stdout, run.stderr.splitlines()[0]), (3, b"", b"failed listen"))
        same("the address in the line", address.encode() in run.stderr, True)
    run = subprocess.run([program, "--listen", "127.0.0.1:0", "--metrics", "127.0.0.1:0", "--workers", "32"],
                         capture_output=True, timeout=wire.PATIENCE, check=False)
    same("too many passes", (run.returncode, run.stdout), (1, b"refused 51 at 0\n"))


def prometheus_reads_it(program: Path) -> None:
    """promtool finds no fault in the page."""
    promtool = shutil.which("promtool")
    if promtool is None:
        print("no promtool here, so Prometheus' own reading was not tried")
        return
    with started(program) as ports:
        run = subprocess.run([promtool, "check", "metrics"], input=page_of(ports.metrics), capture_output=True, text=True, timeout=60, check=False)
        same("what promtool says", (run.returncode, run.stderr), (0, ""))


PARTS = [pages_and_heads, pieces_and_ends, readers_that_hang, numbers_after_calls, kinds_of_requests, kinds_of_commands,
         numbers_of_saves_and_memory, waits_are_counted, bytes_by_kind, the_server_goes_on, ports_and_passes, prometheus_reads_it]


if __name__ == "__main__":
    wire.play_parts("metrics", __doc__.splitlines()[0], PARTS)
