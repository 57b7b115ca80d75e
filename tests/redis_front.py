#!/usr/bin/env python3
"""The built mapd with a Redis port: the rows of redis_rows.txt in one piece and in pieces, and parts that no row can show: both ports on
one map, too many clients, memory that is refused, clients that don't read, scans beside changes, and the lines at the start.

By hand, after `rt run` in crates/mapd: python3 tests/redis_front.py. Another server is tried by --program; if that is redis-server,
only the rows below [redis] are tried. --only names a part. MAPD_IS_CHECKED says that the program is built with checks, so that its
memory can't be bounded. By .ci/run behind the gate."""
from __future__ import annotations

import argparse
import contextlib
import itertools
import os
import random
import re
import resource
import socket
import subprocess
import sys
import time
from collections.abc import Iterator
from dataclasses import dataclass
from pathlib import Path

sys.path.insert(0, str(Path(__file__).resolve().parent))
sys.dont_write_bytecode = True
import crowd  # noqa: E402
import redis_linear  # noqa: E402
import redis_streams as streams  # noqa: E402
import redis_times as times  # noqa: E402
import redis_wire as resp  # noqa: E402
import sequential as model  # noqa: E402
import wire  # noqa: E402
from redis_wire import Client, Front, started  # noqa: E402
from wire import Wrong, same  # noqa: E402

ROWS = Path(__file__).resolve().parent / "redis_rows.txt"
WORD = re.compile(r'"((?:[^"\\]|\\.)*)"|(\S+)')
ESCAPE = re.compile(r"\\(x[0-9a-fA-F]{2}|.)|\{(.*?)\*(\d+)\}|@SUM")
ESCAPES = {"r": b"\r", "n": b"\n", "t": b"\t", "0": b"\0"}
ADD = model.PROGRAMS[model.ADD]
# The commands whose bytes are changed.
KINDS = streams.COMMANDS + times.Times(lambda: time.time_ns() // 1_000_000).commands()
# What stands in place of some bytes when a stream is changed.
PIECES = (b"", b"\r\n", b"*", b"$", b"-", b"1", b"\0", b"999999")


def unescaped(text: str) -> bytes:
    """The bytes that a text of a row means."""
    sent, at = b"", 0
    for found in ESCAPE.finditer(text):
        sent += text[at:found.start()].encode() + escaped(found)
        at = found.end()
    return sent + text[at:].encode()


def escaped(found: re.Match[str]) -> bytes:
    """What an escape of a row stands for."""
    if found[0] == "@SUM":
        return redis_linear.SUM_NAME
    if found[3]:
        return found[2].encode() * int(found[3])
    return bytes([int(found[1][1:], 16)]) if found[1][0] == "x" and len(found[1]) == 3 else ESCAPES.get(found[1], found[1].encode())


def words_of(line: str) -> list[bytes]:
    """The words of a command in a row."""
    return [unescaped(found[1] if found[1] is not None else found[2]) for found in WORD.finditer(line)]


@dataclass
class Row:
    """A row: what is sent, what is answered, and whether the server then ends the connection."""
    name: str
    is_of_redis: bool
    sent: bytes = b""
    answer: bytes = b""
    is_ended: bool = False


def rows() -> Iterator[Row]:
    """The rows of redis_rows.txt."""
    is_of_redis, row = False, None
    for line in ROWS.read_text(encoding="utf-8").split("\n"):
        if line.startswith("#"):
            continue
        if line in ("[redis]", "[mapd]"):
            is_of_redis = line == "[redis]"
        elif not line:
            if row:
                yield row
            row = None
        elif row is None:
            row = Row(line, is_of_redis)
        else:
            add_line(row, line)


def add_line(row: Row, line: str) -> None:
    """Takes a line of a row into it."""
    mark, text = line[:1], line[2:]
    if mark == ">":
        row.sent += resp.command(*words_of(text))
    elif mark == "!":
        row.sent += unescaped(text)
    elif mark == "<":
        row.answer += unescaped(text) + b"\r\n"
    elif line == ".":
        row.is_ended = True
    else:
        raise Wrong(f"no line of a row: {line}")


def answered(address: str, row: Row, size: int) -> tuple[bytes, bool]:
    """What a row is answered if it is sent in pieces of this size, and whether the server ends the connection."""
    with Client(address) as client:
        with contextlib.suppress(ConnectionError):
            for at in range(0, len(row.sent), size):
                client.socket.sendall(row.sent[at:at + size])
        if row.is_ended:
            return client.rest(), True
        client.send("ECHO", "the end of the row")
        return client.until(resp.value(b"the end of the row")), False


def play_rows(program: Path) -> int:
    """Plays all rows that this server has, each on an empty map; how many failed."""
    failed = 0
    with started(program, "--workers", "2") as server, Client(server.address) as cleaner:
        told = [row for row in rows() if row.is_of_redis or server.frames]
        for row in told:
            for size in (len(row.sent), 1460, *((5, 1) if len(row.sent) < 5000 else ())):
                same("a FLUSHALL", cleaner.ask("FLUSHALL"), resp.OK)
                try:
                    same("the answer", answered(server.address, row, max(1, size)), (row.answer, row.is_ended))
                except (Wrong, wire.Ended, OSError) as wrong:
                    failed += 1
                    print(f"redis_front: FAILED: row '{row.name}' in pieces of {size}: {type(wrong).__name__}: {wrong}")
                    break
    print(f"redis_front: {len(told)} rows, {failed} failed")
    return failed


def both_ports_have_one_map(program: Path) -> None:
    """Each port's clients see what the other's do, and both run one program."""
    with started(program) as server, wire.opened(server.frames, 2) as framed, Client(server.address) as client:
        same("a SET", client.ask("SET", "a", "1"), resp.OK)
        same("a Get of it", framed.ask(wire.get(b"a")), wire.value(b"1"))
        same("a Put", framed.ask(wire.put(b"a", b"41")), wire.value(b"1"))
        same("an INCR of it", client.ask("INCR", "a"), resp.integer(42))
        digest = resp.text_of(client.ask("SCRIPT", "LOAD", resp.SUM_SCRIPT))
        first = framed.ask(wire.register(ADD.sizes, ADD.code))
        number = int.from_bytes(first[1:], "big")
        same("a Merge", framed.ask(wire.merge(b"sum", model.spelled(2), number)), wire.value(model.spelled(2)))
        same("an EVALSHA", client.ask("EVALSHA", digest, 1, "sum", 3), resp.integer(5))
        same("the program again", framed.ask(wire.register(ADD.sizes, ADD.code)), first)


def ports_are_told(program: Path) -> None:
    """The lines at the start say which port is which; one port is enough, and none is a fault of the command line."""
    with started(program) as server:
        same("the first line", re.fullmatch(r"listening on 127\.0\.0\.1:[1-9]\d*", server.told[0]) is not None, True)
        same("the second line", re.fullmatch(r"redis on 127\.0\.0\.1:[1-9]\d*", server.told[1]) is not None, True)
        taken = subprocess.run([program, "--listen", "127.0.0.1:0", "--redis", server.address], capture_output=True, timeout=wire.PATIENCE,
                               check=False)
        same("a port that is taken", (taken.returncode, taken.stdout, taken.stderr.count(b"failed listen")), (3, b"", 1))
    alone = Front(program, has_frames=False)
    try:
        with Client(alone.address) as client:
            same("a PING of the only port", client.ask("PING"), b"+PONG\r\n")
    finally:
        alone.end()
    none = subprocess.run([program], capture_output=True, timeout=wire.PATIENCE, check=False)
    same("no port", (none.returncode, none.stdout), (2, b""))


def clients_are_counted_together(program: Path) -> None:
    """If one more client than there may be comes to either port, it is told so in that port's protocol; others go on."""
    with started(program, "--clients", "2") as server:
        with wire.opened(server.frames) as framed, Client(server.address) as client:
            same("a PING", client.ask("PING"), b"+PONG\r\n")
            with Client(server.address) as third:
                same("one more client of the Redis port is told", third.rest(), resp.NO_ROOM)
            with wire.Client(server.frames) as third:
                same("one more of the other port is told", third.rest(), wire.frame(wire.refused(9)))
            same("a Get", framed.ask(wire.get(b"a")), wire.NOTHING)
            same("a PING after that", client.ask("PING"), b"+PONG\r\n")


def sessions_are_counted_together(program: Path) -> None:
    """A worker that takes two clients takes one of each port, and ends when both have left."""
    with started(program, "--workers", "1", "--sessions", "2") as server:
        with wire.opened(server.frames) as framed, Client(server.address) as client:
            same("a SET", client.ask("SET", "a", "1"), resp.OK)
            same("a Get", framed.ask(wire.get(b"a")), wire.value(b"1"))
        printed, _ = server.process.communicate(timeout=wire.PATIENCE)
        same("its end", (server.process.returncode, printed), (0, b"served 2\n"))


def silent_clients_are_let_go(program: Path) -> None:
    """A client that sends nothing for a second is let go, and one that asks is not."""
    with started(program, "--idle", "1") as server, Client(server.address) as busy, Client(server.address) as quiet:
        same("a PING", quiet.ask("PING"), b"+PONG\r\n")
        until = time.monotonic() + 3
        while time.monotonic() < until:
            same("a PING by the busy one", busy.ask("PING"), b"+PONG\r\n")
            time.sleep(0.1)
        same("what the silent one is told", quiet.rest(), b"")


def unread_answers_wait(program: Path) -> None:
    """A client asks for 40 MB and reads nothing: the server keeps little of that, and serves others. Then it reads, and all is there."""
    count = 40_000
    with started(program, "--workers", "1") as server, Client(server.address) as deaf, Client(server.address) as busy:
        same("a SET", busy.ask("SET", "a", b"v" * 1024), resp.OK)
        before = resp.resident(server)
        deaf.socket.setblocking(False)
        sent, asked = resp.command("GET", "a") * count, 0
        until = time.monotonic() + 1
        while asked < len(sent) and time.monotonic() < until:
            with contextlib.suppress(BlockingIOError):
                asked += deaf.socket.send(sent[asked:asked + 65536])
            same("a GET beside it", busy.ask("STRLEN", "a"), resp.integer(1024))
        if "MAPD_IS_CHECKED" not in os.environ:
            same("less than four megabytes are kept", resp.resident(server) - before < 4 << 20, True)
        read_all(deaf, sent, asked, count)


def read_all(client: Client, sent: bytes, asked: int, count: int) -> None:
    """Sends what is left of these GETs, and reads all values."""
    wanted, got = count * len(resp.value(b"v" * 1024)), 0
    client.socket.setblocking(True)
    while got < wanted:
        if asked < len(sent):
            client.socket.setblocking(False)
            with contextlib.suppress(BlockingIOError):
                asked += client.socket.send(sent[asked:asked + 65536])
            client.socket.setblocking(True)
        client.fill()
        got += len(client.kept)
        client.kept.clear()
    same("the bytes of all values", got, wanted)


def memory_runs_out(program: Path) -> None:
    """Puts new keys until memory is refused: each reply says whether its key is there. Keys that are removed make room again. If memory for
    a command of many words is refused, nothing is changed, and its client is let go."""
    if "MAPD_IS_CHECKED" in os.environ:
        return
    server = Front(program, ["--workers", "2"], kib=230_000)
    try:
        with Client(server.address) as client, Client(server.address) as other:
            replies = [client.ask("SET", f"key {number}", b"v" * 1024) for number in range(100_000)]
            taken = replies.count(resp.OK)
            same("the replies", set(replies), {resp.OK, resp.NO_MEMORY})
            same("how many keys there are", client.ask("DBSIZE"), resp.integer(taken))
            there = [client.ask("EXISTS", f"key {number}") == b":1\r\n" for number in range(100_000)]
            same("which keys are there", there, [reply == resp.OK for reply in replies])
            same("a PING", client.ask("PING"), b"+PONG\r\n")
            some = list(itertools.compress(itertools.count(), there))
            few, many = some[:200], some[200:1200]
            same("each of few keys is removed", {client.ask("DEL", f"key {number}") for number in few}, {resp.integer(1)})
            same("none of them is there", {client.ask("EXISTS", f"key {number}") for number in few}, {resp.integer(0)})
            same("each is put again", {client.ask("SET", f"key {number}", b"w" * 1024) for number in few}, {resp.OK})
            removed = client.ask("DEL", *(f"key {number}" for number in many))
            same("many keys are removed, or the command is refused", removed in (resp.integer(len(many)), resp.NO_MEMORY), True)
            same("how many keys are left", other.ask("DBSIZE"), resp.integer(taken - len(many) * (removed != resp.NO_MEMORY)))
    finally:
        server.end()


def longest_commands_need_little_stack(program: Path) -> None:
    """Commands of 4,096 words, the longest values and scripts, by workers whose stacks have 256 KiB."""
    if "MAPD_IS_CHECKED" in os.environ:
        return
    server = Front(program, ["--workers", "2"], limit=lambda: resource.setrlimit(resource.RLIMIT_STACK, (256 << 10, 256 << 10)))
    try:
        with Client(server.address) as client:
            names = [f"name {number}" for number in range(4095)]
            same("an MSET of 2,047 keys", client.ask("MSET", *(word for name in names[:2047] for word in (name, name))), resp.OK)
            values = [resp.value(name.encode()) for name in names[:2047]]
            same("an MGET of 4,095 keys", client.ask("MGET", *names), resp.array(*values, *[resp.NOTHING] * 2048))
            same("an EXISTS of 4,095 keys", client.ask("EXISTS", *names), resp.integer(2047))
            same("a KEYS with many stars", client.ask("KEYS", "*n*a*m*e*?*?*?*?*x"), resp.array())
            same("a DEL of 4,095 keys", client.ask("DEL", *names), resp.integer(2047))
            same("the longest value", client.ask("SET", "long", b"v" * 1024), resp.OK)
            same("a SETRANGE of it", client.ask("SETRANGE", "long", 1023, "w"), resp.integer(1024))
            text = "#!bpf compute integer 64 1024 1024 1024\n" + "mov64 r0, 0\n" * 4094 + "mov64 r0, -1\nexit\n"
            same("the longest script", client.ask("SCRIPT", "LOAD", text)[:4], b"$40\r")
            same("a call of it", client.ask("EVAL", text, 1, "long"), resp.NOTHING)
    finally:
        server.end()


def long_commands_take_no_time(program: Path) -> None:
    """Commands that come in thousands of pieces are read in time in proportion to their length, and don't keep others waiting."""
    with started(program, "--workers", "1") as server, Client(server.address) as client, Client(server.address) as other:
        for count, seconds in ((15, 1.0), (60, 2.0)):
            sent = resp.command("DEL", *[b"k" * 65536] * count)
            begun = time.monotonic()
            client.socket.sendall(sent)
            same("a DEL of long words", client.reply()[:4], b"-ERR")
            same("a PING by another", other.ask("PING"), b"+PONG\r\n")
            same(f"{len(sent) >> 20} MB are read within {seconds} s", time.monotonic() - begun < seconds, True)
        pairs = [word for number in range(2047) for word in (f"key {number}", b"v" * 1024)]
        begun = time.monotonic()
        same("an MSET of 2 MB", client.ask("MSET", *pairs), resp.OK)
        same("it is made within a second", time.monotonic() - begun < 1, True)


def all_words_have_a_limit(program: Path) -> None:
    """A command with 4 MiB of words is read, and one with a byte more is refused as soon as the length of a word says so."""
    with started(program) as server, Client(server.address) as client:
        front = b"*65\r\n$3\r\nDEL\r\n" + (b"$65536\r\n" + b"k" * 65536 + b"\r\n") * 63
        client.socket.sendall(front + b"$65533\r\n" + b"k" * 65533 + b"\r\n")
        same("a DEL of 4 MiB", client.reply()[:4], b"-ERR")
        client.socket.sendall(front + b"$65534")
        same("one with a byte more", client.reply(), b"-ERR Protocol error: too big command\r\n")


def patterns_take_no_time(program: Path) -> None:
    """Patterns of many stars on keys that nearly match them are decided at once."""
    with started(program) as server, Client(server.address) as client:
        client.socket.settimeout(5)
        same("a SET", client.ask("SET", "a" * 64, "1"), resp.OK)
        same("a KEYS of 31 stars", client.ask("KEYS", "*a" * 31 + "b"), resp.array())
        same("a KEYS of 31 stars that match", client.ask("KEYS", "*a" * 31 + "*"), resp.array(resp.value(b"a" * 64)))
        same("a KEYS of 20,000 stars", client.ask("KEYS", "*" * 20_000 + "b"), resp.array())
        same("a SCAN of 31 stars", resp.members_of(client.ask("SCAN", 0, "MATCH", "*a*?" * 15 + "b", "COUNT", 1000))[1], resp.array())


def scans_give_what_stays(program: Path) -> None:
    """Keys come and go beside an iteration of SCAN: each key that is there all along is given, and no page is much longer than COUNT."""
    kept = {b"kept:%d" % number for number in range(5000)}
    with started(program, "--stripes", "4") as server, Client(server.address) as client, Client(server.address) as other:
        client.socket.sendall(b"".join(resp.command("SET", name, "1") for name in kept))
        same("the SETs", {client.reply() for _ in kept}, {resp.OK})
        for count in (10, 100, 5000):
            cursor, given, turn = b"0", set(), 0
            while cursor != b"0" or turn == 0:
                reply = resp.members_of(client.ask("SCAN", cursor, "COUNT", count))
                cursor, names = resp.text_of(reply[0]), list(map(resp.text_of, resp.members_of(reply[1])))
                same(f"a page of COUNT {count} is no longer than that and a few", len(names) <= count + 10, True)
                given.update(names)
                turn += 1
                other.ask("MSET", *(word for place in range(20) for word in (f"new:{turn}:{place}", "1")))
                other.ask("DEL", *(f"new:{turn - 1}:{place}" for place in range(20)))
            same(f"keys that COUNT {count} leaves out", kept - given, set())


def thousand_clients_are_served(program: Path) -> None:
    """A thousand clients at once count a key of their own and one that all share; each costs little memory."""
    with started(program, "--clients", "1100") as server, contextlib.ExitStack() as stack:
        before = resp.resident(server)
        clients = [stack.enter_context(Client(server.address)) for _ in range(1000)]
        same("PINGs", {client.ask("PING") for client in clients}, {b"+PONG\r\n"})
        each = (resp.resident(server) - before) / len(clients)
        print(f"redis_front: a client costs {each:.0f} bytes of the server's memory")
        for client in clients:
            client.socket.sendall(resp.command("INCR", f"own {id(client)}") + resp.command("INCR", "shared"))
        answers = [(client.reply(), client.reply()) for client in clients]
        same("each one's own count", {own for own, _ in answers}, {b":1\r\n"})
        same("the shared counts", sorted(int(shared[1:]) for _, shared in answers), list(range(1, len(clients) + 1)))


def cut_commands_are_not_made(program: Path) -> None:
    """A connection that ends, or is reset, in the middle of a command leaves that command undone, and those before it done."""
    with started(program) as server, Client(server.address) as judge:
        sent = resp.command("SET", "first", "1") + resp.command("SET", "second", "2")
        for size in range(len(sent)):
            same("a DEL", judge.ask("DEL", "first", "second")[:1], b":")
            client = wire.Client(server.address)
            client.socket.sendall(sent[:size])
            if size % 2:
                client.close_writing()
                is_first = size >= len(sent) // 2
                same(f"what is answered up to byte {size}", client.rest(), resp.OK if is_first else b"")
                same(f"what is there after byte {size}", judge.ask("EXISTS", "first"), resp.integer(is_first))
            else:
                client.reset()
            same(f"what is not there after byte {size}", judge.ask("EXISTS", "second"), b":0\r\n")


def lasting_command(dice: random.Random) -> bytes:
    """A command, spelled, that ends no server, even if one of its bytes is changed."""
    spelled = streams.spelled(dice, streams.some_command(dice, KINDS))
    return lasting_command(dice) if b"SHUTDOWN" in spelled.upper() else spelled


def changed_bytes_end_nobody_else(program: Path) -> None:
    """Streams of commands with bytes changed, left out or doubled: whatever comes of them, the server goes on and serves others."""
    dice = random.Random(1)
    with started(program, "--workers", "2") as server, Client(server.address) as neighbour:
        until, count = time.monotonic() + 4, 0
        while time.monotonic() < until:
            sent = bytearray(b"".join(lasting_command(dice) for _ in range(dice.randrange(1, 8))))
            for _ in range(dice.choice((1, 1, 2, 5))):
                place = dice.randrange(len(sent))
                sent[place:place + dice.randrange(3)] = dice.choice((*PIECES, dice.randbytes(1)))
            with Client(server.address) as client:
                client.socket.sendall(sent)
                client.socket.shutdown(socket.SHUT_WR)
                client.rest()
            same("an ECHO by another", neighbour.ask("ECHO", count), resp.value(b"%d" % count))
            count += 1
        print(f"redis_front: {count} streams with changed bytes")


def what_tools_ask(program: Path) -> None:
    """What libraries and tools ask at their start: HELLO, CLIENT, CONFIG GET and INFO."""
    with started(program) as server, Client(server.address) as client, Client(server.address) as other:
        hello = resp.members_of(client.ask("HELLO", 2))
        same("the protocol of HELLO", resp.array(*hello[4:6]), resp.array(resp.value(b"proto"), resp.integer(2)))
        ids = [int(one.ask("CLIENT", "ID")[1:]) for one in (client, other)]
        same("two clients have two numbers", ids[0] != ids[1], True)
        same("a parameter that nobody has", client.ask("CONFIG", "GET", "nothing-of-that-kind"), resp.array())
        told = list(map(resp.text_of, resp.members_of(client.ask("CONFIG", "GET", "save"))))
        same("CONFIG GET save", told, [b"save", b""])
        client.ask("SET", "a", "1")
        fields = dict(line.split(b":", 1) for line in resp.text_of(client.ask("INFO")).split(b"\r\n") if b":" in line)
        for name in (b"redis_version", b"redis_mode", b"uptime_in_seconds", b"used_memory", b"connected_clients", b"blocked_clients", b"rdb_last_save_time",
                     b"rdb_last_bgsave_status", b"total_commands_processed", b"total_connections_received", b"rejected_connections",
                     b"expired_keys", b"keyspace_hits", b"keyspace_misses"):
            same(f"INFO has {name.decode()}", name in fields, True)
        client.ask("GET", "a"), client.ask("GET", "b")
        more = dict(line.split(b":", 1) for line in resp.text_of(client.ask("INFO", "stats")).split(b"\r\n") if b":" in line)
        for name, many in ((b"total_commands_processed", 3), (b"keyspace_hits", 1), (b"keyspace_misses", 1)):
            same(f"how much INFO's {name.decode()} grows", int(more[name]) - int(fields[name]), many)
        same("INFO about one section has no other", b"db0" in more, False)
        memory = dict(line.split(b":", 1) for line in resp.text_of(client.ask("INFO", "memory", "replication")).split(b"\r\n") if b":" in line)
        resident = next(line for line in Path(f"/proc/{server.process.pid}/status").read_text().splitlines() if line.startswith("VmRSS"))
        same("used_memory is what the system says, within a tenth", abs(int(memory[b"used_memory"]) - int(resident.split()[1]) * 1024) * 10 < int(memory[b"used_memory"]), True)
        same("INFO about two sections has both", b"role" in memory, True)
        same("INFO has the number of keys", fields[b"db0"].split(b",")[0], b"keys=1")


PARTS = (ports_are_told, both_ports_have_one_map, clients_are_counted_together, sessions_are_counted_together, silent_clients_are_let_go,
         cut_commands_are_not_made, changed_bytes_end_nobody_else, unread_answers_wait, memory_runs_out, longest_commands_need_little_stack,
         patterns_take_no_time, long_commands_take_no_time, all_words_have_a_limit, scans_give_what_stays, thousand_clients_are_served, what_tools_ask)


def main() -> None:
    words = argparse.ArgumentParser()
    words.add_argument("--program", type=Path, default=wire.SERVER)
    words.add_argument("--only", default="")
    given = words.parse_args()
    crowd.allow_descriptors(4096)
    failed = 0 if given.only else play_rows(given.program)
    tried = [part for part in PARTS if given.only in part.__name__] if given.program.name != "redis-server" else []
    for part in tried:
        try:
            part(given.program)
        except (Wrong, wire.Ended, OSError, subprocess.SubprocessError) as wrong:
            failed += 1
            print(f"redis_front: FAILED: {part.__name__}: {type(wrong).__name__}: {wrong}")
    print(f"redis_front: {len(tried)} parts, {failed} failed in all")
    sys.exit(bool(failed))


if __name__ == "__main__":
    main()
