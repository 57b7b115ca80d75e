#!/usr/bin/env python3
"""The built mapd with --password-file: what a client is told before it authenticates, beside a redis-server with requirepass; that nothing
of the map is told or changed before; which files are no password; and tools that give a password.

By hand, after `rt run` in crates/mapd: python3 tests/redis_password.py [--program PROGRAM]. What is compared needs Debian's redis-server,
the tools redis-tools and python3-redis; it says so if one is missing. By .ci/run behind the gate."""
from __future__ import annotations

import argparse
import contextlib
import random
import re
import shutil
import subprocess
import sys
import tempfile
from collections.abc import Iterator
from pathlib import Path

sys.path.insert(0, str(Path(__file__).resolve().parent))
sys.dont_write_bytecode = True
import redis_streams as streams  # noqa: E402
import redis_wire as resp  # noqa: E402
import wire  # noqa: E402
from redis_wire import Client, Front, NotReady, Redis  # noqa: E402
from wire import Wrong, same  # noqa: E402

PASSWORD = "se cret\u00e9"
NOAUTH = resp.error("NOAUTH Authentication required.")
WRONGPASS = resp.error("WRONGPASS invalid username-password pair or user is disabled.")
# Talks that are compared with Redis, each over a connection of its own.
TALKS = [
    [["GET", "a"], ["SET", "a", 1], ["SET", "a"], ["SET", "a", 1, "FOO"], ["MSET", "a", 1, "b"], ["FOO", "x"], ["ECHO", "x"], ["ECHO"], ["SELECT", 0], ["SELECT", 1]],
    [["DEL", "a"], ["INCR", "a"], ["EXPIRE", "a", 1], ["EVAL", "x", 1, "a"], ["EVALSHA", "x", 1, "a"], ["SCRIPT", "LOAD", "x"], ["SCRIPT", "EXISTS", "x"], ["SCRIPT"]],
    [["DBSIZE"], ["SCAN", 0], ["SCAN", "x"], ["KEYS", "*"], ["RANDOMKEY"], ["FLUSHALL"], ["FLUSHDB", "FOO"]],
    [["CLIENT"], ["CLIENT", "FOO"], ["CLIENT", "ID"], ["CLIENT", "ID", 3], ["CLIENT", "SETNAME", "a b"], ["CLIENT", "LIST"], ["CLIENT", "GETNAME"], ["COMMAND"], ["COMMAND", "COUNT"],
     ["CONFIG", "GET", "save"], ["CONFIG"]],
    [["INFO"], ["SAVE"], ["SAVE", "x"], ["BGSAVE"], ["LASTSAVE"], ["SHUTDOWN", "NOSAVE"], ["SHUTDOWN"], ["DEBUG"]],
    [["HELLO"], ["HELLO", 2], ["HELLO", 4], ["HELLO", "x"], ["HELLO", 2, "FOO"], ["HELLO", 2, "SETNAME"], ["HELLO", 2, "SETNAME", "me"], ["HELLO", 2, "SETNAME", "a b"],
     ["HELLO", 2, "AUTH", "default"], ["HELLO", 2, "AUTH", "default", "wrong"], ["HELLO", 2, "AUTH", "you", PASSWORD], ["GET", "a"]],
    [["AUTH"], ["AUTH", "wrong"], ["AUTH", ""], ["AUTH", PASSWORD + "x"], ["AUTH", PASSWORD[:-1]], ["AUTH", "default", "wrong"], ["AUTH", "you", PASSWORD], ["AUTH", "a", "b", "c"],
     ["AUTH", "x" * 10_000], ["GET", "a"], ["AUTH", PASSWORD], ["GET", "a"], ["AUTH", "wrong"], ["GET", "a"], ["SET", "a", "1"], ["GET", "a"], ["DEL", "a"]],
    [["AUTH", "default", PASSWORD], ["GET", "a"], ["CLIENT", "SETNAME", "me"], ["RESET"], ["GET", "a"], ["RESET"], ["AUTH", PASSWORD], ["CLIENT", "GETNAME"], ["PING"]],
    [["HELLO", 2, "AUTH", "default", PASSWORD, "SETNAME", "me"], ["CLIENT", "GETNAME"], ["HELLO"], ["HELLO", 2, "AUTH", "default", "wrong", "SETNAME", "you"], ["CLIENT", "GETNAME"], ["GET", "a"]],
    [["QUIT"]],
    [["auth", PASSWORD], ["Get", "a"], ["quit"]],
]
NUMBER = re.compile(rb"(\$2\r\nid\r\n):\d+")


@contextlib.contextmanager
def given(program: Path, first: bytes, *options: str) -> Iterator[Front]:
    """A mapd whose file of the password has these bytes."""
    with tempfile.NamedTemporaryFile() as file:
        file.write(first)
        file.flush()
        server = Front(program, ["--password-file", file.name, *options])
        try:
            yield server
        finally:
            server.end()


def locked(program: Path) -> contextlib.AbstractContextManager[Front]:
    """A mapd with the password."""
    return given(program, PASSWORD.encode() + b"\n", "--workers", "2")


def told(address: str, talk: list[list[resp.Word]]) -> list[bytes]:
    """What a client is told, without its number."""
    with Client(address) as client:
        return [NUMBER.sub(rb"\1:0", client.ask(*words)) for words in talk]


def answers_are_those_of_redis(program: Path) -> None:
    """Both servers want the password, and say the same of each command. PING is not compared: here it needs no password."""
    if not shutil.which("redis-server"):
        print("redis_password: no redis-server here (Debian's package redis-server), so nothing was compared")
        return
    theirs = Redis(["--requirepass", PASSWORD])
    try:
        with locked(program) as ours:
            for talk in TALKS:
                for words, here, there in zip(talk, told(ours.address, talk), told(theirs.address, talk)):
                    same(f"the answer to {words!r:.200} in {talk!r:.200}", here, there)
    finally:
        theirs.end()
    print(f"redis_password: {sum(map(len, TALKS))} commands in {len(TALKS)} talks are answered as by Redis")


def some_need_no_password(program: Path) -> None:
    """PING and QUIT are answered, DEBUG is refused to all, and a browser's request ends the connection."""
    with locked(program) as server:
        with Client(server.address) as client:
            same("a PING", client.ask("PING"), b"+PONG\r\n")
            same("a PING with a text", client.ask("PING", "x"), resp.value(b"x"))
            same("a GET after it", client.ask("GET", "a"), NOAUTH)
            same("a DEBUG", client.ask("DEBUG", "SLEEP", 0), resp.error("ERR DEBUG command not allowed."))
            client.socket.sendall(b"POST / HTTP/1.1\r\n")
            same("what a browser is told", client.rest(), b"")
        with Client(server.address) as client:
            client.send("QUIT")
            same("what follows a QUIT", client.rest(), resp.OK)


def nothing_is_changed(program: Path) -> None:
    """Random commands of clients that haven't authenticated leave the map as it is, also in one piece after a wrong password."""
    dice = random.Random(1)
    with locked(program) as server, Client(server.address) as owner:
        same("the right password", owner.ask("AUTH", PASSWORD), resp.OK)
        for key in (*streams.KEYS, *streams.GROWN):
            owner.ask("SET", key, b"kept")
        before = sorted(resp.members_of(owner.ask("KEYS", "*")))
        with Client(server.address) as client:
            sent = [resp.command("AUTH", "wrong")] + [resp.command(*streams.some_command(dice, streams.COMMANDS)) for _ in range(5000)]
            client.socket.sendall(b"".join(sent) + resp.command("QUIT"))
            replies = resp.replies_in(client.rest())
        allowed = (b"-", b"+PONG", b"+RESET", b"+OK")
        strange = [reply for reply in replies if not reply.startswith(allowed) and b"kept" in reply]
        same("answers that tell what is kept", strange, [])
        same("the first answer", replies[0], WRONGPASS)
        same("many answers want the password", replies.count(NOAUTH) > 2000, True)
        same("the keys", sorted(resp.members_of(owner.ask("KEYS", "*"))), before)
        for key in (*streams.KEYS, *streams.GROWN):
            same(f"the value of {key!r}", owner.ask("GET", key), resp.value(b"kept"))


def one_client_lets_in_no_other(program: Path) -> None:
    """Each connection has to show the password."""
    with locked(program) as server, Client(server.address) as one, Client(server.address) as other:
        same("the right password", one.ask("AUTH", PASSWORD), resp.OK)
        same("another client", other.ask("GET", "a"), NOAUTH)
        one.send("AUTH", PASSWORD), one.send("SET", "a", 1), one.send("RESET"), one.send("GET", "a")
        same("commands in one piece", [one.reply() for _ in range(4)], [resp.OK, resp.OK, b"+RESET\r\n", NOAUTH])


def clients_of_frames_are_not_asked(program: Path) -> None:
    """The port of --listen asks for no password, as docs/SERVER.md says."""
    with locked(program) as server, wire.opened(server.frames) as client:
        same("a Put", client.ask(wire.put(b"a", b"1")), wire.NOTHING)
        same("a Get", client.ask(wire.get(b"a")), wire.value(b"1"))


def first_lines_are_passwords(program: Path) -> None:
    """The password is the first line, without its end, of 1 to 512 bytes."""
    for text, password in ((b"a", b"a"), (b"a\n", b"a"), (b"a\r\n", b"a"), (b"a \nb\n", b"a "), (b"x" * 512 + b"\r\n", b"x" * 512), (b"\xff\0\r\n", b"\xff\0")):
        with given(program, text) as server, Client(server.address) as client:
            same("a GET", client.ask("GET", "a"), NOAUTH)
            same(f"one byte more than {password[:9]!r}", client.ask("AUTH", password + b"\0"), WRONGPASS)
            same(f"the password {password[:9]!r}", client.ask("AUTH", password), resp.OK)


def refused(program: Path, path: str) -> bytes:
    """What standard error is told if this is the file of the password."""
    try:
        Front(program, ["--password-file", path]).end()
    except NotReady as wrong:
        same("the status, and what is printed", wrong.args[0], (3, b""))
        return wrong.args[1]
    raise Wrong(f"{path} has a password")


def other_files_are_refused(program: Path) -> None:
    """A file that can't be read, and a first line that is none, end the server with status 3."""
    with tempfile.TemporaryDirectory() as folder:
        file = Path(folder) / "password"
        same("a file that is not there", refused(program, str(file)).startswith(f"{file}: ".encode()), True)
        same("a folder", refused(program, folder).startswith(f"{folder}: ".encode()), True)
        for text in (b"", b"\n", b"\r\nx\n", b"x" * 513, b"x" * 513 + b"\n", b"x" * 5000):
            file.write_bytes(text)
            same(f"{text[:9]!r}", refused(program, str(file)), f"{file}: the first line is no password of 1 to 512 bytes\n".encode())


PROGRAM_IN_PYTHON = """
import sys, redis
host, _, port = sys.argv[1].rpartition(":")
ours = redis.Redis(host=host, port=int(port), password=sys.argv[2])
ours.set("a", "1")
assert ours.get("a") == b"1"
assert redis.Redis(host=host, port=int(port), username="default", password=sys.argv[2]).get("a") == b"1"
for wrong in (None, "wrong"):
    try:
        redis.Redis(host=host, port=int(port), password=wrong).get("a")
    except (redis.AuthenticationError, redis.ResponseError):
        continue
    raise AssertionError(wrong)
"""


def tools_give_it(program: Path) -> None:
    """redis-cli and redis-py authenticate."""
    with locked(program) as server:
        if shutil.which("redis-cli"):
            port = server.address.rpartition(":")[2]
            for words, answer in ((["-a", PASSWORD], "PONG\nOK\n1\n"), ([], "PONG\n" + NOAUTH[1:-2].decode() + "\n\n" + NOAUTH[1:-2].decode() + "\n\n")):
                done = subprocess.run(["redis-cli", "-p", port, "--no-auth-warning", *words], input="PING\nSET a 1\nGET a\n", capture_output=True, text=True,
                                      timeout=wire.PATIENCE, check=False)
                same(f"redis-cli {words}", done.stdout.replace('"', ""), answer)
        else:
            print("redis_password: no redis-cli here")
        if subprocess.run([sys.executable, "-c", "import redis"], cwd="/", capture_output=True, check=False).returncode:
            print("redis_password: no redis-py here")
            return
        done = subprocess.run([sys.executable, "-c", PROGRAM_IN_PYTHON, server.address, PASSWORD], cwd="/", capture_output=True, text=True,
                              timeout=wire.PATIENCE, check=False)
        same("redis-py", (done.returncode, done.stderr), (0, ""))


PARTS = (answers_are_those_of_redis, some_need_no_password, nothing_is_changed, one_client_lets_in_no_other, clients_of_frames_are_not_asked, first_lines_are_passwords,
         other_files_are_refused, tools_give_it)


def main() -> None:
    words = argparse.ArgumentParser()
    words.add_argument("--program", type=Path, default=wire.SERVER)
    program = words.parse_args().program
    failed = 0
    for part in PARTS:
        try:
            part(program)
        except (Wrong, wire.Ended, OSError, subprocess.SubprocessError) as wrong:
            failed += 1
            print(f"redis_password: FAILED: {part.__name__}: {type(wrong).__name__}: {wrong}")
    print(f"redis_password: {len(PARTS)} parts, {failed} failed")
    sys.exit(bool(failed))


if __name__ == "__main__":
    main()
