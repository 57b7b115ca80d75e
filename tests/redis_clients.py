#!/usr/bin/env python3
"""The clients of the built mapd, as CLIENT LIST shows them and CLIENT KILL lets them go: lists over four workers with 200 clients of both
ports; idle and busy clients that are let go, and only these; one that lets itself go and is told first; names and libraries; replies
to wrong words beside those of a redis-server, if one is installed; and the commands that SLOWLOG shows.

By hand, after `rt run` in crates/mapd: python3 tests/redis_clients.py. --program names another server, --only a part. By .ci/run."""
from __future__ import annotations

import contextlib
import shutil
import sys
import tempfile
import threading
import time
from pathlib import Path
from typing import NamedTuple

sys.path.insert(0, str(Path(__file__).resolve().parent))
sys.dont_write_bytecode = True
import redis_wire as resp  # noqa: E402
import wire  # noqa: E402
from redis_wire import Client, started  # noqa: E402
from wire import same  # noqa: E402

# A client that is let go has to be gone after this time.
GONE_SECONDS = 2.0
# Words of which no reply depends on who asks.
WORDS = [
    "CLIENT KILL", "CLIENT KILL 1.2.3.4:5", "CLIENT KILL id", "CLIENT KILL id 0", "CLIENT KILL id abc", "CLIENT KILL id -1", "CLIENT KILL ID 99999",
    "CLIENT KILL id 99999 addr", "CLIENT KILL id 99999 foo bar", "CLIENT KILL type foo", "CLIENT KILL type master", "CLIENT KILL type replica",
    "CLIENT KILL type SLAVE", "CLIENT KILL type pubsub skipme no", "CLIENT KILL user foo", "CLIENT KILL user default id 99999", "CLIENT KILL skipme maybe",
    "CLIENT KILL skipme yes id 99999", "CLIENT KILL laddr 1.2.3.4:5", "CLIENT KILL addr 1.2.3.4:5 laddr 1.2.3.4:5 skipme no",
    "CLIENT KILL id 9223372036854775807", "CLIENT KILL id 9223372036854775808", "CLIENT KILL id 99999 id", "CLIENT LIST foo", "CLIENT LIST foo bar",
    "CLIENT LIST TYPE foo", "CLIENT LIST TYPE pubsub", "CLIENT LIST TYPE", "CLIENT LIST TYPE normal x", "CLIENT LIST ID", "CLIENT LIST ID 0",
    "CLIENT LIST ID 99999 foo", "CLIENT LIST ID 07", "CLIENT LIST ID -3", "CLIENT INFO x", "SLOWLOG", "SLOWLOG foo", "SLOWLOG GET -1x", "SLOWLOG GET -2",
    "SLOWLOG GET 1 2", "SLOWLOG get 1 2", "SLOWLOG LEN", "SLOWLOG LEN 2", "SLOWLOG RESET", "SLOWLOG RESET 3", "SLOWLOG HELP", "SLOWLOG HELP 2",
    "SLOWLOG GET", "SLOWLOG GET 0", "SLOWLOG GET -1", "SLOWLOG GET 99999999999999999999",
]


def listed(client: Client, *words: resp.Word) -> dict[int, dict[str, str]]:
    """The clients that CLIENT LIST shows, by their numbers."""
    text = resp.text_of(client.ask("CLIENT", "LIST", *words)).decode()
    rows = [dict(field.split("=", 1) for field in line.split(" ")) for line in text.splitlines()]
    return {int(row["id"]): row for row in rows}


def number_of(client: Client) -> int:
    """The client's number."""
    return int(client.ask("CLIENT", "ID")[1:])


def own_address(client: Client) -> str:
    """The client's address, as the server sees it."""
    host, port = client.socket.getsockname()[:2]
    return f"{host}:{port}"


def is_gone(client: Client) -> None:
    """The server ends the client's connection in time."""
    client.socket.settimeout(GONE_SECONDS)
    same("what a client that is let go reads", client.rest(), b"")


def lists_agree(program: Path) -> None:
    """Two hundred clients of both ports, over four workers."""
    with started(program, "--workers", "4") as server, contextlib.ExitStack() as stack:
        asking = stack.enter_context(Client(server.address))
        clients = [stack.enter_context(Client(server.address)) for _ in range(150)]
        framed = [stack.enter_context(wire.opened(server.frames)) for _ in range(50)]
        numbers = {number_of(client): client for client in clients}
        same("how many numbers there are", len(numbers), 150)
        for one in framed:
            one.ask(wire.get(b"key"))
        shown = listed(asking)
        same("how many are listed", len(shown), 201)
        same("how many of the port for frames", sum(row["resp"] == "0" for row in shown.values()), 50)
        for number, client in numbers.items():
            row = shown[number]
            same("the addresses", (row["addr"], row["laddr"]), (own_address(client), server.address))
            same("the last command", row["cmd"], "client|id")
        same("what the others say", [set(listed(clients[at])) for at in (0, 50, 149)], [set(shown)] * 3)
        info = resp.text_of(asking.ask("INFO", "clients")).decode()
        same("what INFO says", "connected_clients:201\r\n" in info, True)
        chosen = list(numbers)[7:9]
        same("those that are named", sorted(listed(asking, "ID", *chosen)), sorted(chosen))
        same("those of the type normal", set(listed(asking, "TYPE", "normal")), set(shown))
        for client in clients[:100]:
            client.socket.close()
        until = time.monotonic() + GONE_SECONDS
        while len(listed(asking)) != 101 and time.monotonic() < until:
            time.sleep(0.02)
        same("how many are left", len(listed(asking)), 101)


def row_after(client: Client, number: int, command: str) -> dict[str, str]:
    """The row of a client after this command of it: its worker tells what it did at the end of a turn, when the reply may have come already."""
    until = time.monotonic() + 1
    row = listed(client)[number]
    while row["cmd"] != command and time.monotonic() < until:
        time.sleep(0.01)
        row = listed(client)[number]
    return row


def names_are_shown(program: Path) -> None:
    """Names, libraries, the last command and times."""
    with started(program, "--workers", "2") as server, Client(server.address) as one, Client(server.address) as other:
        number = number_of(one)
        same("SETNAME", one.ask("CLIENT", "SETNAME", "first"), resp.OK)
        same("SETINFO", one.ask("CLIENT", "SETINFO", "LIB-NAME", "tests"), resp.OK)
        same("SETINFO", one.ask("CLIENT", "SETINFO", "lib-ver", "1.2"), resp.OK)
        one.ask("PEXPIRETIME", "none")
        row = row_after(other, number, "pexpiretime")
        same("the row", (row["name"], row["lib-name"], row["lib-ver"], row["cmd"], row["age"], row["idle"]), ("first", "tests", "1.2", "pexpiretime", "0", "0"))
        same("its own row", resp.text_of(one.ask("CLIENT", "INFO")).decode().split(" ")[0], f"id={number}")
        same("its own command", "cmd=client|info " in resp.text_of(one.ask("CLIENT", "INFO")).decode(), True)
        one.ask("nonsense")
        time.sleep(2.1)
        row = listed(other)[number]
        same("the row later", (row["cmd"], int(row["age"]) >= 2, int(row["idle"]) >= 2), ("client|info", True, True))
        same("HELLO", one.ask("HELLO", 2, "SETNAME", "second")[:1], b"*")
        same("the new name", listed(other)[number]["name"], "second")
        same("RESET", one.ask("RESET"), b"+RESET\r\n")
        same("no name", listed(other)[number]["name"], "")


def idle_clients_are_let_go(program: Path) -> None:
    """By address, by number, by both, and all others."""
    with started(program, "--workers", "4") as server, contextlib.ExitStack() as stack:
        asking = stack.enter_context(Client(server.address))
        clients = [stack.enter_context(Client(server.address)) for _ in range(40)]
        numbers = [number_of(client) for client in clients]
        framed = stack.enter_context(wire.opened(server.frames))
        same("KILL by address", asking.ask("CLIENT", "KILL", own_address(clients[0])), resp.OK)
        same("KILL of one that is gone", asking.ask("CLIENT", "KILL", own_address(clients[0])), resp.error("ERR No such client"))
        same("KILL by number", asking.ask("CLIENT", "KILL", "ID", numbers[1]), resp.integer(1))
        same("KILL again", asking.ask("CLIENT", "KILL", "ID", numbers[1]), resp.integer(0))
        same("KILL by both", asking.ask("CLIENT", "KILL", "ID", numbers[2], "ADDR", own_address(clients[2])), resp.integer(1))
        same("KILL of nobody", asking.ask("CLIENT", "KILL", "ID", numbers[3], "ADDR", own_address(clients[4])), resp.integer(0))
        for client in clients[:3]:
            is_gone(client)
        for client, number in zip(clients[3:], numbers[3:]):
            same("those that stay", number_of(client), number)
        same("one of the other port that stays", framed.ask(wire.get(b"key")), wire.NOTHING)
        same("KILL of all others", asking.ask("CLIENT", "KILL", "TYPE", "normal"), resp.integer(38))
        for client in clients[3:]:
            is_gone(client)
        same("the one of the other port", framed.rest(), b"")
        same("who is left", list(listed(asking)), [number_of(asking)])


def busy_clients_are_let_go(program: Path) -> None:
    """Half of the clients, all of which ask all the time."""
    with started(program, "--workers", "4") as server, contextlib.ExitStack() as stack:
        asking = stack.enter_context(Client(server.address))
        clients = [stack.enter_context(Client(server.address)) for _ in range(16)]
        numbers = [number_of(client) for client in clients]
        ends: list[bool] = [False] * len(clients)
        goes_on = threading.Event()

        def ask(at: int) -> None:
            with contextlib.suppress(wire.Ended, OSError):
                while not goes_on.is_set():
                    clients[at].ask("INCR", f"key {at}")
                return
            ends[at] = True

        threads = [threading.Thread(target=ask, args=(at,)) for at in range(len(clients))]
        for thread in threads:
            thread.start()
        time.sleep(0.3)
        for number in numbers[::2]:
            same("KILL of a busy one", asking.ask("CLIENT", "KILL", "ID", number), resp.integer(1))
        time.sleep(0.5)
        same("who ended", ends, [at % 2 == 0 for at in range(len(clients))])
        goes_on.set()
        for thread in threads:
            thread.join()
        same("who is left", set(listed(asking)), {number_of(asking), *numbers[1::2]})


def deaf_clients_are_let_go(program: Path) -> None:
    """A client that is owed much and reads nothing."""
    with started(program, "--workers", "1") as server, Client(server.address) as asking, Client(server.address) as deaf:
        number = number_of(deaf)
        same("a SET", asking.ask("SET", "a", b"v" * 1024), resp.OK)
        deaf.socket.setblocking(False)
        with contextlib.suppress(BlockingIOError):
            for _ in range(200):
                deaf.socket.send(resp.command("GET", "a") * 1000)
        time.sleep(0.3)
        same("KILL of a deaf one", asking.ask("CLIENT", "KILL", "ID", number), resp.integer(1))
        time.sleep(0.2)
        same("who is left", list(listed(asking)), [number_of(asking)])


def own_end(program: Path) -> None:
    """A client that lets itself go is told first, and what it sent after that is not answered."""
    with started(program, "--workers", "2") as server:
        for words, reply in ((lambda c: ("CLIENT", "KILL", own_address(c)), resp.OK), (lambda c: ("CLIENT", "KILL", "ID", number_of(c), "SKIPME", "no"), resp.integer(1))):
            with Client(server.address) as client:
                client.socket.sendall(resp.command(*words(client)) + resp.command("SET", "a", "1"))
                same("what it is told", client.rest(), reply)
        with Client(server.address) as client:
            same("what was not made", client.ask("EXISTS", "a"), resp.integer(0))
            same("SKIPME", client.ask("CLIENT", "KILL", "ID", number_of(client)), resp.integer(0))


def words_as_redis(program: Path) -> None:
    """Replies are those of redis-server, byte for byte."""
    if shutil.which("redis-server") is None:
        print("no redis-server here, so no reply was compared")
        return
    other = resp.Redis(["--slowlog-log-slower-than", "-1"])
    try:
        with started(program) as server, Client(server.address) as ours, Client(other.address) as theirs:
            for line in WORDS:
                same(line, ours.ask(*line.split(" ")), theirs.ask(*line.split(" ")))
            for word in (b"a" * 128, b"a\r\nb\r\n", b"a\0b", b""):
                for option in ("TYPE", "USER"):
                    same(f"KILL {option} {word!r}", ours.ask("CLIENT", "KILL", option, word), theirs.ask("CLIENT", "KILL", option, word))
    finally:
        other.end()


class Slow(NamedTuple):
    """A command that SLOWLOG shows."""

    number: int
    time: int
    microseconds: int
    words: list[bytes]
    address: bytes
    name: bytes


def slow_of(client: Client, *words: resp.Word) -> list[Slow]:
    """What SLOWLOG GET shows."""
    entries = []
    for entry in resp.members_of(client.ask("SLOWLOG", "GET", *words)):
        number, moment, took, texts, address, name = resp.members_of(entry)
        same("the numbers of an entry", number[:1] + moment[:1] + took[:1], b":::")
        entries.append(Slow(int(number[1:]), int(moment[1:]), int(took[1:]), [resp.text_of(text) for text in resp.members_of(texts)],
                            resp.text_of(address), resp.text_of(name)))
    return entries


# Commands that take no time; each is noted if all are.
QUICK = [
    ["CLIENT", "SETNAME", "me"], ["SET", "a", "b"], ["get", "a"], ["GET", "a" * 64], ["MGET", *"abcdefg"], ["PING"], ["ECHO", b"\0\r\n\xff"],
    ["SET", "a", ""], ["SLOWLOG", "LEN"], ["CLIENT", "SETNAME", ""], ["DEL", "a"],
]


def quick_ones(client: Client) -> list[tuple[int, list[bytes], bytes, bool, bool, bool]]:
    """Makes these commands, and gives what is shown of them, but for what differs from run to run; the last ones first. They are numbered from 0 on."""
    client.ask("SLOWLOG", "RESET")
    for words in QUICK:
        client.ask(*words)
    now = time.time()
    shown = slow_of(client, -1)
    own = own_address(client).encode()
    return [(slow.number - shown[-1].number, slow.words, slow.name, slow.address == own, abs(slow.time - now) < 10, slow.microseconds < 1_000_000) for slow in shown]


def slow_commands_are_shown(program: Path) -> None:
    """If all commands are noted, SLOWLOG shows them as redis-server does; and those of all workers."""
    with started(program, "--slowlog-microseconds", "0", "--workers", "4") as server, Client(server.address) as ours:
        shown = quick_ones(ours)
        wanted = [[resp.as_word(word) for word in words] for words in [["SLOWLOG", "RESET"], *QUICK]]
        same("the words", [words for _, words, *_ in reversed(shown)], wanted)
        same("the names", [name for _, _, name, *_ in reversed(shown)], [b"", *[b"me"] * (len(QUICK) - 2), b"", b""])
        same("the numbers", [number for number, *_ in reversed(shown)], list(range(len(shown))))
        same("addresses and times", {row[3:] for row in shown}, {(True, True, True)})
        if shutil.which("redis-server"):
            other = resp.Redis(["--slowlog-log-slower-than", "0"])
            try:
                with Client(other.address) as theirs:
                    same("what redis-server shows", quick_ones(theirs), shown)
            finally:
                other.end()
        with Client(server.address) as second, Client(server.address) as third:
            ours.ask("SLOWLOG", "RESET")
            for client in (second, third):
                client.ask("GET", own_address(client))
            same("what another worker shows", [slow.address for slow in slow_of(ours, 2)], [own_address(client).encode() for client in (third, second)])
    rings_and_cuts(program)
    quick_and_secret(program)
    settings_are_told(program)


def settings_are_told(program: Path) -> None:
    """CONFIG GET tells from when on commands are kept, and how many, as redis-server does."""
    names = ["slowlog-log-slower-than", "SlowLog-Max-Len", "none"]
    for options, least in (((), b"-1"), (("--slowlog-microseconds", "0"), b"0"), (("--slowlog-microseconds", "65535"), b"65535")):
        with started(program, *options) as server, Client(server.address) as client:
            told = [resp.text_of(member) for member in resp.members_of(client.ask("CONFIG", "GET", *names))]
            same("the settings", told, [b"slowlog-log-slower-than", least, b"slowlog-max-len", b"128"])
            same("one of them", client.ask("CONFIG", "GET", names[0]), resp.array(resp.value(names[0].encode()), resp.value(least)))


def rings_and_cuts(program: Path) -> None:
    """The latest 128 commands are kept, and the beginning of their words."""
    with started(program, "--slowlog-microseconds", "0") as server, Client(server.address) as client:
        for number in range(300):
            client.ask("GET", str(number))
        same("how many are kept", client.ask("SLOWLOG", "LEN"), resp.integer(128))
        shown = slow_of(client, -1)
        same("the latest", [slow.words[-1] for slow in shown], [b"LEN", *[b"%d" % number for number in range(299, 172, -1)]])
        same("their numbers", [slow.number for slow in shown], list(range(300, 172, -1)))
        same("the usual number of them", len(slow_of(client)), 10)
        same("three of them", [slow.number for slow in slow_of(client, 3)], [302, 301, 300])
        client.ask("SLOWLOG", "RESET")
        client.ask("MGET", *["key"] * 20)
        client.ask("SET", "a", b"b" * 1000)
        cut, long, reset = slow_of(client)
        same("a long word", cut.words, [b"SET", b"a", b"b" * 64 + b"... (936 more bytes)"])
        same("many words", long.words, [b"MGET", *[b"key"] * 6, b"... (14 more arguments)"])
        same("the one that forgot the others", reset.words, [b"SLOWLOG", b"RESET"])
        same("its number", cut.number - reset.number, 2)


def quick_and_secret(program: Path) -> None:
    """No command with a password is noted, nor one that is wrong or quick; a slow one is."""
    with tempfile.TemporaryDirectory() as folder:
        secret = Path(folder) / "secret"
        secret.write_text("word\n")
        with started(program, "--slowlog-microseconds", "0", "--password-file", str(secret)) as server, Client(server.address) as client:
            for words in (["AUTH", "word"], ["AUTH", "default", "word"], ["HELLO", "2", "AUTH", "default", "word"], ["GET"], ["NONE"]):
                client.ask(*words)
            same("commands that are not noted", slow_of(client), [])
        with started(program, "--slowlog-microseconds", "20000", "--keep", f"{folder}/kept.db") as server, Client(server.address) as client:
            client.ask("GET", "a")
            for _ in range(50):
                client.ask("SAVE")
            shown = slow_of(client, -1)
            same("what is slow", {b" ".join(slow.words) for slow in shown} & {b"SAVE"}, {b"SAVE"})
            same("how slow it is", min(slow.microseconds for slow in shown) >= 20000, True)
    with started(program) as server, Client(server.address) as client:
        for words in QUICK:
            client.ask(*words)
        same("what is shown without the option", (slow_of(client), client.ask("SLOWLOG", "LEN")), ([], resp.integer(0)))


PARTS = [lists_agree, slow_commands_are_shown, names_are_shown, idle_clients_are_let_go, busy_clients_are_let_go, deaf_clients_are_let_go, own_end, words_as_redis]


if __name__ == "__main__":
    wire.play_parts("redis_clients", __doc__.splitlines()[0], PARTS)
