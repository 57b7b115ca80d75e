#!/usr/bin/env python3
"""Two servers with Redis ports and nutcracker before them, by the configuration that docs/SHARDING.md has, but for the ports: keys lie on
both, commands on several keys are put together, programs are called by EVALSHA and EVAL, a thousand clients count, and a server is lost.

By hand, after `rt run` in crates/mapd: python3 tests/redis_sharded.py. Another server is tried by --program; redis-server itself runs
all but the programs. By redis_tools.sh. It needs Debian's nutcracker, and says so if that is missing."""
from __future__ import annotations

import argparse
import contextlib
import re
import shutil
import subprocess
import sys
import tempfile
from collections.abc import Iterator
from pathlib import Path

sys.path.insert(0, str(Path(__file__).resolve().parent))
sys.dont_write_bytecode = True
import crowd  # noqa: E402
import redis_linear  # noqa: E402
import redis_wire as resp  # noqa: E402
import wire  # noqa: E402
from redis_wire import Client, Front, Redis  # noqa: E402
from wire import Wrong, same  # noqa: E402

PAGE = Path(__file__).resolve().parent.parent / "docs/SHARDING.md"
CLIENTS = 1000
KEYS = 1000


def configuration(bound: str, addresses: list[str]) -> str:
    """The page's configuration, with these addresses in place of its own."""
    found = re.search(r"```yaml\n(# /etc/nutcracker/nutcracker.yml\n.*?)```", PAGE.read_text(encoding="utf-8"), re.DOTALL)
    if not found:
        raise Wrong("docs/SHARDING.md has no configuration")
    text = found[1].replace("127.0.0.1:22121", bound)
    for old, new in zip(("127.0.0.1:7171", "127.0.0.1:7172"), addresses):
        text = text.replace(old, new)
    return text


@contextlib.contextmanager
def proxy(servers: list[Front | Redis]) -> Iterator[str]:
    """nutcracker before these servers; its address."""
    bound = f"127.0.0.1:{resp.free_port()}"
    with tempfile.TemporaryDirectory() as folder:
        file = Path(folder) / "nutcracker.yml"
        file.write_text(configuration(bound, [server.address for server in servers]), encoding="utf-8")
        process = subprocess.Popen(["nutcracker", "-c", file, "-p", Path(folder) / "pid", "-a", "127.0.0.1", "-s", str(resp.free_port())],
                                   stdout=subprocess.DEVNULL, stderr=subprocess.DEVNULL)
        try:
            resp.await_port(bound)
            yield bound
        finally:
            process.kill()
            process.communicate()


def keys_lie_on_both(address: str, servers: list[Front | Redis]) -> None:
    """Each key is on one server, and each server has some."""
    with Client(address) as client:
        client.socket.sendall(b"".join(resp.command("SET", f"key {number}", number) for number in range(KEYS)))
        same("the SETs", {client.reply() for _ in range(KEYS)}, {resp.OK})
        client.socket.sendall(b"".join(resp.command("GET", f"key {number}") for number in range(KEYS)))
        answers = [client.reply() for _ in range(KEYS)]
        same("the GETs, in their order", answers, [resp.value(b"%d" % number) for number in range(KEYS)])
    sizes = []
    for server in servers:
        with Client(server.address) as client:
            sizes.append(int(client.ask("DBSIZE")[1:]))
    same("each server has some keys", [sum(sizes), min(sizes) > KEYS // 10], [KEYS, True])


def several_keys_are_put_together(address: str) -> None:
    """MSET, MGET, TOUCH, DEL and UNLINK go to both servers, and their replies come as one. (Of EXISTS nutcracker gives one server's.)"""
    names = [f"several {number}" for number in range(100)]
    with Client(address) as client:
        same("an MSET", client.ask("MSET", *(word for name in names for word in (name, name))), resp.OK)
        same("an MGET", client.ask("MGET", *names, "absent"), resp.array(*(resp.value(name.encode()) for name in names), resp.NOTHING))
        same("a TOUCH", client.ask("TOUCH", *names, "absent"), resp.integer(100))
        same("EXISTS of one key", [client.ask("EXISTS", name) for name in (names[0], "absent")], [resp.integer(1), resp.integer(0)])
        same("a DEL", client.ask("DEL", *names[:50], "absent"), resp.integer(50))
        same("an UNLINK", client.ask("UNLINK", *names), resp.integer(50))


def programs_are_called(address: str) -> None:
    """A server that doesn't know a script says so, runs its text, and then knows it. Both servers call it by the same name."""
    with Client(address) as client:
        unknown = 0
        for number in range(50):
            asked = (1, f"hits {number}", 3)
            reply = client.ask("EVALSHA", redis_linear.SUM_NAME, *asked)
            if reply.startswith(b"-NOSCRIPT"):
                unknown += 1
                reply = client.ask("EVAL", resp.SUM_SCRIPT, *asked)
            same("a first call", reply, resp.integer(3))
            same("a second call", client.ask("EVALSHA", redis_linear.SUM_NAME, *asked), resp.integer(6))
        same("how many servers didn't know the script", unknown, 2)


def a_thousand_clients_count(address: str) -> None:
    """A thousand clients count a key of their own and one that all share."""
    with contextlib.ExitStack() as stack:
        clients = [stack.enter_context(Client(address)) for _ in range(CLIENTS)]
        for number, client in enumerate(clients):
            client.socket.sendall(resp.command("INCR", f"own {number}") + resp.command("INCR", "shared"))
        answers = [(client.reply(), client.reply()) for client in clients]
        same("each one's own count", {own for own, _ in answers}, {b":1\r\n"})
        same("the shared counts", sorted(int(shared[1:]) for _, shared in answers), list(range(1, CLIENTS + 1)))


def what_is_not_passed_ends_the_connection(address: str) -> None:
    """The page says of these that the client's connection ends."""
    for words in (("DBSIZE",), ("SCAN", 0), ("INFO",), ("SCRIPT", "LOAD", "x"), ("HELLO", 2), ("ECHO", "x"), ("FOO",)):
        with Client(address) as client:
            client.send(*words)
            same(f"what {words[0]} is answered", client.rest(), b"")


def a_server_is_lost(address: str, lost: Front | Redis) -> None:
    """One server is killed: after a few errors all keys are served by the other one."""
    lost.process.kill()
    lost.process.wait()
    with Client(address) as client:
        replies = [client.ask("SET", f"after {number}", "1") for number in range(200)]
        errors = [place for place, reply in enumerate(replies) if reply != resp.OK]
        same("errors come only at first, and are few", len(errors) <= 2, True)
        same("the GETs", {client.ask("GET", f"after {number}") for number in range(200) if number not in errors}, {resp.value(b"1")})
        print(f"redis_sharded: when a server was lost, {len(errors)} of 200 requests failed")


def play(program: Path) -> None:
    """All parts, over two servers of this program."""
    is_redis = program.name == "redis-server"
    servers = [Redis() if is_redis else Front(program, has_frames=False) for _ in range(2)]
    try:
        with proxy(servers) as address:
            keys_lie_on_both(address, servers)
            several_keys_are_put_together(address)
            if not is_redis:
                programs_are_called(address)
            a_thousand_clients_count(address)
            what_is_not_passed_ends_the_connection(address)
            a_server_is_lost(address, servers[1])
    finally:
        for server in servers:
            server.end()


def main() -> None:
    words = argparse.ArgumentParser()
    words.add_argument("--program", type=Path, default=wire.SERVER)
    given = words.parse_args()
    if not shutil.which("nutcracker"):
        print("redis_sharded: no nutcracker here (Debian's package nutcracker), so nothing was tried")
        return
    if crowd.allow_descriptors(2 * CLIENTS + 100) < 2 * CLIENTS + 100:
        print("redis_sharded: too few descriptors are allowed, so nothing was tried")
        return
    try:
        play(given.program)
    except (Wrong, wire.Ended, OSError) as wrong:
        sys.exit(f"redis_sharded: FAILED: {type(wrong).__name__}: {wrong}")
    print("redis_sharded: passed")


if __name__ == "__main__":
    main()
