#!/usr/bin/env python3
"""Plays redis-py against a server: python3 -I tests/redis_client.py PORT mapd|redis. By redis_tools.sh, which looks for a python3 that
has redis-py. (-I keeps the folder tests, in which there is a redis.py, out of what is imported.) What stands in docs/REDIS.md is run
as it stands, but for the port, if the server is mapd. It fails by an assertion."""
import contextlib
import io
import re
import sys
import threading
import time
from pathlib import Path

import redis
from redis.exceptions import LockNotOwnedError, ResponseError

PAGES = Path(__file__).resolve().parent.parent / "docs"
SUM = "#!bpf merge integer 64 8 8 8\nldd r0, [r2+0]\nldd r9, [r3+0]\nadd64 r0, r9\nstxd [r4+0], r0\nmov64 r0, 8\nexit"
BLOCK = re.compile(r"```(python|text)\n(.*?)```", re.DOTALL)


def strings(client: redis.Redis) -> None:
    """Commands on one key."""
    client.flushall()
    assert client.set("a", "1") is True and client.get("a") == b"1" and client.get("b") is None
    assert client.set("a", "2", nx=True) is None and client.set("b", "2", xx=True) is None
    assert client.set("a", "3", get=True) == b"1" and client.getset("a", "4") == b"3"
    assert client.setnx("c", "5") is True and client.setnx("c", "6") is False
    assert client.incr("n") == 1 and client.incrby("n", 41) == 42 and client.decr("n", 2) == 40
    assert client.append("a", "xyz") == 4 and client.strlen("a") == 4 and client.getrange("a", 1, -1) == b"xyz"
    assert client.setrange("a", 6, "!") == 7 and client.get("a") == b"4xyz\0\0!"
    assert client.getdel("a") == b"4xyz\0\0!" and client.exists("a", "c", "c") == 2
    assert client.type("c") == b"string" and client.ttl("c") == -1 and client.ttl("a") == -2
    assert client.delete("a", "c") == 1 and client.unlink("n") == 1


def deadlines(client: redis.Redis) -> None:
    """Keys with deadlines."""
    client.flushall()
    at = 33_177_117_420
    assert client.set("a", "1", exat=at) and client.pexpiretime("a") == 1000 * at and client.expiretime("b") == -2
    assert client.set("a", "2", keepttl=True) and client.expiretime("a") == at and client.incr("a") == 3 and client.expiretime("a") == at
    assert client.persist("a") is True and client.persist("a") is False and client.ttl("a") == -1
    assert client.expire("a", 100, gt=True) is False and client.expire("a", 100, nx=True) is True and 0 < client.ttl("a") <= 100
    assert client.getex("a", px=50_000) == b"3" and 0 < client.pttl("a") <= 50_000 and client.getex("a", persist=True) == b"3"
    assert client.setex("b", 100, "4") and client.psetex("c", 100_000, "5") and 0 < client.ttl("b") <= 100 and 0 < client.ttl("c") <= 100
    assert client.pexpireat("b", 1000 * at, gt=True) is True and client.expireat("b", at - 1, gt=True) is False
    assert client.set("d", "6", px=30) and client.get("d") == b"6"
    time.sleep(0.05)
    assert client.get("d") is None and client.ttl("d") == -2 and client.set("d", "7", nx=True, ex=100) is True
    assert client.expire("d", 0) is True and client.exists("d") == 0
    assert refusal(client.set, "a", "1", 0).startswith("invalid expire time in 'set'")


def several(client: redis.Redis) -> None:
    """Commands on several keys, and walks."""
    client.flushall()
    names = {f"key:{number}": str(number) for number in range(1000)}
    assert client.mset(names) is True
    assert client.mget(list(names)) == [value.encode() for value in names.values()]
    assert client.dbsize() == 1000 and set(client.keys("key:99?")) == {b"key:99%d" % number for number in range(10)}
    assert {name.decode() for name in client.scan_iter()} == set(names)
    assert {name.decode() for name in client.scan_iter(match="*7", count=50)} == {name for name in names if name.endswith("7")}
    assert client.randomkey().decode() in names
    assert client.flushdb() is True and client.dbsize() == 0 and client.randomkey() is None


def pipelines(client: redis.Redis, is_redis: bool) -> None:
    """A pipeline without a transaction, and one with it, which mapd refuses; what is sent between MULTI and EXEC is made all the same."""
    client.flushall()
    line = client.pipeline(transaction=False)
    for number in range(5000):
        line.incr("n").set(f"p:{number}", number).get(f"p:{number}")
    replies = line.execute()
    assert replies[0::3] == list(range(1, 5001)) and replies[2::3] == [b"%d" % number for number in range(5000)]
    if not is_redis:
        assert refusal(client.pipeline().set("a", "1").execute).startswith("unknown command"), "a transaction was taken"
        assert client.get("a") == b"1"


def connection(client: redis.Redis) -> None:
    """What a client asks of its connection and of the server."""
    assert client.ping() is True and client.echo("x") == b"x" and client.client_setname("me") is True
    one = client.client()
    assert one.client_setname("me") is True and one.client_getname() == "me" and one.client_id() > 0
    assert client.info()["redis_version"].startswith("7") and "save" in client.config_get("save")
    assert len(client.client_list()) >= 1
    assert refusal(client.execute_command, "NO_SUCH_COMMAND", "x").startswith("unknown command 'NO_SUCH_COMMAND'")


def refusal(call, *words) -> str:
    """What an error says with which this call is refused."""
    try:
        call(*words)
    except ResponseError as error:
        return str(error)
    raise AssertionError("no error came")


def locks(client: redis.Redis) -> None:
    """Four threads count under a lock; and one that another holds can't be released."""
    client.flushall()
    counted = 0

    def count() -> None:
        nonlocal counted
        for _ in range(25):
            with client.lock("lock", sleep=0.001):
                held = counted
                client.ping()
                counted = held + 1

    threads = [threading.Thread(target=count) for _ in range(4)]
    for thread in threads:
        thread.start()
    for thread in threads:
        thread.join()
    assert counted == 100, counted
    lock = client.lock("lock")
    assert lock.acquire() is True and client.lock("lock").acquire(blocking=False) is False
    client.set("lock", "another's token")
    with contextlib.suppress(LockNotOwnedError):
        lock.release()
        raise AssertionError("another's lock was released")
    assert client.get("lock") == b"another's token"


def timed_locks(client: redis.Redis) -> None:
    """A lock with a timeout: it gets more time, and its time anew; when that is over, another gets it, and the first is told so."""
    client.flushall()
    lock = client.lock("timed", timeout=30)
    assert lock.acquire() is True and 29_000 < client.pttl("timed") <= 30_000
    assert lock.extend(30) is True and 58_000 < client.pttl("timed") <= 60_000
    assert lock.extend(10, replace_ttl=True) is True and 9_000 < client.pttl("timed") <= 10_000
    assert lock.reacquire() is True and 29_000 < client.pttl("timed") <= 30_000
    lock.release()
    assert client.exists("timed") == 0
    short, other = client.lock("short", timeout=0.05), client.lock("short", timeout=10, sleep=0.01)
    assert short.acquire() is True and other.acquire(blocking=False) is False and other.acquire(blocking_timeout=5) is True
    for late in (lambda: short.extend(10), short.reacquire, short.release):
        with contextlib.suppress(LockNotOwnedError):
            late()
            raise AssertionError("a lock whose time was over was still its first holder's")
    assert other.owned() is True
    other.release()


def page(port: int, name: str) -> int:
    """Runs the programs of a page, each of which prints what stands below it; how many there are."""
    blocks = BLOCK.findall((PAGES / name).read_text(encoding="utf-8"))
    count = 0
    for (kind, text), (next_kind, printed) in zip(blocks, blocks[1:]):
        if (kind, next_kind) == ("python", "text"):
            out = io.StringIO()
            with contextlib.redirect_stdout(out):
                exec(text.replace("6379", str(port)), {})
            assert out.getvalue() == printed, out.getvalue()
            count += 1
    return count


def fall_back(client: redis.Redis) -> None:
    """The function of docs/SHARDING.md, with a script that the server doesn't know, and then knows."""
    text = (PAGES / "SHARDING.md").read_text(encoding="utf-8")
    names: dict = {}
    exec(next(code for kind, code in BLOCK.findall(text) if kind == "python"), names)
    script = (SUM + "\n; for docs/SHARDING.md").encode()
    assert [names["call"](client, script, "shard", 5) for _ in range(2)] == [5, 10]


def scripts(client: redis.Redis, port: int) -> None:
    """The programs of docs/REDIS.md, and scripts that are refused."""
    client.flushall()
    assert page(port, "REDIS.md") == 3
    assert refusal(client.eval, "return 1", 1, "a").startswith("not a script that is served")
    assert "refused: " in refusal(client.script_load, "#!bpf compute bytes 64 8 8 8\nexit\n")
    assert "line 2" in refusal(client.script_load, "#!bpf compute bytes 64 8 8 8\nfoo\nexit\n")
    line = client.pipeline(transaction=False)
    count = client.register_script(SUM)
    for _ in range(10):
        count(keys=["sum"], args=[1], client=line)
    assert line.execute() == list(range(1, 11))


def main() -> None:
    port, is_redis = int(sys.argv[1]), sys.argv[2] == "redis"
    client = redis.Redis(port=port, socket_timeout=20)
    strings(client)
    deadlines(client)
    several(client)
    pipelines(client, is_redis)
    connection(client)
    locks(client)
    timed_locks(client)
    if not is_redis:
        scripts(client, port)
        fall_back(client)
    print(f"redis-py {redis.__version__}: passed")


if __name__ == "__main__":
    main()
