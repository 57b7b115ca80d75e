#!/usr/bin/env python3
"""Tests that each number which docs/dashboard.json asks for is told by a redis_exporter before a running server, and grows as it should.

By tests/redis_tools.sh, if a redis_exporter is installed: python3 tests/redis_exporter.py PORT."""
from __future__ import annotations

import contextlib
import json
import re
import shutil
import socket
import subprocess
import sys
import time
import urllib.request
from collections.abc import Iterator
from pathlib import Path

sys.path.insert(0, str(Path(__file__).resolve().parent))
sys.dont_write_bytecode = True
from redis_wire import Client  # noqa: E402
from wire import same  # noqa: E402

DASHBOARD = Path(__file__).resolve().parent.parent / "docs" / "dashboard.json"
EXPORTERS = ("prometheus-redis-exporter", "redis_exporter")


def asked() -> set[str]:
    """The names of the numbers that the dashboard asks for."""
    queries = [target["expr"] for panel in json.loads(DASHBOARD.read_text())["panels"] for target in panel["targets"]]
    return {name for query in queries for name in re.findall(r"redis_\w+", query)}


@contextlib.contextmanager
def exporter(server: str) -> Iterator[str]:
    """An exporter that asks this server: the address at which it tells."""
    program = next(filter(None, map(shutil.which, EXPORTERS)))
    with socket.create_server(("127.0.0.1", 0)) as free:
        address = f"127.0.0.1:{free.getsockname()[1]}"
    process = subprocess.Popen([program, "-redis.addr", f"redis://{server}", "-web.listen-address", address],
                               stdin=subprocess.DEVNULL, stdout=subprocess.DEVNULL, stderr=subprocess.DEVNULL)
    try:
        yield address
    finally:
        process.kill()
        process.wait()


def told(address: str) -> dict[str, float]:
    """The numbers that the exporter tells, of the first database if there are several."""
    for _ in range(400):
        with contextlib.suppress(OSError):
            text = urllib.request.urlopen(f"http://{address}/metrics", timeout=20).read().decode()
            lines = (line.rsplit(" ", 1) for line in text.splitlines() if line.startswith("redis_"))
            return {name.partition("{")[0]: float(number) for name, number in lines if "{" not in name or 'db="db0"' in name}
        time.sleep(0.05)
    raise SystemExit("the exporter doesn't answer")


def main() -> None:
    """Asks for the numbers, makes some commands, and asks again."""
    server = f"127.0.0.1:{sys.argv[1]}"
    with exporter(server) as address, Client(server) as client:
        before = told(address)
        for name in sorted(asked()):
            same(f"{name} is told", name in before, True)
        same("redis_up", before["redis_up"], 1)
        client.ask("SET", "exported", "1")
        for word in ("exported", "exported", "not there"):
            client.ask("GET", word)
        after = told(address)
    for name, more in (("redis_db_keys", 1), ("redis_keyspace_hits_total", 2), ("redis_keyspace_misses_total", 1)):
        same(f"how much {name} grows", after[name] - before[name], more)
    same("the commands are counted", after["redis_commands_processed_total"] - before["redis_commands_processed_total"] >= 4, True)
    print(f"redis_exporter: {len(asked())} numbers: passed")


if __name__ == "__main__":
    main()
