"""Rates and latencies of a server, as this client sees them."""

import math
import time
from concurrent.futures import ProcessPoolExecutor
from typing import Callable, Dict, List, NamedTuple, Tuple, Union

from .client import Client
from .pipeline import Pipeline
from .programs import SUM

_Calls = Union[Client, Pipeline]
_PERCENTS = (50.0, 90.0, 99.0, 99.9, 100.0)


class Bench(NamedTuple):
    """What is measured: so many requests in all, by so many processes, each with a connection of its own."""

    host: str
    port: int
    call: str
    requests: int
    clients: int
    pipeline: int
    keys: int
    size: int
    version: int


def _get(calls: _Calls, key: bytes, _: bytes, __: int) -> object:
    return calls.get(key)


def _put(calls: _Calls, key: bytes, value: bytes, _: int) -> object:
    return calls.put(key, value)


def _merge(calls: _Calls, key: bytes, value: bytes, program: int) -> object:
    return calls.merge(key, value, program)


_MAKE: "Dict[str, Callable[[_Calls, bytes, bytes, int], object]]" = {"get": _get, "put": _put, "merge": _merge}
CALLS = tuple(_MAKE)


def run_bench(bench: Bench) -> str:
    """Runs it, and says what came of it in three lines."""
    with Client(bench.host, bench.port, version=bench.version) as client:
        # The number as it is: the processes have clients of their own, and the server is the same.
        program = int(client.register(SUM))
        _fill(client, bench)
    with ProcessPoolExecutor(bench.clients) as pool:
        runs = list(pool.map(_run_client, [bench] * bench.clients, [program] * bench.clients))
    return _report(bench, runs)


def _key(number: int) -> bytes:
    return f"bench-{number}".encode()


def _fill(client: Client, bench: Bench) -> None:
    with client.pipeline() as pipeline:
        for number in range(bench.keys):
            pipeline.put(_key(number), bytes(bench.size))


class _Run(NamedTuple):
    """What one process measured."""

    began: float
    ended: float
    latencies: List[float]


def _run_client(bench: Bench, program: int) -> _Run:
    """One process: batches one after the other, each with its time."""
    share = max(1, bench.requests // bench.clients // bench.pipeline)
    make = _MAKE[bench.call]
    keys = [_key(number) for number in range(bench.keys)]
    value = (1).to_bytes(8, "little")[: bench.size].ljust(bench.size, b"\0")
    latencies = []
    with Client(bench.host, bench.port, version=bench.version) as client:
        began = time.monotonic()
        for first in range(0, share * bench.pipeline, bench.pipeline):
            before = time.monotonic()
            _run_batch(client, bench.pipeline, lambda calls, i: make(calls, keys[(first + i) % len(keys)], value, program))
            latencies.append(time.monotonic() - before)
        return _Run(began, time.monotonic(), latencies)


def _run_batch(client: Client, size: int, make: "Callable[[_Calls, int], object]") -> None:
    if size == 1:
        make(client, 0)
        return
    with client.pipeline() as pipeline:
        for i in range(size):
            make(pipeline, i)


def percentiles(latencies: List[float]) -> List[Tuple[float, float]]:
    """Of each percentage the least latency that so many of all do not exceed."""
    ordered = sorted(latencies)
    return [(percent, ordered[max(0, math.ceil(len(ordered) * percent / 100) - 1)]) for percent in _PERCENTS]


def _report(bench: Bench, runs: List[_Run]) -> str:
    latencies = [latency for run in runs for latency in run.latencies]
    calls = len(latencies) * bench.pipeline
    seconds = max(run.ended for run in runs) - min(run.began for run in runs)
    batch = f"each batch of {bench.pipeline}" if bench.pipeline > 1 else "each call"
    times = ", ".join(f"{percent:g}% {latency * 1e6:,.0f}" for percent, latency in percentiles(latencies))
    return (
        f"{bench.call}: {calls:,} calls by {bench.clients} clients, {bench.keys:,} keys, values of {bench.size} bytes\n"
        f"rate: {calls / seconds:,.0f} calls a second\n"
        f"latency of {batch} in microseconds: {times}"
    )
