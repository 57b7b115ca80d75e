"""Processes that are made by fork, with the clients that they were born with."""

import asyncio
import multiprocessing
import os
import pickle
import signal
import sys
import threading
import traceback
import unittest
from typing import Callable, List, Optional

from bpfmap import SUM, AsyncClient, Client, ConnectionBroken, OtherProcess, Pool, function
from bpfmap.calls import Calls

from .server import HOST, MapdTest
from .telling import answer_of
from .test_never_mixed import TellingTest, expect, one_call, pipeline, wait_for, walk

_GET, _MERGE = 0x10, 0x1A
_CALLS = 200
_ADD = function(SUM, old=8, arg=8, result=8)


def in_a_child(work: Callable[[], None]) -> int:
    """Does the work in a process that is made by fork, and returns its id. `status_of` says whether it went well."""
    child = os.fork()
    if child:
        return child
    status = 1
    # A process that waits for ever is ended.
    signal.alarm(30)
    try:
        work()
        status = 0
    except BaseException:  # pylint: disable=broad-except
        traceback.print_exc()
    finally:
        sys.stderr.flush()
        os._exit(status)


def status_of(child: int) -> int:
    """Waits for a process, and returns its status."""
    return os.waitstatus_to_exitcode(os.waitpid(child, 0)[1])


def ask_many(calls: Calls, name: str) -> None:
    """Asks for many keys; each answer is its own."""
    for number in range(_CALLS):
        key = f"{name} {number}".encode()
        expect(calls.get(key), answer_of(_GET, key))
        if number % 50 == 0:
            for operation in (one_call, pipeline, walk):
                operation(calls)


class ForkTest(TellingTest):
    """A client that was opened before a fork, used by all processes at once."""

    def _use_everywhere(self, calls: Calls) -> None:
        children = [in_a_child(lambda name=f"child {each}": ask_many(calls, name)) for each in range(4)]
        ask_many(calls, "parent")
        self.assertEqual([status_of(child) for child in children], [0] * 4)
        ask_many(calls, "parent again")

    def test_client(self) -> None:
        with self.open() as client:
            client.get(b"a")
            self._use_everywhere(client)

    def test_pool(self) -> None:
        with Pool(HOST, self.server.port, size=2) as pool:
            pool.get(b"a")
            self._use_everywhere(pool)

    def test_multiprocessing(self) -> None:
        global _client  # pylint: disable=global-statement
        with self.open() as _client:
            with multiprocessing.get_context("fork").Pool(4) as workers:
                answers = workers.map(_get, [b"%d" % number for number in range(500)], chunksize=5)
            self.assertEqual(answers, [answer_of(_GET, b"%d" % number) for number in range(500)])
            one_call(_client)

    def test_threads_that_fork(self) -> None:
        """A fork comes while other threads are amid calls: the new process waits for none of their locks."""
        with self.open() as client:
            threads = [threading.Thread(target=ask_many, args=(client, f"thread {each}")) for each in range(4)]
            for thread in threads:
                thread.start()
            children = [in_a_child(lambda: ask_many(client, "child")) for _ in range(10)]
            for thread in threads:
                thread.join()
            self.assertEqual([status_of(child) for child in children], [0] * 10)

    def test_grandchild(self) -> None:
        with self.open() as client:

            def work() -> None:
                one_call(client)
                expect(status_of(in_a_child(lambda: ask_many(client, "grandchild"))), 0)
                ask_many(client, "child")

            self.assertEqual(status_of(in_a_child(work)), 0)
            one_call(client)

    def test_program(self) -> None:
        """A program's number and a Function are registered anew on the new process's connection."""
        with self.open() as client:
            number = client.register(SUM)

            def work() -> None:
                for program in (number, _ADD, number):
                    expect(client.merge(b"a", b"1", program), answer_of(_MERGE, b"a"))

            self.assertEqual(status_of(in_a_child(work)), 0)
            self.assertEqual([len(programs) for programs in self.server.registered.values()], [1, 2])

    def test_walk(self) -> None:
        """A walk that was begun before is refused in the new process, and goes on in the old one."""
        with self.open() as client:
            entries = client.for_each(0, b"20000 entries")
            next(entries)

            def work() -> None:
                for call in (lambda: next(entries), lambda: entries.counts, entries.first):
                    raises(OtherProcess, call)
                entries.close()
                one_call(client)
                walk(client)

            self.assertEqual(status_of(in_a_child(work)), 0)
            self.assertEqual(len(list(entries)), 19_999)

    def test_client_that_the_new_process_closes(self) -> None:
        with self.open() as client:
            self.assertEqual(status_of(in_a_child(client.close)), 0)
            one_call(client)

    def test_session_ends_though_a_child_lives(self) -> None:
        """A process that only sleeps has no copy of the connection, so it ends when the old one closes it."""
        client = self.open()
        pipe, end = os.pipe()
        child = in_a_child(lambda: os.read(pipe, 1))
        client.close()
        wait_for(lambda: self.server.open_connections == 0)
        os.write(end, b"x")
        os.close(pipe)
        os.close(end)
        self.assertEqual(status_of(child), 0)

    def test_async(self) -> None:
        """An AsyncClient is refused by name, and one that is opened in the new process works."""
        asyncio.run(self._run_async())

    async def _run_async(self) -> None:
        async with AsyncClient(HOST, self.server.port) as client:
            entries = await client.for_each(0, b"20000 entries")
            await entries.first()

            def work() -> None:
                asyncio.set_event_loop(None)
                raises(OtherProcess, lambda: drive(client.get(b"a")))
                raises(OtherProcess, lambda: drive(entries.first()))
                raises(OtherProcess, lambda: drive(_pipeline_of(client)))

            self.assertEqual(status_of(in_a_child(work)), 0)
            self.assertEqual(await client.get(b"b"), answer_of(_GET, b"b"))
            self.assertEqual((await entries.counts()).given, 20_000)

    def test_async_client_that_is_opened_again(self) -> None:
        client = AsyncClient(HOST, self.server.port)
        loop = asyncio.new_event_loop()
        self.addCleanup(loop.close)
        loop.run_until_complete(client.open())

        async def anew() -> None:
            try:
                await client.get(b"a")
                raise AssertionError("another process's session was used")
            except OtherProcess:
                await client.open()
            expect(await client.get(b"a"), answer_of(_GET, b"a"))
            await client.close()

        self.assertEqual(status_of(in_a_child(lambda: asyncio.run(anew()))), 0)
        self.assertEqual(loop.run_until_complete(client.get(b"b")), answer_of(_GET, b"b"))
        loop.run_until_complete(client.close())


class LiveForkTest(MapdTest):
    """The same of a live server: the sum of what 4 processes add is exact, over one client that was opened before."""

    def test_counter(self) -> None:
        one = (1).to_bytes(8, "little")
        with Client(HOST, self.port) as client:
            client.merge(b"hits", one, _ADD)

            def work() -> None:
                for _ in range(_CALLS):
                    client.merge(b"hits", one, _ADD)

            children = [in_a_child(work) for _ in range(4)]
            self.assertEqual([status_of(child) for child in children], [0] * 4)
            self.assertEqual(int.from_bytes(client.get(b"hits") or b"", "little"), 4 * _CALLS + 1)


class PickleTest(unittest.TestCase):
    """What goes from process to process."""

    def test_errors_and_functions(self) -> None:
        self.assertEqual(pickle.loads(pickle.dumps(_ADD)), _ADD)
        self.assertEqual(str(pickle.loads(pickle.dumps(ConnectionBroken("x")))), "x")


_client: Optional[Client] = None


def _get(key: bytes) -> Optional[bytes]:
    return _client.get(key) if _client is not None else None


async def _pipeline_of(client: AsyncClient) -> List[object]:
    calls = client.pipeline()
    calls.get(b"a")
    return await calls.execute()


def drive(awaited: object) -> object:
    """Runs what is awaited until it first waits; it is to fail before."""
    return awaited.send(None)


def raises(kind: type, call: Callable[[], object]) -> None:
    """The call raises an error of this kind."""
    try:
        call()
    except kind:
        return
    except StopIteration:
        pass
    raise AssertionError(f"no {kind.__name__}")
