"""Walks as streams: they are read as they are gone through, may be left, and leave other calls alone."""

import asyncio
import gc
import socket
import time
import unittest
from typing import List

from bpfmap import (
    AsyncClient,
    BpfmapError,
    Client,
    ConnectionBroken,
    Counts,
    MayHaveBeenMade,
    NotSent,
    Pool,
    Refused,
    StaleProgram,
    function,
)

from .server import HOST, MapdTest, PlayedServer, receive_exactly
from .telling import TellingServer, answer_of, entry_key
from .test_never_mixed import TellingTest, wait_for

_GET = 0x10
_MANY = b"200000 entries"
_ITEM = bytes.fromhex("000000068601610001") + b"x"
_NOTHING = function("mov64 r0, -1\nexit\n")


class WalkTest(TellingTest):
    """Walks of a Client."""

    def test_memory_is_bounded(self) -> None:
        """A walk that is not gone through further reads no further: what is kept is what one read of the socket brought."""
        with self.open() as client, client.for_each(0, _MANY) as walk:
            next(walk)
            time.sleep(0.1)
            self.assertLess(len(walk._pending.items), 2)
            self.assertLess(len(walk._connection._reader._bodies), 5_000)

    def test_calls_go_over_another_connection(self) -> None:
        """They answer at once, however long the walk is; the connection is opened with the first of them."""
        with self.open() as client:
            walk = client.for_each(0, _MANY)
            next(walk)
            self.assertEqual(self.server.connections, 1)
            for number in range(20):
                key = b"%d" % number
                self.assertEqual(client.get(key), answer_of(_GET, key))
                self.assertEqual(next(walk)[0], entry_key(number + 1))
            self.assertEqual(self.server.connections, 2)
            self.assertEqual(len(list(walk)), 200_000 - 21)
            wait_for(lambda: self.server.open_connections == 1)

    def test_walk_without_calls_has_no_second_connection(self) -> None:
        with self.open() as client:
            for _ in range(10):
                self.assertEqual(len(list(client.for_each(0, b"10 x"))), 10)
                client.search(0, b"1 x")
                client.get(b"a")
            self.assertEqual(self.server.connections, 1)

    def test_walks_that_are_left(self) -> None:
        """By close(), by a block, by an error in a block, and by nobody's having it: the connection ends, the client goes on."""
        with self.open() as client:
            walk = client.for_each(0, _MANY)
            next(walk)
            walk.close()
            self._is_left(client)
            with client.for_each(0, _MANY) as walk:
                next(walk)
            self._is_left(client)
            with self.assertRaises(KeyError), client.for_each(0, _MANY) as walk:
                raise KeyError
            self._is_left(client)
            next(client.for_each(0, _MANY))
            gc.collect()
            self._is_left(client)

    def _is_left(self, client: Client) -> None:
        wait_for(lambda: self.server.open_connections == 0)
        self.assertEqual(client.get(b"a"), answer_of(_GET, b"a"))

    def test_what_a_closed_walk_says(self) -> None:
        with self.open() as client:
            walk = client.for_each(0, _MANY)
            next(walk)
            walk.close()
            walk.close()
            self.assertEqual((list(walk), walk.first()), ([], None))
            with self.assertRaisesRegex(BpfmapError, "closed before its end"):
                _ = walk.counts
            walk = client.for_each(0, b"3 x")
            self.assertEqual(walk.counts, Counts(3, 3, 0))
            walk.close()
            self.assertEqual((list(walk), walk.counts), ([], Counts(3, 3, 0)))

    def test_many_walks_at_once(self) -> None:
        with self.open() as client:
            walks = [client.for_each(0, b"%d x" % (100 + each)) for each in range(5)]
            self.assertEqual([len(list(walk)) for walk in reversed(walks)], [104, 103, 102, 101, 100])
            wait_for(lambda: self.server.open_connections == 1)

    def test_client_that_is_closed_amid_a_walk(self) -> None:
        client = self.open()
        walk = client.for_each(0, _MANY)
        next(walk)
        client.close()
        with self.assertRaises(ConnectionBroken):
            list(walk)
        self.assertRaisesRegex(NotSent, "nothing was sent", client.get, b"a")
        wait_for(lambda: self.server.open_connections == 0)

    def test_program_on_the_other_connection(self) -> None:
        """A number of this client is registered there anew; the server's numbers are the connection's own."""
        with self.open() as client:
            client.register("exit\n")
            second = client.register("mov64 r0, 0\nexit\n")
            self.assertEqual(second, 1)
            with client.for_each(0, _MANY) as walk:
                next(walk)
                client.merge(b"a", b"x", second)
            self.assertEqual([len(programs) for programs in self.server.registered.values()], [2, 1])

    def test_pool(self) -> None:
        """A walk keeps a connection of the pool, and gives it back at its end."""
        with Pool(HOST, self.server.port, size=2, timeout=1) as pool:
            walk = pool.for_each(0, _MANY)
            next(walk)
            self.assertEqual(pool.get(b"a"), answer_of(_GET, b"a"))
            other = pool.for_each(0, b"10 x")
            self.assertRaisesRegex(NotSent, "all 2 connections of the pool were in use", pool.get, b"b")
            self.assertEqual(len(list(other)), 10)
            self.assertEqual(pool.get(b"b"), answer_of(_GET, b"b"))
            walk.close()
            self.assertEqual(self.server.connections, 2)


class AsyncWalkTest(TellingTest):
    """Walks of an AsyncClient."""

    def test_backpressure(self) -> None:
        """A walk that is not gone through further is read no further: the server's own sending stops."""

        async def run(client: AsyncClient) -> None:
            async with await client.for_each(0, _MANY) as walk:
                await walk.first()
                await asyncio.sleep(0.2)
                kept = len(walk._pending.items)
                await asyncio.sleep(0.1)
                self.assertEqual(len(walk._pending.items), kept)
                self.assertLess(kept, 20_000)
                number = 1
                async for entry in walk:
                    self.assertEqual(entry, (entry_key(number), _MANY))
                    number += 1
                self.assertEqual(await walk.counts(), Counts(200_000, 200_000, 0))

        self._run(run)

    def _run(self, run: object) -> None:
        async def opened() -> None:
            async with AsyncClient(HOST, self.server.port, timeout=5) as client:
                await run(client)

        asyncio.run(opened())

    def test_calls_go_over_another_connection(self) -> None:
        async def run(client: AsyncClient) -> None:
            walk = await client.for_each(0, _MANY)
            await walk.first()
            self.assertEqual(self.server.connections, 1)
            keys = [b"%d" % number for number in range(20)]
            answers = await asyncio.gather(*(client.get(key) for key in keys))
            self.assertEqual(answers, [answer_of(_GET, key) for key in keys])
            self.assertEqual(self.server.connections, 2)
            await walk.close()
            wait_for_one = lambda: self.server.open_connections == 1
            await asyncio.get_running_loop().run_in_executor(None, wait_for, wait_for_one)

        self._run(run)

    def test_walks_that_are_left(self) -> None:
        async def run(client: AsyncClient) -> None:
            walk = await client.for_each(0, _MANY)
            await walk.first()
            await walk.close()
            self.assertIsNone(await walk.first())
            with self.assertRaisesRegex(BpfmapError, "closed before its end"):
                await walk.counts()
            with self.assertRaises(KeyError):
                async with await client.for_each(0, _MANY) as walk:
                    raise KeyError
            await (await client.for_each(0, _MANY)).first()
            gc.collect()
            self.assertEqual(await client.get(b"a"), answer_of(_GET, b"a"))
            await asyncio.get_running_loop().run_in_executor(None, wait_for, lambda: self.server.open_connections == 1)

        self._run(run)

    def test_walk_that_is_cancelled_behind_other_calls(self) -> None:
        """The calls that were sent before it on its connection get their answers."""

        async def run(client: AsyncClient) -> None:
            before = [asyncio.ensure_future(client.get(b"%d" % number)) for number in range(50)]
            walking = asyncio.ensure_future(client.for_each(0, _MANY))
            await asyncio.sleep(0)
            walking.cancel()
            self.assertEqual(await asyncio.gather(*before), [answer_of(_GET, b"%d" % number) for number in range(50)])
            self.assertEqual(await client.get(b"a"), answer_of(_GET, b"a"))

        self._run(run)

    def test_walk_of_no_entry_and_refusals(self) -> None:
        async def run(client: AsyncClient) -> None:
            walk = await client.for_each(0, b"0 x")
            self.assertEqual((await walk.first(), await walk.counts()), (None, Counts(0, 0, 0)))
            self.assertEqual(await client.get(b"a"), answer_of(_GET, b"a"))
            self.assertEqual(self.server.connections, 1)

        self._run(run)


class StaleTest(TellingTest):
    """Numbers that a client was answered, with another client."""

    def test_stale_number(self) -> None:
        """It is refused before anything is sent, also in a pipeline, and where the server was begun anew meanwhile."""
        with self.open() as first:
            number = first.register("exit\n")
        with TellingServer() as other, Client(HOST, other.port) as client:
            for call in (
                lambda: client.merge(b"a", b"x", number),
                lambda: client.compute(b"a", number),
                lambda: client.for_each(number, b"1 x"),
                lambda: client.search(number),
                lambda: client.replace_all(number),
                lambda: client.pipeline().merge(b"a", b"x", number),
            ):
                self.assertRaisesRegex(StaleProgram, "register the program with this client, or pass bpfmap.function", call)
            self.assertEqual(other.keys, set())
            self.assertEqual(client.merge(b"a", b"x", int(number)), answer_of(0x1A, b"a"))

    def test_async(self) -> None:
        async def run() -> None:
            async with AsyncClient(HOST, self.server.port) as one, AsyncClient(HOST, self.server.port) as other:
                number = await one.register("exit\n")
                await one.merge(b"a", b"x", number)
                with self.assertRaises(StaleProgram):
                    await other.merge(b"b", b"x", number)
                await other.merge(b"b", b"x", _NOTHING)
            self.assertEqual([len(programs) for programs in self.server.registered.values()], [1, 1])

        asyncio.run(run())

    def test_function_is_registered_once(self) -> None:
        """Once on each connection, also by tasks at the same time and by a pipeline."""
        with self.open() as client, client.pipeline() as calls:
            sent = [calls.merge(b"a", b"x", _NOTHING) for _ in range(5)]
        self.assertEqual([call.result() for call in sent], [answer_of(0x1A, b"a")] * 5)

        async def run() -> None:
            async with AsyncClient(HOST, self.server.port) as client:
                await asyncio.gather(*(client.merge(b"a", b"x", _NOTHING) for _ in range(20)))
                async with client.pipeline() as calls:
                    calls.merge(b"a", b"x", _NOTHING)

        asyncio.run(run())
        self.assertEqual([len(programs) for programs in self.server.registered.values()], [1, 1])

    def test_what_is_no_program(self) -> None:
        with self.open() as client:
            self.assertRaisesRegex(TypeError, "register it, or pass bpfmap.function", client.merge, b"a", b"x", "exit\n")


class BrokenWalkTest(unittest.TestCase):
    """A server that ends amid a walk."""

    def test_walk_that_breaks(self) -> None:
        """It says so each time that it is asked, and after it the client opens another connection."""

        def play(connection: socket.socket) -> None:
            receive_exactly(connection, 4 + 19)
            connection.sendall(_ITEM)

        with PlayedServer(play) as server, Client(HOST, server.port) as client:
            walk = client.for_each(0)
            self.assertEqual(next(walk), (b"a", b"x"))
            self.assertRaises(MayHaveBeenMade, next, walk)
            self.assertRaises(MayHaveBeenMade, next, walk)


class LiveWalkTest(MapdTest):
    """Walks of a live server."""

    def test_left_walks_free_their_workers(self) -> None:
        """More walks are left than the server has workers."""
        with Client(HOST, self.port) as client:
            with client.pipeline() as calls:
                for number in range(100):
                    calls.put(entry_key(number), bytes(64))
            copy = function("mov64 r0, 0\nexit\n")
            for _ in range(20):
                with client.for_each(copy) as walk:
                    self.assertEqual(next(walk), (entry_key(0), b""))
                    self.assertEqual(client.get(entry_key(7)), bytes(64))
            self.assertEqual(client.count(), 100)

    def test_function_that_is_refused(self) -> None:
        """Each call that wants it says so; the others are made, and the connection goes on."""
        faulty = function("mov64 r0, r9\nexit\n")
        with Client(HOST, self.port) as client:
            self.assertRaises(Refused, client.for_each, faulty)
            self.assertRaises(Refused, client.merge, b"a", b"x", faulty)
            calls = client.pipeline()
            sent: List[object] = [calls.put(b"a", b"x"), calls.compute(b"a", faulty), calls.get(b"a")]
            self.assertRaises(Refused, calls.execute)
            self.assertEqual((sent[0].result(), sent[2].result()), (None, b"x"))
            self.assertEqual(sent[1].error.number, 40)
            self.assertEqual(client.get(b"a"), b"x")

    def test_async_function_that_is_refused(self) -> None:
        faulty = function("mov64 r0, r9\nexit\n")

        async def run() -> None:
            async with AsyncClient(HOST, self.port) as client:
                calls = client.pipeline()
                sent = [calls.put(b"a", b"x"), calls.compute(b"a", faulty), calls.get(b"a")]
                with self.assertRaises(Refused):
                    await calls.execute()
                self.assertEqual((sent[0].result(), sent[2].result(), sent[1].error.number), (None, b"x", 40))
                with self.assertRaises(Refused):
                    await client.for_each(faulty)
                self.assertEqual(await client.get(b"a"), b"x")

        asyncio.run(run())
