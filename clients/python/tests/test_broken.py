"""Servers that end, are silent, or send what is no answer."""

import asyncio
import socket
import threading
import time
import unittest
from typing import Callable, List

from bpfmap import (
    AsyncClient,
    Client,
    ConnectionBroken,
    MayHaveBeenMade,
    NotSent,
    Pending,
    ProtocolFault,
    Refused,
    TimedOut,
    Unfit,
)
from bpfmap.connection import Address
from bpfmap.outgoing import Outgoing

from .server import HOST, MapdTest, PlayedServer, receive_exactly

_HELLO = bytes.fromhex("000000020002")
_GET = bytes.fromhex("00000003100161")
_VALUE = bytes.fromhex("00000004820001")
_FOREVER = 20
# A timeout that is to pass. A played server greets sooner, on a busy machine too.
_SOON = 0.5


def answering(count: int, times: int) -> Callable[[socket.socket], None]:
    """Reads all of so many Gets, answers the first ones with the bytes 0, 1, 2 and on, and ends."""

    def play(connection: socket.socket) -> None:
        receive_exactly(connection, count * len(_GET))
        for number in range(times):
            connection.sendall(_VALUE + bytes([number]))

    return play


def sending(response: str) -> Callable[[socket.socket], None]:
    """Reads a Get, sends these bytes, and waits for the client's end."""

    def play(connection: socket.socket) -> None:
        receive_exactly(connection, len(_GET))
        connection.sendall(bytes.fromhex(response))
        connection.recv(1)

    return play


class EndedTest(unittest.TestCase):
    """A server that ends in the middle of a pipeline."""

    def _check(self, calls: "List[Pending[object]]", answered: int) -> None:
        for number, call in enumerate(calls[:answered]):
            self.assertEqual(call.result(), bytes([number]))
        for call in calls[answered:]:
            self.assertIsInstance(call.error, ConnectionBroken)
            self.assertRaises(ConnectionBroken, call.result)

    def test_pipeline(self) -> None:
        for answered in (0, 1, 7, 19):
            with PlayedServer(answering(20, answered)) as server, Client(HOST, server.port) as client:
                pipeline = client.pipeline()
                calls = [pipeline.get(b"a") for _ in range(20)]
                self.assertRaises(ConnectionBroken, pipeline.execute)
                self._check(calls, answered)
                self.assertRaises(ConnectionBroken, client.get, b"a")

    def test_async_pipeline(self) -> None:
        for answered in (0, 1, 7, 19):
            with PlayedServer(answering(20, answered)) as server:
                self._check(asyncio.run(self._run_async(server.port)), answered)

    async def _run_async(self, port: int) -> "List[Pending[object]]":
        async with AsyncClient(HOST, port) as client:
            pipeline = client.pipeline()
            calls = [pipeline.get(b"a") for _ in range(20)]
            with self.assertRaises(ConnectionBroken):
                await pipeline.execute()
            with self.assertRaises(ConnectionBroken):
                await client.get(b"a")
            return calls

    def test_server_that_reads_no_further(self) -> None:
        """It reads three requests of ten megabytes, answers them, and resets the connection."""

        def play(connection: socket.socket) -> None:
            receive_exactly(connection, 3 * (4 + 3 + 258))
            connection.sendall(b"".join(_VALUE + bytes([number]) for number in range(3)))
            time.sleep(0.2)

        with PlayedServer(play) as server, Client(HOST, server.port) as client:
            pipeline = client.pipeline()
            calls = [pipeline.put(b"a", bytes(256)) for _ in range(40_000)]
            self.assertRaises(ConnectionBroken, pipeline.execute)
            self._check(calls, 3)
            self.assertIsInstance(calls[3].error, MayHaveBeenMade)
            self.assertIsInstance(calls[-1].error, NotSent)

    def test_call(self) -> None:
        """The call was read and not answered: it is an error, and no second connection is made."""
        with PlayedServer(answering(1, 0)) as server, Client(HOST, server.port) as client:
            self.assertRaises(ConnectionBroken, client.get, b"a")
            self.assertRaisesRegex(ConnectionBroken, "nothing was sent", client.get, b"a")

    def test_answer_that_is_cut(self) -> None:
        def play(connection: socket.socket) -> None:
            receive_exactly(connection, len(_GET))
            connection.sendall(_VALUE)

        with PlayedServer(play) as server, Client(HOST, server.port) as client:
            self.assertRaises(ConnectionBroken, client.get, b"a")

    def test_walk(self) -> None:
        """What came before the end is given, and then the error."""

        def play(connection: socket.socket) -> None:
            receive_exactly(connection, 4 + 19)
            connection.sendall(bytes.fromhex("000000068601610001" + "78" + "000000"))

        with PlayedServer(play) as server, Client(HOST, server.port) as client:
            walk = client.for_each(0)
            self.assertEqual(next(walk), (b"a", b"x"))
            self.assertRaises(ConnectionBroken, next, walk)

    def test_no_server(self) -> None:
        with socket.create_server((HOST, 0)) as listener:
            port = listener.getsockname()[1]
        self.assertRaisesRegex(NotSent, f"no connection to {HOST}:{port}", Client, HOST, port)
        self.assertRaisesRegex(NotSent, f"no connection to {HOST}:{port}", asyncio.run, AsyncClient(HOST, port).open())
        self.assertRaises(NotSent, asyncio.run, AsyncClient(HOST, port).get(b"a"))

    def test_address_in_a_message(self) -> None:
        self.assertEqual(str(Address("::1", 7070, None)), "[::1]:7070")
        self.assertEqual(str(Address("example.org", 7070, None)), "example.org:7070")

    def test_send_that_the_system_refuses(self) -> None:
        """Nothing was sent; a call that was sent and not answered is another thing."""
        with PlayedServer(answering(1, 0)) as server, Client(HOST, server.port) as client:
            self.assertRaises(MayHaveBeenMade, client.get, b"a")
        with PlayedServer(lambda connection: connection.recv(1)) as server, Client(HOST, server.port) as client:
            client._connection._socket.shutdown(socket.SHUT_WR)
            self.assertRaisesRegex(NotSent, "nothing was sent: .*[Pp]ipe", client.get, b"a")

    def test_bytes_that_nobody_asked_for(self) -> None:
        """They are taken for no call's answer."""

        def play(connection: socket.socket) -> None:
            receive_exactly(connection, len(_GET))
            connection.sendall((_VALUE + b"x") * 2)
            connection.recv(1)

        with PlayedServer(play) as server, Client(HOST, server.port) as client:
            self.assertEqual(client.get(b"a"), b"x")
            self.assertRaisesRegex(NotSent, "what nobody asked for", client.get, b"b")


class SilentTest(unittest.TestCase):
    """A server that does not answer in time."""

    @staticmethod
    def _wait(connection: socket.socket) -> None:
        connection.settimeout(_FOREVER)
        while connection.recv(65536):
            pass

    def test_call(self) -> None:
        with PlayedServer(self._wait) as server, Client(HOST, server.port, timeout=_SOON) as client:
            self.assertRaises(TimedOut, client.get, b"a")
            self.assertRaisesRegex(ConnectionBroken, "nothing was sent", client.get, b"a")

    def test_pipeline(self) -> None:
        with PlayedServer(self._wait) as server, Client(HOST, server.port, timeout=_SOON) as client:
            pipeline = client.pipeline()
            call = pipeline.get(b"a")
            self.assertRaises(TimedOut, pipeline.execute)
            self.assertIsInstance(call.error, TimedOut)
            self.assertRaisesRegex(ConnectionBroken, "nothing was sent", client.get, b"a")

    def test_async(self) -> None:
        with PlayedServer(self._wait) as server:
            asyncio.run(self._run_async(server.port))

    async def _run_async(self, port: int) -> None:
        async with AsyncClient(HOST, port, timeout=_SOON) as client:
            with self.assertRaises(TimedOut):
                await client.get(b"a")
            with self.assertRaises(ConnectionBroken):
                await client.get(b"a")

    def test_async_pipeline_that_nobody_reads(self) -> None:
        """Of its ten megabytes the last ones never left this process, and their calls were not sent."""

        async def run(port: int) -> "List[Pending[object]]":
            async with AsyncClient(HOST, port, timeout=_SOON) as client:
                pipeline = client.pipeline()
                calls = [pipeline.put(b"a", bytes(256)) for _ in range(40_000)]
                with self.assertRaises(TimedOut):
                    await pipeline.execute()
                return calls

        done = threading.Event()
        with PlayedServer(lambda connection: done.wait(_FOREVER)) as server:
            calls = asyncio.run(run(server.port))
            done.set()
        self.assertIsInstance(calls[0].error, MayHaveBeenMade)
        self.assertIsInstance(calls[-1].error, NotSent)

    def test_answers_that_come_slowly(self) -> None:
        """All of them take longer than the timeout, each of them does not."""

        def play(connection: socket.socket) -> None:
            receive_exactly(connection, 5 * len(_GET))
            for number in range(5):
                connection.sendall(_VALUE + bytes([number]))
                time.sleep(0.2)

        wanted = [bytes([number]) for number in range(5)]
        with PlayedServer(play) as server, Client(HOST, server.port, timeout=0.5) as client:
            pipeline = client.pipeline()
            for _ in range(5):
                pipeline.get(b"a")
            self.assertEqual(pipeline.execute(), wanted)
        with PlayedServer(play) as server:
            self.assertEqual(asyncio.run(self._run_slowly(server.port)), wanted)

    async def _run_slowly(self, port: int) -> "List[object]":
        async with AsyncClient(HOST, port, timeout=0.5) as client:
            return await asyncio.gather(*(client.get(b"a") for _ in range(5)))

    def test_no_hello(self) -> None:
        with socket.create_server((HOST, 0)) as listener:
            port = listener.getsockname()[1]
            with self.assertRaises(TimedOut):
                Client(HOST, port, timeout=0.2)

    def test_open_that_is_cancelled(self) -> None:
        """The Hello is not answered. The connection is closed, though the client is still there."""
        with socket.create_server((HOST, 0)) as listener:
            self.assertEqual(asyncio.run(self._cancel_open(listener)), _HELLO)

    async def _cancel_open(self, listener: socket.socket) -> bytes:
        client = AsyncClient(HOST, listener.getsockname()[1])
        opening = asyncio.ensure_future(client.open())
        loop = asyncio.get_running_loop()
        listener.settimeout(_FOREVER)
        connection, _ = await loop.run_in_executor(None, listener.accept)
        with connection:
            connection.settimeout(_FOREVER)
            received = await loop.run_in_executor(None, receive_exactly, connection, len(_HELLO))
            opening.cancel()
            with self.assertRaises(asyncio.CancelledError):
                await opening
            received += await loop.run_in_executor(None, connection.recv, 1)
        with self.assertRaises(ConnectionBroken):
            await client.get(b"a")
        return received


class FaultTest(unittest.TestCase):
    """Responses to a Get."""

    def _answer(self, response: str) -> object:
        with PlayedServer(sending(response)) as server, Client(HOST, server.port) as client:
            try:
                return client.get(b"a")
            finally:
                client.close()

    def test_refusals(self) -> None:
        for response, kind in (("0000000685" + "09" + "00000000", Refused), ("000000028403", Unfit)):
            with self.assertRaises(kind):
                self._answer(response)

    def test_what_is_no_answer(self) -> None:
        faults = {
            "a length of 0": "00000000",
            "a length that is too great": "0000800a",
            "an unknown tag": "0000000188",
            "the answer of another request": "000000028301",
            "a value that is cut short": "000000048200" + "0278",
            "a value without a length": "0000000182",
            "bytes behind a value": "0000000582000078" + "78",
            "a refusal that is cut short": "000000028542",
            "an unknown window": "000000028404",
            "an item": "000000068601610001" + "78",
        }
        for name, response in faults.items():
            with self.subTest(name), self.assertRaises(ProtocolFault):
                self._answer(response)


    def test_length_that_is_too_great_for_version_1(self) -> None:
        with PlayedServer(sending("00002001"), 1) as server, Client(HOST, server.port, version=1) as client:
            self.assertRaises(ProtocolFault, client.get, b"a")

    def test_walk_whose_counts_are_wrong(self) -> None:
        def play(connection: socket.socket) -> None:
            receive_exactly(connection, 4 + 19)
            connection.sendall(bytes.fromhex("000000068601610001" + "78" + "0000001987" + "0000000000000002" * 2 + "00" * 8))
            connection.recv(1)

        with PlayedServer(play) as server, Client(HOST, server.port) as client:
            self.assertRaises(ProtocolFault, list, client.for_each(0))

    def test_sending_to_a_server_that_ended(self) -> None:
        """It is no fault yet: what the server sent before is still read."""
        mine, other = socket.socketpair()
        other.close()
        outgoing = Outgoing(b"abc")
        with mine:
            outgoing.send_some(mine)
        self.assertEqual((bytes(outgoing.rest), outgoing.is_cut), (b"", True))


class KilledTest(MapdTest):
    """The real server is killed while a pipeline is under way, after 1,000 of its 50,000 answers have come. They have 50 megabytes,
    more than sockets keep, so that the server is not done before most of them were read."""

    def test_what_was_answered_stands(self) -> None:
        with Client(HOST, self.port) as client:
            pipeline = client.pipeline()
            calls = [pipeline.put(b"a", _number(number)) for number in range(50_000)]
            killer = threading.Thread(target=self._kill_after, args=(calls[1_000],))
            killer.start()
            try:
                self.assertRaises(ConnectionBroken, pipeline.execute)
            finally:
                killer.join()
        answered = sum(call.error is None for call in calls)
        self.assertGreater(answered, 1_000)
        self.assertEqual([call.result() for call in calls[:answered]], [None, *map(_number, range(answered - 1))])
        for call in calls[answered:]:
            self.assertIsInstance(call.error, ConnectionBroken)

    def _kill_after(self, call: "Pending[object]") -> None:
        while not call.is_done:
            time.sleep(0.001)
        self.mapd.kill()


def _number(number: int) -> bytes:
    """A number, as long as a value may be."""
    return number.to_bytes(1024, "little")
