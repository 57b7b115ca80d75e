"""Sessions of both versions of the protocol on one map, and servers that know one version alone."""

import asyncio
import unittest
from typing import Callable

from bpfmap import VERSIONS, AsyncClient, Client, Counts, ProtocolFault, Refused, copy_text

from .server import HOST, MapdTest, PlayedServer

_LONG = bytes(range(256)) * 4
_OTHER = bytes(reversed(_LONG))
# The least length that version 1 does not carry.
_LEAST = bytes(257)
_COPY = copy_text(1_024)
# Answers nothing.
_NOTHING = "mov64 r0, -1\nexit\n"


class VersionsTest(MapdTest):
    """A client of each version, on one map."""

    def setUp(self) -> None:
        super().setUp()
        self.old = Client(HOST, self.port, version=1)
        self.addCleanup(self.old.close)
        self.new = Client(HOST, self.port)
        self.addCleanup(self.new.close)

    def _refuses(self, call: "Callable[[], object]") -> None:
        """The call is refused since its answer is too long."""
        with self.assertRaises(Refused) as raised:
            call()
        refusal = raised.exception
        self.assertEqual((refusal.number, refusal.name, refusal.place), (65, "ValueTooLong", 0))

    def test_limits(self) -> None:
        self.assertEqual((self.old.limits, self.new.limits), (VERSIONS[1], VERSIONS[2]))
        for client in (self.old, self.new):
            longest = bytes(client.limits.value)
            self.assertIsNone(client.put(b"longest", longest))
            self.assertEqual(client.remove(b"longest"), longest)
            with self.assertRaises(Refused) as raised:
                client.put(b"longest", longest + b"x")
            self.assertEqual(raised.exception.number, 1)

    def test_calls_that_are_made_all_the_same(self) -> None:
        """A Put, a Replace and a Remove whose old value is long are made; a Get and a PutIfAbsent change nothing."""
        old, new = self.old, self.new
        for long in (_LEAST, _LONG):
            self.assertIsNone(new.put(b"a", long))
            self._refuses(lambda: old.get(b"a"))
            self._refuses(lambda: old.put_if_absent(b"a", b"x"))
            self.assertEqual(new.get(b"a"), long)
            self._refuses(lambda: old.put(b"a", b"x"))
            self.assertEqual((old.get(b"a"), new.put(b"a", long)), (b"x", b"x"))
            self._refuses(lambda: old.replace(b"a", b"y"))
            self.assertEqual((old.get(b"a"), new.put(b"a", long)), (b"y", b"y"))
            self._refuses(lambda: old.remove(b"a"))
            self.assertIsNone(old.get(b"a"))

    def test_answers_without_a_value(self) -> None:
        """Those of RemoveIf, ReplaceIf and Count are as ever."""
        self.new.put(b"a", _LONG)
        self.assertFalse(self.old.remove_if(b"a", b"x"))
        self.assertFalse(self.old.replace_if(b"a", b"x", b"y"))
        self.assertEqual(self.old.count(), 1)

    def test_programs(self) -> None:
        """A program with large windows is registered by version 2, and run by version 1 too."""
        old, new = self.old, self.new
        with self.assertRaises(Refused) as raised:
            old.register(_COPY, old=1_024, result=1_024)
        self.assertEqual(raised.exception.number, 47)
        program = int(new.register(_COPY, old=1_024, result=1_024))
        new.put(b"a", _LONG)
        for call in (old.compute, old.compute_if_present):
            self._refuses(lambda call=call: call(b"a", program))
            self.assertEqual(new.get(b"a"), _LONG)
        self._refuses(lambda: old.compute_if_absent(b"a", program))
        self._refuses(lambda: old.merge(b"a", b"x", program))
        self.assertEqual(new.compute(b"a", program), _LONG)
        self.assertIsNone(old.compute(b"a", int(new.register(_NOTHING, old=1_024))))
        self.assertIsNone(new.get(b"a"))

    def test_program_of_many_units(self) -> None:
        many = "jset64 r6, 1, +0\n" * 4_094 + _NOTHING
        with self.assertRaises(Refused) as raised:
            self.old.register("exit\n" * 513)
        self.assertEqual(raised.exception.number, 12)
        self.assertIsNone(self.old.compute(b"a", int(self.new.register(many, 64, 0, 0, 0))))

    def test_walks(self) -> None:
        """An item that is too long takes the place of the whole answer; a walk that counts goes on."""
        program = int(self.new.register(_COPY, old=1_024, result=1_024))
        self.new.put(b"a", b"x")
        self.new.put(b"b", _LONG)
        self.new.put(b"c", b"z")
        self._refuses(lambda: list(self.old.for_each(program)))
        self.assertEqual(self.old.search(program).first(), (b"a", b"x"))
        self.assertEqual(self.old.replace_all(program), Counts(3, 3, 0))
        self.assertEqual(list(self.new.for_each(program)), [(b"a", b"x"), (b"b", _LONG), (b"c", b"z")])
        self.old.remove(b"a")
        self._refuses(lambda: self.old.search(program).first())
        self.assertEqual(self.old.get(b"c"), b"z")

    def test_pipeline(self) -> None:
        """Of a pipeline the refused calls are refused, and all are made."""
        self.new.put(b"a", _LONG)
        pipeline = self.old.pipeline()
        calls = [pipeline.get(b"a"), pipeline.put(b"a", b"x"), pipeline.get(b"a")]
        with self.assertRaises(Refused):
            pipeline.execute()
        for call in calls[:2]:
            self._refuses(call.result)
        self.assertEqual(calls[2].result(), b"x")

    def test_async(self) -> None:
        async def run() -> None:
            async with AsyncClient(HOST, self.port, version=1) as old, AsyncClient(HOST, self.port) as new:
                self.assertEqual((old.limits, new.limits), (VERSIONS[1], VERSIONS[2]))
                program = int(await new.register(_COPY, old=1_024, result=1_024))
                await new.put(b"a", _LONG)
                self.assertEqual(await new.get(b"a"), _LONG)
                for call in (old.get(b"a"), old.for_each(program), old.put(b"a", b"x")):
                    with self.assertRaises(Refused) as raised:
                        await call
                    self.assertEqual(raised.exception.number, 65)
                self.assertEqual(await old.get(b"a"), b"x")
                with self.assertRaises(Refused):
                    await old.put(b"a", _OTHER)
                self.assertIsNone(await new.put(b"b", _OTHER))

        asyncio.run(run())


class OneVersionTest(unittest.TestCase):
    """Servers that know one version alone: nothing is tried a second time."""

    def test_server_that_refuses_the_version(self) -> None:
        """An older server answers version 2 by a refusal."""
        with PlayedServer(lambda connection: None, answer="0000000685" + "40" + "00000000") as server:
            with self.assertRaisesRegex(Refused, "ask for version 1, by Client.host, port, version=1. or --protocol 1") as raised:
                Client(HOST, server.port)
        self.assertEqual(raised.exception.number, 64)
        with PlayedServer(lambda connection: None, answer="0000000685" + "40" + "00000000") as server:
            with self.assertRaisesRegex(Refused, "ask for version 1"):
                asyncio.run(AsyncClient(HOST, server.port).open())

    def test_server_that_answers_another_version(self) -> None:
        for version, other in ((1, 2), (2, 1)):
            with PlayedServer(lambda connection: None, other) as server:
                self.assertRaises(ProtocolFault, Client, HOST, server.port, version=version)
