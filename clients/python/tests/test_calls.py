"""Pipelines that are larger than the buffers, walks, and asyncio beside the table."""

import asyncio
import re
import unittest
from array import array
from typing import Dict, NamedTuple, Optional

from bpfmap import COPY, SUM, AsyncClient, Client, Counts, Refused
from bpfmap.errors import REFUSALS
from bpfmap.protocol import FrameReader

from .server import HOST, ROOT, MapdTest

_LONG = bytes(range(256))
# 40,000 calls on values of 256 bytes: ten megabytes each way, more than the system's buffers hold.
_MANY = 40_000
_ENTRIES = 300


def key(number: int) -> bytes:
    """A key, in the order of its number."""
    return number.to_bytes(4, "big")


class PipelineTest(MapdTest):
    """Pipelines against the real server."""

    def test_larger_than_the_buffers(self) -> None:
        with Client(HOST, self.port) as client:
            pipeline = client.pipeline()
            for number in range(_MANY):
                pipeline.put(b"a", number.to_bytes(256, "big"))
            answers = pipeline.execute()
            self.assertEqual(answers, [None] + [number.to_bytes(256, "big") for number in range(_MANY - 1)])

    def test_async_larger_than_the_buffers(self) -> None:
        async def run() -> "list[object]":
            async with AsyncClient(HOST, self.port) as client:
                async with client.pipeline() as pipeline:
                    calls = [pipeline.put(b"a", number.to_bytes(256, "big")) for number in range(_MANY)]
                return [call.result() for call in calls]

        self.assertEqual(asyncio.run(run()), [None] + [number.to_bytes(256, "big") for number in range(_MANY - 1)])

    def test_refused_calls_leave_the_others(self) -> None:
        with Client(HOST, self.port) as client:
            pipeline = client.pipeline()
            calls = [pipeline.put(b"a", b"x"), pipeline.compute(b"a", 7), pipeline.get(b"a")]
            with self.assertRaises(Refused) as raised:
                pipeline.execute()
            self.assertEqual((raised.exception.number, raised.exception.name), (66, "UnknownProgram"))
            self.assertEqual([calls[0].result(), calls[2].result()], [None, b"x"])
            self.assertEqual(pipeline.execute(), [])
            self.assertEqual(client.get(b"a"), b"x")

    def test_call_that_was_not_sent(self) -> None:
        with Client(HOST, self.port) as client:
            call = client.pipeline().get(b"a")
            self.assertRaises(RuntimeError, call.result)

    def test_pipeline_of_a_faulty_block_is_not_sent(self) -> None:
        with Client(HOST, self.port) as client:
            with self.assertRaises(KeyError), client.pipeline() as pipeline:
                pipeline.put(b"a", b"x")
                raise KeyError
            self.assertIsNone(client.get(b"a"))


class WalkTest(MapdTest):
    """Walks that are gone through while other calls are made."""

    def _fill(self, client: Client) -> int:
        with client.pipeline() as pipeline:
            for number in range(_ENTRIES):
                pipeline.put(key(number), _LONG)
        return client.register(COPY)

    def test_call_in_the_middle_of_a_walk(self) -> None:
        with Client(HOST, self.port) as client:
            walk = client.for_each(self._fill(client))
            first = next(walk)
            self.assertEqual(client.remove(key(1)), _LONG)
            entries = [first, *walk]
            self.assertEqual(entries, [(key(number), _LONG) for number in range(_ENTRIES)])
            self.assertEqual(walk.counts, Counts(_ENTRIES, _ENTRIES, 0))
            self.assertEqual(client.count(), _ENTRIES - 1)

    def test_two_walks(self) -> None:
        with Client(HOST, self.port) as client:
            program = self._fill(client)
            pairs = list(zip(client.for_each(program), client.for_each(program)))
            self.assertEqual(len(pairs), _ENTRIES)
            self.assertTrue(all(one == other for one, other in pairs))

    def test_counts_before_the_entries(self) -> None:
        with Client(HOST, self.port) as client:
            walk = client.for_each(self._fill(client))
            self.assertEqual(walk.counts.given, _ENTRIES)
            self.assertEqual(len(list(walk)), _ENTRIES)

    def test_search(self) -> None:
        with Client(HOST, self.port) as client:
            program = self._fill(client)
            self.assertEqual(client.search(program).first(), (key(0), _LONG))
            self.assertEqual(client.search(program).counts, Counts(_ENTRIES, 1, 0))

    def test_async_walk(self) -> None:
        with Client(HOST, self.port) as client:
            program = int(self._fill(client))

        async def run() -> None:
            async with AsyncClient(HOST, self.port) as client:
                walk = await client.for_each(program)
                first = await walk.first()
                self.assertEqual(await client.remove(key(1)), _LONG)
                entries = [first] + [entry async for entry in walk]
                self.assertEqual(entries, [(key(number), _LONG) for number in range(_ENTRIES)])
                self.assertEqual(await walk.counts(), Counts(_ENTRIES, _ENTRIES, 0))
                self.assertEqual(await (await client.search(program)).first(), (key(0), _LONG))

        asyncio.run(run())


class AsyncTest(MapdTest):
    """Tasks that share a client."""

    def test_task_that_is_cancelled(self) -> None:
        """Its answer comes all the same, and is no other call's."""

        async def run() -> None:
            async with AsyncClient(HOST, self.port) as client:
                task = asyncio.create_task(client.put(b"a", b"x"))
                await asyncio.sleep(0)
                task.cancel()
                self.assertEqual(await client.put(b"b", b"y"), None)
                self.assertEqual(await client.get(b"b"), b"y")
                self.assertTrue(task.cancelled())

        asyncio.run(run())

    def test_closed_client(self) -> None:
        async def run() -> None:
            client = AsyncClient(HOST, self.port)
            await client.open()
            program = await client.register(SUM)
            waiting = asyncio.gather(*(client.merge(b"a", b"1", program) for _ in range(10)), return_exceptions=True)
            await asyncio.sleep(0)
            await client.close()
            self.assertEqual(len(await waiting), 10)
            with self.assertRaises(ConnectionError):
                await client.get(b"a")
            await client.close()

        asyncio.run(run())


# A row of each table: the number, the name and, as the last column or behind a colon, the sentence.
_REFUSAL = re.compile(r"\| (?P<number>\d+) \| (?P<name>\w+) \| (?:.* \| )?(?P<sentence>[^|]+) \|")
_FAULT = re.compile(r"\| (?P<number>6\d) \| (?P<name>\w+): (?P<sentence>.*) \| .* \|")
_UNKNOWN = re.compile(r"\| (?P<number>66) \| (?P<sentence>no program.*) \| a call .*\|")


class Told(NamedTuple):
    """What a page says of a refusal; the table with 66 names none."""

    name: Optional[str]
    sentence: str


def _of_page(page: str, row: "re.Pattern[str]") -> "Dict[int, Told]":
    lines = (ROOT / "docs" / page).read_text().replace("`", "").splitlines()
    found = [match for match in map(row.fullmatch, lines) if match]
    return {int(match["number"]): Told(match.groupdict().get("name"), match["sentence"]) for match in found}


class SentencesTest(unittest.TestCase):
    """The sentences of refusals are those of the documents."""

    def test_sentences(self) -> None:
        told = {**_of_page("REFUSALS.md", _REFUSAL), **_of_page("PROTOCOL.md", _FAULT), **_of_page("PROTOCOL.md", _UNKNOWN)}
        for number, (name, sentence) in REFUSALS.items():
            with self.subTest(number):
                self.assertIn(told[number].name, (name, None))
                self.assertTrue(told[number].sentence.startswith(sentence), f"{sentence!r}, and {told[number].sentence!r}")

    def test_message(self) -> None:
        self.assertEqual(
            str(Refused(43, 2)),
            "refused 43 OutOfWindow at unit 2: declare the size greater, or mask or test the number that was added",
        )
        self.assertEqual(str(Refused(66)), "refused 66 UnknownProgram: no program has this number")
        self.assertEqual(str(Refused(200)), "refused 200 Unknown: this client knows no refusal of this number")


class FrameReaderTest(unittest.TestCase):
    """Streams that are cut."""

    def test_bytes_one_by_one(self) -> None:
        bodies = [bytes([length % 256]) * length for length in (1, 2, 255, 256, 8_192, 32_777, 1)]
        stream = b"".join(len(body).to_bytes(4, "big") + body for body in bodies)
        reader = FrameReader(32_777)
        found = []
        for byte in stream:
            reader.feed(bytes([byte]))
            found.append(reader.next())
        self.assertEqual([body for body in found if body is not None], bodies)

    def test_one_piece(self) -> None:
        reader = FrameReader(8_192)
        reader.feed(bytes.fromhex("00000001" + "23" + "00000002" + "8301" + "0000"))
        self.assertEqual([reader.next(), reader.next(), reader.next()], [b"\x23", b"\x83\x01", None])


class WrongArgumentsTest(MapdTest):
    """Faults of the caller are raised before anything is sent."""

    def test_wrong_arguments(self) -> None:
        with Client(HOST, self.port) as client:
            self.assertRaisesRegex(TypeError, 'a key is bytes, and not str: write b".."', client.get, "a")
            self.assertRaisesRegex(TypeError, "a value is bytes, and not int: encode it first", client.put, b"a", 7)
            self.assertRaisesRegex(TypeError, "a value is bytes, and not list", client.put, b"a", [7])
            self.assertRaisesRegex(TypeError, "bpfmap.Map takes keys and values of str", client.pipeline().put, b"a", "x")
            self.assertRaises(OverflowError, client.compute, b"a", -1)
            self.assertRaises(OverflowError, client.compute, b"a", 1 << 64)
            self.assertRaises(OverflowError, client.register, SUM, 1 << 16)
            self.assertRaises(ValueError, Client, HOST, self.port, version=3)
            self.assertRaises(ValueError, AsyncClient, HOST, self.port, version=0)
            self.assertIsNone(client.get(b"a"))

    def test_what_is_like_bytes(self) -> None:
        """All of its bytes are sent, however wide its items are."""
        with Client(HOST, self.port) as client:
            wide = memoryview(array("I", [1, 2]))
            self.assertIsNone(client.put(bytearray(b"a"), wide))
            self.assertEqual(client.get(memoryview(b"a")), wide.tobytes())
            self.assertEqual(client.compute(wide, client.register("mov64 r0, 0\nexit\n")), b"")
            self.assertEqual(client.remove(b"a"), wide.tobytes())
