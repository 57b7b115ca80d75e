"""The table of requests that all clients run: tests/requests.txt."""

import asyncio
import socket
import unittest
from typing import Callable, List, Tuple

from bpfmap import VERSIONS, AsyncClient, AsyncWalk, Client, Walk

from . import table
from .server import HOST, MapdTest, receive_all

_ROWS = table.rows()
_CALLS = [row for row in _ROWS if row.call != "raw"]
_RAW = [row for row in _ROWS if row.call == "raw"]


class TableTest(MapdTest):
    """Each test runs all rows of one session of a version against a fresh server."""

    version = 1

    def _compare(self, row: table.Row, outcome: table.Outcome) -> None:
        with self.subTest(row.name):
            self.assertEqual(outcome, table.wanted(row), table.difference(row, outcome))

    def setUp(self) -> None:
        super().setUp()
        self.calls = table.calls_of(self.version)

    def test_client(self) -> None:
        with Client(HOST, self.port, version=self.version, timeout=60) as client:
            for row in self.calls:
                self._compare(row, table.came_to(row, lambda: _run(client, row)))

    def test_raw(self) -> None:
        for row in _RAW:
            wanted = table.joined(row.answer)
            got = self._send_raw(table.joined(row.words))
            with self.subTest(row.name):
                self.assertEqual(got.hex(" "), wanted.hex(" "), f"client python, row '{row.name}'")

    def _send_raw(self, data: bytes) -> bytes:
        with socket.create_connection((HOST, self.port), 20) as connection:
            connection.sendall(data)
            connection.shutdown(socket.SHUT_WR)
            return receive_all(connection)

    def test_pipeline(self) -> None:
        """All rows in one pipeline."""
        with Client(HOST, self.port, version=self.version, timeout=60) as client:
            pipeline = client.pipeline()
            sent = [(row, _result_of(pipeline, row)) for row in self.calls]
            with self.assertRaises(Exception):
                pipeline.execute()
        for row, result in sent:
            self._compare(row, table.came_to(row, result))

    def test_async_client(self) -> None:
        for row, outcome in asyncio.run(self._run_async()):
            self._compare(row, outcome)

    async def _run_async(self) -> List[Tuple[table.Row, table.Outcome]]:
        async with AsyncClient(HOST, self.port, version=self.version, timeout=60) as client:
            return [(row, await _outcome_async(client, row)) for row in self.calls]

    def test_async_pipeline(self) -> None:
        for row, result in asyncio.run(self._run_async_pipeline()):
            self._compare(row, table.came_to(row, result))

    async def _run_async_pipeline(self) -> List[Tuple[table.Row, Callable[[], object]]]:
        async with AsyncClient(HOST, self.port, version=self.version, timeout=60) as client:
            pipeline = client.pipeline()
            sent = [(row, _result_of(pipeline, row)) for row in self.calls]
            with self.assertRaises(Exception):
                await pipeline.execute()
            return sent


class SecondTableTest(TableTest):
    """The same of version 2."""

    version = 2


class RowsTest(unittest.TestCase):
    """What the table has, without a server."""

    def test_each_call_and_answer_has_a_row(self) -> None:
        calls = {row.call for row in _ROWS}
        self.assertEqual(len(calls), 17)
        answers = {row.answer[0] for row in _CALLS}
        self.assertEqual(answers, {"program", "nothing", "value", "true", "false", "unfit", "refused", "items", "counts"})

    def test_each_version_has_rows_of_its_own(self) -> None:
        for version in VERSIONS:
            self.assertTrue(any(row.name.startswith(f"version {version}: ") for row in table.calls_of(version)))

    def test_each_refusal_but_of_memory_and_long_values_has_a_row(self) -> None:
        told = {int(row.answer[1]) for row in _CALLS if row.answer[0] == "refused"}
        told |= {table.joined(row.answer)[-5] for row in _RAW if table.joined(row.answer)[-6:-5] == b"\x85"}
        self.assertEqual(told, {1, *range(10, 18), *range(30, 34), *range(40, 48), *range(60, 65), 66})

    def test_no_name_is_there_twice(self) -> None:
        names = [row.name for row in _ROWS]
        self.assertEqual(len(names), len(set(names)))


def _run(client: Client, row: table.Row) -> object:
    answer = getattr(client, row.call)(*table.arguments(row))
    return (list(answer), answer.counts) if isinstance(answer, Walk) else answer


def _result_of(pipeline: object, row: table.Row) -> Callable[[], object]:
    """Adds a row's call to a pipeline; what it gives answers later. One that is refused at once answers that."""
    try:
        return getattr(pipeline, row.call)(*table.arguments(row)).result
    except Exception as error:  # pylint: disable=broad-except
        return _raising(error)


def _raising(error: Exception) -> Callable[[], object]:
    def raise_it() -> object:
        raise error

    return raise_it


async def _outcome_async(client: AsyncClient, row: table.Row) -> table.Outcome:
    try:
        answer = await getattr(client, row.call)(*table.arguments(row))
        if isinstance(answer, AsyncWalk):
            answer = ([entry async for entry in answer], await answer.counts())
    except Exception as error:  # pylint: disable=broad-except
        return table.came_to(row, _raising(error))
    return table.came_to(row, lambda: answer)
