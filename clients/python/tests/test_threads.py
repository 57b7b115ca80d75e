"""Threads and tasks that add to one counter: the sum is exact."""

import asyncio
import threading
from typing import Callable, List

from bpfmap import SUM, AsyncClient, Client, Pool, function

from .server import HOST, MapdTest

_THREADS = 8
_MERGES = 250
_ADD = function(SUM)
_KEY = b"counter"
_ONE = (1).to_bytes(8, "little")
_SUM = (_THREADS * _MERGES).to_bytes(8, "little")


class CounterTest(MapdTest):
    """250 merges of 1 in each of 8 threads, on a key that is absent at first."""

    def _run_threads(self, work: Callable[[], None]) -> None:
        errors: List[BaseException] = []

        def guarded() -> None:
            try:
                work()
            except BaseException as error:  # pylint: disable=broad-except
                errors.append(error)

        threads = [threading.Thread(target=guarded) for _ in range(_THREADS)]
        for thread in threads:
            thread.start()
        for thread in threads:
            thread.join()
        self.assertEqual(errors, [])

    def test_a_client_for_each_thread(self) -> None:
        with Client(HOST, self.port) as first:

            def work() -> None:
                with Client(HOST, self.port) as client:
                    for _ in range(_MERGES):
                        client.merge(_KEY, _ONE, _ADD)

            self._run_threads(work)
            self.assertEqual(first.get(_KEY), _SUM)

    def test_a_pool_for_all_threads(self) -> None:
        """Each of its connections registers the function once."""
        with Pool(HOST, self.port, size=3) as pool:

            def work() -> None:
                own = threading.current_thread().name.encode()
                for number in range(1, _MERGES + 1):
                    pool.merge(_KEY, _ONE, _ADD)
                    self.assertEqual(pool.merge(own, _ONE, _ADD), number.to_bytes(8, "little"))

            self._run_threads(work)
            self.assertEqual(pool.get(_KEY), _SUM)
            self.assertLessEqual(pool.register(SUM), 3)

    def test_one_client_for_all_threads(self) -> None:
        """Each thread counts on a key of its own too: so it sees that its answers are its own."""
        with Client(HOST, self.port) as client:
            program = client.register(SUM)

            def work() -> None:
                own = threading.current_thread().name.encode()
                for number in range(1, _MERGES + 1):
                    client.merge(_KEY, _ONE, program)
                    self.assertEqual(client.merge(own, _ONE, program), number.to_bytes(8, "little"))

            self._run_threads(work)
            self.assertEqual(client.get(_KEY), _SUM)

    def test_a_pipeline_for_each_thread(self) -> None:
        """Each merge answers another sum: together they are 1 to 2,000, each once."""
        answers: List[bytes] = []

        def work() -> None:
            with Client(HOST, self.port) as client:
                pipeline = client.pipeline()
                for _ in range(_MERGES):
                    pipeline.merge(_KEY, _ONE, _ADD)
                answers.extend(pipeline.execute())

        self._run_threads(work)
        numbers = sorted(int.from_bytes(answer, "little") for answer in answers)
        self.assertEqual(numbers, list(range(1, _THREADS * _MERGES + 1)))

    def test_tasks(self) -> None:
        self.assertEqual(asyncio.run(self._run_tasks()), _SUM)

    async def _run_tasks(self) -> object:
        async with AsyncClient(HOST, self.port) as client:
            program = await client.register(SUM)

            async def work(own: bytes) -> None:
                for number in range(1, _MERGES + 1):
                    await client.merge(_KEY, _ONE, program)
                    self.assertEqual(await client.merge(own, _ONE, program), number.to_bytes(8, "little"))

            await asyncio.gather(*(work(bytes([task])) for task in range(_THREADS)))
            return await client.get(_KEY)
