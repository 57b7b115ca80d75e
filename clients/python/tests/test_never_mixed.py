"""No call ever gets the answer of another one, whatever breaks a call off.

The shape of it, for clients in other languages too: the server's answers say whose they are (tests/telling.py), an operation
makes calls and compares each answer with what belongs to the call, and a fault breaks the operation off at its nth point, for
n = 1, 2, .. until the operation gets through. Then the client is asked for another key: it answers what belongs to that, or fails.
A call that fails by NotSent has sent the server nothing.

| fault | points | where |
| --- | --- | --- |
| an exception of a socket's call | each send and recv: before, after, and in the middle of it | SocketTest |
| a signal's handler that raises | each instruction of Python; a live server, at random times | InstructionTest, SignalTest |
| a signal's handler that calls | each send and recv | HandlerTest |
| a task that is cancelled | each await | CancelledTest |
| an exception in a loop's callback | each instruction of Python | LoopTest |
| a fork | between two calls, amid a walk | tests/test_forks.py |
| threads | one client for all | ThreadsTest |
"""

import asyncio
import itertools
import random
import signal
import threading
import time
import types
import unittest
import warnings
from typing import Awaitable, Callable, Dict, List, Optional, Set

from bpfmap import AsyncClient, Client, ConnectionBroken, NotSent, Pending, Pool, function

from .faults import POINTS, CancelledAt, Interrupted, InterruptedAt, Plan, sockets_by
from .server import HOST, MapdTest
from .telling import TellingServer, answer_of, entry_key

_GET, _PUT, _MERGE = 0x10, 0x11, 0x1A
_ADD = function("exit\n", 1, 1, 1, 1)
_ENTRIES = 5
_ARGUMENT = b"5 entries"
_MANY = b"20000 entries"
_TIMEOUT = 3
_MOST_STROKES = 3
# Instructions or lines: one that is not reached, and fewer than operations have.
_NEVER, _LEAST = 1 << 60, 200 if POINTS == "opcode" else 20


class Mixed(AssertionError):
    """A call got an answer that is not its own."""


def expect(got: object, wanted: object) -> None:
    """Compares an answer with what belongs to its call."""
    if got != wanted:
        raise Mixed(f"{got!r}, and not {wanted!r}")


def one_call(client: Client) -> None:
    """A Get."""
    expect(client.get(b"alice"), answer_of(_GET, b"alice"))


def call_with_a_function(client: Client) -> None:
    """A Register and a Merge, the first time; then a Merge."""
    expect(client.merge(b"sum", b"1", _ADD), answer_of(_MERGE, b"sum"))


def pipeline(client: Client) -> None:
    """Three calls at once. Each has its answer, or the error that it has none."""
    calls = client.pipeline()
    sent = {key: calls.put(key, b"x") for key in (b"a", b"b", b"c")}
    try:
        calls.execute()
    finally:
        check_calls(sent)


def check_calls(sent: "Dict[bytes, Pending[object]]") -> None:
    """Each call of a pipeline has its own answer, if it has one."""
    for key, call in sent.items():
        if call.is_done and call.error is None:
            expect(call.result(), answer_of(_PUT, key))
        elif call.is_done and not isinstance(call.error, ConnectionBroken):
            raise Mixed(f"{call.error!r} of {key!r}")


def walk(client: Client) -> None:
    """A walk, and a call in its middle."""
    with client.for_each(0, _ARGUMENT) as entries:
        for number, entry in enumerate(entries):
            expect(entry, (entry_key(number), _ARGUMENT))
            if number == 1:
                one_call(client)
        expect(entries.counts.given, _ENTRIES)


def walk_that_is_left(client: Client) -> None:
    """A walk of which one entry is taken, and a call after it."""
    with client.for_each(0, _MANY) as entries:
        expect(next(entries), (entry_key(0), _MANY))
    one_call(client)


_OPERATIONS = (one_call, call_with_a_function, pipeline, walk, walk_that_is_left)


class TellingTest(unittest.TestCase):
    """Tests with a server whose answers say whose they are."""

    def setUp(self) -> None:
        # An exception at any instruction may leave a socket that was just made, which Python then closes, and tells.
        ignored = warnings.catch_warnings()
        ignored.__enter__()
        self.addCleanup(ignored.__exit__, None, None, None)
        warnings.simplefilter("ignore", ResourceWarning)
        # A coroutine that was just made may never be awaited then.
        warnings.simplefilter("ignore", RuntimeWarning)
        self.server = TellingServer()
        self.server.__enter__()
        self.addCleanup(self.server.__exit__)
        self.keys = (b"bob %d" % number for number in itertools.count())
        # The keys of calls that failed by NotSent: the server never sees them.
        self.unsent: Set[bytes] = set()
        self.addCleanup(lambda: self.assertEqual(self.unsent & self.server.keys, set()))

    def open(self) -> Client:
        """A client."""
        return Client(HOST, self.server.port, timeout=_TIMEOUT)

    def check_next(self, client: Client) -> bool:
        """The client answers the next call by what belongs to it, or fails. Returns whether it answered."""
        key = next(self.keys)
        try:
            expect(client.get(key), answer_of(_GET, key))
            return True
        except NotSent:
            self.unsent.add(key)
            return False
        except ConnectionBroken:
            return False


class SocketTest(TellingTest):
    """An exception at each send and recv."""

    kinds: "List[Callable[[], BaseException]]" = [
        KeyboardInterrupt,
        Interrupted,
        lambda: TimeoutError("a handler's"),
        lambda: ConnectionResetError(104, "reset"),
        lambda: ValueError("a handler's"),
    ]

    def _break_off(self, operation: Callable[[Client], None], plan: Plan) -> None:
        """One run, that the plan breaks off."""
        with sockets_by(plan):
            try:
                with self.open() as client:
                    self._run(client, operation)
                    self.check_next(client)
            except (ConnectionBroken, KeyboardInterrupt, Interrupted, ValueError):
                pass

    def _run(self, client: Client, operation: Callable[[Client], None]) -> None:
        try:
            operation(client)
        except (ConnectionBroken, KeyboardInterrupt, Interrupted, ValueError):
            pass

    def test_each_send_and_recv(self) -> None:
        for operation, when, kind in itertools.product(_OPERATIONS, ("before", "after", "half"), self.kinds):
            for nth in itertools.count(1):
                with self.subTest(operation.__name__, when=when, kind=repr(kind()), nth=nth):
                    plan = Plan(nth, when, lambda kind=kind: raise_it(kind()))
                    self._break_off(operation, plan)
                if not plan.was_reached or nth > 40:
                    break
            self.assertGreater(nth, 2)

    def test_a_call_that_is_broken_off_closes_the_connection(self) -> None:
        """It ends at once, not with the next call."""
        for nth, when in itertools.product((3, 4), ("before", "after", "half")):
            with sockets_by(Plan(nth, when, lambda: raise_it(Interrupted()))), self.open() as client:
                self.assertRaises(Interrupted, client.get, b"alice")
                self.assertRaisesRegex(NotSent, "nothing was sent", client.get, b"bob")
                wait_for(lambda: self.server.open_connections == 0)


class HandlerTest(TellingTest):
    """A signal's handler that uses the client whose call it breaks into."""

    def test_call_within_a_call(self) -> None:
        """It is refused, and the outer call gets its own answer."""
        for operation in (one_call, call_with_a_function, pipeline):
            for nth in itertools.count(3):
                refused: List[bool] = []
                plan = Plan(nth, "before", lambda: refused.append(not self.check_next(client)))
                with sockets_by(plan), self.open() as client:
                    operation(client)
                    one_call(client)
                if not plan.was_reached:
                    break
                self.assertEqual(refused, [True])


class InstructionTest(TellingTest):
    """An exception at each instruction of Python that the client runs."""

    def _break_off(self, client: Client, operation: Callable[[Client], None], nth: int) -> bool:
        at = InterruptedAt(nth)
        try:
            with at:
                operation(client)
        except (Interrupted, ConnectionBroken):
            pass
        return at.was_reached

    def test_each_instruction(self) -> None:
        # At each nth instruction, since all of them would take minutes.
        steps = {one_call: 3, call_with_a_function: 7, pipeline: 11, walk: 53, walk_that_is_left: 389}
        for operation, step in steps.items():
            client = self.open()
            struck = 0
            self._break_off(client, operation, _NEVER)
            for nth in itertools.count(1, step):
                with self.subTest(operation.__name__, nth=nth):
                    was_reached = self._break_off(client, operation, nth)
                    if not self.check_next(client):
                        client.close()
                        client = self.open()
                struck += was_reached
                if not was_reached and nth > _LEAST:
                    break
            client.close()
            self.assertGreater(struck, _LEAST // step // 2)

    def test_pool(self) -> None:
        """A pool goes on: it replaces what was broken off, and loses no place."""
        with Pool(HOST, self.server.port, size=2, timeout=_TIMEOUT) as pool:
            for operation, step in ((one_call, 11), (pipeline, 17), (walk, 97)):
                self._break_off(pool, operation, _NEVER)
                for nth in itertools.count(1, step):
                    with self.subTest(operation.__name__, nth=nth):
                        was_reached = self._break_off(pool, operation, nth)
                        expect(pool.get(b"bob"), answer_of(_GET, b"bob"))
                        if not was_reached and nth > _LEAST:
                            break


class SignalTest(MapdTest):
    """A live server, and a timer whose handler raises at random times, once or a few times in a row."""

    seconds = 4.0

    def setUp(self) -> None:
        super().setUp()
        self._left = 0
        self._struck = 0
        self._client = Client(HOST, self.port)
        self.addCleanup(signal.signal, signal.SIGALRM, signal.signal(signal.SIGALRM, self._strike))
        self.addCleanup(signal.setitimer, signal.ITIMER_REAL, 0)

    def _strike(self, _: int, frame: "Optional[types.FrameType]") -> None:
        """The handler. It raises amid calls alone, and ends with its last stroke; between two calls it waits for the next one."""
        while frame is not None and frame.f_code is not SignalTest._call.__code__:
            frame = frame.f_back
        if frame is None:
            return
        self._left -= 1
        if self._left <= 0:
            signal.setitimer(signal.ITIMER_REAL, 0)
        raise Interrupted

    def test_signals(self) -> None:
        with self._client.pipeline() as calls:
            for number in range(100):
                calls.put(b"%d" % number, b"of %d" % number)
        chance = random.Random(57)
        end = time.monotonic() + self.seconds
        while time.monotonic() < end:
            self._left = chance.randint(1, _MOST_STROKES)
            self._call_until_struck(chance)
            self._check_next()
        self._client.close()
        self.assertGreater(self._struck, 5)

    def _call_until_struck(self, chance: random.Random) -> None:
        try:
            signal.setitimer(signal.ITIMER_REAL, chance.uniform(1e-5, 2e-3), 2e-4)
            while True:
                self._call(chance.randrange(100))
        except Interrupted:
            self._struck += 1
        except ConnectionBroken:
            pass
        signal.setitimer(signal.ITIMER_REAL, 0)

    def _call(self, number: int) -> None:
        expect(self._client.get(b"%d" % number), b"of %d" % number)
        calls = self._client.pipeline()
        sent = [calls.get(b"%d" % each) for each in range(20)]
        try:
            calls.execute()
        finally:
            for each, call in enumerate(sent):
                if call.is_done and call.error is None:
                    expect(call.result(), b"of %d" % each)

    def _check_next(self) -> None:
        try:
            expect(self._client.get(b"7"), b"of 7")
        except ConnectionBroken:
            self._client.close()
            self._client = Client(HOST, self.port)


async def async_call(client: AsyncClient) -> None:
    """A Get."""
    expect(await client.get(b"alice"), answer_of(_GET, b"alice"))


async def async_call_with_a_function(client: AsyncClient) -> None:
    """A Register and a Merge."""
    expect(await client.merge(b"sum", b"1", _ADD), answer_of(_MERGE, b"sum"))


async def async_pipeline(client: AsyncClient) -> None:
    """Three calls at once."""
    calls = client.pipeline()
    sent = {key: calls.put(key, b"x") for key in (b"a", b"b", b"c")}
    try:
        await calls.execute()
    finally:
        check_calls(sent)


async def async_walk(client: AsyncClient) -> None:
    """A walk, and a call in its middle."""
    async with await client.for_each(0, _ARGUMENT) as entries:
        number = 0
        async for entry in entries:
            expect(entry, (entry_key(number), _ARGUMENT))
            if number == 1:
                await async_call(client)
            number += 1
        expect((await entries.counts()).given, _ENTRIES)


async def async_walk_that_is_left(client: AsyncClient) -> None:
    """A walk of which one entry is taken, and a call after it."""
    async with await client.for_each(0, _MANY) as entries:
        expect(await entries.first(), (entry_key(0), _MANY))
    await async_call(client)


async def async_opening(client: AsyncClient) -> None:
    """A client that is opened, and called."""
    await client.open()
    await async_call(client)


_ASYNC_OPERATIONS = (async_call, async_call_with_a_function, async_pipeline, async_walk, async_walk_that_is_left, async_opening)


class CancelledTest(TellingTest):
    """A task that is cancelled at each of its awaits, or after so many turns of the loop."""

    async def _check_next(self, client: AsyncClient) -> None:
        key = next(self.keys)
        try:
            expect(await client.get(key), answer_of(_GET, key))
        except ConnectionBroken:
            pass

    async def _cancel_at_await(self, operation: "Callable[[AsyncClient], Awaitable[None]]", nth: int) -> bool:
        async with AsyncClient(HOST, self.server.port, timeout=_TIMEOUT) as client:
            beside = asyncio.ensure_future(self._check_next(client))
            cancelled = CancelledAt(nth, operation(client))
            try:
                await cancelled
            except asyncio.CancelledError:
                pass
            await self._check_next(client)
            await beside
        return cancelled.was_reached

    async def _cancel_at_turn(self, operation: "Callable[[AsyncClient], Awaitable[None]]", turns: int) -> bool:
        async with AsyncClient(HOST, self.server.port, timeout=_TIMEOUT) as client:
            task = asyncio.ensure_future(operation(client))
            for _ in range(turns):
                await asyncio.sleep(0)
            was_cancelled = task.cancel()
            await asyncio.gather(self._check_next(client), self._check_next(client))
            await asyncio.gather(task, return_exceptions=True)
        if not task.cancelled() and task.exception() is not None:
            raise task.exception()
        return was_cancelled

    def test_each_await(self) -> None:
        self._try_all(self._cancel_at_await)

    def test_each_turn(self) -> None:
        self._try_all(self._cancel_at_turn)

    def _try_all(self, cancel: "Callable[..., Awaitable[bool]]") -> None:
        for operation in _ASYNC_OPERATIONS:
            for nth in itertools.count(1):
                with self.subTest(operation.__name__, nth=nth):
                    was_reached = asyncio.run(cancel(operation, nth))
                if not was_reached or nth > 60:
                    break
            self.assertGreater(nth, 1)


class LoopTest(TellingTest):
    """A handler that raises at each instruction of a task or of what the loop calls; then the loop goes on."""

    def test_each_instruction(self) -> None:
        loop = asyncio.new_event_loop()
        self.addCleanup(loop.close)
        loop.set_exception_handler(lambda *_: None)
        for operation, step in ((async_call, 4), (async_pipeline, 9), (async_walk, 37)):
            self._break_off(loop, operation, _NEVER)
            for nth in itertools.count(1, step):
                with self.subTest(operation.__name__, nth=nth):
                    was_reached = self._break_off(loop, operation, nth)
                if not was_reached and nth > _LEAST:
                    break

    def _break_off(self, loop: asyncio.AbstractEventLoop, operation: "Callable[[AsyncClient], Awaitable[None]]", nth: int) -> bool:
        client = AsyncClient(HOST, self.server.port, timeout=0.5)
        loop.run_until_complete(client.open())
        at = InterruptedAt(nth)
        task = loop.create_task(operation(client))
        try:
            with at:
                loop.run_until_complete(task)
        except (Interrupted, ConnectionBroken):
            pass
        loop.run_until_complete(asyncio.wait_for(self._check(client, task), 20))
        return at.was_reached

    async def _check(self, client: AsyncClient, task: "asyncio.Task[None]") -> None:
        """The task that was broken off gets what belongs to it too, if it goes on."""
        for key in (b"bob", b"carol"):
            try:
                expect(await client.get(key), answer_of(_GET, key))
            except ConnectionBroken:
                pass
        task.cancel()
        await asyncio.gather(task, return_exceptions=True)
        if not task.cancelled() and isinstance(task.exception(), Mixed):
            raise task.exception()
        await client.close()


class ThreadsTest(TellingTest):
    """Threads that share a client, or a pool, for calls, pipelines and walks."""

    def _share(self, client: Client) -> None:
        errors: List[BaseException] = []

        def work(own: bytes) -> None:
            try:
                for number in range(60):
                    key = own + b"%d" % number
                    expect(client.get(key), answer_of(_GET, key))
                    random.choice(_OPERATIONS)(client)
            except BaseException as error:  # pylint: disable=broad-except
                errors.append(error)

        threads = [threading.Thread(target=work, args=(b"%d." % each,)) for each in range(8)]
        for thread in threads:
            thread.start()
        for thread in threads:
            thread.join()
        self.assertEqual(errors, [])

    def test_one_client(self) -> None:
        with self.open() as client:
            self._share(client)

    def test_one_pool(self) -> None:
        with Pool(HOST, self.server.port, size=16, timeout=_TIMEOUT) as pool:
            self._share(pool)
        self.assertLessEqual(self.server.connections, 16 + 8 * 60)


def raise_it(error: BaseException) -> None:
    """Raises this."""
    raise error


def wait_for(condition: Callable[[], bool]) -> None:
    """Waits until this is so, for at most five seconds."""
    end = time.monotonic() + 5
    while not condition():
        if time.monotonic() > end:
            raise AssertionError("it did not come to be so in 5 seconds")
        time.sleep(0.005)


