"""The client for asyncio."""

import asyncio
from types import TracebackType
from typing import Dict, List, Optional, Sequence, Set, Tuple, Type, TypeVar, Union

from .aio_walk import AsyncWalk
from .connection import Address, explained
from .errors import (
    ConnectionBroken,
    MayHaveBeenMade,
    NoConnectionInTime,
    NotSent,
    OtherProcess,
    ProtocolFault,
    Refused,
    TimedOut,
)
from .forks import Forkable, watch
from .outgoing import fail_unsent
from .pipeline import PipelineCalls
from .programs import Function, Program, Runnable, Size
from .protocol import LATEST, Counts, Limits, Pending, Request, Walked, limits_of
from .requests import Requests
from .session import Arrivals, Session

T = TypeVar("T")
Value = Optional[bytes]
_LONGEST_END = 1.0
_NOT_OPEN = "the client is not open; nothing was sent"


class AsyncClient(Forkable):
    """A session with a map server, for asyncio: `async with AsyncClient(host, port) as client`, or `await client.open()`.

    The calls are those of Client, awaited. Tasks may share a client: their calls are sent at once and answered in order. A call
    that raises ConnectionBroken is never made again, and the client is closed: NotSent says that the call was not made,
    MayHaveBeenMade that it may have been. That is so for all calls that wait if one of them has waited `timeout` seconds. A call whose
    task is cancelled may still be made; its answer is read, and given to nobody.

    A client is for one event loop. In a process that was made by fork it raises OtherProcess: open another one there.
    """

    def __init__(self, host: str, port: int, *, timeout: Optional[float] = 10.0, version: int = LATEST) -> None:
        self._requests = Requests(limits_of(version))
        self._address = Address(host, port, timeout)
        self._session: Optional[Session] = None
        self._is_open = False
        self._is_foreign = False
        self._begin_anew()
        watch(self)

    def _begin_anew(self) -> None:
        # The sessions of walks that have not ended; what opens a session or registers a function for several tasks at once.
        self._lent: Set[Session] = set()
        self._opening: "Optional[asyncio.Task[Session]]" = None
        self._registering: "Dict[Tuple[Session, Function], asyncio.Task[int]]" = {}

    async def __aenter__(self) -> "AsyncClient":
        await self.open()
        return self

    async def __aexit__(
        self, kind: Optional[Type[BaseException]], error: Optional[BaseException], trace: Optional[TracebackType]
    ) -> None:
        await self.close()

    async def open(self) -> None:
        """Connects, and begins the session."""
        session = await self._connect()
        ended = self._end_all()
        self._is_foreign = False
        self._session = session
        self._is_open = True
        await _wait_for_ends(ended)

    async def close(self) -> None:
        """Ends the session, and the walks that have not ended. Calls that wait for an answer raise ConnectionBroken."""
        await _wait_for_ends(self._end_all())

    def _end_all(self) -> List[Session]:
        """Ends all sessions, and returns them."""
        self._is_open = False
        session, self._session = self._session, None
        ended = [each for each in (session, *self._lent) if each is not None and not each.is_foreign]
        self._begin_anew()
        for each in ended:
            each.end(MayHaveBeenMade("the client was closed"))
        return ended

    def after_fork(self) -> None:
        """Lets go of the sessions in a process that was made by fork."""
        self._is_foreign = True
        self._session = None
        self._begin_anew()

    @property
    def limits(self) -> Limits:
        """See Client.limits."""
        return self._requests.limits

    async def register(
        self, program: Union[Program, Function], key: Size = None, old: Size = None, arg: Size = None, result: Size = None
    ) -> int:
        """See Client.register."""
        return await self._call(self._requests.register(program, key, old, arg, result))

    async def get(self, key: bytes) -> Value:
        """See Client.get."""
        return await self._call(self._requests.get(key))

    async def put(self, key: bytes, value: bytes) -> Value:
        """See Client.put."""
        return await self._call(self._requests.put(key, value))

    async def put_if_absent(self, key: bytes, value: bytes) -> Value:
        """See Client.put_if_absent."""
        return await self._call(self._requests.put_if_absent(key, value))

    async def remove(self, key: bytes) -> Value:
        """See Client.remove."""
        return await self._call(self._requests.remove(key))

    async def remove_if(self, key: bytes, expected: bytes) -> bool:
        """See Client.remove_if."""
        return await self._call(self._requests.remove_if(key, expected))

    async def replace(self, key: bytes, value: bytes) -> Value:
        """See Client.replace."""
        return await self._call(self._requests.replace(key, value))

    async def replace_if(self, key: bytes, expected: bytes, value: bytes) -> bool:
        """See Client.replace_if."""
        return await self._call(self._requests.replace_if(key, expected, value))

    async def compute(self, key: bytes, program: Runnable, arg: Value = None) -> Value:
        """See Client.compute."""
        return await self._call(self._requests.compute(key, program, arg))

    async def compute_if_absent(self, key: bytes, program: Runnable, arg: Value = None) -> Value:
        """See Client.compute_if_absent."""
        return await self._call(self._requests.compute_if_absent(key, program, arg))

    async def compute_if_present(self, key: bytes, program: Runnable, arg: Value = None) -> Value:
        """See Client.compute_if_present."""
        return await self._call(self._requests.compute_if_present(key, program, arg))

    async def merge(self, key: bytes, value: bytes, program: Runnable) -> Value:
        """See Client.merge."""
        return await self._call(self._requests.merge(key, value, program))

    async def search(self, program: Runnable, arg: Value = None, threshold: int = 1) -> "AsyncWalk":
        """See Client.search."""
        return await self._begin_walk(self._requests.search(program, arg, threshold))

    async def for_each(self, program: Runnable, arg: Value = None, threshold: int = 1) -> "AsyncWalk":
        """See Client.for_each."""
        return await self._begin_walk(self._requests.for_each(program, arg, threshold))

    async def replace_all(self, program: Runnable, arg: Value = None) -> Counts:
        """See Client.replace_all."""
        return await self._call(self._requests.replace_all(program, arg))

    async def count(self) -> int:
        """See Client.count."""
        return await self._call(self._requests.count())

    def pipeline(self) -> "AsyncPipeline":
        """Calls that are sent together: see AsyncPipeline."""
        return AsyncPipeline(self, self._requests)

    async def exchange(self, calls: "Sequence[Pending[object]]") -> None:
        """Sends the requests of calls together, and waits for all answers. A call whose function is refused is not sent."""
        try:
            sent = [call for call in calls if await self._is_bound(call)]
            session = await self._ready([call.request for call in sent])
        except BaseException as error:
            fail_unsent(calls, error)
            raise
        arrivals = self._send(session, sent)
        while sent and not sent[-1].is_done:
            await arrivals.wait()

    async def _is_bound(self, call: "Pending[object]") -> bool:
        """Registers the call's function. False if it is refused; then the call ends by that."""
        if call.request.function is None:
            return True
        try:
            await self._ready([call.request])
            return True
        except Refused as error:
            call.fail(error)
            return False

    async def _call(self, request: Request[T]) -> T:
        session = self._current()
        if session is None or request.function is not None:
            session = await self._ready([request])
        return await self._answer(session, request)

    async def _answer(self, session: Session, request: Request[T]) -> T:
        pending = Pending(request)
        await self._send(session, [pending]).wait()
        return pending.result()

    async def _begin_walk(self, request: Request[Walked]) -> AsyncWalk:
        session = await self._ready([request])
        pending = Pending(request)
        session.stream(pending)
        arrivals = self._send(session, [pending])
        self._session = None
        self._lent.add(session)
        return await AsyncWalk(session, pending, arrivals, self._take_back).begin()

    def _take_back(self, session: Session) -> None:
        """Takes the session of a walk that ended, if there is none meanwhile. One that is left ends by itself, after earlier calls."""
        self._lent = {each for each in self._lent if not each.is_over}
        if not session.is_idle:
            return
        self._lent.discard(session)
        if self._session is None and self._is_open and session.is_usable:
            session.read_on()
            self._session = session
        elif session is not self._session:
            session.end(NotSent("the walk has ended"))

    def _send(self, session: Session, calls: "Sequence[Pending[T]]") -> Arrivals:
        """Sends the requests of calls, and gives what tells that a frame of their answers has come."""
        return Arrivals(session, calls, self._address.timeout)

    def _current(self) -> Optional[Session]:
        """The session, or None if a walk has it."""
        session = self._session
        if session is None:
            if self._is_foreign:
                raise OtherProcess("another process opened this client: open one in this process")
            if not self._is_open:
                raise NotSent(_NOT_OPEN)
        elif session.loop is not asyncio.get_running_loop():
            raise RuntimeError("this client was opened in another event loop: open one in this loop")
        return session

    async def _ready(self, requests: "Sequence[Request[T]]") -> Session:
        """Returns the session, on which all functions of the requests are registered; their numbers are in the frames.

        There is no further await between that and the sending, so it is still the client's session.
        """
        while True:
            session = self._current() or await self._open_another()
            bound = [request for request in requests if request.function is not None]
            missing = [request.function for request in bound if request.function not in session.numbers]
            if not missing:
                for request in bound:
                    request.bind(session.numbers[request.function])  # type: ignore[index]
                return session
            await self._register(session, missing[0])  # type: ignore[arg-type]

    async def _register(self, session: Session, made: Function) -> None:
        """Registers a function. Tasks that want the same one wait for one registration."""
        task = self._registering.get((session, made))
        if task is None:
            task = asyncio.ensure_future(self._answer(session, self._requests.register(made)))
            self._registering[session, made] = task
            task.add_done_callback(lambda done: self._forget(session, made, done))
        await asyncio.shield(task)

    def _forget(self, session: Session, made: Function, task: "asyncio.Task[int]") -> None:
        self._registering.pop((session, made), None)
        if not task.cancelled():
            task.exception()

    async def _open_another(self) -> Session:
        """Opens a session while a walk has the client's. Tasks that want one wait for the same."""
        if self._opening is None:
            self._opening = asyncio.ensure_future(self._open_for_all())
            self._opening.add_done_callback(self._has_opened)
        return await asyncio.shield(self._opening)

    async def _open_for_all(self) -> Session:
        session = await self._connect()
        if self._session is not None or not self._is_open:
            session.end(NotSent(_NOT_OPEN))
            if self._session is None:
                raise NotSent(_NOT_OPEN)
            return self._session
        self._session = session
        return session

    def _has_opened(self, task: "asyncio.Task[Session]") -> None:
        self._opening = None
        if not task.cancelled():
            task.exception()

    async def _connect(self) -> Session:
        """Opens a connection, and begins a session. All that fails here is raised before any call was sent."""
        session = Session(self.limits)
        try:
            await self._connect_session(session)
            await self._begin_session(session)
        except BaseException:
            session.end(NotSent(_NOT_OPEN))
            raise
        return session

    async def _begin_session(self, session: Session) -> None:
        try:
            await self._answer(session, self._requests.hello())
        except Refused as error:
            raise explained(error, self._requests) from None
        except (NotSent, ProtocolFault):
            raise
        except TimedOut as error:
            raise NoConnectionInTime(f"{error}: is each worker of the server taken by a client?") from error
        except ConnectionBroken as error:
            raise NotSent(f"the session did not begin: {error}") from error

    async def _connect_session(self, session: Session) -> None:
        host, port, timeout = self._address
        connecting = asyncio.get_running_loop().create_connection(lambda: session, host, port)
        try:
            await asyncio.wait_for(connecting, timeout)
        except asyncio.TimeoutError as error:
            raise NoConnectionInTime(f"no connection to {self._address} in {timeout} seconds") from error
        except OSError as error:
            raise NotSent(f"no connection to {self._address}: {error}") from error


async def _wait_for_ends(sessions: List[Session]) -> None:
    """Waits until the loop has closed these connections. An exception in the loop may have kept it from saying so."""
    if sessions:
        await asyncio.wait([asyncio.ensure_future(each.closed.wait()) for each in sessions], timeout=_LONGEST_END)


class AsyncPipeline(PipelineCalls):
    """A pipeline of an AsyncClient, executed where its `async with` block ends, or by `await execute()`."""

    def __init__(self, client: AsyncClient, requests: Requests) -> None:
        super().__init__(requests)
        self._client = client

    async def __aenter__(self) -> "AsyncPipeline":
        return self

    async def __aexit__(
        self, kind: Optional[Type[BaseException]], error: Optional[BaseException], trace: Optional[TracebackType]
    ) -> None:
        if kind is None:
            await self.execute()

    async def execute(self) -> List[object]:
        """Sends all calls that were added since, and gives their answers in order; see Pipeline.execute."""
        calls = self._take_all()
        if calls:
            await self._client.exchange(calls)
        return [call.result() for call in calls]
