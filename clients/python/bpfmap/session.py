"""A connection of asyncio, and the calls that wait for its frames."""

import asyncio
import contextlib
import socket
from collections import deque
from typing import Deque, Dict, Optional, Sequence, Tuple, TypeVar

from .errors import ConnectionBroken, MayHaveBeenMade, NoAnswerInTime, NotSent, ProtocolFault
from .forks import Forkable, watch
from .outgoing import fail_unsent
from .programs import Function
from .protocol import FrameReader, Limits, Pending, Walked

T = TypeVar("T")
# A walk is not read further while so many of its entries wait for the one who goes through it.
_MOST_ENTRIES = 256
_BROKEN_OFF = "an exception broke off the reading or sending of frames"


class Session(asyncio.Protocol, Forkable):
    """A connection, and the calls that wait for its frames in the order in which they were sent.

    `_is_changing` is set while frames are sent or given to their calls. If it is found set, an exception broke that off, and nobody
    can say whose the next frame is: then the session ends.
    """

    def __init__(self, limits: Limits) -> None:
        self.loop = asyncio.get_running_loop()
        self.closed = asyncio.Event()
        self.is_foreign = False
        self.numbers: Dict[Function, int] = {}
        self._heard = self.loop.time()
        self._transport: Optional[asyncio.Transport] = None
        self._frames = FrameReader(limits.body)
        self._waiting: "Deque[Tuple[Pending[object], asyncio.Event]]" = deque()
        self._is_changing = False
        self.is_over = False
        self._streamed: "Optional[Pending[Walked]]" = None
        self._left: "Optional[Pending[Walked]]" = None
        watch(self)

    def connection_made(self, transport: asyncio.BaseTransport) -> None:
        """asyncio calls it once the connection is there."""
        if self.is_over:
            transport.close()
            return
        self._transport = transport  # type: ignore[assignment]

    def data_received(self, data: bytes) -> None:
        """Gives each frame to the call whose turn it is."""
        self._heard = self.loop.time()
        if self._is_changing:
            self.end(MayHaveBeenMade(_BROKEN_OFF))
        if self.is_over:
            return
        self._is_changing = True
        try:
            self._frames.feed(data)
            self._give_all()
            self._is_changing = False
        except ProtocolFault as error:
            self.end(error)
        except BaseException:
            self.end(MayHaveBeenMade(_BROKEN_OFF))
            raise

    def connection_lost(self, exc: Optional[Exception]) -> None:
        """Ends all calls that wait."""
        self.closed.set()
        self.end(MayHaveBeenMade("the server ended the connection" + (f": {exc}" if exc else "")))

    @property
    def is_usable(self) -> bool:
        """Whether a call may be sent."""
        return not self.is_over and not self._is_changing

    @property
    def is_idle(self) -> bool:
        """Whether no call waits for an answer."""
        return not self._waiting

    def send(self, calls: "Sequence[Pending[T]]") -> asyncio.Event:
        """Sends the requests of calls; their answers set the event."""
        if self._is_changing:
            self.end(MayHaveBeenMade(_BROKEN_OFF))
        if self._transport is None or self.is_over:
            closed = NotSent("the connection is closed; nothing was sent")
            fail_unsent(calls, closed)
            raise closed
        if not self._waiting:
            self._heard = self.loop.time()
        self._is_changing = True
        event = asyncio.Event()
        self._waiting.extend([(call, event) for call in calls])  # type: ignore[misc]
        self._transport.write(b"".join([call.request.frame for call in calls]))
        self._is_changing = False
        return event

    def end(self, error: ConnectionBroken) -> None:
        """Closes the connection. A call without an answer ends by the error, or by NotSent if its bytes are still here."""
        self.is_over = True
        unsent = 0
        if self._transport is not None:
            unsent = self._transport.get_write_buffer_size()
            _close(self._transport)
            self._transport = None
        behind = 0
        while self._waiting:
            call, event = self._waiting[-1]
            behind += len(call.request.frame)
            if not call.is_done:
                call.fail(NotSent(f"not sent: {error}") if behind <= unsent else error)
            event.set()
            self._waiting.pop()

    def after_fork(self) -> None:
        """Lets go of the connection in a process that was made by fork. The loop's selector belongs to both: it is left alone."""
        self.is_foreign = True
        self.is_over = True
        self._transport = None

    def silent_for(self) -> float:
        """Returns for how many seconds no byte of an answer has come."""
        return self.loop.time() - self._heard

    def stream(self, walk: "Pending[Walked]") -> None:
        """Reads no further while many entries of this walk wait. It is the last call of the session until it ends."""
        self._streamed = walk

    def read_on(self) -> None:
        """Reads on, since the entries of the walk were taken."""
        if self._transport is not None and not self._transport.is_reading():
            self._heard = self.loop.time()
            self._transport.resume_reading()

    def leave(self, walk: "Pending[Walked]") -> None:
        """Ends the session once all calls before this walk were answered: nobody wants its entries."""
        self._left = walk
        self._end_if_left()
        self.read_on()

    def _end_if_left(self) -> None:
        if self._left is not None and self._waiting and self._waiting[0][0] is self._left:
            self.end(MayHaveBeenMade("the walk was closed before its end"))

    def _give_all(self) -> None:
        body = self._frames.next()
        while body is not None and not self.is_over:
            self._give(body)
            body = self._frames.next()

    def _give(self, body: bytes) -> None:
        if not self._waiting:
            raise ProtocolFault(f"the server sent {body.hex()} unasked")
        call, event = self._waiting[0]
        is_last = call.take(body)
        event.set()
        if is_last:
            if call.request.made is not None and call.error is None:
                self.numbers[call.request.made] = call.result()  # type: ignore[assignment]
            self._waiting.popleft()
            self._streamed = None if call is self._streamed else self._streamed
            self._end_if_left()
        elif call is self._streamed and len(call.items) >= _MOST_ENTRIES and self._transport is not None:
            self._transport.pause_reading()


def _close(transport: asyncio.Transport) -> None:
    """Closes a connection. The session ends though another process has a copy of the socket."""
    opened = transport.get_extra_info("socket")
    if opened is not None:
        with contextlib.suppress(OSError):
            opened.shutdown(socket.SHUT_RDWR)
    transport.abort()


class Arrivals:
    """Tells that a frame has come for one of the calls that were sent together."""

    def __init__(self, session: Session, calls: "Sequence[Pending[T]]", timeout: Optional[float]) -> None:
        self._session = session
        self._calls = calls
        self._timeout = timeout
        self._event = session.send(calls)

    async def wait(self) -> None:
        """Waits for the next frame. The session ends if no byte of any answer comes in time; then all calls are done."""
        while not self._event.is_set() and not self._session.is_over:
            await self._wait_in_time()
        self._event.clear()
        if self._session.is_over:
            self._settle()

    async def _wait_in_time(self) -> None:
        left = None if self._timeout is None else max(0.0, self._timeout - self._session.silent_for())
        try:
            await asyncio.wait_for(self._event.wait(), left)
        except asyncio.TimeoutError:
            if self._session.silent_for() >= (self._timeout or 0):
                self._session.end(NoAnswerInTime(f"no answer in {self._timeout} seconds"))

    def _settle(self) -> None:
        """Ends the calls that the session's end left out, since it was broken off itself."""
        for call in self._calls:
            if not call.is_done:
                call.fail(MayHaveBeenMade(_BROKEN_OFF))
