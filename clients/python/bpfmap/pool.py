"""A pool of connections, for threads that don't wait for each other."""

import threading
import time
import weakref
from types import TracebackType
from typing import Deque, List, Optional, Type, TypeVar

from .calls import Calls
from .connection import Address, Connection
from .errors import NoConnectionInTime, NotSent
from .forks import Forkable, watch
from .outgoing import fail_unsent
from .protocol import LATEST, Pending, Request, Walked, limits_of
from .requests import Requests
from .walk import Walk

T = TypeVar("T")
# Connections whose users were broken off by an exception are missed after so many seconds at the latest.
_LOOK_AGAIN = 0.5


class Pool(Calls, Forkable):
    """The calls of a Client over up to `size` connections, which threads share without waiting for each other.

    A connection is opened when a call finds none that is free. If all are in use a call waits up to `timeout` seconds, and then
    raises NoConnectionInTime. A walk keeps a connection until it ends, a pipeline while it is executed. A connection that broke is
    replaced with the next call; the call that it broke for raises, as that of a client does.

    A server serves as many connections at once as it has `--workers`: choose a size that leaves some to others.
    """

    def __init__(
        self, host: str, port: int, *, size: int = 4, timeout: Optional[float] = 10.0, version: int = LATEST
    ) -> None:
        if size < 1:
            raise ValueError("a pool has at least one connection")
        super().__init__(Requests(limits_of(version)))
        self._address = Address(host, port, timeout)
        self._size = size
        self._is_closed = False
        self._begin_anew()
        self._give(self._take())
        watch(self)

    def __enter__(self) -> "Pool":
        return self

    def __exit__(self, kind: Optional[Type[BaseException]], error: Optional[BaseException], trace: Optional[TracebackType]) -> None:
        self.close()

    def close(self) -> None:
        """Ends all sessions. Calls that wait for an answer raise MayHaveBeenMade."""
        with self._changed:
            self._is_closed = True
            for connection in list(self._live):
                connection.stop()
            while self._idle:
                self._idle.pop().close()
            self._changed.notify_all()

    def after_fork(self) -> None:
        """Begins anew in a process that was made by fork."""
        self._begin_anew()

    def _begin_anew(self) -> None:
        self._changed = threading.Condition()
        self._idle: List[Connection] = []
        # All connections that somebody has or that are idle. One that is lost by an exception leaves the set by itself.
        self._live: "weakref.WeakSet[Connection]" = weakref.WeakSet()

    def _call(self, request: Request[T]) -> T:
        connection = self._take()
        try:
            return connection.call(request)
        finally:
            self._give(connection)

    def _begin_walk(self, request: Request[Walked]) -> Walk:
        return Walk(self._take(), request, self._give).begin()

    def _execute(self, waiting: "Deque[Pending[object]]") -> None:
        try:
            connection = self._take()
        except BaseException as error:
            fail_unsent(waiting, error)
            raise
        try:
            connection.exchange(waiting)
        finally:
            self._give(connection)

    def _take(self) -> Connection:
        """Returns a connection that nobody else has: an idle one, or one more."""
        with self._changed:
            connection = self._wait_for_one()
        if connection.is_usable:
            return connection
        try:
            return connection.open()
        except BaseException:
            self._give(connection)
            raise

    def _wait_for_one(self) -> Connection:
        """An idle connection, or one that has still to be opened."""
        timeout = self._address.timeout
        end = None if timeout is None else time.monotonic() + timeout
        while not self._is_closed:
            idle = self._idle_one()
            if idle is not None:
                return idle
            if len(self._live) < self._size:
                fresh = Connection(self._address, self._requests)
                self._live.add(fresh)
                return fresh
            if end is not None and time.monotonic() >= end:
                raise NoConnectionInTime(f"all {self._size} connections of the pool were in use for {timeout} seconds; nothing was sent")
            self._changed.wait(_LOOK_AGAIN if end is None else max(0.0, min(_LOOK_AGAIN, end - time.monotonic())))
        raise NotSent("the pool was closed; nothing was sent")

    def _idle_one(self) -> Optional[Connection]:
        """The idle connection that was used last. Those that ended meanwhile are left out."""
        while self._idle:
            connection = self._idle.pop()
            if connection.is_usable and connection.is_quiet:
                return connection
            self._drop(connection)
        return None

    def _drop(self, connection: Connection) -> None:
        connection.close()
        self._live.discard(connection)

    def _give(self, connection: Connection) -> None:
        """Takes a connection back; one that broke is closed."""
        with self._changed:
            if connection.is_usable and not self._is_closed:
                self._idle.append(connection)
            else:
                self._drop(connection)
            self._changed.notify()
