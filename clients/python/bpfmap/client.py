"""A client that waits for each answer."""

import threading
import weakref
from types import TracebackType
from typing import Deque, Optional, Type, TypeVar

from .calls import Calls
from .connection import Address, Connection
from .errors import NotSent
from .forks import Forkable, watch
from .outgoing import fail_unsent
from .programs import Runnable
from .protocol import LATEST, Pending, Request, Walked, limits_of
from .requests import Requests
from .walk import Walk

T = TypeVar("T")


class Client(Calls, Forkable):
    """A session with a map server. Keys have up to 64 bytes, values and arguments up to 1,024.

    In version 1 of the protocol values have up to 256. An older server knows that one alone, and refuses 2 with 64: ask for
    `version=1`. No other version is tried.

    Threads may share a client: their calls take turns. A process that is made by fork goes on with a connection of its own, which is
    opened with its first call. A call that raises ConnectionBroken is never made again, and the client is closed; open another
    one to go on. NotSent says that the call was not made, MayHaveBeenMade that it may have been. `timeout` is in seconds without any
    byte of an answer.
    """

    def __init__(self, host: str, port: int, *, timeout: Optional[float] = 10.0, version: int = LATEST) -> None:
        super().__init__(Requests(limits_of(version)))
        self._address = Address(host, port, timeout)
        self._is_closed = False
        self._lock = threading.RLock()
        # The connections of walks that have not ended.
        self._lent: "weakref.WeakSet[Connection]" = weakref.WeakSet()
        self._connection: Optional[Connection] = Connection(self._address, self._requests).open()
        watch(self)

    def __enter__(self) -> "Client":
        return self

    def __exit__(self, kind: Optional[Type[BaseException]], error: Optional[BaseException], trace: Optional[TracebackType]) -> None:
        self.close()

    def close(self) -> None:
        """Ends the session, and the walks that have not ended. Entries and programs stay."""
        self._is_closed = True
        connection = self._connection
        for each in (connection, *self._lent):
            if each is not None:
                each.stop()
        # Whoever waits for an answer has the lock. It ends now, and nobody closes a socket that it reads from.
        with self._lock:
            if self._connection is not None:
                self._connection.close()

    def after_fork(self) -> None:
        """Begins anew in a process that was made by fork: with another lock, and without a connection."""
        self._lock = threading.RLock()
        self._lent = weakref.WeakSet()
        self._connection = None

    def _call(self, request: Request[T]) -> T:
        with self._lock:
            return (self._connection or self._open()).call(request)

    def _open(self) -> Connection:
        """Opens a connection where there is none: a walk has it, or this process is new."""
        if self._is_closed:
            raise NotSent("the client was closed; nothing was sent")
        self._connection = Connection(self._address, self._requests).open()
        return self._connection

    def _begin_walk(self, request: Request[Walked]) -> Walk:
        with self._lock:
            connection = self._connection or self._open()
            connection.check()
            walk = Walk(connection, request, self._take_back)
            self._lent.add(connection)
            self._connection = None
        return walk.begin()

    def _take_back(self, connection: Connection) -> None:
        """Takes the connection of a walk that ended, if there is none meanwhile."""
        with self._lock:
            self._lent.discard(connection)
            if self._connection is None and connection.is_usable and not self._is_closed:
                self._connection = connection
            else:
                connection.close()

    def _execute(self, waiting: "Deque[Pending[object]]") -> None:
        with self._lock:
            try:
                connection = self._connection or self._open()
            except BaseException as error:
                fail_unsent(waiting, error)
                raise
            connection.exchange(waiting)

    def search(self, program: Runnable, arg: Optional[bytes] = None, threshold: int = 1) -> Walk:
        """See Calls.search. It is read whole, so other threads wait as for a call."""
        with self._lock:
            return super().search(program, arg, threshold)
