"""The entries of a walk, read as they are gone through."""

import threading
from types import TracebackType
from typing import Callable, Iterator, Optional, Type

from .connection import Connection
from .errors import BpfmapError, ConnectionBroken, MayHaveBeenMade, OtherProcess
from .protocol import Counts, Entry, Pending, Request, Walked


class Walk(Iterator[Entry]):
    """The entries of a walk, in the order of keys. A frame is read when its entry is asked for, so the memory is bounded.

    The walk has a connection for itself until it ends. A walk that is left before its end is closed: by `close()`, by a `with`
    block, or where nobody has it any more. That closes its connection, and leaves the client's others.
    """

    # What takes the connection back, until it has done so.
    _give_back: Optional[Callable[[Connection], None]] = None

    def __init__(self, connection: Connection, request: Request[Walked], give_back: Callable[[Connection], None]) -> None:
        self._connection = connection
        self._pending = Pending(request)
        self._lock = threading.RLock()
        self._is_left = False
        self._give_back = give_back

    def begin(self) -> "Walk":
        """Sends the request, and reads the first frame; a refusal is raised."""
        try:
            self._connection.start(self._pending.request)
        except BaseException:
            self._pending.fail(BpfmapError("the walk did not begin"))
            self._release()
            raise
        self._read_frame()
        if self._pending.is_done:
            self._pending.result()
        return self

    def __enter__(self) -> "Walk":
        return self

    def __exit__(self, kind: Optional[Type[BaseException]], error: Optional[BaseException], trace: Optional[TracebackType]) -> None:
        self.close()

    def __del__(self) -> None:
        if self._give_back is not None:
            self.close()

    def __next__(self) -> Entry:
        entry = self._take_entry()
        if entry is None:
            raise StopIteration
        return entry

    def first(self) -> Optional[Entry]:
        """Returns the next entry, or None after the last one."""
        return self._take_entry()

    @property
    def counts(self) -> Counts:
        """The counts of the whole walk. What has not come yet is read for that, and kept."""
        self.finish()
        return self._pending.result().counts

    def finish(self) -> None:
        """Reads all that has not come yet, and keeps it."""
        self._check_process()
        with self._lock:
            while not self._pending.is_done:
                self._read_frame()

    def close(self) -> None:
        """Leaves the walk: no further entry is given. If it has not ended, its connection is closed, and there are no counts."""
        if self._connection.is_foreign:
            return
        with self._lock:
            self._is_left = True
            if not self._pending.is_done:
                self._connection.close()
                self._pending.fail(BpfmapError("the walk was closed before its end, so it has no counts"))
            self._release()

    def _take_entry(self) -> Optional[Entry]:
        self._check_process()
        with self._lock:
            if self._is_left:
                return None
            if not self._pending.items and not self._pending.is_done:
                self._read_frame()
            if self._pending.items:
                return self._pending.items.popleft()
        self._pending.result()
        return None

    def _read_frame(self) -> None:
        """Reads the next frame. Whatever is raised meanwhile closes the connection, and ends the walk."""
        try:
            if self._pending.take(self._connection.receive()):
                self._connection.finish()
                self._release()
        except BaseException as error:
            self._connection.close()
            broken = error if isinstance(error, ConnectionBroken) else MayHaveBeenMade(f"broken off by {type(error).__name__}")
            self._pending.fail(broken)
            self._release()
            raise

    def _release(self) -> None:
        """Gives the connection back to whom it belongs, once."""
        give_back, self._give_back = self._give_back, None
        if give_back is not None:
            give_back(self._connection)

    def _check_process(self) -> None:
        if self._connection.is_foreign:
            raise OtherProcess("another process began this walk: begin one in this process")
