"""The entries of a walk, for `async for`."""

from types import TracebackType
from typing import Callable, Optional, Type

from .errors import BpfmapError, OtherProcess
from .protocol import Counts, Entry, Pending, Walked
from .session import Arrivals, Session


class AsyncWalk:
    """The entries of a walk, in the order of keys, for `async for`. It is read as it is gone through, so the memory is bounded.

    The walk has a connection for itself until it ends. A walk that is left before its end is closed: by `await close()`, by an
    `async with` block, or where nobody has it any more. That closes its connection, and leaves the client's others.
    """

    # So that a walk whose making was broken off is not left.
    _is_left = True

    def __init__(self, session: Session, pending: "Pending[Walked]", arrivals: Arrivals, give_back: Callable[[Session], None]) -> None:
        self._session = session
        self._pending = pending
        self._arrivals = arrivals
        self._give_back: Optional[Callable[[Session], None]] = give_back
        self._is_left = False

    async def __aenter__(self) -> "AsyncWalk":
        return self

    async def __aexit__(
        self, kind: Optional[Type[BaseException]], error: Optional[BaseException], trace: Optional[TracebackType]
    ) -> None:
        self._leave()

    def __del__(self) -> None:
        if not self._is_left and not self._session.is_foreign and not self._session.loop.is_closed():
            self._session.loop.call_soon_threadsafe(_leave, self._session, self._pending, self._give_back)

    def __aiter__(self) -> "AsyncWalk":
        return self

    async def __anext__(self) -> Entry:
        entry = await self.first()
        if entry is None:
            raise StopAsyncIteration
        return entry

    async def begin(self) -> "AsyncWalk":
        """Waits for the first frame; a refusal is raised."""
        try:
            await self._arrivals.wait()
        except BaseException:
            self._leave()
            raise
        if self._pending.is_done:
            self._release()
            self._pending.result()
        return self

    async def first(self) -> Optional[Entry]:
        """Returns the next entry, or None after the last one."""
        self._check_process()
        while not self._pending.items and not self._pending.is_done and not self._is_left:
            self._session.read_on()
            await self._arrivals.wait()
        if self._is_left:
            return None
        if self._pending.items:
            return self._pending.items.popleft()
        self._release()
        self._pending.result()
        return None

    async def counts(self) -> Counts:
        """Returns the counts of the whole walk. What has not come yet is read for that, and kept."""
        self._check_process()
        while not self._pending.is_done:
            self._session.read_on()
            await self._arrivals.wait()
        self._release()
        return self._pending.result().counts

    async def close(self) -> None:
        """Leaves the walk: no further entry is given. If it has not ended, its connection is closed, and there are no counts."""
        self._leave()

    aclose = close

    def _leave(self) -> None:
        self._is_left = True
        _leave(self._session, self._pending, self._give_back)
        self._give_back = None

    def _release(self) -> None:
        """Gives the session back to the client, once."""
        give_back, self._give_back = self._give_back, None
        if give_back is not None:
            give_back(self._session)

    def _check_process(self) -> None:
        if self._session.is_foreign:
            raise OtherProcess("another process began this walk: begin one in this process")


def _leave(session: Session, pending: "Pending[Walked]", give_back: Optional[Callable[[Session], None]]) -> None:
    """Ends the walk if it has not ended, and gives its session back."""
    if session.is_foreign:
        return
    if not pending.is_done:
        session.leave(pending)
        pending.fail(BpfmapError("the walk was closed before its end, so it has no counts"))
    if give_back is not None:
        give_back(session)
