"""The bytes of a pipeline, and which of its calls they tell the server of."""

import socket
from typing import Deque, Iterable, TypeVar

from .errors import ConnectionBroken, MayHaveBeenMade, NotSent
from .protocol import Pending

T = TypeVar("T")
# So much is offered to the system at once: what lies further on was certainly not sent.
_PIECE = 1 << 18
_AT_ONCE = getattr(socket, "MSG_DONTWAIT", 0)


class Outgoing:
    """The bytes of a pipeline that have still to be sent.

    `_offered` counts the bytes that the system was ever given to send. It is raised before they are, so it is right wherever an
    exception comes.
    """

    def __init__(self, data: bytes) -> None:
        self.rest = memoryview(data)
        self.is_cut = False
        self._size = len(data)
        self._offered = 0

    def send_some(self, opened: socket.socket) -> None:
        """Sends what the system takes at once. If the server has ended, no more is sent: only reading goes on."""
        piece = self.rest[:_PIECE]
        self._offered = self._size - len(self.rest) + len(piece)
        try:
            self.rest = self.rest[opened.send(piece, _AT_ONCE) :]
        except BlockingIOError:
            return
        except OSError as error:
            if not is_of_system(error):
                raise
            self.rest = self.rest[:0]
            self.is_cut = True

    def fail_all(self, waiting: "Deque[Pending[object]]", error: BaseException) -> None:
        """Ends each call without an answer: by NotSent if its first byte was not sent, else by the error."""
        made = error if isinstance(error, ConnectionBroken) else MayHaveBeenMade(f"broken off by {type(error).__name__}")
        not_sent = _not_sent(error)
        start = self._size
        for pending in reversed(waiting):
            start -= len(pending.request.frame)
            if not pending.is_done:
                pending.fail(not_sent if start >= self._offered else made)


def is_of_system(error: OSError) -> bool:
    """Whether the system refused a call of a socket, so that nothing was done: called where that call's error is caught.

    Such an error has a number, and was raised in the frame that caught it. One that a signal's handler raised may have come after
    the call.
    """
    trace = error.__traceback__
    return error.errno is not None and trace is not None and trace.tb_next is None


def fail_unsent(waiting: "Iterable[Pending[T]]", error: BaseException) -> None:
    """Ends calls of which nothing was sent."""
    not_sent = _not_sent(error)
    for pending in waiting:
        if not pending.is_done:
            pending.fail(not_sent)


def _not_sent(error: BaseException) -> NotSent:
    return error if isinstance(error, NotSent) else NotSent(f"not sent, since what came before it failed: {error!r}")
