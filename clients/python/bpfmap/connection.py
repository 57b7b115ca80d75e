"""One connection to the server, whose faults are all a ConnectionBroken."""

import contextlib
import select
import selectors
import socket
from typing import Deque, Dict, NamedTuple, Optional, TypeVar

from .errors import (
    ConnectionBroken,
    MayHaveBeenMade,
    NoAnswerInTime,
    NoConnectionInTime,
    NotSent,
    OtherProcess,
    ProtocolFault,
    Refused,
    TimedOut,
)
from .forks import Forkable, watch
from .outgoing import Outgoing, fail_unsent, is_of_system
from .programs import Function
from .protocol import FrameReader, Pending, Request
from .requests import Requests

T = TypeVar("T")
_PIECE = 1 << 16
_ENDED = "the server ended the connection"
_OLDER = "the server is older: ask for version 1, by Client(host, port, version=1) or --protocol 1"
_WRONG_VERSION = 64


class Address(NamedTuple):
    """Where a server is, and for how many seconds a client waits for it."""

    host: str
    port: int
    timeout: Optional[float]

    def __str__(self) -> str:
        """Host and port, as the command line takes them: an IPv6 address stands in brackets."""
        return f"[{self.host}]:{self.port}" if ":" in self.host else f"{self.host}:{self.port}"


class Connection(Forkable):
    """A session over TCP. After any fault it is closed for good.

    `_is_under_way` is set from before a request's first byte until its answer's last byte was read. Whatever is raised meanwhile
    closes the connection. If it is raised where even that fails (a second signal), the mark stays, and no further call is sent. So
    no call gets another's answer, wherever an exception comes.
    """

    def __init__(self, address: Address, requests: Requests) -> None:
        self._numbers: Dict[Function, int] = {}
        self._address = address
        self._requests = requests
        self._reader = FrameReader(requests.limits.body)
        self._socket: Optional[socket.socket] = None
        self._is_under_way = False
        self._is_foreign = False

    def open(self) -> "Connection":
        """Connects, and begins the session. All that can fail here is raised before any call was sent."""
        self._socket = self._connect()
        watch(self)
        try:
            self.call(self._requests.hello())
        except Refused as error:
            self.close()
            raise explained(error, self._requests) from None
        except ProtocolFault:
            raise
        except TimedOut as error:
            raise NoConnectionInTime(f"{error}: is each worker of the server taken by a client?") from error
        except ConnectionBroken as error:
            raise NotSent(f"the session did not begin: {error}") from error
        return self

    def _connect(self) -> socket.socket:
        host, port, timeout = self._address
        try:
            opened = socket.create_connection((host, port), timeout)
            opened.setsockopt(socket.IPPROTO_TCP, socket.TCP_NODELAY, 1)
            return opened
        except socket.timeout as error:
            raise NoConnectionInTime(f"no connection to {self._address} in {timeout} seconds") from error
        except OSError as error:
            raise NotSent(f"no connection to {self._address}: {error}") from error

    def close(self) -> None:
        """Closes the connection; a second time does nothing. The session ends though another process has a copy of the socket."""
        self.stop()
        opened, self._socket = self._socket, None
        if opened is not None:
            opened.close()

    def stop(self) -> None:
        """Ends the stream, so that a call of another thread that waits for its answer fails; that thread then closes."""
        opened = self._socket
        if opened is not None and not self._is_foreign:
            with contextlib.suppress(OSError):
                opened.shutdown(socket.SHUT_RDWR)

    def after_fork(self) -> None:
        """Closes this process's copy of the socket. The session stays with the process that opened it."""
        self._is_foreign = True
        self.close()

    @property
    def is_foreign(self) -> bool:
        """Whether another process opened it."""
        return self._is_foreign

    @property
    def is_usable(self) -> bool:
        """Whether a call may be sent."""
        return self._socket is not None and not self._is_under_way and not self._reader.has_rest

    @property
    def is_quiet(self) -> bool:
        """Whether nothing has come that is to be read; what comes between two calls is the connection's end."""
        opened = self._socket
        return opened is not None and not _is_readable(opened)

    def call(self, request: Request[T]) -> T:
        """Sends a request, and returns its answer."""
        if request.function is not None:
            request.bind(self._number_of(request.function))
        pending = Pending(request)
        opened = self._begin()
        try:
            self._send(opened, request.frame)
            while not pending.take(self._next_body()):
                pass
            self._is_under_way = False
        except BaseException:
            self.close()
            raise
        if request.made is not None:
            self._note(pending)
        return pending.result()

    def start(self, request: Request[T]) -> None:
        """Sends a request whose answer is read by `receive`, until `finish` says that it is whole."""
        if request.function is not None:
            request.bind(self._number_of(request.function))
        opened = self._begin()
        try:
            self._send(opened, request.frame)
        except BaseException:
            self.close()
            raise

    def receive(self) -> bytes:
        """Returns the body of the next frame."""
        self._check_process()
        try:
            return self._next_body()
        except BaseException:
            self.close()
            raise

    def finish(self) -> None:
        """Says that the answer is whole."""
        self._is_under_way = False

    def exchange(self, waiting: "Deque[Pending[object]]") -> None:
        """Sends the requests and reads their answers meanwhile. What was answered leaves `waiting`.

        If the server ended the connection, all that it had sent before is read all the same. Then the calls without an answer end
        by NotSent or MayHaveBeenMade, by whether their first byte may have been sent.
        """
        self._bind_all(waiting)
        outgoing = Outgoing(b"".join([pending.request.frame for pending in waiting]))
        try:
            opened = self._begin()
            self._exchange_all(opened, outgoing, waiting)
        except BaseException as error:
            outgoing.fail_all(waiting, error)
            raise

    def _exchange_all(self, opened: socket.socket, outgoing: Outgoing, waiting: "Deque[Pending[object]]") -> None:
        try:
            outgoing.send_some(opened)
            if outgoing.rest:
                self._exchange_rest(opened, outgoing, waiting)
            while waiting:
                self._give(waiting, self._next_body())
            if outgoing.is_cut:
                raise ProtocolFault("the server answered more than it was sent")
            self._is_under_way = False
        except ConnectionBroken:
            self.close()
            raise
        except OSError as error:
            raise self._broken(error) from error
        except BaseException:
            self.close()
            raise

    def _exchange_rest(self, opened: socket.socket, outgoing: Outgoing, waiting: "Deque[Pending[object]]") -> None:
        """Sends what the system did not take at once, and reads answers meanwhile: else the server would wait for that."""
        opened.setblocking(False)
        with selectors.DefaultSelector() as selector:
            selector.register(opened, selectors.EVENT_READ | selectors.EVENT_WRITE)
            while outgoing.rest and waiting:
                events = selector.select(self._address.timeout)
                if not events:
                    raise NoAnswerInTime(f"no answer in {self._address.timeout} seconds")
                if events[0][1] & selectors.EVENT_READ:
                    self._read_piece()
                    self._give_all(waiting)
                if events[0][1] & selectors.EVENT_WRITE:
                    outgoing.send_some(opened)
        opened.settimeout(self._address.timeout)

    def _bind_all(self, waiting: "Deque[Pending[object]]") -> None:
        """Puts the functions' numbers into the frames. A call whose function is refused ends by that, and is not sent."""
        refused = []
        try:
            for pending in waiting:
                made = pending.request.function
                if made is not None and not self._is_bound(pending, made):
                    refused.append(pending)
        except BaseException as error:
            fail_unsent(waiting, error)
            raise
        for pending in refused:
            waiting.remove(pending)

    def _is_bound(self, pending: "Pending[object]", made: Function) -> bool:
        """Puts the function's number into the frame. False if the server refused the function; then the call ends by that."""
        try:
            pending.request.bind(self._number_of(made))
            return True
        except Refused as error:
            pending.fail(error)
            return False

    def _number_of(self, made: Function) -> int:
        """The function's number on this connection, which registers it first if it is new here."""
        number = self._numbers.get(made)
        if number is None:
            number = self.call(self._requests.register(made))
        return number

    def _note(self, pending: "Pending[T]") -> None:
        """Keeps the number of a function that was registered."""
        if pending.error is None:
            self._numbers[pending.request.made] = pending.result()  # type: ignore[index, assignment]

    def _give(self, waiting: "Deque[Pending[object]]", body: bytes) -> None:
        pending = waiting[0]
        if pending.take(body):
            if pending.request.made is not None:
                self._note(pending)
            waiting.popleft()

    def _give_all(self, waiting: "Deque[Pending[object]]") -> None:
        """Gives each call the frames of its answer that are whole."""
        while waiting:
            body = self._reader.next()
            if body is None:
                return
            self._give(waiting, body)

    def check(self) -> None:
        """Raises NotSent if no call can be sent, or OtherProcess."""
        self._check_process()
        if self._socket is None:
            raise NotSent("the connection is closed; nothing was sent")
        if self._is_under_way:
            raise NotSent("another call of this connection is under way, or was broken off; nothing was sent")
        if self._reader.has_rest:
            self.close()
            raise NotSent("the connection is closed, since the server sent what nobody asked for; nothing was sent")

    def _begin(self) -> socket.socket:
        """Marks the connection before a request's first byte."""
        opened = self._socket
        if opened is None or self._is_under_way or self._reader.has_rest:
            self.check()
            raise NotSent("the connection is closed; nothing was sent")
        self._is_under_way = True
        return opened

    def _send(self, opened: socket.socket, data: bytes) -> None:
        """Sends all bytes. Raises NotSent if the system refused the first of them."""
        try:
            sent = opened.send(data)
        except OSError as error:
            if not is_of_system(error):
                raise self._broken(error) from error
            self.close()
            raise NotSent(f"{_ENDED}; nothing was sent: {error}") from error
        if sent < len(data):
            try:
                opened.sendall(data[sent:])
            except OSError as error:
                raise self._broken(error) from error

    def _next_body(self) -> bytes:
        """The body of the next frame; waits for it."""
        body = self._reader.next()
        while body is None:
            self._read_piece()
            body = self._reader.next()
        return body

    def _read_piece(self) -> None:
        """Reads what has come; waits for it if the socket does."""
        opened = self._socket
        if opened is None:
            raise MayHaveBeenMade("the connection was closed before the answer")
        try:
            piece = opened.recv(_PIECE)
        except BlockingIOError:
            return
        except OSError as error:
            raise self._broken(error) from error
        if not piece:
            raise self._broken(None)
        self._reader.feed(piece)

    def _check_process(self) -> None:
        if self._is_foreign:
            raise OtherProcess("another process opened this connection: begin a walk of its own in this one")

    def _broken(self, error: Optional[OSError]) -> ConnectionBroken:
        """Closes the connection, and says what befell it."""
        self.close()
        if isinstance(error, socket.timeout):
            return NoAnswerInTime(f"no answer in {self._address.timeout} seconds")
        return MayHaveBeenMade(f"{_ENDED}: {error}" if error else _ENDED)


def explained(error: Refused, requests: Requests) -> Refused:
    """A refusal of a Hello, with what to do if the server knows version 1 alone."""
    is_older = error.number == _WRONG_VERSION and requests.limits.version > 1
    return Refused(error.number, error.place, _OLDER) if is_older else error


def _is_readable(opened: socket.socket) -> bool:
    """Whether something can be read at once: bytes, or the stream's end."""
    if not hasattr(select, "poll"):
        return bool(select.select([opened], [], [], 0)[0])
    poller = select.poll()
    poller.register(opened, select.POLLIN)
    return bool(poller.poll(0))
