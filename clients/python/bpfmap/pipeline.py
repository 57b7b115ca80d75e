"""Calls that are sent together, with their answers read while the rest is sent."""

from collections import deque
from types import TracebackType
from typing import Callable, Deque, List, Optional, Type, TypeVar, Union

from .programs import Function, Program, Runnable, Size
from .protocol import Counts, Pending, Request, Walked
from .requests import Requests

T = TypeVar("T")
Value = Optional[bytes]


class PipelineCalls:
    """The calls of a pipeline. Each takes what the same call of Client takes, and gives a Pending, whose `result()` is the answer.

    Nothing is sent before the pipeline is executed. A key, a value or a text that is refused without the server is raised at once.
    """

    def __init__(self, requests: Requests) -> None:
        self._requests = requests
        self._waiting: "Deque[Pending[object]]" = deque()

    def _add(self, request: Request[T]) -> "Pending[T]":
        pending = Pending(request)
        self._waiting.append(pending)  # type: ignore[arg-type]
        return pending

    def _take_all(self) -> "Deque[Pending[object]]":
        waiting, self._waiting = self._waiting, deque()
        return waiting

    def register(
        self, program: Union[Program, Function], key: Size = None, old: Size = None, arg: Size = None, result: Size = None
    ) -> "Pending[int]":
        """See Client.register."""
        return self._add(self._requests.register(program, key, old, arg, result))

    def get(self, key: bytes) -> "Pending[Value]":
        """See Client.get."""
        return self._add(self._requests.get(key))

    def put(self, key: bytes, value: bytes) -> "Pending[Value]":
        """See Client.put."""
        return self._add(self._requests.put(key, value))

    def put_if_absent(self, key: bytes, value: bytes) -> "Pending[Value]":
        """See Client.put_if_absent."""
        return self._add(self._requests.put_if_absent(key, value))

    def remove(self, key: bytes) -> "Pending[Value]":
        """See Client.remove."""
        return self._add(self._requests.remove(key))

    def remove_if(self, key: bytes, expected: bytes) -> "Pending[bool]":
        """See Client.remove_if."""
        return self._add(self._requests.remove_if(key, expected))

    def replace(self, key: bytes, value: bytes) -> "Pending[Value]":
        """See Client.replace."""
        return self._add(self._requests.replace(key, value))

    def replace_if(self, key: bytes, expected: bytes, value: bytes) -> "Pending[bool]":
        """See Client.replace_if."""
        return self._add(self._requests.replace_if(key, expected, value))

    def compute(self, key: bytes, program: Runnable, arg: Value = None) -> "Pending[Value]":
        """See Client.compute."""
        return self._add(self._requests.compute(key, program, arg))

    def compute_if_absent(self, key: bytes, program: Runnable, arg: Value = None) -> "Pending[Value]":
        """See Client.compute_if_absent."""
        return self._add(self._requests.compute_if_absent(key, program, arg))

    def compute_if_present(self, key: bytes, program: Runnable, arg: Value = None) -> "Pending[Value]":
        """See Client.compute_if_present."""
        return self._add(self._requests.compute_if_present(key, program, arg))

    def merge(self, key: bytes, value: bytes, program: Runnable) -> "Pending[Value]":
        """See Client.merge."""
        return self._add(self._requests.merge(key, value, program))

    def search(self, program: Runnable, arg: Value = None, threshold: int = 1) -> "Pending[Walked]":
        """See Client.search; its answer is a Walked, with all items."""
        return self._add(self._requests.search(program, arg, threshold))

    def for_each(self, program: Runnable, arg: Value = None, threshold: int = 1) -> "Pending[Walked]":
        """See Client.for_each; its answer is a Walked, with all items."""
        return self._add(self._requests.for_each(program, arg, threshold))

    def replace_all(self, program: Runnable, arg: Value = None) -> "Pending[Counts]":
        """See Client.replace_all."""
        return self._add(self._requests.replace_all(program, arg))

    def count(self) -> "Pending[int]":
        """See Client.count."""
        return self._add(self._requests.count())


class Pipeline(PipelineCalls):
    """A pipeline of a Client: made by Client.pipeline(), executed where its `with` block ends, or by `execute()`."""

    def __init__(self, requests: Requests, execute: "Callable[[Deque[Pending[object]]], None]") -> None:
        super().__init__(requests)
        self._execute = execute

    def __enter__(self) -> "Pipeline":
        return self

    def __exit__(self, kind: Optional[Type[BaseException]], error: Optional[BaseException], trace: Optional[TracebackType]) -> None:
        if kind is None:
            self.execute()

    def execute(self) -> List[object]:
        """Sends all calls that were added since, and reads their answers. It gives them in their order.

        The first error of a call is raised, once all answers were read. What was answered stands in each call's Pending: where
        the connection broke in the middle, the calls before have their answers, and the others the error.
        """
        waiting = self._take_all()
        calls = list(waiting)
        if waiting:
            self._execute(waiting)
        return [call.result() for call in calls]
