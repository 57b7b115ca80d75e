"""The calls of those who wait for each answer: of a client, and of a pool."""

from typing import Deque, Optional, TypeVar, Union

from .pipeline import Pipeline
from .programs import Function, Program, Runnable, Size
from .protocol import Counts, Limits, Pending, Request, Walked
from .requests import Requests
from .walk import Walk

T = TypeVar("T")


class Calls:
    """The calls, over connections that a subclass has.

    `program` is the number that `register` returned, or a Function: `bpfmap.function(program)`.
    """

    def __init__(self, requests: Requests) -> None:
        self._requests = requests

    def _call(self, request: Request[T]) -> T:
        """Sends a request, and returns its answer."""
        raise NotImplementedError

    def _begin_walk(self, request: Request[Walked]) -> Walk:
        """Sends the request of a walk, and returns the walk."""
        raise NotImplementedError

    def _execute(self, waiting: "Deque[Pending[object]]") -> None:
        """Sends the requests of a pipeline, and reads their answers."""
        raise NotImplementedError

    @property
    def limits(self) -> Limits:
        """The version of the protocol, and what it can carry."""
        return self._requests.limits

    def register(
        self, program: Union[Program, Function], key: Size = None, old: Size = None, arg: Size = None, result: Size = None
    ) -> int:
        """Hands in a program, and returns its number. The sizes are those of its windows, in bytes: else 64, 256, 256 and 256.

        The program is bytes of units or of an object file by clang, a str of assembler text, or a path to a file: of C (named .c,
        with its sizes in its head), of an object, of hex or of text. Refused 10 to 47 says what is wrong with it.

        The number holds for this client alone: another one refuses it by StaleProgram.
        """
        return self._call(self._requests.register(program, key, old, arg, result))

    def get(self, key: bytes) -> Optional[bytes]:
        """Returns the key's value, or None."""
        return self._call(self._requests.get(key))

    def put(self, key: bytes, value: bytes) -> Optional[bytes]:
        """Enters the value, and returns the one before, or None."""
        return self._call(self._requests.put(key, value))

    def put_if_absent(self, key: bytes, value: bytes) -> Optional[bytes]:
        """Enters the value if the key is absent, and returns None; else returns the value that stays."""
        return self._call(self._requests.put_if_absent(key, value))

    def remove(self, key: bytes) -> Optional[bytes]:
        """Removes the key, and returns its value, or None."""
        return self._call(self._requests.remove(key))

    def remove_if(self, key: bytes, expected: bytes) -> bool:
        """Removes the key if it has this value. Returns whether it did."""
        return self._call(self._requests.remove_if(key, expected))

    def replace(self, key: bytes, value: bytes) -> Optional[bytes]:
        """Enters the value if the key is present, and returns the one before; else returns None."""
        return self._call(self._requests.replace(key, value))

    def replace_if(self, key: bytes, expected: bytes, value: bytes) -> bool:
        """Enters the value if the key has the expected one. Returns whether it did."""
        return self._call(self._requests.replace_if(key, expected, value))

    def compute(self, key: bytes, program: Runnable, arg: Optional[bytes] = None) -> Optional[bytes]:
        """Makes the program's answer the key's value, and returns it; an answer of nothing removes the key.

        This and the calls below that run a program raise Unfit if one of its windows is too small.
        """
        return self._call(self._requests.compute(key, program, arg))

    def compute_if_absent(self, key: bytes, program: Runnable, arg: Optional[bytes] = None) -> Optional[bytes]:
        """Does as compute if the key is absent; else no program runs, and the key's value is returned."""
        return self._call(self._requests.compute_if_absent(key, program, arg))

    def compute_if_present(self, key: bytes, program: Runnable, arg: Optional[bytes] = None) -> Optional[bytes]:
        """Does as compute if the key is present; else no program runs, and None is returned."""
        return self._call(self._requests.compute_if_present(key, program, arg))

    def merge(self, key: bytes, value: bytes, program: Runnable) -> Optional[bytes]:
        """Does as compute, with the value as the argument, if the key is present; else enters the value, and returns it."""
        return self._call(self._requests.merge(key, value, program))

    def search(self, program: Runnable, arg: Optional[bytes] = None, threshold: int = 1) -> Walk:
        """Finds the entry of the least key for which the program has an answer: a walk of at most one entry, which is read whole."""
        walk = self._begin_walk(self._requests.search(program, arg, threshold))
        walk.finish()
        return walk

    def for_each(self, program: Runnable, arg: Optional[bytes] = None, threshold: int = 1) -> Walk:
        """Gives the program's answers for all entries, in the order of keys. They are read as the walk is gone through.

        The walk keeps its connection until it ends; other calls meanwhile go over another one. Close a walk that you leave early:

            with client.for_each(program) as walk:
                for key, value in walk:
                    ..
        """
        return self._begin_walk(self._requests.for_each(program, arg, threshold))

    def replace_all(self, program: Runnable, arg: Optional[bytes] = None) -> Counts:
        """Makes each value the program's answer for its entry; an answer of nothing keeps the value."""
        return self._call(self._requests.replace_all(program, arg))

    def count(self) -> int:
        """Returns how many entries there are."""
        return self._call(self._requests.count())

    def pipeline(self) -> Pipeline:
        """Begins a pipeline of calls that are sent together: see Pipeline."""
        return Pipeline(self._requests, self._execute)

