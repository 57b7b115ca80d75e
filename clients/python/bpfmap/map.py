"""The server's map as a dict of Python, with keys and values of any type that has a codec."""

from collections.abc import ItemsView, MutableMapping, ValuesView
from itertools import islice
from typing import Any, Generic, Iterable, Iterator, List, Mapping, Optional, Tuple, TypeVar, Union, overload

from .calls import Calls
from .codecs import INT, TEXT, Codec
from .pipeline import Pipeline
from .programs import SUM, Function, copy_text, function
from .protocol import LONGEST_KEY

K = TypeVar("K")
V = TypeVar("V")
D = TypeVar("D")
_BATCH = 1_000
_ADD = function(SUM, key=LONGEST_KEY, old=8, arg=8, result=8)
_NO_DEFAULT: Any = object()


def copy_of(longest: int) -> Function:
    """Makes the function that answers each value of up to so many bytes as it is."""
    return function(copy_text(longest), key=LONGEST_KEY, old=longest, arg=0, result=longest)


def empty_of(longest: int) -> Function:
    """Makes the function that answers no byte for each value of up to so many bytes: a walk with it gives all keys."""
    return function("mov64 r0, 0\nexit\n", key=LONGEST_KEY, old=longest, arg=0, result=0)


class Map(MutableMapping, Generic[K, V]):  # type: ignore[type-arg]
    """A dict whose entries are the server's, over a Client or a Pool: `Map(client, key=TEXT, value=JSON)`.

    The methods of a dict are single calls, each atomic, whatever other clients do meanwhile: `setdefault` is PutIfAbsent, `pop` and
    `del` are Remove. `increment`, `replace`, `replace_if` and `remove_if` are atomic too. `update` and `clear` are many calls.
    Keys come in the order of their bytes. The Map is a view of all entries of the server: all of them are to have these codecs.
    """

    def __init__(self, calls: Calls, key: "Codec[K]" = TEXT, value: "Codec[V]" = TEXT) -> None:  # type: ignore[assignment]
        self._calls = calls
        self._key = key
        self._value = value
        longest = calls.limits.value
        self._copy = copy_of(longest)
        self._empty = empty_of(longest)

    def __repr__(self) -> str:
        return f"Map(key={self._key!r}, value={self._value!r})"

    def __getitem__(self, key: K) -> V:
        found = self._calls.get(self._key.encode(key))
        if found is None:
            raise KeyError(key)
        return self._value.decode(found)

    def __setitem__(self, key: K, value: V) -> None:
        self._calls.put(self._key.encode(key), self._value.encode(value))

    def __delitem__(self, key: K) -> None:
        if self._calls.remove(self._key.encode(key)) is None:
            raise KeyError(key)

    def __contains__(self, key: object) -> bool:
        return self._calls.get(self._key.encode(key)) is not None  # type: ignore[arg-type]

    def __len__(self) -> int:
        return self._calls.count()

    def __iter__(self) -> Iterator[K]:
        with self._calls.for_each(self._empty) as walk:
            for key, _ in walk:
                yield self._key.decode(key)

    def items(self) -> "ItemsView[K, V]":
        """Returns a view of keys and values. Each time that it is gone through is one walk."""
        return _Items(self)

    def values(self) -> "ValuesView[V]":
        """Returns a view of the values, in the order of their keys."""
        return _Values(self)

    def entries(self) -> Iterator[Tuple[K, V]]:
        """Gives all keys and values by one walk, which is read as it is gone through."""
        with self._calls.for_each(self._copy) as walk:
            for key, value in walk:
                yield self._key.decode(key), self._value.decode(value)

    @overload  # type: ignore[override]
    def get(self, key: K) -> Optional[V]: ...

    @overload
    def get(self, key: K, default: D) -> Union[V, D]: ...

    def get(self, key: K, default: Any = None) -> Any:
        """Returns the key's value, or the default."""
        return self._decoded(self._calls.get(self._key.encode(key)), default)

    @overload  # type: ignore[override]
    def pop(self, key: K) -> V: ...

    @overload
    def pop(self, key: K, default: D) -> Union[V, D]: ...

    def pop(self, key: K, default: Any = _NO_DEFAULT) -> Any:
        """Removes the key, and returns its value: if several clients pop it, one of them gets it."""
        found = self._calls.remove(self._key.encode(key))
        if found is None and default is _NO_DEFAULT:
            raise KeyError(key)
        return self._decoded(found, default)

    def popitem(self) -> Tuple[K, V]:
        """Removes the entry of the least key, and returns it. Raises KeyError if there is none."""
        while True:
            least = self._calls.search(self._empty).first()
            if least is None:
                raise KeyError("the map is empty")
            found = self._calls.remove(least.key)
            if found is not None:
                return self._key.decode(least.key), self._value.decode(found)

    def setdefault(self, key: K, default: V = None) -> V:  # type: ignore[assignment, override]
        """Enters the default if the key is absent. Returns the key's value."""
        stays = self._calls.put_if_absent(self._key.encode(key), self._value.encode(default))
        return default if stays is None else self._value.decode(stays)

    def update(self, other: "Union[Mapping[K, V], Iterable[Tuple[K, V]]]" = (), /, **named: V) -> None:  # type: ignore[override]
        """Enters all of these, in pipelines. Each of them is atomic, all together are not."""
        pairs = other.items() if isinstance(other, Mapping) else other
        for batch in _batches([*pairs, *named.items()] if named else pairs):  # type: ignore[list-item]
            with self._calls.pipeline() as calls:
                for key, value in batch:
                    calls.put(self._key.encode(key), self._value.encode(value))

    def clear(self) -> None:
        """Removes all keys that a walk finds, in pipelines."""
        with self._calls.for_each(self._empty) as walk:
            for batch in _batches(walk):
                self._remove_all([key for key, _ in batch])

    def _remove_all(self, keys: List[bytes]) -> None:
        calls: Pipeline = self._calls.pipeline()
        for key in keys:
            calls.remove(key)
        calls.execute()

    def replace(self, key: K, value: V) -> Optional[V]:
        """Enters the value if the key is present, and returns the one before; else returns None."""
        return self._decoded(self._calls.replace(self._key.encode(key), self._value.encode(value)), None)

    def replace_if(self, key: K, expected: V, value: V) -> bool:
        """Enters the value if the key has the expected one. Returns whether it did."""
        return self._calls.replace_if(self._key.encode(key), self._value.encode(expected), self._value.encode(value))

    def remove_if(self, key: K, expected: V) -> bool:
        """Removes the key if it has the expected value. Returns whether it did."""
        return self._calls.remove_if(self._key.encode(key), self._value.encode(expected))

    def increment(self, key: K, by: int = 1) -> int:
        """Adds to the key's number, and returns the sum: one Merge, so that no client's is lost. An absent key counts as 0.

        The values have to be INT. Numbers have 64 bits: the sum of greater ones begins anew at the other end.
        """
        if self._value is not INT:  # type: ignore[comparison-overlap]
            raise TypeError(f"increment adds to numbers, and these values are {self._value.name}: make a Map with value=INT")
        found = self._calls.merge(self._key.encode(key), INT.encode(by), _ADD)
        return INT.decode(found or b"")

    def _decoded(self, found: Optional[bytes], default: Any) -> Any:
        return default if found is None else self._value.decode(found)


class _Items(ItemsView):  # type: ignore[type-arg]
    """All entries, by one walk."""

    _mapping: "Map[Any, Any]"

    def __iter__(self) -> Iterator[Tuple[Any, Any]]:
        return self._mapping.entries()


class _Values(ValuesView):  # type: ignore[type-arg]
    """All values, by one walk."""

    _mapping: "Map[Any, Any]"

    def __iter__(self) -> Iterator[Any]:
        return (value for _, value in self._mapping.entries())

    def __contains__(self, value: object) -> bool:
        return any(each == value for each in self)


def _batches(items: Iterable[D]) -> Iterator[List[D]]:
    """The items, in lists of up to 1,000."""
    iterator = iter(items)
    batch = list(islice(iterator, _BATCH))
    while batch:
        yield batch
        batch = list(islice(iterator, _BATCH))
