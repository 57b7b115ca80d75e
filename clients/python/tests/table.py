"""Reads tests/requests.txt, which says how its rows read."""

from typing import Callable, List, NamedTuple, Optional, Tuple

from bpfmap import VERSIONS, Counts, Entry, Refused, Unfit

from .server import ROOT

# What a call came to: a word, and what belongs to it.
Outcome = Tuple[object, ...]

# The arguments of each call: b bytes, a an argument, n a number.
_ARGUMENTS = {
    "get": "b",
    "put": "bb",
    "put_if_absent": "bb",
    "remove": "b",
    "remove_if": "bb",
    "replace": "bb",
    "replace_if": "bbb",
    "compute": "bna",
    "compute_if_absent": "bna",
    "compute_if_present": "bna",
    "merge": "bbn",
    "search": "nan",
    "for_each": "nan",
    "replace_all": "na",
    "count": "",
}


class Row(NamedTuple):
    """A request and its answer."""

    name: str
    call: str
    words: List[str]
    answer: List[str]


def rows() -> List[Row]:
    """All rows, in order."""
    lines = (ROOT / "tests/requests.txt").read_text().splitlines()
    return [_row(line) for line in lines if line and not line.startswith("#")]


def calls_of(version: int) -> List[Row]:
    """The rows of a session of this version, in order."""
    others = tuple(f"version {other}: " for other in VERSIONS if other != version)
    return [row for row in rows() if row.call != "raw" and not row.name.startswith(others)]


def _row(line: str) -> Row:
    name, request, answer = line.split(" | ")
    call, *words = request.split(" ")
    return Row(name, call, words, answer.split(" "))


def bytes_of(word: str) -> bytes:
    """The bytes of one word."""
    if word == "-":
        return b""
    digits, _, times = word.partition("*")
    return bytes.fromhex(digits) * int(times or 1)


def joined(words: List[str]) -> bytes:
    """The bytes of all words."""
    return b"".join(map(bytes_of, words))


def arguments(row: Row) -> List[object]:
    """The arguments of a row's call, in their order."""
    if row.call == "register":
        sizes = [int(word) for word in row.words[:4]]
        return [joined(row.words[4:]), *sizes]
    kinds = _ARGUMENTS[row.call]
    if len(kinds) != len(row.words):
        raise ValueError(f"{row.name}: {row.call} has {len(kinds)} arguments")
    return [_argument(kind, word) for kind, word in zip(kinds, row.words)]


def _argument(kind: str, word: str) -> object:
    if kind == "n":
        return int(word)
    return None if kind == "a" and word == "none" else bytes_of(word)


def wanted(row: Row) -> Outcome:
    """What the row's call has to come to."""
    word, *rest = row.answer
    if word == "value":
        return (word, bytes_of(*rest))
    if word == "unfit":
        return (word, *rest)
    if word in ("program", "refused", "counts"):
        return (word, *map(int, rest))
    if word == "items":
        end = rest.index("counts")
        return (word, [_entry(item) for item in rest[:end]], *map(int, rest[end + 1 :]))
    if word in ("nothing", "true", "false") and not rest:
        return (word,)
    raise ValueError(f"{row.name}: no answer: {row.answer}")


def _entry(item: str) -> Entry:
    key, _, value = item.partition("=")
    return Entry(bytes_of(key), bytes_of(value))


def came_to(row: Row, result: Callable[[], object]) -> Outcome:
    """What a call came to, by what it answered or raised."""
    try:
        return _answered(row.call, result())
    except Refused as error:
        return ("refused", error.number, error.place)
    except Unfit as error:
        return ("unfit", error.window)


def _answered(call: str, answer: object) -> Outcome:
    if call == "register":
        return ("program", answer)
    if call == "count":
        return ("counts", answer, 0, 0)
    if isinstance(answer, Counts):
        return ("counts", *answer)
    if isinstance(answer, tuple):
        items, counts = answer
        return ("items", list(items), *counts)
    if isinstance(answer, bool):
        return ("true",) if answer else ("false",)
    return ("nothing",) if answer is None else ("value", answer)


def difference(row: Row, outcome: Optional[Outcome]) -> str:
    """What a failed row says."""
    asked, answer = " ".join(row.words)[:200], " ".join(row.answer)[:200]
    return f"client python, row '{row.name}': {row.call} {asked}: {outcome} and not {answer}"
