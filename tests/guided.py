#!/usr/bin/env python3
"""Sends programs to the built bpfmap whose verdicts and answers a second implementation (model.py, model_verifier.py) has told: each must
be the same, in number, unit and bytes. The programs are those of tests/guided.txt, which takes a few seconds.

With --seconds SECONDS it goes on from there with programs that are changed at random (changes.py), beside those of the other rows. One
that takes a new way through the second implementation is kept, to be changed further: other lines of it for a kind of instruction, other
kinds of values at an instruction or where ways meet, or another verdict. With --keep the programs that together take all ways found are
written to tests/guided.txt, a program a line: its four sizes and its bytes. By hand, after `rt run` in crates/bpfmap:

    python3 tests/guided.py --seconds 3600 --seed 7 --keep
"""
from __future__ import annotations

import argparse
import heapq
import random
import subprocess
import sys
import time
from collections.abc import Hashable, Iterable, Iterator
from pathlib import Path
from types import FrameType
from typing import Any, NamedTuple, Optional

HERE = Path(__file__).resolve().parent
sys.path.insert(0, str(HERE))
sys.dont_write_bytecode = True
import changes  # noqa: E402
import plain  # noqa: E402
import rules  # noqa: E402
import wire  # noqa: E402
from model import FULL, Insn, Range, WORDS, decoded  # noqa: E402
from model_verifier import Machine, Pointer, Sizes, State, Value, Verifier, checked  # noqa: E402

CORPUS = HERE / "guided.txt"
MOST_BYTES = 200_000
BATCH = 100
PATIENCE = 60
# Of so many programs one is changed from a plain one, whose verdict is mostly good.
FRESH = 40
# What a new verdict on an opcode counts in the choice of programs, beside any other way, and how much more accepted programs count, since
# they are run too.
WORTH_OF_A_VERDICT = 4
WORTH_OF_ACCEPTED = 4
ACCEPTED = ("verdict", "", b"")
# The files whose lines are noted, those of one as numbers below 0.
MODEL = {str(HERE / "model.py"): -1, str(HERE / "model_verifier.py"): 1}
KEY = b"a key"
REGISTERED, VALUE, UNFIT, REFUSED = 0x81, 0x82, 0x84, 0x85

Ways = set[tuple[Hashable, ...]]


class Case(NamedTuple):
    """A program's bytes and its declared sizes: key, old value, argument, result."""

    sizes: tuple[int, ...]
    code: bytes

    def declared(self) -> Sizes:
        return dict(zip(changes.WINDOWS, self.sizes))

    def line(self) -> str:
        return " ".join(map(str, self.sizes)) + " " + self.code.hex()


class Wrong(Exception):
    """bpfmap answers otherwise than the second implementation, or not at all."""


# ---- the ways through the second implementation


def sort_of(value: Value) -> str:
    """What sort of value a register holds."""
    if value is None:
        return "unwritten"
    if isinstance(value, Pointer):
        return value.window + ("" if value.low == value.high else " spread")
    if value == FULL or value.is_single():
        return "any" if value == FULL else "single"
    sign = "from 0" if value.smin >= 0 else "below 0" if value.smax < 0 else "any sign"
    return sign + (" below 2^31" if value.umax < 1 << 31 else " below 2^32" if value.umax < WORDS[32] else "")


def relation_of(a: Value, b: Value) -> str:
    """How two ranges of the same sort lie to each other."""
    if not isinstance(a, Range) or not isinstance(b, Range):
        return "same" if a == b else ""
    if a == b:
        return "same"
    return "apart" if a.umax < b.umin or b.umax < a.umin else "within" if a.umin <= b.umin and b.umax <= a.umax else "overlapping"


class Watched(Verifier):
    """The rules, which note the ways that are taken."""

    def __init__(self) -> None:
        self.ways: Ways = set()
        self.lines: set[int] = set()

    def note_line(self, frame: FrameType, event: str, _: Any) -> Any:
        sign = MODEL.get(frame.f_code.co_filename)
        if sign is None:
            return None
        if event == "line":
            self.lines.add(sign * frame.f_lineno)
        return self.note_line

    def sent(self, state: State, insn: Insn, sizes: Sizes) -> list[tuple[int, State]]:
        step = (insn.kind, insn.op, insn.width, insn.src is None)
        self.lines.clear()
        sys.settrace(self.note_line)
        try:
            return super().sent(state, insn, sizes)
        finally:
            sys.settrace(None)
            self.ways.add((step, frozenset(self.lines)))
            second = None if insn.src is None else sort_of(state.registers[insn.src])
            self.ways.add((insn.kind, insn.op, sort_of(state.registers[insn.dst]), second))

    def join_values(self, a: Value, b: Value) -> Value:
        self.ways.add(("join", sort_of(a), sort_of(b), relation_of(a, b)))
        return super().join_values(a, b)


def verdict_of(case: Case, by: Verifier) -> str:
    """What the second implementation says of a program."""
    fault = changes.fault_of(case.code)
    return "refused {} at {}".format(*fault) if fault else checked(by, case.code, case.declared())


def judged(case: Case) -> tuple[str, Ways]:
    """The verdict, and the ways that were taken to it: with the opcode that is refused."""
    watched = Watched()
    verdict = verdict_of(case, watched)
    _, number, _, unit = verdict.split() if verdict != "accepted" else ("", "", "", "0")
    return verdict, watched.ways | {("verdict", number, case.code[8 * int(unit):][:1] if number else b"")}


# ---- the built program


def inputs_of(case: Case) -> list[tuple[Optional[bytes], Optional[bytes]]]:
    """Two pairs of an old value and an argument that fit the sizes; they are the same at each call."""
    dice = random.Random(case.code)
    filled = [dice.randbytes(min(size, 1024)) for size in case.sizes[1:3]]
    short = [None if dice.randrange(2) else bytes(dice.randrange(size + 1)) for size in case.sizes[1:3]]
    return [(filled[0], filled[1]), (short[0], short[1])]


def requests_of(case: Case, verdict: str, number: int) -> list[tuple[bytes, Optional[bytes]]]:
    """The requests for a program, each with the answer that is to come; none where any will do."""
    register = wire.register(case.sizes, case.code)
    if verdict != "accepted":
        _, fault, _, unit = verdict.split()
        return [(register, wire.refused(int(fault), int(unit)))]
    asked = [(register, bytes([REGISTERED]) + wire.number_field(number))]
    for old, arg in inputs_of(case):
        asked.append((wire.put(KEY, old) if old is not None else b"\x13" + wire.key_field(KEY), None))
        asked.append((wire.compute(KEY, number, arg), answer_of(case, old, arg)))
    return asked


def answer_of(case: Case, old: Optional[bytes], arg: Optional[bytes]) -> bytes:
    """What a Compute by an accepted program answers."""
    if len(KEY) > case.sizes[0]:
        return bytes([UNFIT, 1])
    answer = Machine(Verifier(), case.declared(), {"key": KEY, "old": old, "arg": arg}).run(decoded(case.code))
    return wire.NOTHING if answer is None else wire.value(answer)


def compare(program: Path, cases: list[tuple[Case, str]]) -> None:
    """Sends programs with their verdicts to one session; fails at the first answer that is another."""
    asked: list[tuple[Case, bytes, Optional[bytes]]] = []
    number = 0
    for case, verdict in cases:
        asked += [(case, *request) for request in requests_of(case, verdict, number)]
        number += verdict == "accepted"
    sent = wire.frames([wire.hello(2), *(request for _, request, _ in asked)])
    try:
        run = subprocess.run([program, "exec"], input=sent, capture_output=True, timeout=PATIENCE, check=False)
    except subprocess.TimeoutExpired as late:
        raise Wrong(f"it hangs on these: {[case.line() for case, _ in cases]}") from late
    answers = list(wire.bodies_of(run.stdout))
    for (case, request, wanted), answer in zip(asked, answers[1:]):
        if wanted is not None and answer != wanted:
            raise Wrong(f"{case.line()}: {request[:1].hex()} is answered {answer.hex()}, not {wanted.hex()}")
    if run.returncode or len(answers) != 1 + len(asked):
        raise Wrong(f"status {run.returncode}, {len(answers)} answers to {1 + len(asked)} requests: {run.stderr[-2000:]!r}; "
                    f"the last answered program is {asked[max(0, len(answers) - 2)][0].line()}")


# ---- programs


def corpus() -> list[Case]:
    """The programs of tests/guided.txt."""
    if not CORPUS.exists():
        return []
    lines = [line.split() for line in CORPUS.read_text().splitlines() if line and not line.startswith("#")]
    return [Case(tuple(map(int, words[:4])), bytes.fromhex(words[4] if len(words) > 4 else "")) for words in lines]


def cases_of_rows() -> list[Case]:
    """The short programs of the other rows."""
    rows = {Case(tuple(row.sizes[window] for window in changes.WINDOWS), row.code) for row in rules.all_rows()}
    return sorted(case for case in rows if len(case.code) <= changes.LENGTH * changes.UNIT)


def plain_case(dice: random.Random) -> Case:
    """A program that a definition of safe programs makes."""
    program, sizes = next(plain.plain_programs(dice))
    code = b"".join(plain.spelled(insn) for insn in program)[:changes.LENGTH * changes.UNIT]
    return Case(tuple(sizes[window] for window in changes.WINDOWS), code)


class Search:
    """The programs that took a new way, and all ways that were taken."""

    def __init__(self, dice: random.Random) -> None:
        self.dice = dice
        self.kept: list[tuple[Case, frozenset[tuple[Hashable, ...]]]] = []
        self.ways: Ways = set()
        self.tried = 0

    def take(self, case: Case) -> str:
        """Notes a program's ways; its verdict."""
        verdict, ways = judged(case)
        self.tried += 1
        if not ways <= self.ways:
            self.ways |= ways
            self.kept.append((case, frozenset(ways)))
        return verdict

    def next_case(self) -> Case:
        """A kept program, mostly one of the newest, with one to four changes."""
        dice = self.dice
        if not dice.randrange(FRESH):
            case = plain_case(dice)
        else:
            newest = max(1, len(self.kept) // dice.choice((1, 1, 4, 16)))
            case = self.kept[-1 - dice.randrange(newest)][0]
        units, sizes = changes.units_of(case.code), case.sizes
        for _ in range(dice.choice((1, 1, 2, 4))):
            if not dice.randrange(12):
                sizes = changes.sizes_changed(sizes, dice)
            units = changes.changed(units, changes.units_of(dice.choice(self.kept)[0].code), dice)
        units = units[:changes.LENGTH]
        if dice.randrange(20):
            units = changes.repaired(units, dice)
        return Case(sizes, changes.code_of(units))

    def least(self) -> list[Case]:
        """Few programs that take all ways, as many as there is room for: in turn the one with the most new ways for its length."""
        left, chosen, room = set(self.ways), [], MOST_BYTES

        def worth(at: int) -> float:
            case, ways = self.kept[at]
            new = ways & left
            verdicts = sum(way[0] == "verdict" for way in new)
            factor = WORTH_OF_ACCEPTED if ACCEPTED in ways else 1
            return factor * (len(new) + WORTH_OF_A_VERDICT * verdicts) / (len(case.code) + 16)

        # A program's worth only falls, so the first whose worth is still as it was is the best.
        waiting = [(-worth(at), at) for at in range(len(self.kept))]
        heapq.heapify(waiting)
        while waiting and left and room > 0:
            worth_before, at = heapq.heappop(waiting)
            worth_now = worth(at)
            if worth_now == -worth_before and worth_now:
                left -= self.kept[at][1]
                room -= len(self.kept[at][0].line()) + 1
                chosen.append(self.kept[at][0])
            elif worth_now:
                heapq.heappush(waiting, (-worth_now, at))
        return chosen[:-1] if room < 0 else chosen


def batches(cases: Iterable[Case]) -> Iterable[list[Case]]:
    batch: list[Case] = []
    for case in cases:
        batch.append(case)
        if len(batch) == BATCH:
            yield batch
            batch = []
    if batch:
        yield batch


def replayed(program: Path, cases: list[Case]) -> int:
    """Compares each program; how many are accepted."""
    accepted = 0
    for batch in batches(cases):
        told = [(case, verdict_of(case, Verifier())) for case in batch]
        compare(program, told)
        accepted += sum(verdict == "accepted" for _, verdict in told)
    return accepted


def explore(program: Path, search: Search, cases: list[Case], seconds: float) -> None:
    """Takes these programs and then changed ones, until the time is over."""
    until, told = time.monotonic() + seconds, time.monotonic()
    compare(program, [(case, search.take(case)) for case in cases])
    while time.monotonic() < until:
        batch = [search.next_case() for _ in range(BATCH)]
        compare(program, [(case, search.take(case)) for case in batch])
        if time.monotonic() > told + 60:
            told = time.monotonic()
            print(f"guided: {search.tried} programs, {len(search.ways)} ways, {len(search.kept)} kept", flush=True)


def written(cases: list[Case]) -> str:
    head = "# Programs that together take all ways through model_verifier.py that guided.py found: four sizes and the bytes.\n"
    return head + "".join(case.line() + "\n" for case in sorted(cases, key=lambda case: (len(case.code), case)))


def main() -> None:
    words = argparse.ArgumentParser(description=__doc__, formatter_class=argparse.RawDescriptionHelpFormatter)
    words.add_argument("--seconds", type=float, default=0)
    words.add_argument("--seed", type=int, default=1)
    words.add_argument("--keep", action="store_true")
    words.add_argument("--program", type=Path, default=plain.PROGRAM)
    given = words.parse_args()
    if not given.program.exists():
        sys.exit(f"{given.program} is not built; run the gate first")
    cases = corpus()
    try:
        accepted = replayed(given.program, cases)
        print(f"guided: {len(cases)} programs judged and run as by the second implementation, {accepted} of them accepted")
        if given.seconds:
            search = Search(random.Random(given.seed))
            explore(given.program, search, cases + cases_of_rows(), given.seconds)
            print(f"guided: seed {given.seed}: {search.tried} programs, {len(search.ways)} ways, {len(search.kept)} kept, no difference")
            if given.keep:
                CORPUS.write_text(written(search.least()))
    except Wrong as wrong:
        sys.exit(f"guided: FAILED, {wrong}")
    if cases and not 0 < accepted < len(cases):
        sys.exit("guided: FAILED, all programs came to the same, which shows nothing")


if __name__ == "__main__":
    main()
