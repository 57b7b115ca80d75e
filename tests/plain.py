#!/usr/bin/env python3
"""Makes plain programs at random and asks the built bpfmap to check each: every one must be accepted.

It knows the definition of plain programs (docs/PLAIN.md) and how instructions are spelled (RFC 9669), and nothing of how the
verifier finds out. By hand: python3 tests/plain.py [COUNT [SEED]], after `rt run` in crates/bpfmap.
"""
import collections
import random
import subprocess
import sys
from pathlib import Path

PROGRAM = Path(__file__).resolve().parent.parent / "crates/bpfmap/out/bpfmap"
UNITS = 4096
KEY_BYTES = 64
VALUE_BYTES = 1024
STACK_BYTES = 512

# About how many units a program has; and those of one in so many, about as many as there may be.
ROOMS = (10, 20, 20, 40, 40, 40, 80, 80, 160, 440)
LONG_ROOM = 3900
SHORT_FOR_A_LONG = 50

# The register that points into a window at entry, and how far behind the window's first byte.
BASES = {"key": 1, "old": 2, "arg": 3, "result": 4, "stack": 10}
BASE_OFFSETS = {"key": 0, "old": 0, "arg": 0, "result": 0, "stack": STACK_BYTES}
# Sets of bytes of result and stack are numbers: the bit of a window's first byte.
FIRST_BITS = {"result": 0, "stack": VALUE_BYTES}
AT_ENTRY = frozenset({1, 2, 3, 4, 6, 7, 8, 10})
FREE = (0, 5, 6, 7, 8, 9)

ALU = {"add": 0, "sub": 1, "mul": 2, "div": 3, "or": 4, "and": 5, "lsh": 6, "rsh": 7, "mod": 9, "xor": 10, "arsh": 12}
SIGNED_ALU = {"sdiv": 3, "smod": 9}
TESTS = {"eq": 1, "gt": 2, "ge": 3, "set": 4, "ne": 5, "sgt": 6, "sge": 7, "lt": 10, "le": 11, "slt": 12, "sle": 13}
SIZES = {1: 0x10, 2: 0x08, 4: 0x00, 8: 0x18}

# kind: alu, neg, mov, sx, end, wide, load, store, ja, jal, branch or exit. An operand is a pair: "r" and a register, or "i" and a
# number. A field that a kind does not use is None.
Insn = collections.namedtuple("Insn", "kind op width dst src offset", defaults=(None,) * 5)
EXIT = Insn("exit")


def bytes_from(window, first, count):
    """The set of these bytes of result or stack."""
    return ((1 << count) - 1) << (FIRST_BITS[window] + first)


def units_of(insn):
    return 2 if insn.kind == "wide" else 1


def unit(opcode, dst=0, src=0, offset=0, imm=0):
    return (bytes([opcode, src << 4 | dst]) + offset.to_bytes(2, "little", signed=True)
            + (imm & 0xFFFFFFFF).to_bytes(4, "little"))


def with_operand(opcode, insn, offset=0):
    """A unit whose second operand is a register or a number."""
    kind, value = insn.src
    if kind == "r":
        return unit(opcode | 8, insn.dst, value, offset)
    return unit(opcode, insn.dst, 0, offset, value)


def spelled_arithmetic(insn):
    kind = 7 if insn.width == 64 else 4
    if insn.kind == "neg":
        return unit(0x80 | kind, insn.dst)
    if insn.kind == "mov":
        return with_operand(0xB0 | kind, insn)
    if insn.kind == "sx":
        return unit(0xB8 | kind, insn.dst, insn.src[1], insn.op)
    if insn.kind == "end":
        return unit({"le": 0xD4, "be": 0xDC, "swap": 0xD7}[insn.op], insn.dst, imm=insn.width)
    if insn.op in SIGNED_ALU:
        return with_operand(SIGNED_ALU[insn.op] << 4 | kind, insn, 1)
    return with_operand(ALU[insn.op] << 4 | kind, insn)


def spelled(insn):
    """The bytes of an instruction."""
    if insn.kind == "wide":
        value = insn.src[1]
        return unit(0x18, insn.dst, imm=value) + unit(0, imm=value >> 32)
    if insn.kind == "load":
        return unit(SIZES[insn.width] | (0x81 if insn.op == "signed" else 0x61), insn.dst, insn.src[1], insn.offset)
    if insn.kind == "store":
        kind, value = insn.src
        if kind == "r":
            return unit(SIZES[insn.width] | 0x63, insn.dst, value, insn.offset)
        return unit(SIZES[insn.width] | 0x62, insn.dst, 0, insn.offset, value)
    if insn.kind == "ja":
        return unit(0x05, offset=insn.offset)
    if insn.kind == "jal":
        return unit(0x06, imm=insn.offset)
    if insn.kind == "branch":
        return with_operand(TESTS[insn.op] << 4 | (5 if insn.width == 64 else 6), insn, insn.offset)
    if insn.kind == "exit":
        return unit(0x95)
    return spelled_arithmetic(insn)


def reads(insn):
    """The registers that an instruction reads."""
    registers = set()
    if insn.kind in ("alu", "neg", "end", "store", "branch"):
        registers.add(insn.dst)
    if insn.src is not None and insn.src[0] == "r":
        registers.add(insn.src[1])
    if insn.kind == "exit":
        registers.add(0)
    return registers


def written_by(insn):
    """The register that an instruction writes, if any."""
    return insn.dst if insn.kind in ("alu", "neg", "mov", "sx", "end", "wide", "load") else None


def window_of(register):
    """The window that a register points into at entry, if any."""
    return next((window for window, base in BASES.items() if base == register), None)


def base_of_access(insn):
    return insn.src[1] if insn.kind == "load" else insn.dst


def after(insn, written, stored):
    """What is written and stored behind an instruction; a store through another register does not count."""
    register = written_by(insn)
    if register is not None:
        written = written | {register}
    window = window_of(insn.dst) if insn.kind == "store" else None
    if window is not None:
        stored |= bytes_from(window, BASE_OFFSETS[window] + insn.offset, insn.width)
    return written, stored


class Text:
    """A program by units, with its jumps."""

    def __init__(self, program):
        self.at = {}
        self.units = 0
        for insn in program:
            self.at[self.units] = insn
            self.units += units_of(insn)
        self.jumps = {u: u + 1 + insn.offset for u, insn in self.at.items() if insn.kind in ("ja", "jal", "branch")}
        self.targets = set(self.jumps.values())

    def is_shaped(self):
        """Jumps go forward to an instruction, and the last instruction falls nowhere."""
        last = self.at[max(self.at)]
        forward = all(target > u and target in self.at for u, target in self.jumps.items())
        return self.units <= UNITS and forward and last.kind in ("exit", "ja", "jal")

    def place(self, u):
        """The window of an access, its first byte and how many more it may begin at; none where it is not plain."""
        insn = self.at[u]
        base = base_of_access(insn)
        window, further = window_of(base), 0
        if window is None:
            masked = self.masked(u, base)
            if masked is None:
                return None
            window, further = masked
        first = BASE_OFFSETS[window] + insn.offset
        return (window, first, further) if first >= 0 else None

    def masked(self, u, base):
        """The window and the mask of an access through a masked register."""
        copy, mask, total = (self.at.get(u - n) for n in (3, 2, 1))
        if copy is None or mask is None or total is None or self.targets & {u - 2, u - 1, u}:
            return None
        if copy.kind != "mov" or copy.width != 64 or copy.dst != base or copy.src[0] != "r":
            return None
        if (mask.kind, mask.op, mask.width) != ("alu", "and", 64) or mask.src[0] != "i" or mask.src[1] < 0:
            return None
        if total != Insn("alu", "add", 64, base, ("r", mask.dst)) or mask.dst == base:
            return None
        window = window_of(copy.src[1])
        return None if window is None else (window, mask.src[1])

    def known(self):
        """By unit: the registers written and the bytes stored on every path there; nothing where no path comes."""
        known = {0: (AT_ENTRY, 0)}
        for u, insn in self.at.items():
            if u not in known:
                continue
            written, stored = after(insn, *known[u])
            for following in self.followers(u):
                met = known.get(following, (written, stored))
                known[following] = (met[0] & written, met[1] & stored)
        return known

    def followers(self, u):
        insn = self.at[u]
        if insn.kind not in ("ja", "jal", "exit"):
            yield u + units_of(insn)
        if u in self.jumps:
            yield self.jumps[u]


def lies_plainly(text, u, sizes):
    """Whether the instruction is no access, or one that lies inside its window; a store in result or stack."""
    insn = text.at[u]
    if insn.kind not in ("load", "store"):
        return True
    place = text.place(u)
    if place is None:
        return False
    window, first, further = place
    return first + further + insn.width <= sizes[window] and (insn.kind == "load" or window in FIRST_BITS)


def loads_plainly(text, u, stored):
    """Whether all bytes that a load may touch were stored, where a run may write them."""
    window, first, further = text.place(u)
    touched = bytes_from(window, first, further + text.at[u].width) if window in FIRST_BITS else 0
    return touched & ~stored == 0


def exits_plainly(text, u):
    """Whether the exit follows a constant in r0, and is no target."""
    before = text.at.get(u - 1)
    constant = before is not None and (before.kind, before.width, before.dst) == ("mov", 64, 0) and before.src[0] == "i"
    return constant and u not in text.targets


def answers_plainly(text, u, stored):
    """Whether the constant is -1, or a number of the result's first bytes, all stored."""
    answer = text.at[u - 1].src[1]
    return answer == -1 or (answer >= 0 and bytes_from("result", 0, answer) & ~stored == 0)


def is_plain(program, sizes):
    """Whether a program is plain: the definition of docs/PLAIN.md."""
    text = Text(program)
    if not text.is_shaped() or not all(lies_plainly(text, u, sizes) for u in text.at):
        return False
    known = text.known()
    for u, insn in text.at.items():
        if written_by(insn) in BASES.values() or (insn.kind == "exit" and not exits_plainly(text, u)):
            return False
        if u not in known:
            continue
        written, stored = known[u]
        if not reads(insn) <= written:
            return False
        if insn.kind == "load" and not loads_plainly(text, u, stored):
            return False
        if insn.kind == "exit" and not answers_plainly(text, u, stored):
            return False
    return True


class Maker:
    """Makes one program, keeping what is written and stored on every path to its end."""

    def __init__(self, rng, sizes, room):
        self.rng = rng
        self.sizes = sizes
        self.program = []
        self.units = 0
        self.here = (AT_ENTRY, 0)
        self.open = []
        self.room = room

    def put(self, insn):
        self.program.append(insn)
        self.units += units_of(insn)
        if self.here is not None:
            self.here = after(insn, *self.here)

    def number(self):
        return self.rng.choice([0, 1, -1, 7, 255, self.rng.randrange(-2**31, 2**31), 2**31 - 1, -2**31])

    def readable(self):
        return sorted(self.here[0] if self.here else FREE)

    def operand(self):
        if self.rng.random() < 0.5:
            return ("i", self.number())
        return ("r", self.rng.choice(self.readable()))

    def arithmetic(self):
        rng = self.rng
        free = [r for r in self.readable() if r in FREE]
        width = rng.choice([32, 64])
        kind = rng.choice(["alu", "alu", "alu", "neg", "mov", "sx", "end", "wide"])
        if kind == "mov":
            self.put(Insn("mov", None, width, rng.choice(FREE), self.operand()))
        elif kind == "sx":
            op = rng.choice([8, 16, 32] if width == 64 else [8, 16])
            self.put(Insn("sx", op, width, rng.choice(FREE), ("r", rng.choice(self.readable()))))
        elif kind == "wide":
            self.put(Insn("wide", None, None, rng.choice(FREE), ("i", rng.randrange(2**64))))
        elif free and kind == "end":
            self.put(Insn("end", rng.choice(["le", "be", "swap"]), rng.choice([16, 32, 64]), rng.choice(free)))
        elif free and kind == "neg":
            self.put(Insn("neg", None, width, rng.choice(free)))
        elif free:
            self.put(Insn("alu", rng.choice(sorted(ALU | SIGNED_ALU)), width, rng.choice(free), self.operand()))

    def access(self, window, width, further):
        """The offset of an access that lies inside; none where the window is too small."""
        last = self.sizes[window] - further - width
        if last < 0:
            return None
        first = self.rng.choice([0, last, self.rng.randint(0, last)])
        return first - BASE_OFFSETS[window]

    def is_stored(self, window, offset, count):
        touched = bytes_from(window, BASE_OFFSETS[window] + offset, count)
        return self.here is None or touched & ~self.here[1] == 0

    def touch(self, base, window, further):
        """A load or a store through this register, where one is plain."""
        rng = self.rng
        width = rng.choice([1, 2, 4, 8])
        offset = self.access(window, width, further)
        if offset is None:
            return False
        if window in FIRST_BITS and rng.random() < 0.7:
            self.put(Insn("store", None, width, base, self.operand(), offset))
            return True
        if window in FIRST_BITS and not self.is_stored(window, offset, further + width):
            return False
        op = "signed" if width < 8 and rng.random() < 0.5 else None
        self.put(Insn("load", op, width, rng.choice(FREE), ("r", base), offset))
        return True

    def direct(self):
        window = self.rng.choice(list(BASES))
        self.touch(BASES[window], window, 0)

    def masked(self):
        rng = self.rng
        window = rng.choice(list(BASES))
        free = [r for r in self.readable() if r in FREE]
        if not free or self.sizes[window] == 0:
            return
        x = rng.choice(free)
        d = rng.choice([r for r in FREE if r != x])
        mask = rng.choice([0, 1, 7, rng.randrange(self.sizes[window])])
        before = (list(self.program), self.units, self.here)
        self.put(Insn("mov", None, 64, d, ("r", BASES[window])))
        self.put(Insn("alu", "and", 64, x, ("i", mask)))
        self.put(Insn("alu", "add", 64, d, ("r", x)))
        if not self.touch(d, window, mask):
            self.program, self.units, self.here = before

    def fill(self):
        """Stores to the first bytes of the result, so that answers have some."""
        offset = 0
        while offset + 8 <= self.sizes["result"] and self.rng.random() < 0.8:
            self.put(Insn("store", None, 8, BASES["result"], self.operand(), offset))
            offset += 8

    def jump(self):
        """A jump to a place that is chosen later: the program has the number of its open jump."""
        rng = self.rng
        kind = rng.choice(["branch", "branch", "branch", "ja", "jal"])
        index = len(self.program)
        if kind == "branch":
            insn = Insn("branch", rng.choice(sorted(TESTS)), rng.choice([32, 64]), rng.choice(self.readable()), self.operand())
        else:
            insn = Insn(kind)
        self.put(insn)
        self.open.append((index, self.units, self.here))
        if kind != "branch":
            self.here = None
        if rng.random() < 0.3:
            self.land(1)

    def land(self, count):
        """Lets some open jumps come to the next instruction."""
        self.rng.shuffle(self.open)
        for index, unit_after, state in self.open[:count]:
            self.program[index] = self.program[index]._replace(offset=self.units - unit_after)
            if state is not None:
                here = self.here or state
                self.here = (here[0] & state[0], here[1] & state[1])
        del self.open[:count]

    def end(self):
        stored = self.here[1] if self.here else 0
        prefix = 0
        while prefix < self.sizes["result"] and stored >> prefix & 1:
            prefix += 1
        answer = self.rng.choice([-1, 0, prefix, self.rng.randint(0, prefix)])
        if self.here is None:
            # No path leads here, so any number may stand.
            answer = self.number()
        self.put(Insn("mov", None, 64, 0, ("i", answer)))
        self.put(EXIT)
        self.here = None

    def made(self):
        steps = [self.arithmetic] * 4 + [self.direct] * 3 + [self.masked] * 3 + [self.jump] * 2 + [self.fill]
        while self.units < self.room:
            self.rng.choice(steps)()
            if self.open and self.rng.random() < 0.15:
                self.land(self.rng.randint(1, len(self.open)))
            if self.open and self.rng.random() < 0.04:
                self.end()
        self.land(len(self.open))
        self.end()
        return self.program


def changed(rng, program):
    """The program with one instruction changed a little: often it is plain no more."""
    at = rng.randrange(len(program))
    insn = program[at]
    field = rng.choice([name for name in ("dst", "width", "offset") if getattr(insn, name) is not None] or ["kind"])
    if field == "dst":
        insn = insn._replace(dst=rng.choice(FREE))
    elif field == "offset":
        insn = insn._replace(offset=insn.offset + rng.choice([-8, -1, 1, 8]))
    elif field == "width" and insn.kind in ("load", "store") and insn.op is None:
        insn = insn._replace(width=rng.choice([1, 2, 4, 8]))
    return program[:at] + [insn] + program[at + 1:]


def sizes_at_random(rng):
    few = [0, 1, 8, 16]
    sizes = {window: rng.choice(few + [256, VALUE_BYTES, rng.randint(0, VALUE_BYTES)]) for window in ("old", "arg", "result")}
    return sizes | {"key": rng.choice(few + [KEY_BYTES]), "stack": STACK_BYTES}


def plain_programs(rng, has_long=False):
    """Plain programs with their sizes, without end; some of them long, where that is asked for."""
    while True:
        sizes = sizes_at_random(rng)
        is_long = has_long and rng.randrange(SHORT_FOR_A_LONG) == 0
        program = Maker(rng, sizes, LONG_ROOM if is_long else rng.choice(ROOMS)).made()
        if not is_plain(program, sizes):
            raise AssertionError(f"made a program that is not plain: {program}")
        yield program, sizes
        other = changed(rng, program)
        if other != program and is_plain(other, sizes):
            yield other, sizes


def verdict(program, sizes):
    words = [str(PROGRAM), "check"]
    for window in ("key", "old", "arg", "result"):
        words += [f"--{window}", str(sizes[window])]
    text = b"".join(spelled(insn) for insn in program).hex(" ", 8)
    ran = subprocess.run(words, input=text + "\n", capture_output=True, text=True, timeout=60)
    return (ran.stdout or ran.stderr).strip(), text


def main():
    count = int(sys.argv[1]) if len(sys.argv) > 1 else 20_000
    seed = int(sys.argv[2]) if len(sys.argv) > 2 else 1
    if not PROGRAM.exists():
        sys.exit(f"{PROGRAM} is not built; run the gate first")
    rng = random.Random(seed)
    refused = 0
    kinds = collections.Counter()
    for (program, sizes), _ in zip(plain_programs(rng, has_long=True), range(count)):
        kinds.update({insn.kind for insn in program})
        said, text = verdict(program, sizes)
        if said != "accepted":
            refused += 1
            print(f"FAILED: {said}, with {sizes}: {text}")
    having = ", ".join(f"{kinds[kind]} with {kind}" for kind in ("load", "store", "branch", "ja", "wide"))
    print(f"plain programs of seed {seed}: {count - refused} accepted, {refused} refused ({having})")
    sys.exit(1 if refused else 0)


if __name__ == "__main__":
    main()
