#!/usr/bin/env python3
"""Sends changed bytes to the built bpfmap: programs to sessions of `exec` and to `check`, and streams of frames, each to a session
of its own. Or with --server streams of frames to the built mapd, over many connections at once, some of them reset or sent byte by
byte. No run may crash, hang, or take memory that grows; every answer is a whole response of docs/PROTOCOL.md, and every status one
that crates/bpfmap/README.md names. The server must serve good clients beside the others and after them, and in the end still be there.

It starts from the requests of tests/frames.txt and from plain programs (tests/plain.py). By hand, after `rt run` in crates/bpfmap or
crates/mapd: python3 tests/mutated.py [--server] [--program PROGRAM] [SECONDS [SEED]]; of bpfmap a third of the seconds goes to each.
With --count COUNT each goes on instead until so many programs or streams were sent; a million of each takes long:

    python3 tests/mutated.py --count 1000000 && python3 tests/mutated.py --server --count 1000000

A process may take 64 MiB: the server beyond what it took at first, and bpfmap as address space. --kib names another bound, or by 0
none, for a program that is built with checks.
"""
import argparse
import contextlib
import os
import random
import subprocess
import sys
import time
from concurrent.futures import ThreadPoolExecutor
from pathlib import Path

sys.path.insert(0, str(Path(__file__).resolve().parent))
sys.dont_write_bytecode = True
import plain  # noqa: E402
import server_rows  # noqa: E402
import wire  # noqa: E402

VERSIONS = (1, 2)
KEYS = [bytes([byte]) * length for byte in (0x61, 0x62) for length in (0, 1, 64)]
ENDED, REFUSED = 0, 1
RESPONSES = range(0x80, 0x88)
# The numbers that a Refused may have: of programs, of frames, of a value that is too long, and of a program that is not there. None is
# refused for want of memory (9): there is more than they may take.
FAULTS = range(60, 65)
NUMBERS = {*range(10, 18), *range(30, 34), *range(40, 48), *FAULTS, 65, 66}
# How long one session may take, in seconds, and how much memory any process may take, in KiB, the server beyond what it took at first.
PATIENCE = 20
MOST_MEMORY = 64 * 1024
PROGRAMS = 200
THREADS = os.cpu_count() or 1
# The longest request to begin from: a ReplaceIf of the longest values has 2,122 bytes.
MOST_BYTES = 2122
# The server has a worker for each sender and two for good clients, one of whom is there all the while. For each program that it keeps
# it may take so many KiB more.
SENDERS = 4
OPTIONS = ["--workers", str(SENDERS + 2), "--team", "2", "--stripes", "4"]
KIB_A_PROGRAM = 16
# How many streams each sender sends before good clients look at the server.
ROUND = 500
# A program that answers no byte, so that a ForEach by it gives each key.
EACH_KEY = wire.register((64, 1024, 0, 0), bytes.fromhex("b700000000000000 9500000000000000"))


class Wrong(Exception):
    """What must not happen, and the bytes that were sent."""


def mutated(data, dice):
    """The bytes with one to four changes."""
    data = bytearray(data)
    for _ in range(dice.choice((1, 1, 1, 2, 4))):
        at = dice.randrange(len(data) + 1)
        change = dice.randrange(6)
        if change == 0 and at < len(data):
            data[at] ^= 1 << dice.randrange(8)
        elif change == 1 and at < len(data):
            data[at] = dice.choice((0, 1, 0x7F, 0x80, 0xFF, dice.randrange(256)))
        elif change == 2:
            data[at:at] = dice.randbytes(dice.choice((1, 4, 8)))
        elif change == 3:
            del data[at:at + dice.choice((1, 4, 8))]
        elif change == 4:
            other = dice.randrange(len(data) + 1)
            data[at:at] = data[other:other + dice.choice((4, 8, 40))]
        else:
            del data[at:]
    return bytes(data)


def within(kib, program):
    """The words that start a program that may take so much memory. A shell bounds it: Python's own way is not safe beside threads."""
    return ["sh", "-c", 'ulimit -v "$0" && exec "$@"', str(kib), str(program)] if kib else [str(program)]


def ran(program, words, sent):
    """A process that was sent these bytes, and ended well or with a refusal, but not for want of memory."""
    try:
        run = subprocess.run([*program, *words], input=sent, capture_output=True, timeout=PATIENCE, check=False)
    except subprocess.TimeoutExpired as late:
        raise Wrong("it hangs", sent) from late
    if run.returncode not in (ENDED, REFUSED):
        raise Wrong(f"status {run.returncode}: {run.stderr[-200:]}", sent)
    if run.stdout == b"refused 9 at 0\n":
        raise Wrong("it has too little memory", sent)
    return run


def show(told, good, count):
    """Tells what was tried; fails where all came to the same."""
    print(f"mutated: {told}")
    if not 0 < good < count:
        raise Wrong("all came to the same, which shows nothing", b"")


def bodies_of(answers, sent):
    """The bodies of the answers, each a whole response, of which the last alone may refuse a frame."""
    bodies = []
    while answers:
        length = int.from_bytes(answers[:4], "big")
        if not 0 < length <= len(answers) - 4:
            raise Wrong("an answer is no whole frame", sent)
        if bodies and is_fault(bodies[-1]):
            raise Wrong("a frame is answered behind one that is refused", sent)
        body = answers[4:4 + length]
        if body[0] not in RESPONSES or (body[0] == 0x85 and (len(body) != 6 or body[1] not in NUMBERS)):
            raise Wrong(f"{body.hex()} is no response", sent)
        bodies.append(body)
        answers = answers[4 + length:]
    return bodies


def is_fault(body):
    """Whether an answer refuses a frame, so that the session ends."""
    return body[0] == 0x85 and body[1] in FAULTS


def served(program, sent, stripes):
    """The answers of a session, as bodies of frames, and its status."""
    run = ran(program, ["exec", "--stripes", str(stripes)], sent)
    bodies = bodies_of(run.stdout, sent)
    if bodies and is_fault(bodies[-1]) and run.returncode != REFUSED:
        raise Wrong(f"status {run.returncode}, and a frame is refused", sent)
    return bodies, run.returncode


def programs_session(program, dice, seeds):
    """Registers changed programs, and calls and walks by any that were taken; how many were sent, and taken."""
    sent, requests = [wire.hello(dice.choice(VERSIONS))], 1
    for _ in range(PROGRAMS):
        code, sizes = dice.choice(seeds)
        code = mutated(code, dice)
        if not dice.randrange(4):
            sizes = tuple(dice.choice((0, 1, 8, 64, 1024)) for _ in range(4))
        sent.append(wire.register(sizes, code))
        sent.append(wire.put(dice.choice(KEYS), dice.randbytes(dice.choice((0, 1, 8, 64, 256)))))
        sent.append(wire.compute(dice.choice(KEYS), dice.randrange(40), None))
        requests += 3
    sent.append(wire.walk(0x22, 0, None))
    sent = wire.frames(sent)
    bodies, status = served(program, sent, 4)
    if status != ENDED or len(bodies) != requests + 1:
        raise Wrong(f"{requests + 1} requests have {len(bodies)} answers", sent)
    return PROGRAMS, sum(body[0] == 0x81 for body in bodies)


def check(program, dice, seeds):
    """Has one changed program checked; whether it was accepted."""
    code, _ = dice.choice(seeds)
    sent = mutated(code, dice).hex(" ", 8).encode()
    run = ran(program, ["check"], mutated(sent, dice) if not dice.randrange(8) else sent)
    said = run.stdout + run.stderr
    if (run.returncode == ENDED) != (said == b"accepted\n"):
        raise Wrong(f"status {run.returncode}, and it says {said[:200]}", sent)
    return 1, run.returncode == ENDED


def stream(dice, seeds):
    """A changed stream of frames."""
    hello = wire.frame(wire.hello(dice.choice(VERSIONS)))
    data = b"".join(dice.choices(seeds, k=dice.randrange(1, 6)))
    return hello + mutated(data, dice) if dice.randrange(8) else mutated(hello + data, dice)


def frames_session(program, dice, seeds):
    """Sends one changed stream of frames; whether the session ended well."""
    _, status = served(program, stream(dice, seeds), dice.choice((1, 64)))
    return 1, status == ENDED


def connection(address, dice, seeds):
    """Sends one changed stream of frames to the server; whether no frame was refused. Now and then resets the connection."""
    sent = stream(dice, seeds)
    try:
        with wire.Client(address) as client:
            kind = dice.randrange(16)
            if kind == 1:
                send_slowly(client, sent[:64])
            client.send_all(sent[64:] if kind == 1 else sent)
            if kind == 0:
                client.reset()
                return 1, False
            answers, is_whole = rest_of(client)
    except TimeoutError as late:
        raise Wrong("it hangs", sent) from late
    except ConnectionError as error:
        raise Wrong(f"no connection is taken: {error}", sent) from error
    bodies = bodies_of(answers, sent) if is_whole else []
    return 1, is_whole and not (bodies and is_fault(bodies[-1]))


def send_slowly(client, sent):
    """Sends one byte a write; the server may refuse a frame meanwhile and read no further."""
    with contextlib.suppress(ConnectionError):
        for byte in sent:
            client.socket.sendall(bytes([byte]))


def rest_of(client):
    """All answers, and whether the server ended the stream; it resets that of a client which sends slowly behind a refused frame."""
    while True:
        try:
            piece = client.socket.recv(65536)
        except ConnectionError:
            return bytes(client.kept), False
        if not piece:
            return bytes(client.kept), True
        client.kept += piece


def requests_to_change():
    """The requests of the rows of tests/frames.txt that are whole and not too long, each once."""
    found = set()
    for sent, _, _ in server_rows.rows():
        while len(sent) > 4:
            end = 4 + int.from_bytes(sent[:4], "big")
            if 4 < end <= min(len(sent), MOST_BYTES):
                found.add(sent[:end])
            sent = sent[end:]
    return sorted(found)


def programs_to_change(dice, count):
    """Bytes of plain programs, with their sizes."""
    seeds = []
    for (program, sizes), _ in zip(plain.plain_programs(dice), range(count)):
        declared = tuple(sizes[window] for window in ("key", "old", "arg", "result"))
        seeds.append((b"".join(plain.spelled(insn) for insn in program), declared))
    return seeds


def goal(seconds, count, senders=1):
    """What says, of how many one of the senders has sent, whether it is enough: its share of the count, or, without a count, when the
    time is over."""
    until = time.monotonic() + seconds
    return lambda sent: sent * senders >= count if count else time.monotonic() >= until


def sessions(session, target, seeds, is_enough, seed, senders=THREADS):
    """Makes sessions by so many senders; the sums of what they counted: sessions, what was sent, what was good."""
    sums = [0, 0, 0]

    def worker(number):
        dice, counted = random.Random(f"{seed} {number}"), [0, 0, 0]
        while not is_enough(counted[1]):
            sent, good = session(target, dice, seeds)
            counted = [counted[0] + 1, counted[1] + sent, counted[2] + good]
        return counted

    with ThreadPoolExecutor(senders) as pool:
        for counted in pool.map(worker, range(senders)):
            sums = [a + b for a, b in zip(sums, counted)]
    return sums


def try_bpfmap(program, seconds, count, seed):
    """Programs to `exec` and to `check`, and frames to `exec`."""
    programs = programs_to_change(random.Random(seed), 60)
    runs, sent, taken = sessions(programs_session, program, programs, goal(seconds / 3, count, THREADS), seed)
    show(f"{sent} programs in {runs} sessions, {taken} registered", taken, sent)
    runs, _, taken = sessions(check, program, programs, goal(seconds / 3, count, THREADS), seed)
    show(f"{runs} programs checked, {taken} accepted", taken, runs)
    runs, _, well = sessions(frames_session, program, requests_to_change(), goal(seconds / 3, count, THREADS), seed)
    show(f"{runs} streams of frames, {well} of them taken to their end", well, runs)


def asked(client, body, wanted):
    """Fails where a good client is not answered so."""
    answer = client.ask(body)
    if answer != wanted:
        raise Wrong(f"a good client is answered {answer.hex()}, not {wanted.hex()}", body)


def registered(client, body):
    """The number of a good client's program."""
    answer = client.ask(body)
    if answer[0] != 0x81:
        raise Wrong(f"a good client is answered {answer.hex()}", body)
    return int.from_bytes(answer[1:], "big")


def cleared(client, number, dice):
    """A good client puts and gets, and removes every entry; how many there were."""
    key, value = dice.randbytes(64), dice.randbytes(1024)
    asked(client, wire.put(key, value), wire.NOTHING)
    asked(client, wire.get(key), wire.value(value))
    answers = client.walk(wire.walk(0x21, number, None))
    keys = [body[2:2 + body[1]] for body in answers[:-1]]
    for key in keys:
        if client.ask(b"\x13" + wire.key_field(key)) == wire.NOTHING:
            raise Wrong("a walk gave a key that is not there", key)
    asked(client, wire.COUNT, bytes([wire.END]) + bytes(24))
    return len(keys)


def memory_of(server):
    """The most memory that the server has had, in KiB."""
    for line in Path(f"/proc/{server.process.pid}/status").read_text().splitlines():
        if line.startswith("VmHWM:"):
            return int(line.split()[1])
    raise Wrong("the server is gone", b"")


def beside(client, senders):
    """A good client asks until the senders are done; what they counted."""
    while not senders.done():
        answer = client.ask(wire.get(b"beside"))
        if answer[0] != 0x82:
            raise Wrong(f"a good client beside them is answered {answer.hex()}", b"")
        time.sleep(0.01)
    return senders.result()


def look(address, first, number, dice):
    """Good clients look at the server: one that was there from the start, and new ones, who take all other workers, so that no changed
    stream is served any more. How many entries there were."""
    with contextlib.ExitStack() as stack:
        others = [stack.enter_context(wire.opened(address, 2)) for _ in range(SENDERS + 1)]
        return cleared(first, number, dice) + cleared(others[-1], number, dice)


def try_server(server, seconds, count, seed, kib):
    """Frames to the server in rounds, beside a good client and with a look behind each."""
    seeds, dice, is_enough = requests_to_change(), random.Random(seed), goal(seconds, count)
    sums, entries, rounds = [0, 0, 0], 0, 0
    with wire.opened(server.address, 2) as first, ThreadPoolExecutor(1) as pool:
        number = registered(first, EACH_KEY)
        begun = memory_of(server)
        while not is_enough(sums[1]):
            senders = pool.submit(sessions, connection, server.address, seeds,
                                  lambda sent: sent == ROUND or (not count and is_enough(sent)), f"{seed} {rounds}", SENDERS)
            sums = [a + b for a, b in zip(sums, beside(first, senders))]
            entries += look(server.address, first, number, dice)
            rounds += 1
        programs = registered(first, EACH_KEY)
    show(f"{sums[0]} streams of frames to one server in {rounds} rounds, {sums[2]} of them taken to their end; they left {programs} "
         f"programs, and {entries} entries that good clients removed", sums[2], sums[0])
    most, allowed = memory_of(server), begun + kib + KIB_A_PROGRAM * programs
    print(f"mutated: the server took {most} KiB at most, {begun} of them before")
    if kib and most > allowed:
        raise Wrong(f"that is more than {allowed} KiB", b"")


def end_of(server):
    """Fails where the server does not end by the signal alone, or said more than its address."""
    status = server.stop()
    if status != -15 or server.printed != b"ready\n" or server.told.count(b"\n") != 1:
        raise Wrong(f"the server's status is {status}, it printed {server.printed} and told {server.told[-200:]}", b"")


def main():
    words = argparse.ArgumentParser()
    words.add_argument("seconds", nargs="?", type=float, default=20)
    words.add_argument("seed", nargs="?", type=int, default=1)
    words.add_argument("--count", type=int, default=0)
    words.add_argument("--kib", type=int, default=MOST_MEMORY)
    words.add_argument("--server", action="store_true")
    words.add_argument("--program")
    given = words.parse_args()
    server = wire.Server(given.program or wire.SERVER, OPTIONS) if given.server else None
    try:
        if server:
            try_server(server, given.seconds, given.count, given.seed, given.kib)
            end_of(server)
        else:
            try_bpfmap(within(given.kib, given.program or plain.PROGRAM), given.seconds, given.count, given.seed)
    except Wrong as wrong:
        sys.exit(f"mutated: FAILED, {wrong.args[0]}; sent {wrong.args[1].hex()}")
    except (wire.Ended, OSError, ValueError) as wrong:
        sys.exit(f"mutated: FAILED, a good client met {type(wrong).__name__}: {wrong}")
    finally:
        if server:
            server.process.kill()


if __name__ == "__main__":
    main()
