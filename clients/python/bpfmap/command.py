"""The words of `python3 -m bpfmap`, and of `bpfmap-client`."""

import argparse
import os
import sys
from typing import Callable, Dict, NamedTuple, Optional, Sequence, Tuple

from . import __version__
from .bench import CALLS, Bench, run_bench
from .client import Client
from .dump import dump, load
from .errors import BpfmapError, ConnectionBroken
from .forms import DEFAULT_SERVER, FORMS, Form, address_of, function_of, program_of
from .protocol import LATEST, VERSIONS, Counts
from .walk import Walk

_DONE, _REFUSED, _FAULTY, _BROKEN, _NOTHING, _INTERRUPTED = 0, 1, 2, 3, 4, 130

_EPILOG = """\
Keys are text. Values are text; with --as hex both are hex, and - is no byte; with --as number values are numbers of 8 bytes,
little-endian. PROGRAM is `sum`, or `copy`, which answers every value as it is, or a file, which is registered first: C (named .c,
compiled by clang, with its sizes in its head), assembler text, hex, or an object by clang. It may also be the number of a
registered program. A server keeps each program until it ends; one that it has already keeps its number.

Status: 0 done; 1 refused or unfit; 2 a fault of the words; 3 no connection, or one that broke; 4 the answer is nothing, as of an
absent key, or false."""


class _Call(NamedTuple):
    """A call: its help, its words, and whether the answer nothing is as good as any."""

    help: str
    words: Tuple[str, ...]
    may_be_nothing: bool = False


_ALL_CALLS: Dict[str, _Call] = {
    "get": _Call("print a key's value", ("key",)),
    "put": _Call("enter a value, and print the one before", ("key", "value"), True),
    "put-if-absent": _Call("enter a value if the key is absent, and print the one that stays", ("key", "value"), True),
    "remove": _Call("remove a key, and print its value", ("key",)),
    "remove-if": _Call("remove a key if it has this value", ("key", "expected")),
    "replace": _Call("enter a value if the key is present, and print the one before", ("key", "value")),
    "replace-if": _Call("enter a value if the key has the expected one", ("key", "expected", "value")),
    "compute": _Call("print what a program makes of a key's value", ("key", "program", "arg")),
    "compute-if-absent": _Call("as compute, if the key is absent; else print its value", ("key", "program", "arg")),
    "compute-if-present": _Call("as compute, if the key is present", ("key", "program", "arg")),
    "merge": _Call("enter a value, or what a program makes of the old one and it, and print that", ("key", "value", "program")),
    "search": _Call("print the least key for which a program has an answer, and that", ("program", "arg", "threshold")),
    "for-each": _Call("print a program's answers for all entries", ("program", "arg", "threshold")),
    "replace-all": _Call("replace each value by a program's answer", ("program", "arg")),
    "count": _Call("print how many entries there are", ()),
}


def _run_call(client: Client, words: argparse.Namespace, form: Form) -> int:
    """Makes the call of these words, prints its answer, and returns the status."""
    call = _ALL_CALLS[words.command]
    arguments = [_argument(client, words, form, word) for word in call.words]
    answer = getattr(client, words.command.replace("-", "_"))(*arguments)
    if isinstance(answer, Walk):
        return _show_walk(answer, form)
    print(_shown(answer, form))
    is_nothing = answer is None or answer is False
    return _NOTHING if is_nothing and not call.may_be_nothing else _DONE


def _argument(client: Client, words: argparse.Namespace, form: Form, name: str) -> object:
    given = getattr(words, name)
    if name == "key":
        return form.key(given)
    if name == "program":
        return program_of(given, words.sizes, client.limits)
    if name == "threshold" or given is None:
        return given
    return form.value(given)


def _shown(answer: object, form: Form) -> str:
    if isinstance(answer, bool):
        return "true" if answer else "false"
    if isinstance(answer, Counts):
        return f"scanned {answer.scanned}, given {answer.given}, unfit {answer.unfit}"
    return str(answer) if isinstance(answer, int) else form.show(answer)  # type: ignore[arg-type]


def _show_walk(walk: Walk, form: Form) -> int:
    with walk:
        for key, value in walk:
            print(form.show_key(key), form.show(value))
        counts = walk.counts
    if counts.unfit:
        print(f"bpfmap: {counts.unfit} entries did not fit the program's windows", file=sys.stderr)
    return _DONE if counts.given else _NOTHING


def _register(client: Client, words: argparse.Namespace, _: Form) -> int:
    print(int(client.register(function_of(words.file, words.sizes))))
    return _DONE


def _load(client: Client, words: argparse.Namespace, _: Form) -> int:
    if words.file == "-":
        load(client, sys.stdin, sys.stderr, sys.stdout)
        return _DONE
    with open(words.file, encoding="utf-8") as lines:
        load(client, lines, sys.stderr, sys.stdout)
    return _DONE


def _dump(client: Client, words: argparse.Namespace, _: Form) -> int:
    dump(client, [(file, function_of(file, None)) for file in words.program], sys.stdout)
    return _DONE


def _bench(words: argparse.Namespace) -> int:
    host, port = words.server
    bench = Bench(host, port, words.call, words.requests, words.clients, words.pipeline, words.keys, words.size, words.protocol)
    print(run_bench(bench))
    return _DONE


_OTHERS: "Dict[str, Callable[[Client, argparse.Namespace, Form], int]]" = {"register": _register, "load": _load, "dump": _dump}


def _parser() -> argparse.ArgumentParser:
    parser = argparse.ArgumentParser(
        "bpfmap-client", description="Calls of a map server.", epilog=_EPILOG, formatter_class=argparse.RawDescriptionHelpFormatter
    )
    parser.add_argument("--version", action="version", version=f"bpfmap-client {__version__}")
    server = os.environ.get("BPFMAP_SERVER", DEFAULT_SERVER)
    told = f"a name, an address, or [an IPv6 address]; default: BPFMAP_SERVER, or {DEFAULT_SERVER}"
    parser.add_argument("--server", type=address_of, default=server, metavar="HOST:PORT", help=told)
    parser.add_argument("--timeout", type=float, default=60.0, metavar="SECONDS", help="without an answer; default: 60")
    told = f"version of the protocol; default: {LATEST}"
    parser.add_argument("--protocol", type=int, choices=sorted(VERSIONS), default=LATEST, help=told)
    parser.add_argument("--as", dest="form", choices=FORMS, default="text", help="default: text")
    commands = parser.add_subparsers(dest="command", required=True, metavar="COMMAND")
    for name, call in _ALL_CALLS.items():
        _add_call(commands.add_parser(name, help=call.help), call)
    register = commands.add_parser("register", help="hand in a program, and print its number")
    register.add_argument("file", help="a file, or sum")
    _add_sizes(register)
    load_parser = commands.add_parser("load", help="put the entries of a file, as dump prints them, and register its programs")
    load_parser.add_argument("file", help="a line an entry: key and value in hex; - is standard input")
    dump_parser = commands.add_parser("dump", help="print all entries, after the programs of these files; registers one program")
    dump_parser.add_argument("--program", action="append", default=[], metavar="FILE", help="once for each program")
    _add_bench(commands.add_parser("bench", help="print a rate and latencies"))
    return parser


def _add_call(parser: argparse.ArgumentParser, call: _Call) -> None:
    for word in call.words:
        if word == "arg":
            parser.add_argument("--arg", metavar="VALUE", help="the program's argument; none if it is not given")
        elif word == "threshold":
            parser.add_argument("--threshold", type=int, default=1, help="entries from which on several threads walk; default: 1")
        else:
            parser.add_argument(word)
    if "program" in call.words:
        _add_sizes(parser)


def _add_sizes(parser: argparse.ArgumentParser) -> None:
    told = "of the program's windows; default: those in the head of a C file, else 64 256 256 256"
    parser.add_argument("--sizes", type=int, nargs=4, metavar=("KEY", "OLD", "ARG", "RESULT"), help=told)


def _add_bench(bench: argparse.ArgumentParser) -> None:
    bench.add_argument("--call", choices=CALLS, default="get")
    bench.add_argument("--requests", type=int, default=100_000, help="of all clients; default: 100000")
    bench.add_argument("--clients", type=int, default=4, help="processes, each with one connection; default: 4")
    bench.add_argument("--pipeline", type=int, default=1, help="calls that are sent together; default: 1")
    bench.add_argument("--keys", type=int, default=1_000, help="different keys; default: 1000")
    bench.add_argument("--size", type=int, default=8, help="bytes of a value; default: 8")


def _run(words: argparse.Namespace) -> int:
    if words.command == "bench":
        return _bench(words)
    with Client(*words.server, timeout=words.timeout, version=words.protocol) as client:
        status = _OTHERS.get(words.command, _run_call)(client, words, Form(words.form))
        sys.stdout.flush()
        return status


def _fail(error: BaseException, status: int) -> int:
    print(f"bpfmap: {error}", file=sys.stderr)
    return status


def main(arguments: Optional[Sequence[str]] = None) -> int:
    """Runs the command of these words, and returns the status."""
    words = _parser().parse_args(arguments)
    try:
        return _run(words)
    except ConnectionBroken as error:
        return _fail(error, _BROKEN)
    except BpfmapError as error:
        return _fail(error, _REFUSED)
    except BrokenPipeError:
        # Nobody reads on: standard output is not flushed once more.
        os.dup2(os.open(os.devnull, os.O_WRONLY), sys.stdout.fileno())
        return _DONE
    except (OSError, ValueError) as error:
        return _fail(error, _FAULTY)
    except KeyboardInterrupt:
        return _INTERRUPTED


def run() -> None:
    """Runs `bpfmap-client`."""
    sys.exit(main())


