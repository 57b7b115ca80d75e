"""Counts hits of pages: each hit is one Merge, with a program that adds. So no hit of any client is lost.

hit_counter.py HOST PORT
"""

import sys

from bpfmap import Client

# The argument is added to the old value; an absent one counts as 0.
SUM = """\
ldd r0, [r2+0]
ldd r9, [r3+0]
add64 r0, r9
stxd [r4+0], r0
mov64 r0, 8
exit
"""
ONE = (1).to_bytes(8, "little")


def main(host: str, port: str) -> None:
    """Counts five hits."""
    with Client(host, int(port)) as client:
        program = client.register(SUM, old=8, arg=8, result=8)
        for page in ("/", "/about", "/", "/", "/about"):
            hits = client.merge(page.encode(), ONE, program)
            print(page, int.from_bytes(hits, "little"))


if __name__ == "__main__":
    main(*sys.argv[1:])
