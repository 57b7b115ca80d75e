"""Limits a client's rate by a bucket of ten tokens, of which one comes back a second: each request is one Compute.

token_bucket.py HOST PORT
"""

import struct
import sys

from bpfmap import Client

# examples/c/token_bucket.c, as clang 14 makes it. With clang at hand, register(Path("token_bucket.o"), ...) takes the object file.
TOKEN_BUCKET = """\
ldd r0, [r2+8]
ldd r5, [r3+0]
mov64 r1, r5
sub64 r1, r0
ldd r2, [r2+0]
add64 r1, r2
jlt64 r1, 10, +1
mov64 r1, 10
ldd r2, [r3+8]
mov32 r3, 1
jge64 r1, r2, +1
mov32 r3, 0
stxd [r4+8], r5
stxd [r4+16], r3
jge64 r1, r2, +1
mov64 r2, 0
sub64 r1, r2
stxd [r4+0], r1
mov64 r0, 24
exit
"""


def ask(client: Client, program: int, name: str, now: int, wanted: int) -> None:
    """Asks for tokens at this time, in seconds. A real service would take the time from its clock."""
    bucket = client.compute(name.encode(), program, struct.pack("<QQ", now, wanted))
    left, counted, granted = struct.unpack("<QQQ", bucket)
    print(f"{name} at {counted}: {wanted} {'granted' if granted else 'refused'}, {left} left")


def main(host: str, port: str) -> None:
    """Asks five times."""
    with Client(host, int(port)) as client:
        program = client.register(TOKEN_BUCKET, old=24, arg=16, result=24)
        ask(client, program, "alice", 100, 4)
        ask(client, program, "alice", 100, 4)
        ask(client, program, "alice", 101, 4)
        ask(client, program, "bob", 101, 4)
        ask(client, program, "alice", 102, 4)


if __name__ == "__main__":
    main(*sys.argv[1:])
