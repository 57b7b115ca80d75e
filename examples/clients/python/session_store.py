"""Keeps sessions with the time of their last access: each access is one ComputeIfPresent, which makes no session anew.

session_store.py HOST PORT
"""

import struct
import sys

from bpfmap import Client

# examples/c/session_touch.c, as clang 14 makes it: the later one of two times is kept.
TOUCH = """\
jsgt64 r7, -1, +2
mov64 r0, -1
exit
ldd r1, [r3+0]
ldd r3, [r2+8]
ldd r2, [r2+0]
stxd [r4+0], r2
jgt64 r1, r3, +1
mov64 r1, r3
stxd [r4+8], r1
mov64 r0, 16
exit
"""
# A session is a user's number and the time of the last access, in seconds.
SESSION = struct.Struct("<QQ")


def access(client: Client, program: int, name: str, now: int) -> None:
    """Touches a session."""
    session = client.compute_if_present(name.encode(), program, struct.pack("<Q", now))
    state = "no session" if session is None else "user {}, last access {}".format(*SESSION.unpack(session))
    print(f"{name} at {now}: {state}")


def expire(client: Client, name: str, since: int) -> None:
    """Removes a session without an access since this time, unless there is one meanwhile."""
    session = client.get(name.encode())
    is_old = session is not None and SESSION.unpack(session)[1] < since
    is_gone = is_old and client.remove_if(name.encode(), session)
    print(f"{name} without access since {since}: {'removed' if is_gone else 'kept'}")


def main(host: str, port: str) -> None:
    """Keeps two sessions."""
    with Client(host, int(port)) as client:
        program = client.register(TOUCH, old=16, arg=8, result=16)
        client.put(b"c0ffee", SESSION.pack(42, 100))
        client.put(b"decade", SESSION.pack(7, 101))
        access(client, program, "c0ffee", 130)
        access(client, program, "c0ffee", 120)
        access(client, program, "facade", 130)
        expire(client, "c0ffee", 110)
        expire(client, "decade", 110)
        access(client, program, "decade", 140)


if __name__ == "__main__":
    main(*sys.argv[1:])
