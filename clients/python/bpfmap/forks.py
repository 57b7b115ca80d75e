"""What a process that was made by fork does with the connections that it was born with: it closes them, and never uses them.

This goes by os.register_at_fork and not by os.getpid(): it costs a call nothing (getpid is a system call), it is exact where a
process has the id of one that ended, and the new process closes its copies of the sockets at once, so that the server sees when
the old process ends its sessions. What it needs is that a fork runs Python's hooks. os.fork, os.forkpty and multiprocessing do,
and a fork in C that does not leaves all of Python unfit for use.
"""

import os
import weakref
from typing import List


class Forkable:
    """What is told in a new process that it was taken along; see `watch`."""

    def after_fork(self) -> None:
        """Lets go of what belongs to the other process. The new process has one thread at that moment."""
        raise NotImplementedError


_watched: "weakref.WeakSet[Forkable]" = weakref.WeakSet()


def watch(item: Forkable) -> None:
    """Calls `item.after_fork()` in each process that is made by fork from now on, as long as the item lives."""
    _watched.add(item)


def _tell_all() -> None:
    items: List[Forkable] = list(_watched)
    for item in items:
        item.after_fork()


if hasattr(os, "register_at_fork"):
    os.register_at_fork(after_in_child=_tell_all)
