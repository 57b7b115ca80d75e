"""A client of mapd, the concurrent map whose functions are verified BPF programs. README.md has a client in five lines."""

from .aio import AsyncClient, AsyncPipeline
from .aio_walk import AsyncWalk
from .assembler import assemble
from .client import Client
from .codecs import BYTES, INT, JSON, ORDERED_INT, TEXT, Codec
from .errors import (
    BpfmapError,
    ConnectionBroken,
    MayHaveBeenMade,
    NoAnswerInTime,
    NoConnectionInTime,
    NotSent,
    ObjectFault,
    OtherProcess,
    ProtocolFault,
    Refused,
    StaleProgram,
    TimedOut,
    Unfit,
)
from .map import Map
from .pipeline import Pipeline
from .pool import Pool
from .programs import COPY, SUM, Function, Program, Registered, copy_text, function, program_bytes
from .protocol import VERSIONS, Counts, Entry, Limits, Pending, Walked
from .walk import Walk

__version__ = "0.2.0"

__all__ = [
    "AsyncClient",
    "AsyncPipeline",
    "AsyncWalk",
    "BYTES",
    "BpfmapError",
    "COPY",
    "Client",
    "Codec",
    "ConnectionBroken",
    "Counts",
    "Entry",
    "Function",
    "INT",
    "JSON",
    "Limits",
    "Map",
    "MayHaveBeenMade",
    "NoAnswerInTime",
    "NoConnectionInTime",
    "NotSent",
    "ORDERED_INT",
    "ObjectFault",
    "OtherProcess",
    "Pending",
    "Pipeline",
    "Pool",
    "Program",
    "ProtocolFault",
    "Refused",
    "Registered",
    "SUM",
    "StaleProgram",
    "TEXT",
    "TimedOut",
    "Unfit",
    "VERSIONS",
    "Walk",
    "Walked",
    "assemble",
    "copy_text",
    "function",
    "program_bytes",
    "__version__",
]
