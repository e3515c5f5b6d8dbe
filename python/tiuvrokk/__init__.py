"""Tiuvrokk: a transactional keyed store inside a program.

    import tiuvrokk

    with tiuvrokk.Store() as store:
        with store.transaction() as tx:
            tx.load({"ant": "6", "bee": "6"})
            tx["cat"] = "4"
        with store.transaction() as tx:
            print(tx["ant"], tx["a":"c"], list(tx))

Keys are up to 32 bytes, values up to 64: bytes, bytearray, memoryview, or a `str`, which is taken for its UTF-8. Keys are
ordered byte by byte. Whatever transactions did, the committed ones read and wrote as if they had run one after another in the
order of their commits.

`tiuvrokk.connect(port=7070)` is a client of a server (`amserve listen`) or of a replica (`amreplica`), whose transactions have
the same calls and the same exceptions:

    with tiuvrokk.connect(port=7070) as client:
        client.run(lambda tx: tx.update(ant="6"))

`tiuvrokk.aio` has that client for asyncio. A server keeps visible ASCII, keys without `=`; with `escape=True` a client brings it
any bytes.

Each operation locks the keys that it speaks of until its transaction ends. A lock is granted or refused at once, by `Busy`,
which names the transaction that is in the way. A store is used by the thread that opened it, and raises `WrongThread` on any
other, unless it was opened by `Store(check_same_thread=False)`.

This package calls the shared library of `tiuvrokk.h`: the one that the environment's TIUVROKK_LIBRARY names, else the one
beside this file, as a wheel has it, else the one that the system finds. Where there is none, the first `Store` raises an
ImportError.
"""

from ._client import Client, RemoteTransaction, connect
from ._library import upkeep
from ._store import Figures, Store, Transaction
from ._wire import Active, Served
from .errors import (
    MAX_KEY, MAX_LIMIT, MAX_VALUE, Absent, Bad, BadLine, Busy, Closed, Conflict, Disconnected, Error, Exists, Forked, Held, Lapsed,
    NoMark, NoTransaction, OutOfMemory, Refused, Status, TooMany, Twice, Unknown, Unreachable, WrongThread,
)

# What it was called before, where the records of a run have a key twice.
NotRising = Twice

__version__ = "1.1.0"

__all__ = [
    "MAX_KEY", "MAX_VALUE", "MAX_LIMIT", "Store", "Transaction", "Figures", "connect", "Client", "RemoteTransaction", "Active", "Served", "upkeep", "Status",
    "Error", "Absent", "Exists", "Busy", "NoTransaction", "NoMark", "TooMany", "Twice", "Bad", "BadLine", "Closed",
    "OutOfMemory", "Refused", "Conflict", "Unreachable", "Unknown", "Held", "Lapsed", "Disconnected", "Forked", "WrongThread",
]

# A traceback names an exception as a program does.
for _name in __all__:
    if isinstance(globals()[_name], type):
        globals()[_name].__module__ = __name__
