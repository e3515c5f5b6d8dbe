"""Names of `tiuvrokk.connect` for programs that were written for replicas alone.

    from tiuvrokk.replica import Session

    def move(tx):
        tx["ant"] = str(int(tx["ant"]) - 1)
        tx["bee"] = str(int(tx["bee"]) + 1)

    with Session(7070) as session:
        session.transaction(move)

A `Session` is a client, and its `transaction(function)` is `run(function)`."""

from __future__ import annotations

from collections.abc import Callable
from typing import Any, Optional

from ._client import Client
from ._client import RemoteTransaction as Transaction
from ._stream import Place
from ._tries import MAX_TRIES
from .errors import Conflict, Refused, Unknown, Unreachable

__all__ = ["Session", "Transaction", "Refused", "Conflict", "Unreachable", "Unknown", "MAX_TRIES"]


class Session(Client):
    """A client of the replica at a port."""

    def __init__(self, port: int, host: str = "127.0.0.1", timeout: Optional[float] = None) -> None:
        super().__init__([Place(port, host=host)], timeout)

    def transaction(self, function: Optional[Callable[[Transaction], Any]] = None, tries: int = MAX_TRIES) -> Any:
        """Runs the function in a transaction, as `run` does; without one it begins one."""
        return super().transaction() if function is None else self.run(function, tries)
