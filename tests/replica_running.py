"""Replicas in the test's own process, with no program around them."""
from __future__ import annotations

import asyncio
import json
from typing import Any, Awaitable, Dict, List, Optional, Set

from tiuvrokk_replica.entries import Block
from tiuvrokk_replica.etcd import Etcd, Message, decoded, encoded
from tiuvrokk_replica.log import Log
from tiuvrokk_replica.replica import Replica
from tiuvrokk_replica.store import Store

# Seconds that a step may take.
PATIENCE = 60.0


class Running:
    """A replica of a log, which writes a snapshot after so many blocks, or none."""

    def __init__(self, log: str, endpoints: List[str], every: int, told: Dict[str, int]) -> None:
        self.told = told  # the numbers of the blocks that were told to stand, by their keys
        self.etcd = Etcd(endpoints)
        self.log = Log(self.etcd, log)
        self.store = Store()
        self.replica = Replica(self.log, self.store, every)
        self.life: Optional["asyncio.Task[None]"] = None

    async def begin(self, limit: float = PATIENCE) -> None:
        self.life = await asyncio.wait_for(self.replica.start(), limit)

    async def commit(self, key: str) -> None:
        """A block that has a record of that key, and what follows from it."""
        blocks = [Block(f"INS {key} 1\n".encode())]
        outcomes = await self.unless_ended(self.replica.commit(blocks, PATIENCE))
        *_, end = outcomes[0].splitlines()
        if end.startswith(b"COMMITTED "):
            self.told[key] = int(end.split()[1])
        await self.settle()

    async def read(self) -> None:
        """A question for the log's end, and what follows from it."""
        await self.unless_ended(self.replica.ends.is_reached(PATIENCE))
        await self.settle()

    async def settle(self) -> None:
        """Until no snapshot is on its way."""
        if self.replica.snapshot is not None:
            await self.unless_ended(self.replica.snapshot)

    async def unless_ended(self, work: Awaitable[Any]) -> Any:
        """What comes of some work, unless what ended the replica."""
        assert self.life is not None
        task = asyncio.ensure_future(work)
        await asyncio.wait({task, self.life}, timeout=PATIENCE, return_when=asyncio.FIRST_COMPLETED)
        if self.life.done():
            self.life.result()
        return await asyncio.wait_for(task, 0.01)

    async def write_snapshot(self, name: str, blocks: int) -> None:
        """Commits more than so many blocks and then moves the floor, whoever else was about to."""
        generation, number = self.log.generation, 0
        while self.log.generation == generation:
            await self.delete("claim")  # as the ends of their leases do
            self.replica.blocks_between_snapshots = 0 if number < blocks else 1
            await self.commit(f"{name}{number}")
            number += 1
        self.replica.blocks_between_snapshots = 0

    async def delete(self, folder: str) -> None:
        """All keys of the log in a folder."""
        key, end = (encoded(f"{self.log.name}/{folder}{last}".encode()) for last in "/0")
        await self.etcd.must("/v3/kv/deleterange", {"key": key, "range_end": end})

    async def floor(self) -> Message:
        """The newest floor's text."""
        text: Message = json.loads(decoded((await self.etcd.get(self.log.floor.key))["kvs"][0]["value"]))
        return text

    async def snapshots(self) -> Set[str]:
        """The names of snapshots that have pieces."""
        found = await self.etcd.get(f"{self.log.name}/snap/", f"{self.log.name}/snap0", keys_only=True)
        return {decoded(kv["key"]).decode().split("/")[2] for kv in found.get("kvs", [])}
