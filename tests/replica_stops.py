"""A replica that is stopped at each of its requests to etcd in turn, until another one has written a snapshot; and floors that
such stops left behind. Whoever begins then has all that was told."""
from __future__ import annotations

import asyncio
import contextlib
import json
import os
import time
from concurrent.futures import ThreadPoolExecutor
from queue import Queue
from typing import Any, Callable, Dict, List, NamedTuple
from unittest.mock import patch

from cluster import Cluster
from replica_running import PATIENCE, Running
from stopped_requests import Stop, Way
from support import fail, wanted

from tiuvrokk_replica import snapshots
from tiuvrokk_replica.etcd import decoded, put_of
from tiuvrokk_replica.log import LeftBehind

# Blocks between snapshots, and those that the replica commits that is stopped: it writes three snapshots.
EVERY, COMMITS, SNAPSHOTS = 2, 7, 3
# Clusters, each of which tries a point at a time: who writes a snapshot compacts the history of all logs. Endpoints that stand
# for the one member of each.
CLUSTERS, ENDPOINTS = 4, 2
# Seconds that a replica takes to begin.
BEGINNING = 60.0
# How requests are stopped, and whether the other replica's snapshot is between its pieces and its floor meanwhile.
WAYS = ((Way.HELD, False), (Way.UNTOLD, False), (Way.LATE, False), (Way.HELD, True))


class Point(NamedTuple):
    """Where a replica is stopped. The other one writes a snapshot then, or only what comes before it moves the floor, and moves
    it once the first has gone on."""

    way: Way
    number: int  # of the request; 0: none is stopped
    is_between: bool

    @property
    def log(self) -> str:
        return f"{self.way.value}.{self.number}{'.between' if self.is_between else ''}"


class Trial:
    """Replicas of a log, and what was told by them."""

    def __init__(self, cluster: Cluster, log: str) -> None:
        self.cluster, self.log = cluster, log
        self.told: Dict[str, int] = {}
        self.replicas: List[Running] = []

    def replica(self, endpoints: List[str], every: int) -> Running:
        self.replicas.append(Running(self.log, endpoints, every, self.told))
        return self.replicas[-1]

    async def run(self) -> None:
        """Raises what is wrong."""
        raise NotImplementedError

    async def begun(self, limit: float = BEGINNING) -> Running:
        """A replica that begins now, anew where it is left behind, as the program does."""
        end = time.monotonic() + limit
        while True:
            latest = self.replica(self.cluster.endpoints, 0)
            try:
                await latest.begin(max(0.1, end - time.monotonic()))
                return latest
            except LeftBehind:
                pass
            except asyncio.TimeoutError as fault:
                raise ValueError(f"no replica begins any more: {len(self.told)} told commits are lost") from fault

    async def compare(self, other: Running) -> None:
        """Who begins now has what the other one has, and all that anybody was told."""
        await other.commit("last")
        latest = await self.begun()
        records, right = latest.store.records(), other.store.records()
        if (records, latest.replica.commits) != (right, other.replica.commits):
            raise ValueError(f"at commit {latest.replica.commits} it has {records}, and the other at {other.replica.commits} {right}")
        lost = [key for key in self.told if f"{key}=1".encode() not in records]
        if lost or len(set(self.told.values())) < len(self.told):
            raise ValueError(f"{lost} are lost; told were {self.told}")


class Stopped(Trial):
    """A replica that is stopped at a point, and another one."""

    def __init__(self, cluster: Cluster, point: Point) -> None:
        super().__init__(cluster, point.log)
        self.point = point
        self.stop = Stop(point.way, lambda number, _: number == point.number)
        self.between = Stop(Way.HELD, self.moves_floor)

    def moves_floor(self, _: int, request: bytes) -> bool:
        return self.point.is_between and self.stop.is_reached.is_set() and b'"MOD"' in request

    async def run(self) -> None:
        members = self.cluster.clients * ENDPOINTS
        other = self.replica(await self.between.proxies(members), 0)
        await other.begin()
        await other.write_snapshot("first", EVERY)
        stopped = self.replica(await self.stop.proxies(members), EVERY)
        driving = asyncio.ensure_future(self.drive(stopped))
        reached = asyncio.ensure_future(self.stop.is_reached.wait())
        await asyncio.wait({driving, reached}, return_when=asyncio.FIRST_COMPLETED)
        if self.stop.is_reached.is_set():
            await self.interfere(other, driving)
        await driving
        stopped.replica.blocks_between_snapshots = 0
        floor = await other.floor()
        if floor["revision"] <= floor["since"]:
            raise ValueError(f"no entry stands between two floors, of which the second is {floor}")
        if self.point.number == 0 and floor["generation"] != 1 + SNAPSHOTS:
            raise ValueError(f"it wrote other than {SNAPSHOTS} snapshots: {floor}")
        await self.compare(other)

    async def drive(self, replica: Running) -> None:
        """The life of the replica that is stopped; once it goes on it ends what it had begun."""
        try:
            await replica.begin()
            number = 0
            while number < COMMITS and not self.stop.is_reached.is_set():
                await replica.commit(f"own{number}")
                if not self.stop.is_reached.is_set():
                    await replica.read()
                number += 1
        except LeftBehind:
            pass  # it would begin anew

    async def interfere(self, other: Running, driving: "asyncio.Task[None]") -> None:
        """The other's snapshot, and then the request."""
        if self.point.way is Way.LATE:
            await driving
        writing = asyncio.ensure_future(other.write_snapshot("other", EVERY))
        reached = asyncio.ensure_future(self.between.is_reached.wait())
        await asyncio.wait({writing, reached}, return_when=asyncio.FIRST_COMPLETED)
        await self.stop.go_on()
        await driving
        await self.between.go_on()
        await writing


class Floors(Trial):
    """Floors as they may stand, however they came about."""

    def __init__(self, cluster: Cluster, notes: List[str]) -> None:
        super().__init__(cluster, "floors")
        self.notes = notes  # of replicas

    async def run(self) -> None:
        other = self.replica(self.cluster.endpoints, 0)
        await other.begin()
        await other.write_snapshot("first", EVERY)
        await self.doubled(other)
        await self.overtaken(other)
        await self.incomplete(other)

    async def doubled(self, other: Running) -> None:
        """A second snapshot of the same state, by a name of the form that names once had: whoever begins goes on from there,
        and the next snapshot lets all other pieces go."""
        floor, piece = await other.floor(), f"{self.log}/snap/{{}}/{0:08d}"
        again = {**floor, "id": 8 * "beef", "generation": floor["generation"] + 1, "since": other.log.floor.revision}
        text = (await other.etcd.get(piece.format(floor["id"])))["kvs"][0]["value"]
        for put in (put_of(piece.format(again["id"]), decoded(text)), put_of(other.log.floor.key, json.dumps(again).encode())):
            await other.etcd.must("/v3/kv/put", put)
        latest = await self.begun()
        await latest.commit("doubled")
        await self.compare(other)
        await other.write_snapshot("second", EVERY)
        if await other.snapshots() != {(await other.floor())["id"]}:
            raise ValueError(f"behind a snapshot there are {await other.snapshots()}")

    async def overtaken(self, other: Running) -> None:
        """A floor that isn't the newest any more lets nothing go."""
        floor = other.log.floor
        await other.write_snapshot("third", EVERY)
        kept = await other.snapshots()
        done = await snapshots.delete_if_newest(other.log, floor, [(f"{self.log}/snap/", f"{self.log}/snap0")])
        if done or await other.snapshots() != kept:
            raise ValueError("a floor that was overtaken lets go")

    async def incomplete(self, other: Running) -> None:
        """Who begins and finds no piece says so, and again, and begins by the next snapshot."""
        floor = await other.floor()
        line = f"the newest snapshot, {self.log}/snap/{floor['id']}/ at commit {floor['commits']}, isn't whole: " \
               f"of its 1 pieces etcd lacks 0; waiting"
        await other.delete("snap")
        begun, beginning = time.monotonic(), asyncio.ensure_future(self.begun(PATIENCE))
        while self.notes.count(line) < 2 and time.monotonic() < begun + PATIENCE:
            if beginning.done() or line in self.notes and time.monotonic() < begun + snapshots.FIRST_NOTE:
                raise ValueError("who begins has no patience")
            await asyncio.sleep(0.1)
        wanted("what is said of a snapshot that isn't whole, twice", self.notes.count(line), 2)
        await other.write_snapshot("fourth", EVERY)
        await beginning
        await self.compare(other)


class Result(NamedTuple):
    """What is wrong at a log, and of a replica that was stopped how many requests it made, and the path of the stopped one."""

    log: str
    fault: str
    requests: int
    path: str


def tried(cluster: Cluster, make: Callable[[Cluster], Trial]) -> Result:
    async def trial() -> Result:
        asyncio.get_running_loop().set_exception_handler(lambda *_: None)  # of requests that end with their replica
        made, fault = make(cluster), ""
        try:
            await made.run()
        except Exception as raised:
            fault = f"{type(raised).__name__}: {raised}"
        finally:
            for replica in made.replicas:
                replica.store.close()
        stop = made.stop if isinstance(made, Stopped) else None
        return Result(made.log, fault, stop.count if stop else 0, stop.path if stop else "")

    return asyncio.run(trial())


def each_stop(folder: str) -> None:
    """Every request of a run with three snapshots is stopped in each way; and floors are tried."""
    clusters: "Queue[Cluster]" = Queue()

    def take_turn(make: Callable[[Cluster], Trial]) -> Result:
        cluster = clusters.get()
        try:
            return tried(cluster, make)
        finally:
            clusters.put(cluster)

    def stopped(*point: Any) -> Callable[[Cluster], Trial]:
        return lambda cluster: Stopped(cluster, Point(*point))

    notes: List[str] = []
    with contextlib.ExitStack() as stack:
        for number in range(CLUSTERS):
            clusters.put(Cluster(os.path.join(folder, str(number)), members=1))
            stack.callback(clusters.queue[-1].close)
        stack.enter_context(patch.object(snapshots, "note", notes.append))
        stack.enter_context(patch.object(snapshots, "NEXT_NOTE", 0.5))
        whole = take_turn(stopped(Way.HELD, 0, False))
        wanted("a run that isn't stopped", whole.fault, "")
        numbers = range(1, whole.requests + 1)
        trials = [stopped(way, number, is_between) for way, is_between in WAYS for number in numbers]
        pool = stack.enter_context(ThreadPoolExecutor(CLUSTERS))
        results = list(pool.map(take_turn, [lambda cluster: Floors(cluster, notes), *trials]))
    wrong = [f"{it.log}, {it.path}: {it.fault}" for it in results if it.fault]
    if wrong:
        fail("\n".join(wrong))
    # (a question more or less of a replica that waits is another number)
    stops = sum(bool(it.path) for it in results)
    wanted("enough of the requests", stops >= 0.9 * len(trials), True)
    print(f"replicas: stopped at {stops} requests to etcd, each of {whole.requests} in {len(WAYS)} ways")
