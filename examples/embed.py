#!/usr/bin/env python3
"""A store inside a Python program, which loads objects of its own, reads between two loads, and merges while it is idle.

    PYTHONPATH=python TIUVROKK_LIBRARY=PREFIX/lib/libtiuvrokk.so examples/embed.py
"""

import struct
from dataclasses import dataclass
from typing import Iterator

import tiuvrokk

SENSORS, BATCHES, BATCH, SENSOR, LAST = 100, 100, 1000, 7, 2**32 - 1
# Keys are ordered byte by byte, so each number begins at its highest byte.
KEY, VALUE = struct.Struct(">II"), struct.Struct("d")


@dataclass
class Reading:
    """Readings come in the order of time, and are asked for by sensor."""

    sensor: int
    second: int
    degrees: float

    def record(self) -> "tuple[bytes, bytes]":
        return KEY.pack(self.sensor, self.second), VALUE.pack(self.degrees)


def batch_of(number: int) -> Iterator[Reading]:
    for i in range(BATCH):
        yield Reading(i % SENSORS, (number * BATCH + i) // SENSORS, 20 + number % 7)


def mean(tx: tiuvrokk.Transaction, sensor: int) -> float:
    """The mean of a sensor's readings."""
    values = tx.values(KEY.pack(sensor, 0), KEY.pack(sensor, LAST))
    degrees: "list[float]" = [VALUE.unpack(value)[0] for value in values]
    return sum(degrees) / len(degrees) if degrees else 0


def main() -> None:
    loaded = waits = 0
    last = 0.0
    with tiuvrokk.Store() as store:
        for number in range(BATCHES):
            records = [reading.record() for reading in batch_of(number)]
            with store.transaction() as writer:
                with store.transaction() as reader:
                    last = mean(reader, SENSOR)
                    try:
                        writer.load(records)
                    except tiuvrokk.Busy as busy:
                        waits += busy.holder == reader.number
                # The reader had locked what it read: it has ended by now, so the load is tried again.
                loaded += writer.load(records)
            # Nothing else is to do until the next batch comes, so some of what isn't merged is.
            store.tidy(seconds=0)
        merged = store.figures().in_final
    print(f"loaded {loaded}, waited {waits} times, the mean {last}, merged {merged}")


if __name__ == "__main__":
    main()
