#!/usr/bin/env python3
"""A schedule file of 20,000 random events, for timing `replay`: long_schedules.py SEED KEYS WORKERS > FILE.

One event in thirteen is a submit (a search, an insert, twice as often, or a delete) while the file has room; the others are steps.
"""
import random
import struct
import sys

EVENTS = 20000
MOST_BYTES = 60000


def schedule(seed, keys, workers):
    chance = random.Random(seed)
    records = []
    size = 0
    for event in range(EVENTS):
        left = EVENTS - event - 1
        worker = chance.randrange(workers)
        if chance.random() < 0.075 and size + 11 + 2 * left <= MOST_BYTES:
            code = chance.choice([1, 2, 2, 3])
            key = chance.randrange(keys)
            element = chance.randrange(1000)
            records.append(bytes([10, worker, code]) + struct.pack(">II", key, element))
            size += 11
        else:
            records.append(bytes([1, worker]))
            size += 2
    body = b"".join(records)
    return bytes([1]) + struct.pack(">H", len(body)) + body


if __name__ == "__main__":
    seed, keys, workers = (int(word) for word in sys.argv[1:])
    sys.stdout.buffer.write(schedule(seed, keys, workers))
