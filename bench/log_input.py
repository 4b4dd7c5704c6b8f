#!/usr/bin/env python3
"""The records of the link log's benchmark: log_input.py > RECORDS.

As many as fill a log of 65,536 blocks to its last byte: PDUs of random bytes behind their length in two bytes, most of 20 to 200
bytes, one in twenty of up to 1,600; and, one in twenty, a local close: length 65,535 and a number in four bytes.
"""
import random
import sys

LOG = 65536 * 504
LONGEST = 1600

r = random.Random(1)


def record(pdu):
    return len(pdu).to_bytes(2, "little") + pdu


def some_record():
    kind = r.randrange(20)
    if kind == 0:
        return b"\xff\xff" + r.randrange(16).to_bytes(4, "little")
    return record(r.randbytes(r.randint(201, LONGEST) if kind == 1 else r.randint(20, 200)))


left = LOG
while left > 2 * LONGEST:
    some = some_record()
    sys.stdout.buffer.write(some)
    left -= len(some)
for size in left // 2, left - left // 2:
    sys.stdout.buffer.write(record(r.randbytes(size - 2)))
