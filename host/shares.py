#!/usr/bin/env python3
"""Compares the report of a program with python3's fractions: shares.py SETS SEED PROGRAM [ARGUMENT ..].

A class's share is its charge's reciprocal, over the sum of the reciprocals of all charges above 0: with exact fractions, in
ten-thousandths rounded down.
"""
import fractions
import functools
import random
import subprocess
import struct
import sys
import tempfile

LIMIT = 65536


@functools.lru_cache(None)
def shares(charges):
    parts = [fractions.Fraction(1, charge) if charge else 0 for charge in charges]
    return [part * 10000 // sum(parts) if part else 0 for part in parts]


def report(file):
    sets = list(struct.iter_unpack("<4H", file[: len(file) // 8 * 8]))
    told = [shares(charges) for charges in sets[:LIMIT]]
    lines = ["%d %d %d %d" % tuple(share) for share in told]
    if len(file) % 8 or len(sets) > LIMIT:
        lines.append("refused 17")
    else:
        lines.append("sums %d %d %d %d" % tuple(sum(share[k] for share in told) for k in range(4)))
    return "".join(line + "\n" for line in lines).encode()


def charge(r):
    return r.choice([0, 1, 2, 3, 255, 256, 32767, 32768, 65534, 65535, r.randrange(8), r.randrange(1000)] + 12 * [r.randrange(65536)])


def random_set(r):
    charges = [charge(r) for _ in range(4)]
    if r.random() < 0.1:
        charges[r.randrange(4)] = charges[r.randrange(4)]
    return struct.pack("<4H", *charges)


def compare(what, file, printed):
    expected = report(file)
    if printed != expected:
        places = (k for k, (a, b) in enumerate(zip(printed.split(b"\n"), expected.split(b"\n"))) if a != b)
        sys.exit("host/shares: %s: differs from line %s on" % (what, next(places, "(one ends before)")))


def from_file(what, file):
    with tempfile.NamedTemporaryFile() as f:
        f.write(file)
        f.flush()
        compare(what, file, subprocess.run(program + [f.name], stdout=subprocess.PIPE, check=True).stdout)


def in_pieces(what, file, r):
    """The same through a pipe, in pieces of any size."""
    p = subprocess.Popen(program + ["/dev/stdin"], stdin=subprocess.PIPE, stdout=subprocess.PIPE)
    at = 0
    while at < len(file):
        n = r.choice([1, 3, 7, 8, 9, 100, 4096])
        p.stdin.write(file[at : at + n])
        p.stdin.flush()
        at += n
    compare(what + ", in pieces", file, p.communicate()[0])


count, seed, program = int(sys.argv[1]), int(sys.argv[2]), sys.argv[3:]
r = random.Random(seed)
file = b"".join(random_set(r) for _ in range(count))
from_file("%d random sets, seed %d" % (count, seed), file)
for left in range(8):
    short = file[: 8 * r.randrange(100) + left]
    from_file("a file of %d bytes" % len(short), short)
    in_pieces("a file of %d bytes" % len(short), short, r)

full = (file[:80] * LIMIT)[: 8 * LIMIT]
abouts = {"one set less": full[:-8], "all sets": full, "and a byte": full + b"\0", "and seven": full + b"\0" * 7, "and a set": full + b"\0" * 8, "and more": full + file[:80]}
for about, limit in abouts.items():
    from_file("as many sets as a file may have, " + about, limit)
print("shares: %d random sets, 8 cut files twice and %d files about the limit, as python3's fractions say" % (count, len(abouts)))
