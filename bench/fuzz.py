#!/usr/bin/env python3
"""Compares two walkers, or two programs that print the messages handed up, counts, or why a PDU got its answer, on generated inputs.

usage: fuzz.py SEED COUNT KEEP WALKER [WORD..] -- WALKER [WORD..]

COUNT inputs are made from SEED, by turns well formed, at the boundaries of the rules, spoiled copies of those, and
random; before them stand the sweeps, which are the same for every seed. Each goes to both walkers' standard input. At
the first difference the input is kept in the folder KEEP, both outputs' first differing lines are printed, and the
status is 1.
"""
import os
import random
import subprocess
import sys

PDU_MAX = 1600
MESSAGE_MAX = 4096
RECORD_MAX = 65535
CHANNELS = 16
NAME = b"PUMP"

NUMBERS = [0, 1, 5, 7, 254, 255, 256, 257, 65534, 65535, 65536, 65537, 2**31 - 1, 2**31, 2**32 - 2, 2**32 - 1]
LENGTHS = [0, 1, 2, 15, 16, 255, 256, 1589, 1590, 1591, 1595, 1596, 1597, 1598, 3194, 3195, 4095, 4096]
OVER = [4097, 4098, 8192, 65535, 65536, 2**31, 2**32 - 1]
NAMES = [b"PUMP"] * 12 + [b"", b"PUM", b"PUMPS", b"pump", b"PUMp", b"P", b"\xff", b"PUMP" * 300]


def record(pdu):
    return len(pdu).to_bytes(2, "little") + pdu


def narrowest(value):
    return 0 if value < 2**8 else 1 if value < 2**16 else 2


def width(r, value):
    """A width code that holds the value, mostly the narrowest."""
    return narrowest(value) if r.random() < 0.6 else r.randint(narrowest(value), 2)


def head(r, cmd, middle, number):
    code = width(r, number)
    return bytes([16 * cmd + 4 * middle + code]) + number.to_bytes(1 << code, "little")


def capabilities(r, version=None):
    version = r.randint(1, 3) if version is None else version
    charges = r.randbytes(8) if version > 1 else b""
    return bytes([0x50 + 4 * r.randrange(4), 0]) + version.to_bytes(2, "little") + charges


def create(r, number, name=NAME):
    return head(r, 1, r.randrange(4), number) + name + b"\0"


def data(r, number, length):
    return head(r, 3, r.randrange(4), number) + r.randbytes(length)


def data_first(r, number, whole, length):
    code = width(r, whole)
    return head(r, 2, code, number) + whole.to_bytes(1 << code, "little") + r.randbytes(length)


def close(r, number):
    return head(r, 4, r.randrange(4), number)


def garbled(r, number):
    """A block of data, compressed or not, that mostly can't be read: cut off, too long, or of a bad width."""
    pdu = bytearray(head(r, r.choice([2, 2, 3, 6, 7]), r.randrange(4), number) + r.randbytes(r.choice([0, 0, 1, 2, 3, 9])))
    if r.random() < 0.2:
        pdu[0] |= 3
    if r.random() < 0.2:
        pdu += bytes(r.choice([PDU_MAX + 1, RECORD_MAX]) - len(pdu))
    return bytes(pdu[: r.randint(1, 6)] if r.random() < 0.4 else pdu)


class Session:
    """PDUs that know which channels should be open and how much of a message is to come, to aim by. It judges nothing."""

    def __init__(self, r, numbers):
        self.r, self.numbers = r, numbers
        self.pdus, self.left = [], {}

    def put(self, pdu):
        self.pdus.append(pdu)

    def open(self, number, name=NAME):
        self.put(create(self.r, number, name))
        if name == NAME and len(self.left) < CHANNELS:
            self.left.setdefault(number, 0)

    def close(self, number):
        self.put(close(self.r, number))
        self.left.pop(number, None)

    def first(self, number, whole, length):
        self.put(data_first(self.r, number, whole, length))
        if number in self.left:
            self.left[number] = max(0, whole - length) if whole <= MESSAGE_MAX else 0

    def more(self, number, length):
        self.put(data(self.r, number, length))
        if number in self.left:
            self.left[number] = max(0, self.left[number] - length)

    def any_open(self):
        return self.r.choice(list(self.left)) if self.left else self.r.choice(self.numbers)


def some_numbers(r):
    """Few numbers, so that they meet again; or many, so that the table is full."""
    count = r.choice([1, 2, 3, 16, 17, 20])
    numbers = r.sample(NUMBERS, min(count, len(NUMBERS)))
    while len(numbers) < count:
        numbers.append(r.randrange(2 ** r.choice([8, 16, 32])))
    return numbers


def block(r, left):
    """The length of a block of what is still to come."""
    return min(left, r.choice([0, 1, 2, left // 2, left, left, PDU_MAX - 9, PDU_MAX - 2 - r.randrange(8)]), PDU_MAX - 9)


def well_formed(r):
    s = Session(r, some_numbers(r))
    s.put(capabilities(r))
    for _ in range(r.randint(1, 120)):
        n = r.choice(s.numbers)
        if n not in s.left:
            s.open(n)
        elif s.left[n]:
            s.more(n, block(r, s.left[n]))
        elif r.random() < 0.15:
            s.close(n)
        elif r.random() < 0.5:
            s.more(n, r.choice([0, 1, 16, 100, 1590, 1591]))
        else:
            whole = r.choice(LENGTHS)
            s.first(n, whole, block(r, whole))
    return s.pdus


def at_boundary(r):
    s = Session(r, some_numbers(r))
    if r.random() < 0.9:
        s.put(capabilities(r))
    for n in s.numbers if r.random() < 0.7 else []:
        s.open(n)
    for _ in range(r.randint(1, 60)):
        n = s.any_open() if r.random() < 0.85 else r.choice(s.numbers)
        left = s.left.get(n, 0)
        what = r.randrange(13)
        if what < 4 and left:
            s.more(n, min(max(0, left + r.choice([-1, 0, 0, 0, 1])), PDU_MAX - 5))
        elif what < 6:
            s.first(n, r.choice(LENGTHS + OVER), r.choice([0, 1, 2, 100]))
        elif what == 6:
            whole = r.choice(LENGTHS)
            s.first(n, whole, min(max(0, whole + r.choice([-1, 0, 1])), PDU_MAX - 9))
        elif what == 7:
            s.more(n, r.choice([0, 1, PDU_MAX - 5, PDU_MAX - 3, PDU_MAX - 2, PDU_MAX - 1]))
        elif what == 8:
            s.close(n)
        elif what == 9:
            s.open(r.choice(s.numbers), r.choice(NAMES))
        elif what == 10:
            s.put(capabilities(r, r.randrange(5)))
        elif what == 11:
            s.put(garbled(r, n))
        else:
            pdu = data(r, n, 1)
            s.put(pdu + bytes(max(0, r.choice([PDU_MAX, PDU_MAX + 1, RECORD_MAX]) - len(pdu))))
    return s.pdus


def spoiled(r):
    """A good session with some PDUs changed: bits, ends, order."""
    pdus = r.choice([well_formed, at_boundary])(r)
    for _ in range(r.randint(1, 1 + len(pdus) // 4)):
        i = r.randrange(len(pdus))
        pdu = bytearray(pdus[i])
        what = r.randrange(7)
        if what == 0 and pdu:
            pdu[0] ^= 1 << r.randrange(8)
        elif what == 1 and pdu:
            at = r.randrange(min(len(pdu), 12))
            pdu[at] = r.choice([0, 1, 255, r.randrange(256)])
        elif what == 2:
            del pdu[r.randint(0, len(pdu)) :]
        elif what == 3:
            pdu += bytes(r.choice([1, 2, 8])) if r.random() < 0.5 else r.randbytes(r.randint(1, 9))
        elif what == 4:
            pdus.insert(i, bytes(pdu))
        elif what == 5:
            j = r.randrange(len(pdus))
            pdus[j], pdu = bytes(pdu), bytearray(pdus[j])
        elif len(pdu) > 1:
            del pdu[r.randrange(min(len(pdu), 8))]
        pdus[i] = bytes(pdu[:RECORD_MAX])
    return pdus


def at_random(r):
    pdus = [capabilities(r)] if r.random() < 0.5 else []
    if pdus and r.random() < 0.7:
        pdus.append(create(r, 5))
    for _ in range(r.randint(0, 40)):
        length = r.choice([0, 1, 2, 3, 4, 5, 6, 8, 12, 13, r.randrange(40), r.choice([PDU_MAX, PDU_MAX + 1])])
        pdu = bytearray(r.randbytes(length))
        if pdu and r.random() < 0.7:
            pdu[0] = 16 * r.randrange(1, 6) + pdu[0] % 16
        if length > 1 and r.random() < 0.5:
            pdu[1] = 5
        pdus.append(bytes(pdu))
    return pdus


def cut_off(r, stream):
    """The stream, or mostly in the last record a byte or more too short, or some bytes too long."""
    what = r.randrange(8)
    if what == 0 and stream:
        return stream[: r.randrange(len(stream))]
    if what == 1:
        return stream + r.randbytes(r.randint(1, 3))
    if what == 2 and stream:
        return stream[:-1]
    return stream


def made(seed, i):
    r = random.Random(f"{seed}/{i}")
    if r.random() < 0.02:
        return r.randbytes(r.randrange(4000))
    pdus = (well_formed, at_boundary, spoiled, at_random)[i % 4](r)
    return cut_off(r, b"".join(map(record, pdus)))


def sweeps():
    """The cases that are few enough to try all."""
    r = random.Random(0)
    ready = capabilities(r, 1)
    tails = [bytes(n) for n in range(15)] + [b"\5" * n for n in range(15)] + [b"\1\0PUMP\0", b"\0\1\0", b"\0\2\0" + bytes(8)]
    every = [bytes([first]) + tail for tail in tails for first in range(256)]
    yield [b""] + every
    yield [ready] + every
    for first in range(256):
        yield [ready, create(r, 0), create(r, 5), create(r, 1)] + [bytes([first]) + tail for tail in tails]
    # each block of data, read or not, and then a Data on each number that it may carry
    whole = [0, 5, 0x505, 0x5050505, 1]
    for first in [16 * cmd + low for cmd in (2, 3, 6, 7) for low in range(16)]:
        yield [ready] + [
            pdu
            for tail in tails
            for pdu in [create(r, n) for n in whole] + [bytes([first]) + tail] + [data(r, n, 1) for n in whole] + [close(r, n) for n in whole]
        ]
    for version in range(6):
        for length in range(15):
            yield [(bytes([0x50, 0]) + version.to_bytes(2, "little") + bytes(10))[:length], create(r, 5)]
    for opened in (15, 16, 17):
        pdus = [ready] + [create(r, n) for n in range(opened)]
        pdus += [data(r, n, 16) for n in range(opened)] + [close(r, 3), create(r, 3), create(r, 99), create(r, 98, b"PUM")]
        yield pdus + [close(r, n) for n in range(opened)] + [create(r, n) for n in range(opened)]
    for n in NUMBERS:
        yield [ready] + [p for q in NUMBERS for p in (create(r, n), create(r, q), data(r, n, 3), close(r, q), close(r, n))]
    for whole in LENGTHS + OVER:
        for first in (0, 1, whole - 1, whole, whole + 1):
            if 0 <= first <= PDU_MAX - 9:
                pdus = [ready, create(r, 5), data_first(r, 5, whole, first)]
                left = max(0, whole - first)
                while 0 < left <= MESSAGE_MAX:
                    take = min(left, PDU_MAX - 5)
                    pdus += [data(r, 5, take), data(r, 5, 0)]
                    left -= take
                again = [data(r, 5, 1), close(r, 5), create(r, 5), data(r, 5, 2)]
                yield pdus + again
                yield pdus[:3] + [data_first(r, 5, 3, 1)] + again
                yield pdus[:3] + [close(r, 5), create(r, 5), data(r, 5, 7), data_first(r, 5, whole, 0)] + again
    for length in (0, 1, 2, PDU_MAX - 1, PDU_MAX, PDU_MAX + 1, PDU_MAX + 2, 4096, 4097, 65534, RECORD_MAX):
        for first in (0x10, 0x20, 0x24, 0x2C, 0x30, 0x32, 0x33, 0x40, 0x60, 0x71, 0x80):
            long = (bytes([first]) + bytes(RECORD_MAX))[:length]
            yield [long, ready, create(r, 0), long, data(r, 0, 1), long, close(r, 0), create(r, 0), data(r, 0, 2)]
    for name in NAMES + [b"PUMP\0", b"PUMP\0\0", b"\0PUMP", b"PUMP\0PUMP"]:
        yield [create(r, 5, name), ready, create(r, 5, name), create(r, 5, name)[:-1], data(r, 5, 1)]


def inputs(seed, count):
    """Each input with its name."""
    for i, pdus in enumerate(sweeps()):
        yield f"sweep-{i}", b"".join(map(record, pdus))
    example = b"".join(map(record, next(p for i, p in enumerate(sweeps()) if i == 2)))
    for i in range(0, min(len(example), 200)):
        yield f"cut-{i}", example[:i]
    for i in range(count):
        yield f"seed-{seed}-{i}", made(seed, i)


def output(walker, stream):
    done = subprocess.run(walker, input=stream, stdout=subprocess.PIPE, stderr=subprocess.PIPE, timeout=60)
    if done.returncode != 0:
        return done.stdout + b"\n[ended with status %d] " % done.returncode + done.stderr
    return done.stdout


def first_difference(a, b):
    lines = [a.split(b"\n"), b.split(b"\n")]
    for i in range(max(map(len, lines))):
        pair = [side[i] if i < len(side) else b"(nothing)" for side in lines]
        if pair[0] != pair[1]:
            return i + 1, pair
    return 0, lines


def compare(named, keep, walkers):
    """Runs both walkers on each input, given with its name and the words for it alone. The status: 1 at the first difference."""
    runs = pdus = 0
    words = {}
    for name, stream, *more in named:
        a, b = (output(walker + more, stream) for walker in walkers)
        if a != b:
            os.makedirs(keep, exist_ok=True)
            path = os.path.join(keep, name)
            with open(path, "wb") as f:
                f.write(stream)
            line, pair = first_difference(a, b)
            print(f"the two differ on {' '.join([path] + more)}, in line {line}:")
            for walker, text in zip(walkers, pair):
                print(f"  {walker[0]}: {text.decode('latin-1')}")
            return 1
        runs += 1
        for text in a.split(b"\n")[:-1]:
            parts = text.decode().split(" ")
            if parts[0] in ("pdu", "event", "end"):
                continue
            if parts[0] in ("panel", "shore"):
                parts = parts[1:]
            if len(parts) == 2 and parts[1].isdigit():
                words[parts[0]] = words.get(parts[0], 0) + int(parts[1])
                pdus += 1
                continue
            if parts[0] in ("yes", "no", "cut"):
                word = parts[0] if len(parts) == 1 else f"no {parts[-1]}"
            elif not parts[0].isdigit():
                word = parts[0]
                if word == "refused":
                    word = ("spoiled by " if parts[-2] == "by" else "rule ") + parts[-1]
            elif len(parts) == 3:
                word = "messages of no bytes" if parts[2] == "-" else "messages of bytes"
            else:
                word = parts[1] + " " + parts[3] if parts[1] in ("refused", "declined") else parts[1]
            words[word] = words.get(word, 0) + 1
            pdus += 1
    print(f"{runs} inputs, {pdus} lines, no difference")
    print(", ".join(f"{word}: {words[word]}" for word in sorted(words)))
    return 0


def both(words, usage):
    """The two walkers of a command line, with `--` between."""
    if "--" not in words[1:-1]:
        sys.exit(usage)
    split = words.index("--", 1)
    return [words[:split], words[split + 1 :]]


def main():
    if len(sys.argv) < 7:
        sys.exit(__doc__)
    return compare(inputs(sys.argv[1], int(sys.argv[2])), sys.argv[3], both(sys.argv[4:], __doc__))


if __name__ == "__main__":
    sys.exit(main())
