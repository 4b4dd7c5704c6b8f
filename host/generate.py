#!/usr/bin/env python3
"""Compares two programs on generated inputs of `moves`, of `desk`, of `link`, of `sender` or of `why` (docs/PROGRAMS.md).

usage: generate.py moves|desk|link|sender|why SEED COUNT KEEP PROGRAM [WORD..] -- PROGRAM [WORD..]

COUNT inputs are made from SEED: sessions of a host and its peer, some of them disturbed. bench/fuzz.py compares, and keeps an input on
which the two differ in the folder KEEP. Of `why` each input is asked at eight places, and before them stand the sweeps of bench/fuzz.py,
each asked at one.
"""
import os
import random
import sys

sys.path.insert(0, os.path.join(os.path.dirname(os.path.abspath(__file__)), "..", "bench"))
sys.dont_write_bytecode = True
import fuzz  # noqa: E402
from fuzz import capabilities, close, cut_off, data, data_first, garbled, head, record  # noqa: E402


def moves(seed, i):
    """The walker's input with local closes among its records."""
    r = random.Random(f"moves/{seed}/{i}")
    pdus = (fuzz.well_formed, fuzz.at_boundary, fuzz.spoiled)[i % 3](r)
    numbers = [0, 1, 5, 255, 256, 65535, 65536, 2**32 - 1] + [p[1] for p in pdus if len(p) > 1 and p[0] >> 4 == 1]
    for _ in range(r.randint(1, 2 + len(pdus) // 3)):
        number = r.choice(numbers).to_bytes(4, "little")
        pdus.insert(r.randint(0, len(pdus)), b"\0" + number[: r.choice([4, 4, 1, 2, 0])] + r.randbytes(r.choice([0, 0, 0, 3])))
    return cut_off(r, b"".join(map(record, pdus)))


# ---- the desk's records

REQUEST, OPEN, CLOSE = 65533, 65534, 65535


def host(length, *fields):
    return length.to_bytes(2, "little") + b"".join(fields)


def request(r, version):
    charges = r.randbytes(8) if r.random() < 0.5 else bytes(8)
    return host(REQUEST, version.to_bytes(2, "little"), charges)


def local_open(r):
    name = r.choice([b"PUMP"] * 8 + [b"", b"LAMP", b"PU\0MP", b"P" * 1596, b"P" * 1597, b"P" * 1598, b"P" * 65535])
    return host(OPEN, bytes([r.choice([0, 1, 2, 3, 3, 4, 255])]), len(name).to_bytes(2, "little"), name)


def local_close(number):
    return host(CLOSE, number.to_bytes(4, "little"))


def response(r, number):
    """A Create response, mostly of status 0."""
    status = r.choice([0] * 6 + [1, 2**31 - 1, 2**31, 2**32 - 1, 0x80070490, 0x8007000E])
    return record(head(r, 1, r.randrange(4), number) + status.to_bytes(4, "little"))


def answer(r):
    """A Capabilities response; sometimes what is none."""
    if r.random() < 0.1:
        return record(capabilities(r, r.randrange(5)))
    return record(bytes([0x50 + 4 * r.randrange(4), 0]) + r.choice([1, 2, 2, 3, 3, 0, 4]).to_bytes(2, "little"))


def block(r, number):
    """A block of data: whole messages, and pieces of some of few lengths, so that they often fit together."""
    what = r.randrange(6)
    if what == 0:
        return record(data_first(r, number, r.choice([2, 4, 4096, 4097]), r.choice([0, 1, 2, 1500])))
    if what == 1:
        return record(data_first(r, number, 4, 2))
    if what == 2:
        return record(garbled(r, number)[: REQUEST - 1])
    return record(data(r, number, r.choice([0, 1, 2, 2, 2, 100, 1590])))


def garbage(r):
    return record(r.randbytes(r.choice([0, 1, 2, 5, 9, 30, 1600, 1601, 4000])))


def event(r, top):
    """An event of a host or of its client, on a number that is likely to be in use."""
    number = r.choice([r.randint(1, top)] * 12 + [0, 17, 255, 256, 65536, 2**32 - 1])
    return r.choice(
        [local_open(r)] * 4
        + [response(r, number)] * 4
        + [block(r, number)] * 8
        + [local_close(number), record(close(r, number)), garbage(r), request(r, r.randrange(5)), answer(r)]
    )


def desk(seed, i):
    r = random.Random(f"desk/{seed}/{i}")
    events = []
    if r.random() < 0.9:
        events.append(host(REQUEST, r.choice([1, 2, 3]).to_bytes(2, "little"), bytes(8)))
    if r.random() < 0.9:
        events.append(record(b"\x50\0" + r.choice([1, 2, 3]).to_bytes(2, "little")))
    top = r.choice([1, 2, 3, 17])
    if r.random() < 0.6:
        for number in range(1, 1 + r.choice([top, 16, 17])):
            events.append(host(OPEN, b"\1\4\0PUMP"))
            if r.random() < 0.8:
                events.append(record(head(r, 1, 0, number) + bytes(4)))
    events += [event(r, top) for _ in range(r.randint(0, 60))]
    for _ in range(r.randrange(3)):
        j, k = r.randrange(len(events) + 1), r.randrange(len(events) + 1)
        events[min(j, k) : min(j, k) + 2] = events[min(j, k) : min(j, k) + 2][::-1]
    return cut_off(r, b"".join(events))


# ---- both ends' records


def message(r, number):
    """A message of either host, mostly with all its PDUs sent."""
    length = r.choice([0, 1, 5, 100, 1590, 1591, 1596, 1597, 3194, 3195, 4096, 4097])
    pdus = r.choice([255] * 6 + [0, 1, 2, 3])
    return bytes([r.choice([2, 3])]) + number.to_bytes(4, "little") + length.to_bytes(2, "little") + r.randbytes(length) + bytes([pdus])


def link(seed, i):
    r = random.Random(f"link/{seed}/{i}")
    ready = b"\0" + host(REQUEST, r.choice([1, 2, 3]).to_bytes(2, "little"), bytes(8))
    opened = b"\0" + host(OPEN, b"\1\4\0PUMP")
    top = r.choice([1, 2, 3, 17])
    events = [ready] * (r.random() < 0.9) + [opened] * r.choice([0, 1, top, top])
    for _ in range(r.randint(0, 40)):
        number = r.choice([r.randint(1, top)] * 9 + [0, 17, 256, 2**32 - 1])
        panel_close = b"\1" + number.to_bytes(4, "little")
        events.append(
            r.choice([message(r, number)] * 10 + [opened] * 3 + [b"\0" + local_open(r), b"\0" + local_close(number), panel_close])
        )
        if r.random() < 0.05:
            events += [b"\4"] + [ready] * (r.random() < 0.9) + [opened] * r.choice([0, 1, top])
        if r.random() < 0.01:
            events.append(bytes([r.randrange(256)]))
    return cut_off(r, b"".join(events))


# ---- a sender's PDUs


def cut(r, number, message):
    """A message as some sender may cut it: one Data, or a Data First and blocks of any lengths."""
    if len(message) <= 1590 and r.random() < 0.3:
        return [data(r, number, 0) + message]
    first = data_first(r, number, len(message), 0)
    pdus, at, most = [], 0, r.choice([1590, 1590, 1600 - len(first), 1000, 500 + len(message) // 3])
    while at < len(message) or not pdus:
        size = r.choice([most, most, most, r.randint(0, most)])
        pdus.append((data(r, number, 0) if pdus else first) + message[at : at + size])
        at += size
    return pdus


def disturbed(r, number, pdus):
    """The same with one thing wrong, or not."""
    what = r.randrange(12)
    if not pdus or not all(pdus):
        return pdus
    j = r.randrange(len(pdus))
    if what == 0:
        pdus.pop(j)
    elif what == 1:
        pdus.insert(j, pdus[r.randrange(len(pdus))])
    elif what == 2:
        pdus[j] = pdus[j][:-1]
    elif what == 3:
        pdus[j] += r.randbytes(1)
    elif what == 4:
        k = r.randrange(len(pdus[j]))
        pdus[j] = pdus[j][:k] + bytes([pdus[j][k] ^ 1 << r.randrange(8)]) + pdus[j][k + 1 :]
    elif what == 5:
        other = r.choice([number, number ^ 1, 7])
        strangers = [close(r, other), data(r, other, 0), data(r, other, 2), garbled(r, other), capabilities(r), fuzz.create(r, other), b""]
        pdus.insert(r.randint(0, len(pdus)), r.choice(strangers))
    elif what == 6:
        pdus.append(data(r, number, r.choice([0, 1])))
    return pdus


def sender(seed, i):
    r = random.Random(f"sender/{seed}/{i}")
    number = r.choice(fuzz.NUMBERS)
    message = r.randbytes(r.choice(fuzz.LENGTHS + [3, 5, 20, 4097, 5000]))
    pdus = disturbed(r, number, disturbed(r, number, cut(r, number, message)))
    if r.random() < 0.1:
        message = message[: r.randint(0, len(message))] + r.randbytes(r.choice([0, 0, 1]))
    head = number.to_bytes(4, "little") + len(message).to_bytes(2, "little") + message
    whole = head + b"".join(map(record, pdus))
    return cut_off(r, whole) if r.random() < 0.2 else whole


# ---- places of the walker's input


def request_gone_wrong(r):
    """A Capabilities request with Pad, Version or its end mostly wrong."""
    pdu = bytes([0x50 + r.choice([0, 0, 0, 0, 1, 3]), r.choice([0, 0, 0, 1])]) + r.choice([0, 1, 2, 3, 4, 256]).to_bytes(2, "little")
    return (pdu + bytes(r.choice([0, 7, 8, 9])))[: r.choice([1, 2, 3, 4, 99, 99, 99])]


def move_of(r, s):
    """One PDU more of a session, on one of its few numbers."""
    n, what = r.choice(s.numbers), r.randrange(20)
    left = s.left.get(n, 0)
    if n not in s.left and what < 14:
        s.open(n)
    elif what < 5:
        s.more(n, left if left and r.random() < 0.5 else r.choice([0, 1, 2]))
    elif what < 8:
        s.first(n, 4, r.choice([0, 1, 2, 4]))
    elif what < 9:
        s.first(n, r.choice([0, 4, 4096, 4097, 2**32 - 1]), r.choice([0, 1, 5]))
    elif what < 11:
        s.more(n, left + r.choice([0, 1]))
    elif what < 14:
        s.put(garbled(r, n))
    elif what < 16:
        s.close(n)
    elif what == 16:
        s.open(n, r.choice(fuzz.NAMES))
    elif what == 17:
        s.put(r.choice([request_gone_wrong(r), request_gone_wrong(r), capabilities(r)]))
    elif what == 18:
        s.put(r.choice([close(r, n) + b"\0", fuzz.create(r, n)[:-1], fuzz.create(r, n) + b"\0", b"", bytes(1601), close(r, n)[:1]]))
    else:
        s.put(data(r, r.choice([0, 5, 256]), 1))


def why(r):
    """A session on few numbers, or with all sixteen records taken."""
    numbers = fuzz.some_numbers(r) if r.random() < 0.2 else r.sample(fuzz.NUMBERS, r.choice([1, 1, 2, 3]))
    s = fuzz.Session(r, numbers)
    for _ in range(r.choice([0, 0, 0, 1, 2])):
        s.put(r.choice([request_gone_wrong(r), garbled(r, numbers[0]), data(r, numbers[0], 1), close(r, numbers[0])]))
    s.put(capabilities(r))
    for n in numbers:
        s.open(n)
    for _ in range(r.randint(1, 30 + 2 * len(numbers))):
        move_of(r, s)
    return s.pdus


def written(r, place):
    """A place in digits: mostly its own, or behind zeros, or of the number that is 2^64 above."""
    return r.choice([str(place)] * 30 + ["0" * r.choice([1, 30]) + str(place), str(2**64 + place)])


def asked(seed, count):
    """The inputs of `why`, each with a place: first the sweeps."""
    for i, pdus in enumerate(fuzz.sweeps()):
        r = random.Random(f"sweep/{seed}/{i}")
        yield f"sweep-{i}", b"".join(map(record, pdus)), written(r, r.randrange(len(pdus)))
    for i in range(count):
        r = random.Random(f"why/{seed}/{i}")
        pdus = why(r)
        stream = cut_off(r, b"".join(map(record, pdus)))
        blocks = [k for k, pdu in enumerate(pdus) if pdu and pdu[0] >> 4 in (2, 3)] + [len(pdus)]
        for _ in range(8):
            yield f"why-{seed}-{i}", stream, written(r, r.choice([r.choice(blocks), r.choice(blocks), r.randrange(len(pdus))]))


def main():
    makers = {"moves": moves, "desk": desk, "link": link, "sender": sender}
    if len(sys.argv) < 8 or sys.argv[1] not in [*makers, "why"]:
        sys.exit(__doc__)
    job, seed, count, keep = sys.argv[1], sys.argv[2], int(sys.argv[3]), sys.argv[4]
    named = asked(seed, count) if job == "why" else ((f"{job}-{seed}-{i}", makers[job](seed, i)) for i in range(count))
    return fuzz.compare(named, keep, fuzz.both(sys.argv[5:], __doc__))


if __name__ == "__main__":
    sys.exit(main())
