#!/usr/bin/env python3
"""Compares logwrite and logread with the plain writer and reader of log_reader.py, on random logs and damage of every kind.

usage: log.py COUNT SEED DIFFERED LOGWRITE LOGREAD [START ..]    COUNT logs; START starts the programs, where they need it

Each log is written by logwrite, damaged, and read by logread. Where the blocks found bad are exactly the changed ones, the
records that touch no bad block must be what is read. Then as many blocks as a log may have, and files about that limit. A log
on which two differ is kept in the folder DIFFERED.
"""
import collections
import os
import random
import subprocess
import sys
import tempfile

sys.dont_write_bytecode = True
import log_reader  # noqa: E402
from log_reader import BLOCK, BLOCKS_MAX, CLOSE, NONE, PAYLOAD, PDU_MAX, two  # noqa: E402

SMALL = 12  # blocks of a small log, or a few more


# ---- records


def a_pdu(r, length):
    """Any bytes, zeros, or bytes that look like records."""
    kind = r.randrange(4)
    if kind == 0:
        return bytes(length)
    if kind == 1:
        return (two(r.choice([0, 1, 2, 3, 10, 1601, 1602, 65535])) * length)[:length]
    return r.randbytes(length)


def a_record(r, begin):
    """A record that begins at this place of the log's bytes: of any size, many so that it ends about a block's end."""
    if r.random() < 0.12:
        return ("close", r.choice([0, 5, 65535, 65536, 2**32 - 1, r.randrange(2**32)]))
    to_end = -(begin + 2) % PAYLOAD + PAYLOAD * r.randrange(4) + r.randrange(-3, 4)
    lengths = [0, 1, 2, r.randrange(10), r.randrange(200), r.randrange(PDU_MAX), 1600, 1601, max(to_end, 0), max(to_end, 0)]
    if r.random() < 0.05:
        lengths = [1602, 1603, 2000, 5000, 65534]
    return ("pdu", a_pdu(r, r.choice(lengths)))


def some_records(r):
    records, end, size = [], 0, r.randrange(SMALL + 1) * PAYLOAD
    while end < size:
        records.append(a_record(r, end))
        end += len(log_reader.bytes_of(records[-1]))
    return records


def fed(record):
    """A record as logwrite takes it: a longer PDU isn't cut yet."""
    kind, what = record
    return two(CLOSE) + what.to_bytes(4, "little") if kind == "close" else two(len(what)) + what


def logged(record):
    kind, what = record
    return (kind, what if kind == "close" else what[:PDU_MAX])


# ---- damage: each kind changes some bytes of a log that isn't empty


class Log:
    def __init__(self, r, records):
        self.r = r
        self.begins = log_reader.begins_of(records)[:-1]
        self.file = bytearray(b"".join(log_reader.blocks_of(records)))

    def count(self):
        return len(self.file) // BLOCK

    def a_block(self):
        """Where some block begins, the last one more often than the others."""
        return BLOCK * self.r.choice([self.r.randrange(self.count()), self.count() - 1])

    def set_two(self, at, value):
        self.file[at : at + 2] = two(value % 65536)

    def make_right(self, at):
        """Makes the check of the block right that has this place of the file."""
        at -= at % BLOCK
        self.file[at : at + BLOCK] = log_reader.checked(bytes(self.file[at : at + BLOCK]))


def one_bit(log):
    log.file[log.r.randrange(len(log.file))] ^= 1 << log.r.randrange(8)


def one_byte(log):
    log.file[log.r.randrange(len(log.file))] = log.r.randrange(256)


def many_bytes(log):
    for _ in range(log.r.choice([2, 5, 30, 300])):
        one_byte(log)


def a_stretch(log):
    at = log.r.randrange(len(log.file))
    length = min(log.r.choice([2, 20, 600, 2000]), len(log.file) - at)
    log.file[at : at + length] = log.r.choice([bytes(length), b"\xff" * length, log.r.randbytes(length)])


def blocks_swapped(log):
    a, b = log.a_block(), log.a_block()
    log.file[a : a + BLOCK], log.file[b : b + BLOCK] = log.file[b : b + BLOCK], log.file[a : a + BLOCK]


def block_doubled(log):
    a, b = log.a_block(), log.a_block()
    log.file[a : a + BLOCK] = log.file[b : b + BLOCK]


def block_zero(log):
    at = log.a_block()
    log.file[at : at + BLOCK] = bytes(BLOCK)


def block_erased(log):
    at = log.a_block()
    log.file[at : at + BLOCK] = b"\xff" * BLOCK


def number_field(log):
    at = log.a_block()
    number = at // BLOCK
    log.set_two(at, log.r.choice([number + 1, number - 1, number + 256, 0, 65535, log.r.randrange(65536)]))


def used_field(log):
    at = log.a_block()
    log.set_two(at + 2, log.r.choice([0, 1, 502, 503, 504, 505, 506, 65535, log.r.randrange(505), log.r.randrange(65536)]))


def used_less(log):
    """Less is used, and what was used is zero: with its check made right good as a last block, and bad elsewhere."""
    at = log.a_block()
    used = log.r.choice([0, 1, 503, log.r.randrange(505)])
    log.set_two(at + 2, used)
    log.file[at + 8 + used : at + BLOCK] = bytes(PAYLOAD - used)
    if log.r.random() < 0.5:
        log.set_two(at + 4, NONE)


def place_field(log):
    at = log.a_block()
    used = log_reader.number_at(log.file, at + 2)
    log.set_two(at + 4, log.r.choice([0, 1, used - 1, used, used + 1, 503, 504, 65534, 65535, log.r.randrange(505)]))


def check_field(log):
    at = log.a_block()
    log.set_two(at + 6, log.r.choice([0, 65535, 65535 - log_reader.number_at(log.file, at + 6), log.r.randrange(65536)]))


def check_zero(log):
    """Bytes of which the check is 0, and a check of 0, or of 65,535: with it the sum over all is 65,535 too, and the block is bad."""
    at = log.a_block()
    word = at + 8 + 2 * log.r.randrange(PAYLOAD // 2)
    total = log_reader.number_at(log.file, word) + log_reader.check_of(bytes(log.file[at : at + BLOCK]))
    log.set_two(word, total if total < 65536 else total - 65535)
    log.set_two(at + 6, log.r.choice([0, 65535]))


def unused_bytes(log):
    at = BLOCK * (log.count() - 1)
    used = log_reader.number_at(log.file, at + 2)
    if used < PAYLOAD:
        log.file[at + 8 + log.r.choice([used, PAYLOAD - 1, log.r.randrange(used, PAYLOAD)])] = log.r.randrange(1, 256)


def words_swapped(log):
    """The sum stays, and the check finds nothing."""
    at = log.a_block() + 8
    a, b = (at + 2 * log.r.randrange(PAYLOAD // 2) for _ in range(2))
    log.file[a : a + 2], log.file[b : b + 2] = log.file[b : b + 2], log.file[a : a + 2]


def stray_length(log):
    """Another length, mostly where a record begins, often about a block's end; with the checks made right."""
    about_end = [begin for begin in log.begins if begin % PAYLOAD >= PAYLOAD - 2]
    anywhere = [log.r.randrange(PAYLOAD * log.count())]
    begin = log.r.choice(log.r.choice([log.begins, log.begins, about_end or log.begins, anywhere]))
    length = log.r.choice([0, 1, 1601, 1602, 1603, 65534, 65535, log.r.randrange(1602), log.r.randrange(1602, 65535)])
    for k, byte in enumerate(two(length)):
        at = BLOCK * ((begin + k) // PAYLOAD) + 8 + (begin + k) % PAYLOAD
        if at < len(log.file):
            log.file[at] = byte
            log.make_right(at)


def other_length(log):
    """Whole blocks lost or added, or not whole ones."""
    kind = log.r.randrange(4)
    if kind == 0:
        del log.file[log.r.randrange(len(log.file)) :]
    elif kind == 1:
        log.file += log.r.randbytes(log.r.choice([1, 2, 511, 513]))
    elif kind == 2:
        del log.file[log.a_block() :]
    else:
        at = log.a_block()
        log.file += log.file[at : at + BLOCK]


KINDS = [one_bit, one_byte, many_bytes, a_stretch, blocks_swapped, block_doubled, block_zero, block_erased, number_field, used_field]
KINDS += [used_less, place_field, check_field, check_zero, unused_bytes, words_swapped, stray_length]
KINDS += [other_length]  # behind it comes no other kind


def changed_blocks(before, after):
    return [n for n in range(len(before) // BLOCK) if before[BLOCK * n : BLOCK * n + BLOCK] != after[BLOCK * n : BLOCK * n + BLOCK]]


def damage(log, kind):
    """One kind, often behind others; then the checks of what was changed are made right, or some of them."""
    before = bytes(log.file)
    others = log.r.choices(KINDS[:-1], k=log.r.choice([0, 0, 1, 2, 4]))
    for hurt in others + [kind]:
        if log.file:
            hurt(log)
    chance = log.r.choice([0, 0, 0.5, 1])
    for n in changed_blocks(before, log.file):
        if len(log.file) >= BLOCK * n + BLOCK and log.r.random() < chance:
            log.make_right(BLOCK * n)
    return before, bytes(log.file)


# ---- the programs


def lines(records):
    if records == 22:
        return b"refused 22\n"
    text = ["close %d\n" % what if kind == "close" else "pdu %d %s\n" % (len(what), what.hex() or "-") for kind, what in records]
    return "".join(text).encode()


def differs(what, kept):
    os.makedirs(differed, exist_ok=True)
    path = os.path.join(differed, "log")
    with open(path, "wb") as f:
        f.write(kept)
    sys.exit("host/log: %s, seed %d: differs; see %s" % (what, seed, path))


def compare_write(what, given, log, said=b""):
    """`said` is standard error's one line, or None where any one line is good."""
    done = subprocess.run(start + [logwrite], input=given, stdout=subprocess.PIPE, stderr=subprocess.PIPE, check=True)
    good = done.stderr == said if said is not None else done.stderr.count(b"\n") == 1 and done.stderr.endswith(b"\n")
    if done.stdout != log or not good:
        differs("logwrite, " + what, given)


def compare_read(what, log, expected):
    file.seek(0)
    file.write(log)
    file.truncate()
    file.flush()
    done = subprocess.run(start + [logread, file.name], stdout=subprocess.PIPE, stderr=subprocess.PIPE, check=True)
    if (done.stdout, done.stderr) != (lines(expected), b""):
        differs("logread, " + what, log)


# ---- the test


def small_logs(r, count):
    met = collections.Counter()
    for i in range(count):
        records = some_records(r)
        kind = KINDS[i % len(KINDS)]
        what = "log %d, %s" % (i, kind.__name__)
        before, after = damage(Log(r, records), kind)

        given = b"".join(map(fed, records))
        if records and r.random() < 0.2:
            last = fed(records[-1])
            compare_write(what, given + last[: r.randrange(1, len(last))], before, None)
        else:
            compare_write(what, given, before)

        expected = log_reader.read(after)
        compare_read(what, after, expected)
        met["refused" if expected == 22 else "read"] += 1
        if len(before) == len(after):
            bad = log_reader.bad_blocks(after)
            if bad == changed_blocks(before, after):
                met["bad exactly where changed"] += 1
                met["undamaged"] += bad == []
                whole = [logged(record) for record, blocks in zip(records, log_reader.touched(records)) if not set(blocks) & set(bad)]
                if whole != expected:
                    differs("the plain reader and the records that touch no bad block, " + what, after)
        elif expected != 22:
            met["blocks lost or added"] += 1
    if len(met) < 5 or 0 in met.values():
        sys.exit("host/log: something was never met: %s" % dict(met))
    counts = ", ".join("%s %d" % m for m in sorted(met.items()))
    print("log: %d logs written and, with damage, read as the plain writer and reader say: %s" % (count, counts))


def the_limit(r):
    """As many blocks as there can be, and records that don't fit."""
    records, left = [], BLOCKS_MAX * PAYLOAD
    while left > 2 * PDU_MAX:
        records.append(("pdu", r.randbytes(r.randrange(1400, PDU_MAX + 1))))
        left -= len(log_reader.bytes_of(records[-1]))
    records.append(("pdu", r.randbytes(left // 2 - 2)))
    left -= left // 2
    full = records + [("pdu", r.randbytes(left - 2))]
    blocks = log_reader.blocks_of(full)
    log = b"".join(blocks)
    given = b"".join(map(fed, full))
    compare_write("a full log", given, log)
    compare_write("a full log and a close", given + fed(("close", 5)), log, b"refused 21\n")
    compare_read("a full log", log, full)

    given = b"".join(map(fed, records))
    log = b"".join(log_reader.blocks_of(records))
    compare_write("one byte over a full log", given + fed(("pdu", bytes(left - 1))) + fed(("pdu", b"")), log, b"refused 21\n")

    bad = sorted(r.sample(range(BLOCKS_MAX), 100))
    for n in bad:
        blocks[n] = blocks[n][:300] + bytes([blocks[n][300] ^ 1]) + blocks[n][301:]
    whole = [record for record, those in zip(full, log_reader.touched(full)) if not set(those) & set(bad)]
    compare_read("a full log with damage", b"".join(blocks), whole)

    for size in 1, 511, 513, BLOCK * BLOCKS_MAX + 1, BLOCK * BLOCKS_MAX + 511, BLOCK * BLOCKS_MAX + BLOCK:
        compare_read("%d zeros" % size, bytes(size), 22)
    compare_read("as many zeros as there can be", bytes(BLOCK * BLOCKS_MAX), [])
    print("log: a log of 65,536 blocks, written, read, damaged and read; what doesn't fit; files about the limit")


if len(sys.argv) < 6:
    sys.exit(__doc__)
count, seed, differed, logwrite, logread, start = int(sys.argv[1]), int(sys.argv[2]), *sys.argv[3:6], sys.argv[6:]
with tempfile.NamedTemporaryFile() as file:
    small_logs(random.Random(seed), count)
    the_limit(random.Random(seed))
