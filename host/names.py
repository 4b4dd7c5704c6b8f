#!/usr/bin/env python3
"""Listener names as python3's codecs have them.

names.py table FILE                   compares the published table of a file with the codec cp1252
names.py vectors SEED                 writes the vectors of test_names.c
names.py viewer SEED PROGRAM [ARG ..] compares the viewer, both ways
"""
import itertools
import random
import struct
import subprocess
import sys

LIST_MAX = 512
TEXT_MAX = 65536
NO_RESULT = 65535

# Bytes at both ends of each range of the standard's table of byte ranges, and next to them.
ABOUT = bytes.fromhex("00 0a 41 7f 80 8f 90 9f a0 bf c0 c1 c2 df e0 e1 ec ed ee ef f0 f1 f3 f4 f5 ff")


def to_utf8(name):
    try:
        return name.decode("cp1252").encode()
    except UnicodeDecodeError:
        return None


def from_utf8(text):
    try:
        return text.decode().encode("cp1252")
    except UnicodeError:
        return None


def spelled(point):
    """A code point as text, a surrogate too, which isn't well formed."""
    return chr(point).encode(errors="surrogatepass")


def beyond(point):
    """A number over 10FFFF in the form that code points of four bytes have."""
    return bytes([0xF0 | point >> 18, 0x80 | point >> 12 & 63, 0x80 | point >> 6 & 63, 0x80 | point & 63])


def overlong(point, width):
    tail = bytes(0x80 | point >> 6 * k & 63 for k in reversed(range(width - 1)))
    return bytes([(0xF00 >> width & 0xFF) | point >> 6 * (width - 1)]) + tail


# ---- the published table


def table(path):
    expected = []
    for byte in range(256):
        text = to_utf8(bytes([byte]))
        expected.append("%02X %s\n" % (byte, "undefined" if text is None else "%04X" % ord(text.decode())))
    lines = open(path).readlines()
    if lines != expected:
        at = next((k for k, (a, b) in enumerate(zip(lines, expected), 1) if a != b), "(one ends before)")
        sys.exit("host/names: %s: differs from python3's cp1252 at line %s" % (path, at))
    print("names: the 256 lines of the published table are python3's cp1252")


# ---- vectors


def texts(r):
    for point in range(0x110000):
        yield spelled(point)
    for point in itertools.chain(range(0x110000, 0x200000, 997), (0x110000, 0x13FFFF, 0x140000, 0x1FFFFF)):
        yield beyond(point)
    for point in itertools.chain(range(0x800), range(0x800, 0x10000, 61)):
        for width in range(2 if point < 0x80 else 3 if point < 0x800 else 4, 5):
            yield overlong(point, width)
    for pair in itertools.product(range(256), repeat=2):
        yield bytes(pair)
    for width in 0, 1, 3, 4:
        for some in itertools.product(ABOUT, repeat=width):
            yield bytes(some)
    for _ in range(3000):
        text = bytearray(well_formed(r, r.randrange(1, 300)))
        yield bytes(text)
        yield bytes(text[: r.randrange(len(text))])
        text[r.randrange(len(text))] = r.randrange(256)
        yield bytes(text)


def names(r):
    for byte in range(256):
        yield bytes([byte])
    for pair in itertools.product(range(256), repeat=2):
        yield bytes(pair)
    for length in itertools.chain(range(0, 600), (4096, 21844)):
        yield bytes(r.choice(BYTES) for _ in range(length))
        yield b"\x80" * length
        if length:
            yield b"\x80" * (length - 1) + b"\x81"
            yield b"\x81" + b"A" * (length - 1)


BYTES = [b for b in range(256) if to_utf8(bytes([b])) is not None]


def well_formed(r, length):
    return bytes(r.choice(BYTES) for _ in range(length)).decode("cp1252").encode()


def vectors(seed):
    r = random.Random(seed)
    out = sys.stdout.buffer
    for direction, inputs, convert in (0, names(r), to_utf8), (1, texts(r), from_utf8):
        for given in inputs:
            result = convert(given)
            out.write(struct.pack("<BHH", direction, len(given), NO_RESULT if result is None else len(result)))
            out.write(given + (result or b""))


# ---- the viewer


def run(program, word, given):
    done = subprocess.run(program + [word], input=given, stdout=subprocess.PIPE, stderr=subprocess.PIPE, check=True)
    return done.stdout, done.stderr


def shown(given):
    """What `viewer utf8` prints, or None where it says that the list is outside its rule."""
    names = given.split(b"\0")
    if len(given) > LIST_MAX or names.pop() != b"" or b"" in names:
        return None
    return b"".join((b"refused 19" if to_utf8(name) is None else to_utf8(name)) + b"\n" for name in names)


def verdict(line):
    if line == b"":
        return "it is empty"
    if b"\0" in line:
        return "it has a zero byte"
    return None if from_utf8(line) is not None else "refused 19"


def gathered(given):
    """What `viewer 1252` writes, and what it says; None where the text is too long."""
    if len(given) > TEXT_MAX:
        return None
    lines = given.split(b"\n")
    if lines[-1] == b"":
        lines.pop()
    said = [(k, verdict(line)) for k, line in enumerate(lines, 1)]
    kept = b"".join(from_utf8(line) + b"\0" for line, (_, why) in zip(lines, said) if why is None)
    return kept, "".join("viewer: line %d is left out: %s\n" % (k, why) for k, why in said if why).encode()


def compare_list(program, given):
    expected = shown(given)
    printed, said = run(program, "utf8", given)
    if expected is None:
        good = printed == b"" and said.startswith(b"viewer: no listener list") and said.count(b"\n") == 1
    else:
        good = (printed, said) == (expected, b"")
    if not good:
        sys.exit("host/names: viewer utf8: differs for the list %s" % given[:600].hex())


def compare_lines(program, given):
    expected = gathered(given)
    printed, said = run(program, "1252", given)
    if expected is None:
        good = printed == b"" and said == b"viewer: the lines have more than 65,536 bytes\n"
    else:
        good = (printed, said) == expected
    if not good:
        sys.exit("host/names: viewer 1252: differs for the lines that begin with %s" % given[:600].hex())


def a_list(r):
    names = [bytes(r.choice(BYTES + [0x81, 0x9D]) or 1 for _ in range(r.choice([1, 1, 2, 5, 20, 60]))) for _ in range(r.randrange(20))]
    given = bytearray(b"".join(name + b"\0" for name in names))
    if given and r.random() < 0.2:
        given[r.randrange(len(given))] = 0
    if r.random() < 0.1:
        del given[-1:]
    return bytes(given)


def some_lines(r):
    lines = [well_formed(r, r.randrange(12)).replace(b"\n", b"") for _ in range(r.randrange(40))]
    given = bytearray(b"\n".join(lines))
    for _ in range(r.randrange(4)):
        if given:
            given[r.randrange(len(given))] = r.choice(ABOUT)
    return bytes(given) + r.choice([b"", b"\n", b"\n\n"])


def every_point():
    """Every code point as a line of its own, in texts that are short enough."""
    text = b""
    for point in range(0x110000):
        line = spelled(point) + b"\n"
        if len(text) + len(line) > TEXT_MAX:
            yield text
            text = b""
        text += line
    yield text


def viewer(seed, program):
    r = random.Random(seed)
    lists = [a_list(r) for _ in range(300)] + [bytes([b, 0]) for b in range(256)]
    lists += [bytes(r.choice(BYTES) or 1 for _ in range(n)) + b"\0" for n in range(LIST_MAX - 12, LIST_MAX + 8)]
    lines = [some_lines(r) for _ in range(300)] + list(every_point())
    lines += [b"x" * n for n in range(TEXT_MAX - 2, TEXT_MAX + 3)] + [b"\n" * TEXT_MAX, b"A\n" * (TEXT_MAX // 2), b"A\n" * (TEXT_MAX // 2) + b"A"]
    for given in lists:
        compare_list(program, given)
    for given in lines:
        compare_lines(program, given)
    print("names: the viewer on %d lists and %d texts, every byte and every code point among them, as python3's codecs say" % (len(lists), len(lines)))


what, arguments = sys.argv[1], sys.argv[2:]
if what == "table":
    table(arguments[0])
elif what == "vectors":
    vectors(int(arguments[0]))
else:
    viewer(int(arguments[0]), arguments[1:])
