"""The link log as the request tells it, written plainly: the whole file in memory, one byte after the other.

A record is ("pdu", bytes) or ("close", number). Beside the lines stand the request's words, in quotes; `settled` where they
could be read two ways.

    blocks_of(records)   the written log, a list of blocks
    touched(records)     for each record the numbers of the blocks that it touches
    bad_blocks(file)     the numbers of the blocks that are bad, of a file of whole blocks
    read(file)           the records that reading gives, or 22
"""

BLOCK = 512  # "a log of 512-byte blocks"
PAYLOAD = 504
BLOCKS_MAX = 65536  # "At most 65,536 blocks"
NONE = 65535
PDU_MAX = 1601
CLOSE = 65535


def two(value):
    return value.to_bytes(2, "little")


def number_at(block, at):
    return int.from_bytes(block[at : at + 2], "little")


# ---- blocks


# "The check is the Internet checksum of RFC 1071 over the block with the check field as 0, words and check low byte first."
def check_of(block):
    block = block[:6] + b"\0\0" + block[8:]
    total = 0
    for at in range(0, BLOCK, 2):
        total += block[at] + 256 * block[at + 1]
        if total > 65535:
            total -= 65535  # the carry is brought round
    return 65535 - total


def block_of(number, payload, place):
    block = two(number)  # "two bytes block number from 0,"
    block += two(len(payload))  # "two bytes of payload used (0 to 504),"
    block += two(place)  # "two bytes place in the payload where the first record begins or 65,535 for none,"
    block += b"\0\0"  # "two bytes check,"
    block += payload + bytes(PAYLOAD - len(payload))  # "then 504 payload bytes, unused ones zero."
    return checked(block)


def checked(block):
    """The block with its check made right."""
    return block[:6] + two(check_of(block)) + block[8:]


# "A block is bad if its check, number, used count, unused bytes or place (below the used count, or 65,535) break this."
def is_bad(block, number, is_last):
    used = number_at(block, 2)
    place = number_at(block, 4)
    if number_at(block, 6) != check_of(block):  # settled: "The stored check must equal the computed one"
        return True
    if number_at(block, 0) != number:
        return True
    if used > PAYLOAD:
        return True
    if used < PAYLOAD and not is_last:  # "only the last block may be partly used"
        return True
    if any(block[8 + used :]):
        return True
    return not (place < used or place == NONE)


def cut(file):
    return [file[at : at + BLOCK] for at in range(0, len(file), BLOCK)]


def bad_blocks(file):
    blocks = cut(file)
    return [number for number, block in enumerate(blocks) if is_bad(block, number, number == len(blocks) - 1)]


# ---- writing


def bytes_of(record):
    kind, what = record
    if kind == "close":
        return two(CLOSE) + what.to_bytes(4, "little")  # "a local close is logged as length 65,535 and the number in four bytes"
    pdu = what[:PDU_MAX]  # "longer ones cut to 1,601 bytes"
    return two(len(pdu)) + pdu  # "A record is a two-byte length (0 to 1,601) and the PDU"


def begins_of(records):
    """Where each record begins in the bytes of all, and where the last one ends."""
    begins = [0]
    for record in records:
        begins.append(begins[-1] + len(bytes_of(record)))
    return begins


def blocks_of(records):
    stream = b"".join(bytes_of(record) for record in records)
    places = {}  # of the blocks in which a record begins
    for begin in begins_of(records)[:-1]:
        places.setdefault(begin // PAYLOAD, begin % PAYLOAD)
    blocks = []
    for at in range(0, len(stream), PAYLOAD):  # "A record may run over block ends; only the last block may be partly used."
        number = len(blocks)
        blocks.append(block_of(number, stream[at : at + PAYLOAD], places.get(number, NONE)))
    return blocks


def touched(records):
    begins = begins_of(records)
    return [range(begin // PAYLOAD, (end - 1) // PAYLOAD + 1) for begin, end in zip(begins, begins[1:])]


# ---- reading


def read(file):
    if len(file) % BLOCK or len(file) > BLOCKS_MAX * BLOCK:
        return 22  # "22, file not whole blocks or more than 65,536."
    blocks = cut(file)
    records = []
    seeking = True  # settled: "Reading begins as after damage"
    record = b""  # what there is of the record being read
    for number, block in enumerate(blocks):
        at = 0
        if is_bad(block, number, number == len(blocks) - 1):
            seeking = True  # "after a bad block, or a length that no record has,"
            continue
        if seeking:
            at = number_at(block, 4)
            if at == NONE:
                continue  # "it goes on at the next block not yet read with a record beginning"
            seeking = False
            record = b""
        for byte in block[8 + at : 8 + number_at(block, 2)]:
            record += bytes([byte])
            if len(record) < 2:
                continue
            length = number_at(record, 0)
            if length == CLOSE:
                if len(record) == 6:
                    records.append(("close", int.from_bytes(record[2:], "little")))
                    record = b""
            elif length > PDU_MAX:
                seeking = True  # settled: goes on in "the block after the one that holds the length's last byte"
                break
            elif len(record) == 2 + length:
                records.append(("pdu", record[2:]))
                record = b""
    return records  # "a record unfinished at the end isn't given"
