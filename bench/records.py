#!/usr/bin/env python3
"""Writes the walker's records for a text form: records.py FILE > RECORDS.

A line is one PDU, which becomes a record behind its length in two bytes, little-endian. A line that begins with `=` is a
record of the desk's or of both ends' (docs/PROGRAMS.md), whose bytes are written as they stand. A line has bytes in
hexadecimal, `71*1596` for a byte many times, 'text' for its bytes, and `#` before a remark.
"""
import re
import sys

for line in open(sys.argv[1]):
    pdu = b""
    for text, byte, times in re.findall(r"'([^']*)'|([0-9a-f]{2})(?:\*(\d+))?", line.split("#")[0]):
        pdu += bytes.fromhex(byte) * int(times or 1) if byte else text.encode()
    if not line.startswith("="):
        pdu = len(pdu).to_bytes(2, "little") + pdu
    sys.stdout.buffer.write(pdu)
