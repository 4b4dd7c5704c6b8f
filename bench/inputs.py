#!/usr/bin/env python3
"""The four inputs of the benchmark: PDUs, each after its length in two bytes, little-endian.

usage: inputs.py FOLDER    writes FOLDER/one, FOLDER/sixteen, FOLDER/small and FOLDER/churn
"""
import os
import sys

PDU_MAX = 1600
MESSAGE_MAX = 4096

CAPABILITIES = bytes.fromhex("50 00 02 00 00 00 00 00 00 00 00 00")


def create(number):
    return bytes([0x10, number]) + b"PUMP\0"


def data(number, block):
    return bytes([0x30, number]) + block


def close(number):
    return bytes([0x40, number])


def cut(number, message):
    """The PDUs of a message of over 1,590 bytes: a Data First and Datas, each as full as can be."""
    head = bytes([0x24, number]) + len(message).to_bytes(2, "little")
    room = PDU_MAX - len(head)
    pdus = [head + message[:room]]
    at = room
    while at < len(message):
        room = PDU_MAX - 2
        pdus.append(data(number, message[at : at + room]))
        at += room
    return pdus


def message(length, seed):
    return bytes((seed + 7 * i) % 251 for i in range(length))


def one():
    """Full blocks of 4,096-byte messages on one channel."""
    pdus = [CAPABILITIES, create(5)]
    for i in range(256):
        pdus += cut(5, message(MESSAGE_MAX, i))
    return pdus


def sixteen():
    """The same on sixteen channels, the blocks of all sixteen in turn."""
    pdus = [CAPABILITIES] + [create(n) for n in range(16)]
    for i in range(16):
        cuts = [cut(n, message(MESSAGE_MAX, i + n)) for n in range(16)]
        for blocks in zip(*cuts):
            pdus += blocks
    return pdus


def small():
    """Messages of 16 bytes on sixteen channels in turn."""
    pdus = [CAPABILITIES] + [create(n) for n in range(16)]
    for i in range(16384):
        pdus.append(data(i % 16, message(16, i)))
    return pdus


def churn():
    """Open, a message of 100 bytes, close, over and over."""
    pdus = [CAPABILITIES]
    for i in range(4096):
        pdus += [create(5), data(5, message(100, i)), close(5)]
    return pdus


def main():
    if len(sys.argv) != 2:
        sys.exit(__doc__)
    for make in (one, sixteen, small, churn):
        with open(os.path.join(sys.argv[1], make.__name__), "wb") as f:
            for pdu in make():
                f.write(len(pdu).to_bytes(2, "little") + pdu)


if __name__ == "__main__":
    main()
