#!/usr/bin/env python3
"""A link that drops, between a panel and a desk on the loopback.

usage: relay.py DESK-PORT WHERE

Prints its own port, which the panel connects to, and carries PDUs both ways, each behind its length in two bytes. The first
connection is cut: where WHERE is `message` right behind the first block of data that goes to the panel, where it is `answer`
in front of the first that goes to the desk, and where it is `never` not at all. The next ones are carried to their end.
"""
import select
import socket
import sys

PATIENCE = 10


def whole(held):
    """The first record of the bytes held, or None."""
    if len(held) < 2 or len(held) < 2 + int.from_bytes(held[:2], "little"):
        return None
    return held[: 2 + int.from_bytes(held[:2], "little")]


def is_data(record):
    return len(record) > 2 and record[2] >> 4 in (2, 3)


def carry(panel, desk, where):
    """Carries records until one side ends. True if the link was cut."""
    other = {panel: desk, desk: panel}
    held = {panel: b"", desk: b""}
    while True:
        ready, _, _ = select.select([panel, desk], [], [], PATIENCE)
        if not ready:
            sys.exit("relay: nobody talks")
        for side in ready:
            came = side.recv(65536)
            if not came:
                return False
            held[side] += came
            while (record := whole(held[side])) is not None:
                held[side] = held[side][len(record) :]
                if where == "answer" and side is panel and is_data(record):
                    return True
                other[side].sendall(record)
                if where == "message" and side is desk and is_data(record):
                    return True


def main():
    if len(sys.argv) != 3 or sys.argv[2] not in ("message", "answer", "never"):
        sys.exit(__doc__)
    where = sys.argv[2]
    with socket.create_server(("127.0.0.1", 0)) as listener:
        listener.settimeout(PATIENCE)
        print(listener.getsockname()[1], flush=True)
        while True:
            panel, _ = listener.accept()
            with panel, socket.create_connection(("127.0.0.1", int(sys.argv[1])), PATIENCE) as desk:
                if not carry(panel, desk, where):
                    return
            where = "never"


if __name__ == "__main__":
    main()
