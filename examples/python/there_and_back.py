#!/usr/bin/env python3
"""there_and_back.py FILE NAME: sends the zone of a file, receives it again piece by piece, and compares what was received with the file's
zone. Prints the number of records, and the zone."""
import sys
from pathlib import Path

import zonewire


def received(asking, pieces):
    """The zone of a stream that comes in pieces."""
    stream = b""
    for piece in pieces:
        stream += piece
        try:
            return zonewire.receive(asking, stream)
        except zonewire.Fault as fault:
            if fault.fault != zonewire.UNFINISHED:
                raise
    raise EOFError("the stream ends early")


def main():
    text, name = Path(sys.argv[1]).read_bytes(), sys.argv[2].encode()
    asking = zonewire.query(4660, name)
    stream = zonewire.send(text, asking, origin=name)
    again = received(asking, [stream[at : at + 100] for at in range(0, len(stream), 100)])
    if zonewire.canonical(again) != zonewire.canonical(text, origin=name):
        sys.exit("what is received is another zone")
    print(f"; {zonewire.count(text, origin=name)} records in {len(stream)} octets")
    sys.stdout.write(again.decode("ascii"))


if __name__ == "__main__":
    try:
        main()
    except zonewire.Fault as fault:
        sys.exit(f"there_and_back.py: {fault}")
