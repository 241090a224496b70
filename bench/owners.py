#!/usr/bin/env python3
"""Times how a zone's owners in order are appended to messages, with names in full and under each compressor.

It runs the proved program of `crates/dns_message_rows` (`python3 tools/build.py dns_message_rows` makes it, at
build/dns_message_rows) on one row for each: so many owners `host-00000000.example.com.` and on, each appended to a vector
that is emptied whenever it has more than 16,000 octets. For each it prints the processor time an owner, and how much of that
a compressor takes more than names in full. Each is run five times, and the fastest counts."""
import argparse
import tempfile
from pathlib import Path

from measure import run_once

RUNS = 5
OWNERS = 1_000_000
KINDS = ["plain", "static", "tree", "hash"]


def nanoseconds(program, kind, owners, folder):
    row, answer = folder / "row", folder / "answer"
    row.write_text(f"Compressor::append_owners {kind} {owners}\n")
    seconds = min(run_once([program], row, answer, must_pass=True).seconds for _ in range(RUNS))
    return seconds * 1e9 / owners, int(answer.read_text())


def main():
    parser = argparse.ArgumentParser(description=__doc__, formatter_class=argparse.RawDescriptionHelpFormatter)
    parser.add_argument("program", help="the proved program of dns_message_rows")
    parser.add_argument("owners", nargs="?", type=int, default=OWNERS, help="how many owners")
    arguments = parser.parse_args()
    print(f"{arguments.owners:,} owners\n  {'':<10}{'ns/owner':>10}{'more':>10}{'octets':>14}")
    with tempfile.TemporaryDirectory() as folder:
        in_full = None
        for kind in KINDS:
            time, octets = nanoseconds(arguments.program, kind, arguments.owners, Path(folder))
            in_full = time if in_full is None else in_full
            print(f"  {kind:<10}{time:10.0f}{time - in_full:10.0f}{octets:14,}")


if __name__ == "__main__":
    main()
