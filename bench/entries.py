#!/usr/bin/env python3
"""Times how the rows of zone files are read as entries, and how long texts are read that are no zone's.

It runs the proved program of `crates/zonewire_rows` (`python3 tools/build.py zonewire_rows` makes it, at
build/zonewire_rows) on one row for each kind of text: the text is repeated so many times, and its entries are counted, or the
octets of its records. For each it prints the processor time of one time. Each is run five times, and the fastest counts. Behind
that it prints the time an octet of texts of one long row, of many rows, or of what is never closed, once as long and then twice: it
has to stay the same."""
import argparse
import tempfile
from pathlib import Path
from urllib.parse import quote

from measure import run_once

RUNS = 5
TIMES = 200_000
KINDS = {
    "addresses": "a.example.com. 3600 IN A 192.0.2.1\n",
    "relative": "$ORIGIN example.com.\nwww 3600 IN CNAME web\n",
    "strings": 'a.example.com. 3600 IN TXT "some text" "and more \\" of it"\n',
    "rows": "a.example.com. IN SOA b.example.com. c.example.com. (\n 1 ; serial\n 2 3 4 5 )\n",
    "comments": "; a comment, and nothing else\n\n",
}
LONG = 1_000_000


def long_texts(octets):
    """Texts of about so many octets: one row of words, of parentheses, of a comment, of quotes and of one that stays open, empty
    rows, and origins."""
    return {
        "words": "x " * (octets // 2),
        "parentheses": "( ) " * (octets // 4),
        "comment": ";" * octets,
        "quotes": '"x" ' * (octets // 4),
        "open quote": '"' + "x" * octets,
        "empty rows": "\n" * octets,
        "origins": "$ORIGIN a.\n" * (octets // 11),
    }


def nanoseconds(program, call, text, times, folder):
    row, answer = folder / "row", folder / "answer"
    row.write_text(f"Zonefile::{call} {times} {quote(text, safe='$()/;:,=+!*')}\n")
    return min(run_once([program], row, answer, must_pass=True).seconds for _ in range(RUNS)) * 1e9 / times


def report_long(program, folder):
    print(f"once, ns an octet of\n  {'':<12}{LONG:10,}{2 * LONG:10,}")
    texts = [long_texts(LONG), long_texts(2 * LONG)]
    for kind in texts[0]:
        times = [nanoseconds(program, "count_octets", some[kind], 1, folder) / len(some[kind]) for some in texts]
        print(f"  {kind:<12}{times[0]:10.1f}{times[1]:10.1f}")


def main():
    parser = argparse.ArgumentParser(description=__doc__, formatter_class=argparse.RawDescriptionHelpFormatter)
    parser.add_argument("program", help="the proved program of zonewire_rows")
    parser.add_argument("times", nargs="?", type=int, default=TIMES, help="how many times each text")
    arguments = parser.parse_args()
    print(f"{arguments.times:,} times, ns\n  {'':<12}{'octets':>8}{'next_entry':>12}{'next_octets':>13}")
    with tempfile.TemporaryDirectory() as folder:
        for kind, text in KINDS.items():
            calls = ["count", "count_octets"]
            times = [nanoseconds(arguments.program, call, text, arguments.times, Path(folder)) for call in calls]
            print(f"  {kind:<12}{len(text):8}{times[0]:12.0f}{times[1]:13.0f}")
        report_long(arguments.program, Path(folder))


if __name__ == "__main__":
    main()
