#!/usr/bin/env python3
"""Times the proved program on zones of several sizes, and beside it the zone readers of other name servers.

For each size, on a plain zone and on a mixed one: processor time a record (user and system), octets of its input a second, and the
peak of its memory, for `send` (zone text to stream, names in full and with pointers), `receive` (such a stream to text), `check`, and
`canon` (zone text to its canonical octets). Of the others those that are installed read the same text, a plain one with one NS record
more, without which some take no zone. Times are also given as a ratio of that of `send` with names in full. Each is run three times,
and the fastest counts. A peak below some 20 MB is that of the measuring program itself. A star marks a reader that found a fault
in the zone, as a name server without an address. `libzscanner` is the scan of Knot's library alone, built from bench/libzscanner.c."""
import argparse
import filecmp
import os
import shutil
import subprocess
import sys
import tempfile
from dataclasses import dataclass
from pathlib import Path

import generate

RUNS = 3
SIZES = [10_000, 100_000, 1_000_000]
ZONE = generate.APEX.rstrip(".")
# In messages of at most so many octets each suffix of a name can be pointed to.
SENT_SMALLEST = ["send", "--spelling", "tree", "--max", "16384"]


@dataclass
class Run:
    seconds: float
    peak_octets: int
    passed: bool


def run_once(words, stdin, stdout, must_pass):
    """One run of a program: its processor time, the peak of its memory, and whether it passed. One that has to ends the benchmark."""
    with open(stdin, "rb") as source, open(stdout, "wb") as sink:
        child = subprocess.Popen(words, stdin=source, stdout=sink, stderr=subprocess.PIPE)
        said = child.stderr.read()
        _, status, usage = os.wait4(child.pid, 0)
        child.returncode = os.waitstatus_to_exitcode(status)
    if must_pass and child.returncode != 0:
        sys.exit(f"{' '.join(words)}: status {child.returncode}: {said.decode(errors='replace')}")
    return Run(usage.ru_utime + usage.ru_stime, usage.ru_maxrss * 1024, child.returncode == 0)


def fastest(words, stdin, stdout, must_pass=True):
    return min((run_once(words, stdin, stdout, must_pass) for _ in range(RUNS)), key=lambda run: run.seconds)


def peers(text):
    """The command of each other zone reader on the zone's text, and the Debian packages that it takes."""
    return {
        "libzscanner": ([text, generate.APEX], "gcc, libknot-dev"),
        "kzonecheck": (["-o", ZONE, text], "knot-dnssecutils"),
        "nsd-checkzone": ([ZONE, text], "nsd"),
        "named-compilezone": (["-q", "-i", "none", "-o", os.devnull, ZONE, text], "bind9-utils"),
        "ldns-read-zone": (["-n", text], "ldnsutils"),
    }


# Where the scan of libzscanner is built.
BUILT = tempfile.TemporaryDirectory()


def build_scan():
    """Builds the scan of libzscanner, where a C compiler and the library are installed."""
    source, program = Path(__file__).with_name("libzscanner.c"), f"{BUILT.name}/libzscanner"
    if shutil.which("cc"):
        subprocess.run(["cc", "-O2", "-o", program, source, "-lzscanner"], stderr=subprocess.DEVNULL, check=False)


def find(name):
    """Where a program is built or installed, or nothing. Some lie where only root's PATH leads."""
    return shutil.which(name, path=f"{BUILT.name}:{os.environ.get('PATH', os.defpath)}:/usr/sbin:/sbin")


def report_missing():
    missing = [f"{name} (Debian: {package})" for name, (_, package) in peers("").items() if not find(name)]
    if missing:
        print(f"Not installed, so not measured: {', '.join(missing)}.")


def report(name, run, records, octets, ratio=None):
    ratio = "" if ratio is None else f"{ratio:8.2f}"
    print(f"  {name:<18}{run.seconds * 1e9 / records:10.0f}{octets / run.seconds / 1e6:10.1f}{run.peak_octets / 1e6:10.1f}{ratio}")


def report_runs(records, runs, text):
    """Reports the runs, and those of the others on the text. The first of the runs is what the others are held against."""
    print(f"  {'':<18}{'ns/record':>10}{'MB/s':>10}{'peak MB':>10}{'ratio':>8}")
    for name, (run, read) in runs.items():
        report(name, run, records, read, run.seconds / next(iter(runs.values()))[0].seconds)
    for name, (words, _) in peers(str(text)).items():
        if find(name):
            run = fastest([find(name), *words], os.devnull, os.devnull, must_pass=False)
            report(name if run.passed else f"{name} (*)", run, records, text.stat().st_size, run.seconds / next(iter(runs.values()))[0].seconds)


def measure_plain(program, records, folder):
    text, stream, small, again, with_server = (folder / name for name in ("zone", "stream", "small", "again", "with_server"))
    with open(text, "w") as out:
        generate.write_zone(out, records)
    with open(with_server, "w") as out:
        generate.write_zone(out, records)
        out.write(generate.name_server())
    octets = text.stat().st_size
    sent = fastest([program, "send", "--spelling", "plain"], text, stream)
    compressed = fastest([program, *SENT_SMALLEST], text, small)
    received = fastest([program, "receive", "--apex", generate.APEX], stream, again)
    if not filecmp.cmp(text, again, shallow=False):
        sys.exit("the text that was received is not the text that was sent")
    print(f"{records:,} address records, {octets / 1e6:.1f} MB of text, {stream.stat().st_size / 1e6:.1f} MB of stream, with pointers {small.stat().st_size / 1e6:.1f}")
    runs = {
        "zonewire send": (sent, octets),
        "with pointers": (compressed, octets),
        "zonewire receive": (received, stream.stat().st_size),
        "zonewire check": (fastest([program, "check"], text, os.devnull), octets),
        "zonewire canon": (fastest([program, "canon"], text, os.devnull), octets),
    }
    report_runs(records, runs, with_server)


def measure_mixed(program, records, folder):
    text, stream, small = (folder / name for name in ("mixed", "stream", "small"))
    with open(text, "w") as out:
        generate.write_mixed_zone(out, records)
    octets = text.stat().st_size
    sent = fastest([program, "send", "--spelling", "plain"], text, stream)
    compressed = fastest([program, *SENT_SMALLEST], text, small)
    print(f"{records:,} mixed records, {octets / 1e6:.1f} MB of text, {stream.stat().st_size / 1e6:.1f} MB of stream, with pointers {small.stat().st_size / 1e6:.1f}")
    receive = [program, "receive", "--apex", generate.APEX]
    runs = {
        "zonewire send": (sent, octets),
        "with pointers": (compressed, octets),
        "zonewire receive": (fastest(receive, stream, os.devnull), stream.stat().st_size),
        "pointers received": (fastest(receive, small, os.devnull), small.stat().st_size),
        "zonewire check": (fastest([program, "check"], text, os.devnull), octets),
        "zonewire canon": (fastest([program, "canon"], text, os.devnull), octets),
    }
    report_runs(records, runs, text)


def main():
    parser = argparse.ArgumentParser(description=__doc__, formatter_class=argparse.RawDescriptionHelpFormatter)
    parser.add_argument("program", help="the proved program")
    parser.add_argument("records", nargs="*", type=int, default=SIZES, help="sizes of the zones")
    arguments = parser.parse_args()
    build_scan()
    report_missing()
    with tempfile.TemporaryDirectory() as folder:
        for records in arguments.records:
            measure_plain(arguments.program, records, Path(folder))
            measure_mixed(arguments.program, records, Path(folder))


if __name__ == "__main__":
    main()
