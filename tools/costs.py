#!/usr/bin/env python3
"""costs.py [--top N] CRATE..: lists the functions of a crate by the processor seconds that their proofs cost.

It runs one check of the crate in one process, from nothing: `rattle check` with one job and no kept work, over the libraries below as
they were built (before it measures it has `rt check` build those that are not there or have changed). As a check ends with a function
it prints a line `checked NAME, K of N`. The processor time from one such line to the next, read from /proc, is the cost of the function
that the later line names. So

- a lemma file, or a definition, counts with the first function whose proof needs it;
- the start (reading the crate, loading the logic) counts with the first function, and both stand in one row, `(start, and ..)`;
- what is checked behind the last line, such as lemmas that nothing cites, stands in the row `(the end)`;
- the text of `specs/` and contracts counts with the first function over it.

One check without kept work forks no batches; where a line `so far:` shows that it did, the tool says so, and the figures say little. The
check writes nothing in the tree, and takes up to 4 GB for a large crate. The figures of several crates stand in one table at the end.
The exit status is 1 if a crate is not proved. Two runs differ by some percent, on a busy machine by more."""
import argparse
import os
import re
import subprocess
import sys
from dataclasses import dataclass
from pathlib import Path

from crates import ROOT, lower, name_in, needs_of

CHECKED = re.compile(r"^checked (\S+), \d+ of \d+$")
BATCH = "so far:"
END = "(the end)"
TICKS = os.sysconf("SC_CLK_TCK")


@dataclass(frozen=True)
class Cost:
    """The processor seconds of a function's proof."""

    crate: str
    function: str
    seconds: float


def kit():
    """The folder of the toolchain."""
    return Path(subprocess.run(["rt", "doc"], capture_output=True, text=True, check=True).stdout.strip()).parent


def named_by(crate):
    """All libraries that the line of a crate names, those of the toolchain too."""
    lines = (ROOT / "crates.txt").read_text().split("\n")
    return next(it.partition(":")[2].split() for it in lines if name_in(it) == crate)


def words_for(crate, needs):
    """The check of a crate in its folder."""
    tools, words = kit(), []
    for it in ["std", *named_by(crate)]:
        at = f"../{it}/out/rlib/{it}.rlib" if it in needs else f"{tools}/rlibs/{it}.rlib"
        words += ["--extern", f"{it}={at}"]
    for it in sorted(lower(crate, needs)):
        words += ["-L", f"dependency=../{it}/out/rlib"]
    words += ["-L", f"dependency={tools}/rlibs", "--antt-project", f"{tools}/rattle/logic/antt-project.json"]
    words += ["--logic-built", f"{tools}/logic_built", "--links", f"{crate}=", "--jobs", "1", "--progress"]
    root = "main" if (ROOT / "crates" / crate / "src/main.rt").is_file() else "lib"
    return [f"{tools}/bin/rattle", "check", "--crate-name", crate, f"src/{root}.rt", *words]


def build_below(crate):
    """Has `rt check` build the libraries below that are not there or have changed, and says what went wrong, or ''."""
    ran = subprocess.run(["rt", "check", "--only", ""], cwd=ROOT / "crates" / crate, capture_output=True, text=True)
    return ran.stdout + ran.stderr if ran.returncode else ""


def seconds_of(process, before):
    """The processor seconds of a process and of its children that have ended, or those that were read before it ended."""
    try:
        fields = Path(f"/proc/{process.pid}/stat").read_text().rpartition(")")[2].split()
    except OSError:
        return before
    # (the times of a process that has ended and was not waited for still stand there)
    return sum(int(it) for it in fields[11:15]) / TICKS


def costs_of(crate, needs):
    """The costs of a crate's functions in the order of the check, what went wrong, or '', and whether the crate is proved."""
    lack = build_below(crate)
    if lack:
        return [], f"{crate} was not checked:\n{lack}", False
    costs, said, before, has_batches = [], [], 0.0, False
    how = {"cwd": ROOT / "crates" / crate, "stdout": subprocess.PIPE, "stderr": subprocess.STDOUT, "text": True}
    with subprocess.Popen(words_for(crate, needs), **how) as check:
        for line in check.stdout:
            said.append(line)
            has_batches = has_batches or line.startswith(BATCH)
            found = CHECKED.match(line)
            if found:
                now = seconds_of(check, before)
                name = found[1] if costs else f"(start, and {found[1]})"
                costs.append(Cost(crate, name, now - before))
                before = now
        costs.append(Cost(crate, END, seconds_of(check, before) - before))
    if check.returncode:
        return costs, f"{crate} is not proved:\n" + "".join(said[-20:]), False
    return costs, f"{crate} was checked in batches, so the figures say little" if has_batches else "", True


def total(costs):
    return sum(it.seconds for it in costs)


def show(costs, top):
    """Prints the dearest functions, with their share of the whole, and the sum."""
    whole = total(costs)
    for it in sorted(costs, key=lambda it: -it.seconds)[:top]:
        name = it.function if it.crate in it.function else f"{it.crate}: {it.function}"
        print(f"{it.seconds:8.1f} {100 * it.seconds / max(whole, 0.01):5.1f}%  {name}")
    functions = sum(it.function != END for it in costs)
    print(f"{whole:8.1f} processor seconds, {functions} functions", flush=True)


def main():
    parser = argparse.ArgumentParser(description="Lists the functions of a crate by the processor seconds that their proofs cost.")
    parser.add_argument("--top", type=int, default=20, metavar="N", help="how many functions are listed")
    parser.add_argument("crates", nargs="+", metavar="CRATE")
    asked, needs, found, failed = parser.parse_args(), needs_of(), {}, False
    unknown = [it for it in asked.crates if it not in needs]
    if unknown:
        parser.error(f"crates.txt names no crate {unknown[0]}")
    for crate in asked.crates:
        found[crate], wrong, is_proved = costs_of(crate, needs)
        failed = failed or not is_proved
        print(f"{crate}:")
        show(found[crate], asked.top)
        print(wrong + "\n" if wrong else "", end="", flush=True)
    if len(found) > 1:
        print("all of these:")
        show([it for costs in found.values() for it in costs], asked.top)
        for crate in sorted(found, key=lambda it: -total(found[it])):
            print(f"{total(found[crate]):8.1f}  {crate}")
    return 1 if failed else 0


if __name__ == "__main__":
    sys.exit(main())
