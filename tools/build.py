#!/usr/bin/env python3
"""build.py [CRATE..]: builds the proved programs, at build/zonewire and build/zonetool; or those of other crates, at build/CRATE.

Programs are built by the gate, since only what is proved is built: `rt ci` runs in a copy of the crates that the programs
use, without the crates of tests and the edits that must fail. It counts the crates as the gate is done with each. Where the
toolchain keeps what its gate has proved, a build that was stopped goes on from there. The exit status is 1 if the gate refuses
the copy; what was in build/ is then as it was."""
import os
import re
import shutil
import subprocess
import sys
import tempfile
from pathlib import Path

from crates import ROOT, lines_for, lower, needs_of

# The programs that are built if no crate is named, and how they are called.
NAMES = {"zone_main": "zonewire", "tool_main": "zonetool"}
# What the gate says of a crate that it has proved, in this run or an earlier one.
DONE = re.compile(r"rt: (\w+) (proved|is kept: .*)\n")


def copy_to(room, programs):
    """Makes the lean copy, and returns how many crates it has."""
    needs = needs_of()
    wanted = {it for program in programs for it in (program, *lower(program, needs))}
    for name in wanted:
        shutil.copytree(ROOT / "crates" / name, room / "crates" / name, ignore=shutil.ignore_patterns("out", "must-fail"))
    (room / "crates.txt").write_text(lines_for(wanted))
    shutil.copy(ROOT / "HANDLES", room)
    return len(wanted)


def run_gate(room, count):
    """Runs the gate in the copy, and shows how far it is: how many of its crates are done, and each other line that the gate
    says to its reader. Returns whether all passed."""
    gate = subprocess.Popen(["rt", "ci"], cwd=room, stdout=subprocess.PIPE, stderr=subprocess.STDOUT, text=True)
    said, done = [], 0
    for line in gate.stdout:
        said.append(line)
        crate = DONE.fullmatch(line)
        if crate:
            done += 1
            print(f"  {done} of {count} crates: {crate[1]} {'proved' if crate[2] == 'proved' else 'was proved before'}", flush=True)
        elif line.startswith("rt: "):
            print("  " + line, end="", flush=True)
    if gate.wait() != 0:
        print("".join(said), file=sys.stderr)
    return gate.returncode == 0


def main():
    programs = sys.argv[1:] or list(NAMES)
    with tempfile.TemporaryDirectory(prefix="zonewire-") as name:
        room = Path(name)
        count = copy_to(room, programs)
        named = " and ".join(NAMES.get(it, it) for it in programs)
        print(f"The gate builds {named} from {count} crates, and proves each of them first: an hour or more from nothing.")
        print("A toolchain that keeps what it has proved on this machine goes on from there: if you stop it, and after `make prove`.", flush=True)
        if not run_gate(room, count):
            return 1
        for program in programs:
            to = ROOT / "build" / NAMES.get(program, program)
            to.parent.mkdir(exist_ok=True)
            shutil.copy(room / "crates" / program / "out" / program, to.with_suffix(".new"))
            os.replace(to.with_suffix(".new"), to)
    return 0


if __name__ == "__main__":
    sys.exit(main())
