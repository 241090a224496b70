#!/usr/bin/env python3
"""early_check.py CRATE [--only PATH ..] [--kept [--source LIBRARY ..]] [--jobs N]: checks functions of a crate before the libraries below are proved.

    python3 tools/early_check.py zone_tool --only explain::words

`rt check` has to prove every library below a crate first, which takes an hour from nothing. This gives `rattle check` these libraries as
source, and so checks the functions of PATH, and those that they call, alone: a front end of two minutes for a crate near the top, and then
their proofs. Without --only it checks names, types and borrows, and no proof. PATH is a function, a type or a module, below the crate.

--kept takes those libraries as they are that the gate keeps on this machine, the newest of each, and so is faster, and does not check
functions of theirs; use it only where their sources are the ones that were proved, and name those that have changed with --source. Goals that are open are printed, as with
`rt check --allow-holes`. What is checked is kept in build/early. It gives no verdict: the gate does."""
import argparse
import json
import os
import shutil
import subprocess
import sys
from pathlib import Path

from crates import ROOT, lower, name_in, needs_of, processors

KIT = Path(os.path.realpath(shutil.which("rt") or "/opt/rattle/bin/rt")).parent.parent
STORE, PLACE = KIT.parent / "rattle-kept", ROOT / "build" / "early"
# The libraries of the toolchain that each crate uses.
ALWAYS = ["core", "std"]


def toolchain_needs():
    """The libraries of the toolchain that each crate names in crates.txt."""
    found = {}
    for line in (ROOT / "crates.txt").read_text().split("\n"):
        if name := name_in(line):
            found[name] = [it for it in line.partition(":")[2].split("#")[0].split() if it not in needs_of()]
    return found


def newest_kept(name):
    """The newest library of a crate that the gate keeps, as a folder of links in build/early, or None."""
    entries = sorted(STORE.glob(f"proof-{name}-*"), key=lambda it: it.stat().st_mtime)
    if not entries:
        return None
    to = PLACE / "rlib" / f"{name}.rlib"
    if os.path.dirname(os.path.realpath(to / "format")) == os.path.realpath(entries[-1]):
        # (another check may read it now)
        return to
    shutil.rmtree(to, ignore_errors=True)
    for number, (path, _) in enumerate(json.loads((entries[-1] / "made.json").read_text())["files"]):
        file = PLACE / path.replace(f"rlib/{name}.rlib", f"rlib/{name}.rlib", 1)
        file.parent.mkdir(parents=True, exist_ok=True)
        file.symlink_to(entries[-1] / str(number))
    return to


def words_for(crate, asked):
    """The words of `rattle check`."""
    needs, of_kit = needs_of(), toolchain_needs()
    below = sorted(lower(crate, needs), key=lambda it: len(lower(it, needs)))
    built = {}
    for it in below if asked.kept else ():
        if it not in asked.source and all(other in built for other in lower(it, needs)) and (found := newest_kept(it)):
            built[it] = found
    root = "src/main.rt" if (ROOT / "crates" / crate / "src/main.rt").is_file() else "src/lib.rt"
    words = ["--crate-name", crate, root, "--jobs", str(asked.jobs), "--incremental", str(PLACE / "work")]
    for it in sorted({*ALWAYS, *(lib for name in [crate, *below] for lib in of_kit[name])}):
        words += ["--extern", f"{it}={KIT}/rlibs/{it}.rlib"]
    words += ["-L", f"dependency={KIT}/rlibs", "-L", f"dependency={PLACE}/rlib"]
    for it in below:
        if it in built:
            words += ["--extern", f"{it}={built[it]}"]
        else:
            words += ["--lib", f"{it}:{','.join(dict.fromkeys([*ALWAYS, *of_kit[it], *needs[it]]))}={ROOT}/crates/{it}/src/lib.rt"]
    words += ["--antt-project", f"{KIT}/rattle/logic/antt-project.json", "--logic-built", f"{KIT}/logic_built", "--allow-holes"]
    return words + [word for path in asked.only or [""] for word in ("--only", path)]


def main():
    parser = argparse.ArgumentParser(description="Checks functions of a crate before the libraries below are proved.")
    parser.add_argument("crate")
    parser.add_argument("--only", nargs="+", metavar="PATH", help="functions, types or modules; none: names, types and borrows")
    parser.add_argument("--kept", action="store_true", help="libraries that the gate keeps are taken as they are")
    parser.add_argument("--source", nargs="+", default=[], metavar="LIBRARY", help="take these, and what is above them, as source all the same")
    parser.add_argument("--jobs", type=int, default=min(processors(), 2), metavar="N")
    asked = parser.parse_args()
    if asked.crate not in needs_of():
        parser.error(f"crates.txt names no crate {asked.crate}")
    PLACE.mkdir(parents=True, exist_ok=True)
    return subprocess.call([KIT / "bin/rattle", "check", *words_for(asked.crate, asked)], cwd=ROOT / "crates" / asked.crate)


if __name__ == "__main__":
    sys.exit(main())
