#!/usr/bin/env python3
"""prove.py: runs the gate, `rt ci`, and says first how long that takes about.

The gate proves every crate, tries the edits that the prover must refuse, and runs the tests and programs as two compilers build them.

`rt ci` reckons with more memory for a proof than any proof here takes, and so leaves processors idle: 5 to 7.5 GB, where the largest takes
4.7. So this has it prove as many crates at once as there are processors, one processor for each, as far as memory allows. `RT_JOBS=N` before
the command sets another number. A proof that is killed for want of memory is run again, alone.

The exit status and the last line are those of `rt ci`."""
import os
import re
import sys
from pathlib import Path

from crates import processors

# Measured from nothing: the processor seconds of a whole run, and the minutes that its longest chain of crates takes at the least.
PROCESSOR_SECONDS, CHAIN = 30000, 110
# How much longer a run takes than if no processor ever waited, at the best and on a machine with other work.
LEAST, MOST = 1.05, 1.3
# The memory that the largest proof takes, in bytes, and where the machine says how much is free.
LARGEST, MEMORY = 4_700_000_000, Path("/proc/meminfo")


def at_once():
    """How many crates to prove at once: one on each processor, as far as the memory that is free holds them."""
    free = re.search(r"MemAvailable:\s+(\d+) kB", MEMORY.read_text()) if MEMORY.is_file() else None
    return max(1, min(processors(), 1024 * int(free[1]) // LARGEST)) if free else 1


def minutes(count):
    """How many minutes a run from nothing takes on so many processors, from and to, in tens."""
    ideal = max(PROCESSOR_SECONDS / 60 / count, CHAIN)
    return tuple(10 * round(ideal * it / 10) for it in (LEAST, MOST))


def main():
    count = processors()
    least, most = minutes(count)
    print(f"The gate takes {least} to {most} minutes on {count} processors from nothing, {PROCESSOR_SECONDS:,} processor seconds. A toolchain")
    print("that keeps what it has proved on this machine does not prove again what has not changed.", flush=True)
    os.environ.setdefault("RT_JOBS", str(at_once()))
    os.execvp("rt", ["rt", "ci"])


if __name__ == "__main__":
    sys.exit(main())
