#!/usr/bin/env python3
"""prove_parts.py [--kinds KIND ..] [--lanes N] [--crates CRATE ..]: runs parts of the gate, and keeps what passed.

`rt ci` of some toolchains takes no names and keeps nothing: each run proves every crate from nothing. This runs the same parts by the same
functions, which it loads from `rt`: the proof of each of these crates (none: all) and of those below, as `proof`; their test functions, as
`tests`; their must-fail edits, as `edits`. A program is run as both compilers build it. In crates/NAME/out, beside what a part has built, it
keeps a mark made of all sources that the part read, and passes over a part whose mark is that of the sources as they stand. So after a
change only what reads the changed sources is proved again.

The proofs with the longest chain of others above them come first, and get the processors that no other part waits for. Run it in a
clone of its own, since `rt check` builds in the same folders. A line tells of each part as it ends; what it said is in build/parts. The table
at the end has all parts of these crates, those that were kept too, and the longest chain of proofs. The exit status is 1 if a part
failed. It gives no verdict: the gate, `make prove`, does."""
import argparse
import copy
import functools
import hashlib
import importlib.machinery
import importlib.util
import json
import os
import resource
import shutil
import sys
import time
from concurrent.futures import FIRST_COMPLETED, ThreadPoolExecutor, wait
from dataclasses import asdict, dataclass
from pathlib import Path

from crates import ROOT, processors

KINDS = ("proof", "tests", "edits")
SAID = ROOT / "build" / "parts"
MOST_JOBS = 4


@dataclass(frozen=True)
class Cost:
    """What a part took, and the mark of what it read. Seconds; MB of its largest process."""

    mark: str
    processor: float
    wall: float
    jobs: int
    peak: int


def load_gate():
    """The toolchain's `rt` as a module, set as `rt ci` sets itself."""
    path = os.path.realpath(shutil.which("rt"))
    loader = importlib.machinery.SourceFileLoader("gate_of_rt", path)
    gate = importlib.util.module_from_spec(importlib.util.spec_from_loader("gate_of_rt", loader))
    sys.modules["gate_of_rt"] = gate
    loader.exec_module(gate)
    gate.rtlib.stop = gate.stop
    gate.Crate.cuts_libraries = True
    for it in (gate.rtlib.ALLOW_C, gate.rtlib.BACKEND, "RT_SECONDS"):
        os.environ.pop(it, None)
    gate.rtlib.guarded()
    gate.Crate.allowed = gate.handles_of(str(ROOT))
    gate.rtlib.Crate = gate.Crate
    # (by itself it reads a crate again on each way down to it, which takes minutes for the highest crates)
    gate.Crate.stamp = functools.cache(gate.Crate.stamp)
    return gate


def files_of(crate, kind):
    """The files that a part of the crate reads."""
    for at, folders, names in os.walk(crate.folder):
        folders[:] = sorted(it for it in folders if it != "out" and (it != "must-fail" or kind == "edits"))
        yield from (Path(at, it) for it in sorted(names))


def mark_of(crate, kind):
    """A digest of the sources of the crate and of all below it."""
    found = hashlib.sha256()
    for it in [*sorted(crate.below(), key=lambda below: below.name), crate]:
        for path in files_of(it, kind if it is crate else "proof"):
            if it is crate or path.suffix in (".rt", ".antt"):
                found.update(str(path.relative_to(ROOT)).encode() + b"\0" + path.read_bytes() + b"\0")
    return found.hexdigest()


def kept(crate, kind):
    """What the part took when it passed over these sources, or None."""
    path = Path(crate.folder, "out", f"part-{kind}")
    cost = Cost(**json.loads(path.read_text())) if path.is_file() else None
    return cost if cost and cost.mark == mark_of(crate, kind) else None


def passes(gate, crate, kind, jobs):
    """Runs a part in this process, and returns whether it passed."""
    if kind == "edits":
        good, bad = gate.edits_of(crate)
        tried = gate.must_fail_all(crate, good, ["--jobs", "1"])
        print("\n".join(text for _, text in tried))
        return not bad and all(refused for refused, _ in tried)
    tests = kind == "tests"
    gate.read_files(crate)
    if crate.ci(["--jobs", str(jobs)], tests):
        return False
    made = f"{crate.folder}/out/{crate.name}{'_tests' if tests else ''}"
    return all([gate.run(crate, tests, it) for it in gate.BACKENDS.values() if (tests or crate.is_program) and os.path.isfile(made + it)])


def run_part(gate, crate, kind, jobs):
    """Runs a part in a process of its own, keeps its mark if it passed, and returns what it took, or None."""
    crate, began, mark = copy.copy(crate), time.time(), mark_of(crate, kind)
    out = Path(crate.folder, "out")
    out.mkdir(exist_ok=True)
    (out / f"part-{kind}").unlink(missing_ok=True)
    child = os.fork()
    if not child:
        status = 1
        try:
            with open(SAID / f"{crate.name}-{kind}", "w+") as crate.out:
                os.dup2(crate.out.fileno(), 1)
                os.dup2(crate.out.fileno(), 2)
                status = not passes(gate, crate, kind, jobs)
                sys.stdout.flush()
            took = resource.getrusage(resource.RUSAGE_CHILDREN)
            cost = Cost(mark, round(took.ru_utime + took.ru_stime), round(time.time() - began), jobs, took.ru_maxrss // 1024)
            (out / f"took-{kind}").write_text(json.dumps(asdict(cost)))
        finally:
            os._exit(int(status))
    if os.waitpid(child, 0)[1] or mark_of(crate, kind) != mark:
        return None
    (out / f"took-{kind}").rename(out / f"part-{kind}")
    return Cost(**json.loads((out / f"part-{kind}").read_text()))


def behind(tasks, sizes):
    """The size of the longest chain of tasks that begins with each."""
    found = {key: sizes[key] for key in tasks}
    for key in reversed([*tasks]):
        for below in tasks[key]:
            if below in found:
                found[below] = max(found[below], sizes[below] + found[key])
    return found


def in_lanes(tasks, sizes, lanes, ended, call):
    """Runs tasks, each once those it waits for have ended well, and adds to `ended` what each gave."""
    order = behind(tasks, sizes)
    left, running = sorted(tasks, key=lambda key: -order[key]), {}
    with ThreadPoolExecutor(lanes) as pool:
        while True:
            ready = [key for key in left if all(ended.get(below) for below in tasks[key])]
            for at, key in enumerate(ready):
                idle = lanes - sum(jobs for _, jobs in running.values())
                if idle > 0:
                    left.remove(key)
                    jobs = min(MOST_JOBS, max(1, idle // (len(ready) - at))) if key[1] == "proof" else 1
                    running[pool.submit(call, key, jobs)] = key, jobs
            if not running:
                return left
            for it in wait(running, return_when=FIRST_COMPLETED).done:
                ended[running.pop(it)[0]] = it.result()


def show(crates, names, costs):
    """Prints what each part of these crates took, the sums, and the longest chain of proofs."""
    print(f"\n{'crate':24}{'part':8}{'processor s':>12}{'wall s':>8}{'jobs':>6}{'MB':>7}")
    for (name, kind), it in costs.items():
        print(f"{name:24}{kind:8}{it.processor:12}{it.wall:8}{it.jobs:6}{it.peak:7}")
    for kind in KINDS:
        print(f"{kind}: {sum(it.processor for (_, of), it in costs.items() if of == kind)} processor seconds")
    chains = {}
    for crate in crates:
        if (crate.name, "proof") in costs:
            longest = max((chains[it.name] for it in crate.below() if it.name in chains), default=(0, []))
            chains[crate.name] = longest[0] + costs[crate.name, "proof"].wall, [*longest[1], crate.name]
    seconds, chain = max((chains[it] for it in names if it in chains), default=(0, []))
    print(f"The longest chain of proofs took {seconds} seconds: {' '.join(chain)}")


def main():
    parser = argparse.ArgumentParser(description="Runs parts of the gate, and keeps what passed.")
    parser.add_argument("--kinds", nargs="+", choices=KINDS, default=list(KINDS), help="which parts are run")
    parser.add_argument("--lanes", type=int, default=processors(), metavar="N", help="how many processors are used")
    parser.add_argument("--crates", nargs="+", default=[], metavar="CRATE", help="none: all")
    asked = parser.parse_args()
    os.chdir(ROOT)
    SAID.mkdir(parents=True, exist_ok=True)
    gate = load_gate()
    crates = sorted(gate.rtlib.crates_below(str(ROOT)), key=lambda it: len(it.below()))
    by_name = {it.name: it for it in crates}
    if unknown := [it for it in asked.crates if it not in by_name]:
        parser.error(f"crates.txt names no crate {unknown[0]}")
    names = asked.crates or [*by_name]
    wanted = {it.name for name in names for it in [by_name[name], *by_name[name].below()]}
    tasks, ended = {}, {}
    for crate in crates:
        has = {"proof": crate.name in wanted, "tests": crate.name in names and crate.has_tests(), "edits": crate.name in names and gate.edits_of(crate)[0]}
        for kind in KINDS:
            if not has[kind]:
                continue
            if cost := kept(crate, kind):
                ended[crate.name, kind] = cost
            elif kind in asked.kinds:
                tasks[crate.name, kind] = [(it.name, "proof") for it in crate.below()]
    print(f"{len(tasks)} parts to run, {len(ended)} kept", flush=True)

    def call(key, jobs):
        cost = run_part(gate, by_name[key[0]], key[1], jobs)
        took = f"{cost.processor} processor seconds, {cost.wall} wall, {cost.jobs} jobs" if cost else f"see {(SAID / '-'.join(key)).relative_to(ROOT)}"
        print(f"{time.strftime('%H:%M:%S')} {'passed' if cost else 'FAILED'} {key[0]} {key[1]}: {took}", flush=True)
        return cost

    left = in_lanes(tasks, {key: by_name[key[0]].count(rb"\n") for key in tasks}, asked.lanes, ended, call)
    show(crates, names, {key: cost for key, cost in ended.items() if cost})
    failed = [*(key for key, cost in ended.items() if not cost), *left]
    print(f"{len(ended) - sum(not it for it in ended.values())} passed, {len(failed)} failed or left: {' '.join(':'.join(it) for it in failed)}")
    return 1 if failed else 0


if __name__ == "__main__":
    sys.exit(main())
