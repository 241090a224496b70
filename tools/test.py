#!/usr/bin/env python3
"""test.py [--jobs N] [--only CRATE..]: runs every test of this repository, and proves nothing.

Which tests there are is read from crates.txt and the crates: the test functions of each crate that has some, the rows of each program
`NAME_rows`, and the stored run of each other program (its files `args`, `stdin`, `data/`, `stdout` and `status`, read as the gate reads
them: no `stdout` is no output, no `status` is 0); and `tools/zonetool_cases.py` has cases of `zonetool`. All run by `rt try`, which
compiles with checks, but without its check of names (`quick_try.py`). `make prove` is the gate: it proves the crates, and runs the same
tests and programs, but no cases, as two compilers build them.

A run has ten minutes, since it is compiled with checks and a machine may be busy. Rows are run in parts, since a run has 1 MiB of
output at most, and each part begins with the `let` lines before it. The rows of a part that stops early are run again one by one, so
that the row that stopped it is named. `--jobs` runs so many crates at once; without it there are as many as processors.

It prints a line for each of them as it ends, with its seconds and processor seconds, and after one that failed the first rows that
differ, or what else is wrong. The last line counts rows and test functions, and a stored run as one: `N passed, M failed`. The exit
status is 1 if one failed. Nothing is written in the tree but in `build/`, so it may run beside `rt ci`."""
import argparse
import re
import resource
import subprocess
import sys
import tempfile
import time
from concurrent.futures import ProcessPoolExecutor, as_completed
from dataclasses import dataclass
from itertools import zip_longest
from pathlib import Path

import zonetool_cases
from crates import ROOT, lower, needs_of, processors
from memory import try_program

# How many rows a part of a program's rows has.
PART = 100
# How many seconds a run may take.
SECONDS = 600
# What runs `rt try`.
TRY = [sys.executable, str(ROOT / "tools" / "quick_try.py")]
# How many differing rows are shown, and how much of each line, and how many lines of what `rt try` says.
SHOWN, WIDTH, SAID = 5, 400, 30
TEST = re.compile(r"^\s*#\[test\]", re.M)
ENDED = re.compile(r"^run=ended status=(\d+) ", re.M)
# A case of several, what its run came to, and what was said of it before.
CASE = re.compile(r"(.*?)^case=(\S+) run=(\S+)(?: status=(\d+))? .*?$", re.M | re.S)
PASSED_TEST = re.compile(r"^test \S+ \.\.\. ok$", re.M)
# What a run that needs no proof says of its interpreter, which has other limits than the compiled program.
INTERPRETER = re.compile(r"^interpreter: .*\n", re.M)


@dataclass(frozen=True)
class Row:
    """A line that a program reads, and what it has to write for it."""

    asked: str
    wanted: str

    def is_let(self):
        return self.asked.startswith("let ")

    def is_test(self):
        return bool(self.asked) and not self.asked.startswith("#") and not self.is_let()


@dataclass(frozen=True)
class Part:
    """Rows that run together, after the `let` lines before them."""

    lets: list
    rows: list


@dataclass(frozen=True)
class Answers:
    """What a program writes for a part of its rows, None if it ended early, with what was said; a run over a limit has no answer."""

    lines: list
    note: str = ""
    is_over_limit: bool = False


@dataclass(frozen=True)
class Outcome:
    """How many tests passed and failed, and what to show of the failed ones."""

    passed: int
    failed: int
    notes: tuple = ()


@dataclass(frozen=True)
class Job:
    """What is run of a crate: its tests, its rows or its stored run, by the function that runs them in the crate's folder."""

    crate: str
    kind: str
    run: callable

    def folder(self):
        return ROOT / "crates" / self.crate


def tried(folder, words, given=b""):
    """What `rt try` writes in a crate's folder, and what it says."""
    ran = subprocess.run([*TRY, "--seconds", str(SECONDS), *words], cwd=folder, input=given, capture_output=True)
    return ran.stdout, ran.stderr.decode(errors="backslashreplace")


def lines_of(octets):
    """The lines of a file or of what a program writes. An octet that is no text stands as a surrogate."""
    lines = octets.decode(errors="surrogateescape").split("\n")
    return lines[:-1] if lines[-1] == "" else lines


def shortened(line):
    """A line as it is shown: what does not print is escaped, and a long one is cut."""
    line = line if line.isprintable() else line.encode("unicode_escape").decode()
    return line if len(line) <= WIDTH else f"{line[:WIDTH]} .. ({len(line)} characters)"


def last_lines(said):
    return tuple(said.rstrip("\n").split("\n")[-SAID:])


def difference(asked, wanted, given):
    """Three lines on a row whose answer is another, or has none."""
    lack = "(nothing)"
    texts = (asked, lack if wanted is None else wanted, lack if given is None else given)
    return tuple(f"{word} {it}" for word, it in zip(("row:   ", "wanted:", "given: "), texts))


def tests_in(folder):
    """How many test functions the sources of a crate have."""
    return sum(len(TEST.findall(it.read_text())) for it in folder.glob("src/**/*.rt"))


def run_tests(folder):
    """Runs the test functions of a crate. One that the sources have and that did not pass has failed."""
    written, said = tried(folder, ["--test"])
    text = written.decode(errors="backslashreplace")
    passed = len(PASSED_TEST.findall(text))
    failed = max(tests_in(folder) - passed, 0)
    if not failed and ENDED.findall(said)[-1:] != ["0"]:
        failed = 1
    failures = [it for it in lines_of(written) if not it.endswith(" ... ok")]
    return Outcome(passed, failed, (*failures, *last_lines(said)) if failed else ())


def octets_in(folder, name):
    return (folder / name).read_bytes() if (folder / name).is_file() else b""


def rows_of(folder):
    """The rows of a program, with titles. A line that either file lacks is an empty one that no answer is like."""
    asked, wanted = octets_in(folder, "stdin"), octets_in(folder, "stdout")
    return [Row(a or "", "(nothing)" if b is None else b) for a, b in zip_longest(lines_of(asked), lines_of(wanted))]


def answers_to_parts(folder, parts):
    """What a program writes for the rows of each part, and what was said in all."""
    with tempfile.TemporaryDirectory(prefix="rows-") as room:
        for number, part in enumerate(parts):
            text = "".join(f"{row.asked}\n" for row in part.lets + part.rows)
            (Path(room) / f"{number:06}").write_bytes(text.encode(errors="surrogateescape"))
        # (one step: the interpreter would say again what the compiled program says)
        written, said = tried(folder, ["--steps", "1", "--cases", room])
    texts = texts_of_cases(lines_of(written), len(parts))
    found = {number: Answers(None, said) for number in range(len(parts))}
    for note, name, run, status in CASE.findall(said):
        lines = texts.get(int(name), [])[len(parts[int(name)].lets) :] if (run, status) == ("ended", "0") else None
        found[int(name)] = Answers(lines, INTERPRETER.sub("", note).strip(), run == "no-answer")
    return [found[number] for number in range(len(parts))], said


def texts_of_cases(lines, count):
    """The lines that stand under the head of each case."""
    heads, texts, here = {f"== {number:06}": number for number in range(count)}, {}, []
    for line in lines:
        if line in heads:
            here = texts.setdefault(heads.pop(line), [])
        else:
            here.append(line)
    return texts


def judge_part(part, answers):
    """The differences between what a part has to answer and what it answers, and how many of its rows differ."""
    notes, failed = [], 0
    for row, given in zip_longest(part.rows, answers):
        wanted = row and row.wanted
        if given != wanted:
            notes.append(difference(row.asked if row else "(no row)", wanted, given))
            failed += 1
    return notes, failed


def part_of(rows, first, end):
    """The rows from one to another, and the `let` lines before them."""
    return Part([row for row in rows[:first] if row.is_let()], rows[first:end])


def run_rows(folder):
    """Runs the rows of a program in parts, and those of a part that ends early one by one."""
    rows = rows_of(folder)
    counted = sum(row.is_test() for row in rows)
    firsts = range(0, len(rows), PART)
    parts = [part_of(rows, first, first + PART) for first in firsts]
    found, said = answers_to_parts(folder, parts)
    if not CASE.search(said):
        return Outcome(0, max(counted, 1), last_lines(said))
    stopped = [at for first, it in zip(firsts, found) if it.lines is None for at in range(first, min(first + PART, len(rows)))]
    alone = [part_of(rows, at, at + 1) for at in stopped if rows[at].is_test()]
    judged = [judge_part(part, it.lines) for part, it in zip(parts, found) if it.lines is not None]
    for part, it in zip(alone, answers_to_parts(folder, alone)[0] if alone else ()):
        row = part.rows[0]
        ended = ([difference(row.asked, row.wanted, it.note or "(it ended early)")], 1)
        judged.append(ended if it.lines is None else judge_part(part, it.lines))
    notes = [it for some, _ in judged for it in some]
    failed = sum(count for _, count in judged)
    if not failed and any(it.lines is None and not it.is_over_limit for it in found):
        notes, failed = [("the rows pass one by one, and a part of them together ends early:", *last_lines(said))], 1
    return Outcome(max(counted - failed, 0), failed, shown(notes))


def shown(notes):
    """The lines of the first differences."""
    more = (f".. and {len(notes) - SHOWN} more",) if len(notes) > SHOWN else ()
    return (*(line for note in notes[:SHOWN] for line in note), *more)


def run_stored(folder):
    """Runs a program on its stored arguments, input and files, and compares what it writes and its status."""
    data = [it for it in sorted((folder / "data").rglob("*")) if it.is_file()]
    words = [word for it in data for word in ("--data", f"{it.relative_to(folder / 'data')}={it}")]
    arguments, wanted = octets_in(folder, "args").decode().splitlines(), octets_in(folder, "stdout")
    written, said = tried(folder, [*words, "--", *arguments], octets_in(folder, "stdin"))
    ended, status = ENDED.findall(said), octets_in(folder, "status").decode().strip() or "0"
    if not ended:
        return Outcome(0, 1, last_lines(said))
    if ended[-1] != status:
        return Outcome(0, 1, (f"status: wanted {status}, given {ended[-1]}", *last_lines(said)))
    if written == wanted:
        return Outcome(1, 0)
    pairs = enumerate(zip_longest(lines_of(wanted), lines_of(written)), 1)
    return Outcome(0, 1, shown([difference(f"line {at}", a, b) for at, (a, b) in pairs if a != b]))


def run_cases(folder):
    """Runs the program on the cases of its command line."""
    count, found = zonetool_cases.judged(str(try_program(folder.name).path))
    return Outcome(count - len(found), len(found), shown(found))


def jobs_of(crate):
    """What is to be run of a crate."""
    folder = ROOT / "crates" / crate
    found = [Job(crate, "tests", run_tests)] if tests_in(folder) else []
    if (folder / "src/main.rt").is_file() or (folder / "stdout").is_file():
        is_rows = crate.endswith("_rows") and not (folder / "args").is_file()
        found.append(Job(crate, "rows", run_rows) if is_rows else Job(crate, "stored run", run_stored))
    if crate == zonetool_cases.CRATE:
        found.append(Job(crate, "cases", run_cases))
    return found


def size_below(crate, needs):
    """How long the sources are that a try of the crate compiles."""
    return sum(it.stat().st_size for name in {crate, *lower(crate, needs)} for it in (ROOT / "crates" / name).glob("src/**/*.rt"))


def longest_first(jobs, needs):
    """The jobs in the order that they begin in: programs of rows, which run longest, and then the rest; of both the long sources first."""
    return sorted(jobs, key=lambda it: (it.kind != "rows", -size_below(it.crate, needs)))


def processor_seconds():
    """The processor seconds of all that this process started and that has ended."""
    used = resource.getrusage(resource.RUSAGE_CHILDREN)
    return used.ru_utime + used.ru_stime


def timed(job):
    """Runs a job in a process of its own, whose children are the job's alone. Answers the seconds and processor seconds too."""
    start, used = time.monotonic(), processor_seconds()
    return job.run(job.folder()), time.monotonic() - start, processor_seconds() - used


def tell(job, outcome, seconds, used):
    """Prints the line of a job that has ended, and what is wrong."""
    failed = f", {outcome.failed} FAILED" if outcome.failed else ""
    print(f"{job.crate}, {job.kind}: {outcome.passed} passed{failed} ({seconds:.0f} s, {used:.0f} processor seconds)")
    for line in outcome.notes:
        print(f"    {shortened(line)}")
    sys.stdout.flush()


def run_all(jobs, at_once):
    """Runs the jobs, so many at once, and tells of each as it ends. Answers their outcomes, and their processor seconds in all."""
    outcomes, whole = [], 0.0
    with ProcessPoolExecutor(at_once) as pool:
        waiting = {pool.submit(timed, job): job for job in jobs}
        for it in as_completed(waiting):
            outcome, seconds, used = it.result()
            tell(waiting[it], outcome, seconds, used)
            outcomes.append(outcome)
            whole += used
    return outcomes, whole


def main():
    parser = argparse.ArgumentParser(description="Runs every test of this repository, and proves nothing.")
    parser.add_argument("--jobs", type=int, default=processors(), metavar="N", help="how many crates at once")
    parser.add_argument("--only", nargs="+", metavar="CRATE", help="these crates alone")
    asked, needs, start = parser.parse_args(), needs_of(), time.monotonic()
    unknown = [it for it in asked.only or () if it not in needs]
    if unknown:
        parser.error(f"crates.txt names no crate {unknown[0]}")
    jobs = longest_first([job for name in asked.only or needs for job in jobs_of(name)], needs)
    at_once = max(asked.jobs, 1)
    outcomes, used = run_all(jobs, at_once)
    print(f"{time.monotonic() - start:.0f} seconds, {used:.0f} processor seconds, {at_once} at once")
    failed = sum(it.failed for it in outcomes)
    print(f"{sum(it.passed for it in outcomes)} passed, {failed} failed")
    return 1 if failed else 0


if __name__ == "__main__":
    sys.exit(main())
