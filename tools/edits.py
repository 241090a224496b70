#!/usr/bin/env python3
"""edits.py [--jobs N] [CRATE..]: shows that the prover refuses each edit of must-fail/.

It tries the edits that the gate tries (must-fail/*.edit) and those that the gate leaves out (must-fail/changes.md, others.md).
The function that an edit changes has to be refused by itself: a contract is all that one function knows of another, so a changed
function is judged as if the others were as they stand. A round has edits of different functions. It is put on a copy of the
crate, and one check names the functions that it does not prove. What is not refused in a round, or stands in one that is no
program, comes again in a smaller round, and in the end alone: a function that waits for a changed one is not judged beside it.

The copy begins with what an earlier `rt check` of the crate kept, here or in another clone on this machine. It is checked as it stands
first, which takes seconds where work was kept, and else the time of a first check: an edit of a crate that is not proved shows
nothing. `--jobs` tries so many crates at once, and shares the processors among their checks. A line tells of each crate as it ends.
The exit status is 1 if an edit is not refused, or is no program by itself, or if a crate is not proved."""
import argparse
import re
import shutil
import subprocess
import sys
import tempfile
import time
from concurrent.futures import ThreadPoolExecutor, as_completed
from dataclasses import dataclass
from pathlib import Path

from crates import ROOT, lines_for, lower, needs_of, processors

HEAD = re.compile(r"^( *)(?:pub(?:\([^)]*\))? )?(?:const |unsafe |final )*fn (\w+)", re.M)
NOTE = re.compile(r"(src/\S+\.rt):(\d+):\d+: ")
CONST = re.compile(r"^ *(?:pub(?:\([^)]*\))? )?(?:const|static) \w+:", re.M)
BLOCK = re.compile(r"^(?:pub(?:\([^)]*\))? )?(?:impl\b|trait )", re.M)
# (a function that only waits for another one is not refused itself)
UNPROVED = re.compile(r"fn (\S+): (?:no proof: expected|not proved$)", re.M)
# (of one whose own proof fails and that waits too, the proof's file is named)
BAD_PROOF = re.compile(r"^\./proofs/(\S+)/\w+\.antt:\d+:\d+: error", re.M)
# (a change that is no program shows nothing)
BROKEN = re.compile(r"^src/\S+:\d+:\d+: error\[.*", re.M)


@dataclass(frozen=True)
class Change:
    """One titled change of a file of edits."""

    title: str
    path: str
    pairs: tuple


@dataclass(frozen=True)
class Function:
    """A function of the changed source, by the lines that it takes; `names` are those that a check may call it by."""

    path: str
    names: str
    first: int
    last: int


def changes_of(edit):
    """The changes of one file of edits: a title ends in a colon and stands above the pairs that it names."""
    path, title, pairs, old, found = "", edit.stem, [], "", []
    for line in [*edit.read_text().split("\n"), "end:"]:
        if line.startswith("file: "):
            found += [Change(title, path, tuple(pairs))] if pairs else []
            path, pairs = line[len("file: ") :], []
        elif line.startswith("old: "):
            old = line[len("old: ") :]
        elif line.startswith("new:"):
            pairs.append((old, line[len("new:") :].removeprefix(" ")))
        elif line.endswith(":"):
            found += [Change(title, path, tuple(pairs))] if pairs else []
            title, pairs = line[:-1], []
    return found


def split_params(header):
    """What stands in the angle brackets at the front, and what is behind them."""
    if not header.startswith("<"):
        return "", header
    depth = 0
    for place, it in enumerate(header):
        depth += (it == "<") - (it == ">" and header[place - 1] != "-")
        if depth == 0:
            return header[1:place], header[place + 1 :]
    return "", header


def words_of(part, params):
    words = [it.split("::")[-1] for it in re.findall(r"'?\w+(?:::\w+)*", part)]
    return [it[0].upper() + it[1:] for it in words if it not in params and it != "mut" and not re.match(r"['\d]", it)]


def block_of(text, start, module):
    """The names that the block around a function may have in what a check says, and where they stand."""
    before = [it for it in BLOCK.finditer(text) if it.start() < start]
    if not before or "\n}" in text[before[-1].start() : start]:
        return module
    header = re.split(r"\{|\bwhere\b", text[before[-1].end() :], maxsplit=1)[0]
    if "trait " in before[-1][0]:
        # (a clause that was changed is one of all blocks of the trait)
        return r"\w*" + re.match(r"\w+", header)[0] + "::"
    params, rest = split_params(header)
    params = set(re.findall(r"(?:^|,)\s*(?:const )?(\w+)", params))
    trait, found, kind = rest.partition(" for ")
    if not found:
        # (a method of a type stands under the type's module, whichever file it is in)
        kind = words_of(rest, params)[0]
        here = re.search(rf"^(?:pub(?:\([^)]*\))? )?(?:struct|enum) {kind}\b", text, re.M)
        return (module if here else "") + kind + r"(?:\+\S*)?::"
    names = [words_of(kind, params), words_of(trait, params)]
    # (arguments are left out where the names are unlike without them)
    words = [f"(?:{it})?" if place else it for some in names for place, it in enumerate(some)]
    return module + r"(?:Any|Ref|Mut|Slice|Array)*" + "".join(words) + "::"


def function_at(text, line, path):
    """The function that has this line, counted from 0, or None where there is none. A constant is all functions of its file."""
    module = "".join(f"{it}::" for it in path[len("src/") : -len(".rt")].split("/") if it != "lib")
    heads = [(text.count("\n", 0, it.start(2)), it) for it in HEAD.finditer(text)]
    constants = [text.count("\n", 0, it.start()) for it in CONST.finditer(text)]
    before = [it for it in heads if it[0] <= line]
    if any(it <= line and (not before or it > before[-1][0]) for it in constants):
        return Function(path, f"::{module}", 1, text.count("\n") + 1)
    if not before:
        return None
    first, head = before[-1]
    after = [at for at, _ in heads if at > first]
    block = block_of(text, head.start(2), module) if head[1] else module
    return Function(path, f"::{block}{head[2]}$", first + 1, after[0] if after else text.count("\n") + 1)


def laid(text, change):
    """The text with the change in it, and the functions that it is in, or None where an old text doesn't stand once."""
    lines = []
    for old, new in change.pairs:
        if text.count(old) != 1:
            return None
        # one line gives way to one line, so that its number stays
        lines.append(text.count("\n", 0, text.find(old)))
        text = text.replace(old, new)
    return text, {function_at(text, it, change.path) for it in lines}


def is_shared(functions, others):
    return any(a and b and a.path == b.path and a.first <= b.last and b.first <= a.last for a in functions for b in others)


def plan(folder, changes):
    """A round: the texts that it changes, the functions of each of its changes, and what is left for a later one."""
    texts, places, left = {}, {}, []
    for change in changes:
        made = laid(texts.get(change.path) or (folder / change.path).read_text(), change)
        if not made or any(is_shared(made[1], it) for it in places.values()):
            left.append(change)
        else:
            texts[change.path], places[change] = made
    return texts, places, left


def refused_by(said):
    """What a check did not prove: places in sources, and names of functions."""
    proofs = {"::" + path.replace("/", "::") for path in BAD_PROOF.findall(said)}
    return {(path, int(line)) for path, line in NOTE.findall(said)}, set(UNPROVED.findall(said)) | proofs


def is_refused(function, lines, names):
    if any(path == function.path and function.first <= line <= function.last for path, line in lines):
        return True
    return any(re.search(function.names, it) for it in names)


def copy_of(name, room):
    """A copy of the crate and what it stands on, with the work that their checks kept."""
    needs = needs_of()
    wanted = {name, *lower(name, needs)}
    (room / "HANDLES").write_text((ROOT / "HANDLES").read_text())
    (room / "crates.txt").write_text(lines_for(wanted))
    for it in wanted:
        # (of a crate below, only the library is wanted)
        left = ["must-fail"] if it == name else ["must-fail", "incremental"]
        shutil.copytree(ROOT / "crates" / it, room / "crates" / it, ignore=shutil.ignore_patterns(*left))
    return room / "crates" / name


def check(folder, crate, texts, flags):
    """What a check says of the copy with these texts in the place of its own, and whether it proves it."""
    shutil.rmtree(crate / "src")
    shutil.copytree(folder / "src", crate / "src")
    for path, text in texts.items():
        (crate / path).write_text(text)
    said = subprocess.run(["rt", "check", *flags], cwd=crate, capture_output=True, text=True)
    return said.stdout + said.stderr, said.returncode == 0


def judge(places, said):
    """Those changes that a check did not refuse, and why."""
    broken = BROKEN.search(said)
    if broken:
        return [*places], f"is no program: {broken[0]}"
    lines, names = refused_by(said)
    return [it for it in places if not any(at and is_refused(at, lines, names) for at in places[it])], "is not refused"


def later(places, again, left, said):
    """The rounds to plan behind one. Where it refused nothing, those that an error blames are tried apart, and else halves."""
    if len(again) < len(places):
        return [left + again]
    errors = {(path, int(line)) for path, line in NOTE.findall("\n".join(BROKEN.findall(said)))}
    blamed = [it for it in again if any(at and is_refused(at, errors, ()) for at in places[it])]
    part = blamed if 0 < len(blamed) < len(again) else again[: len(again) // 2]
    return [[it for it in again if it not in part] + left, part]


def try_changes(folder, changes, checked):
    """The changes that no round refused, and why; `checked` tells what a check says of the texts of a round."""
    rounds, kept = [changes], []
    while rounds:
        texts, places, left = plan(folder, rounds.pop(0))
        if not places:
            kept += [(it, "has an old text that doesn't stand once") for it in left]
            continue
        said = checked(texts)
        again, why = judge(places, said)
        if len(places) == 1:
            kept, again = kept + [(it, why) for it in again], []
        rounds += later(places, again, left, said)
    return kept


def all_changes_of(name):
    folder = ROOT / "crates" / name / "must-fail"
    files = [*sorted(folder.glob("*.edit")), folder / "changes.md", folder / "others.md"]
    return [it for file in files if file.is_file() for it in changes_of(file)]


def try_crate(name, flags):
    """Tries a crate's changes. Answers how many were refused, what to say of those that were not, and the seconds that it took."""
    folder, changes, start = ROOT / "crates" / name, all_changes_of(name), time.monotonic()
    with tempfile.TemporaryDirectory(prefix="edits-") as room:
        crate = copy_of(name, Path(room))
        said, is_proved = check(folder, crate, {}, flags)
        if is_proved:
            kept = try_changes(folder, changes, lambda texts: check(folder, crate, texts, flags)[0])
        else:
            print(said, file=sys.stderr, flush=True)
            kept = [(it, "was not tried: the crate is not proved as it stands") for it in changes]
    lines = [f"{name}: {it.title} ({it.path}) {why}" for it, why in kept]
    return len(changes) - len(kept), lines, time.monotonic() - start


def flags_for(at_once):
    """What each of so many checks at once is told: a share of the processors. One alone is left to choose."""
    return ["--jobs", str(max(processors() // at_once, 1))] if at_once > 1 else []


def try_crates(names, at_once):
    """Tries the changes of these crates, so many at once, and tells of each crate as it ends."""
    refused, kept = 0, []
    with ThreadPoolExecutor(at_once) as pool:
        waiting = {pool.submit(try_crate, name, flags_for(min(at_once, len(names)))): name for name in names}
        for it in as_completed(waiting):
            some, others, seconds = it.result()
            refused, kept = refused + some, kept + others
            print(f"{waiting[it]}: {some} refused, {len(others)} not ({seconds:.0f} s)", flush=True)
    return refused, kept


def main():
    parser = argparse.ArgumentParser(description="Shows that the prover refuses each edit of must-fail/.")
    parser.add_argument("--jobs", type=int, default=1, metavar="N", help="how many crates at once")
    parser.add_argument("crates", nargs="*", metavar="CRATE", help="these crates alone")
    asked, needs = parser.parse_args(), needs_of()
    unknown = [it for it in asked.crates if it not in needs]
    if unknown:
        parser.error(f"crates.txt names no crate {unknown[0]}")
    names = [it for it in asked.crates or needs if all_changes_of(it)]
    # (those with the most changes first, so that none is left for the end)
    names.sort(key=lambda it: -len(all_changes_of(it)))
    refused, kept = try_crates(names, max(asked.jobs, 1))
    print("\n".join(kept + [f"{refused} changes refused, {len(kept)} not"]))
    return 1 if kept else 0


if __name__ == "__main__":
    sys.exit(main())
