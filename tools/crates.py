"""What crates.txt says of the crates of this repository, and how many processors there are. The other tools import it."""
import os
import re
from dataclasses import dataclass, field
from pathlib import Path

ROOT = Path(__file__).resolve().parent.parent
# What a control group may use of its processors: microseconds, and in how many.
QUOTA = Path("/sys/fs/cgroup/cpu.max")


def name_in(line):
    """The name of the crate that a line of crates.txt is about, empty if it is about none. `staticlib` may follow the name."""
    words = line.partition(":")[0].split()
    return words[0] if words and line[0] != "#" else ""


def needs_of():
    """The crates of this repository that each crate names, by its name, in the order of crates.txt."""
    rows = [(name_in(it), it.partition(":")[2]) for it in (ROOT / "crates.txt").read_text().split("\n") if name_in(it)]
    every = {name for name, _ in rows}
    return {name: [it for it in words.split() if it in every] for name, words in rows}


def words_of(name):
    """The words of the option's list of this name in the program's command line, as `SPELLINGS`, in their order."""
    source = (ROOT / "crates" / "zonewire_words" / "src" / "command_line.rt").read_text(encoding="utf-8")
    return re.findall(r'"(\w+)"', re.search(rf"^static {name}: &\[&str\] = &\[(.*)\];$", source, re.M)[1])


@dataclass
class Layer:
    """A layer of crates.txt: the title and the rest of the comment above its first crate, and the names of its crates."""

    title: str
    about: str
    names: list = field(default_factory=list)


def layers_of():
    """The layers of crates.txt, in its order. A comment directly above a line of a crate begins one."""
    found, above = [], ""
    for line in (ROOT / "crates.txt").read_text().split("\n"):
        if line and line[0] != "#":
            if above.startswith("#"):
                title, _, about = above.lstrip("# ").partition(":")
                found.append(Layer(title.strip(), about.strip()))
            elif not found:
                raise ValueError(f"crates.txt: no comment with the name of a layer is above {name_in(line)}")
            found[-1].names.append(name_in(line))
        above = line
    return found


def lower(name, needs):
    """All crates below one."""
    return {it for below in needs[name] for it in [below, *lower(below, needs)]} if name in needs else set()


def lines_for(wanted):
    """The text of a crates.txt of these crates alone."""
    lines = [it for it in (ROOT / "crates.txt").read_text().split("\n") if name_in(it) in wanted]
    return "\n".join(lines) + "\n"


def processors():
    """How many processors this process may use."""
    found = len(os.sched_getaffinity(0))
    if QUOTA.is_file():
        most, span = QUOTA.read_text().split()
        found = found if most == "max" else min(found, max(int(most) // int(span), 1))
    return found
