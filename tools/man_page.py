#!/usr/bin/env python3
"""man_page.py: checks that docs/zonewire.1 and docs/zonetool.1 have every command, option, value and fault text of their programs.

A command has to be in the synopsis, as `zonewire NAME`. They are read from the sources: commands, options and their values from
`src/command_line.rt` of the crate that has it, fault texts from the `#[error("..")]` of the crates that the program may fail by, and from
what `main` writes itself. A number in a text is an N in the page. A page may name no other option but those of `clap`. It prints what is
missing or unknown; the exit status is then 1."""
import re
import sys
from dataclasses import dataclass

from crates import ROOT, lower, needs_of

COMMAND = re.compile(r'(?:Command::new|text_command)\(alloc, "(\w+)"')
OPTION = re.compile(r'\b(?:\w+_option|option|flag)\(alloc, "([\w-]+)"')
NAMED = re.compile(r"--\w+(?:-\w+)*")
VALUES = re.compile(r"^static [A-Z]+: &\[&str\] = &\[(.*)\];$", re.M)
FAULT = re.compile(r'#\[error\("([^"]*)"\)\]')
WRITTEN = re.compile(r'eprintln!\(rt; "\w+: ([^"{]+)"\)')


@dataclass(frozen=True)
class Program:
    """A program: its name, the crates of its command line and of `main`, those whose faults it prints, and the options that `clap` adds."""

    name: str
    command_line: str
    main: str
    failing: list
    added: frozenset

    def page(self):
        return ROOT / "docs" / f"{self.name}.1"


def programs():
    needs = needs_of()
    zone_crates = [it for it in lower("zone_main", needs) if it in ("zonewire", "zonewire_words", "zone") or it.startswith("zone_")]
    return [
        Program("zonewire", "zonewire_words", "zone_main", zone_crates, frozenset({"--help"})),
        Program("zonetool", "tool_words", "tool_main", ["zone", "zone_forms", "tool_words"], frozenset({"--help", "--version"})),
    ]


def source_of(crate, file):
    return (ROOT / "crates" / crate / "src" / file).read_text(encoding="utf-8")


def page_text(page):
    """The words of the page, without the marks of roff."""
    text = re.sub(r'^\.\\".*\n', "", page.read_text(encoding="utf-8"), flags=re.M)
    text = re.sub(r"\\f[BIRP]|^\.(?:[BI]|[BIR]{2}) ", "", text, flags=re.M)
    return text.replace("\\-", "-").replace("\\e", "\\")


def fault_texts(program):
    """Every text with which a run may fail, and the call of a zone crate."""
    sources = [path for name in program.failing for path in sorted((ROOT / "crates" / name / "src").rglob("*.rt"))]
    found = {text for path in sources for text in FAULT.findall(path.read_text(encoding="utf-8"))}
    found.update(WRITTEN.findall(source_of(program.main, "main.rt")))
    return sorted(re.sub(r"\{\d+\}", "N", it) for it in found if it != "{0}")


def wrong_in(program):
    """A line for each thing that the program has and its page lacks, and for each option that only the page has."""
    page, source = page_text(program.page()), source_of(program.command_line, "command_line.rt")
    options = {f"--{it}" for it in OPTION.findall(source)}
    values = {it for words in VALUES.findall(source) for it in re.findall(r'"(\w+)"', words)}
    commands = {f"{program.name} {it}" for it in COMMAND.findall(source) if it != program.name}
    wanted = sorted(commands | options | values) + fault_texts(program)
    lacking = [it for it in wanted if not re.search(rf"(?<![\w-]){re.escape(it)}(?!\w)", page)]
    unknown = sorted(set(NAMED.findall(page)) - options - program.added)
    name = f"docs/{program.name}.1"
    return [f"{name} lacks: {it}" for it in lacking] + [f"{name} has an option that the program has not: {it}" for it in unknown]


def main():
    wrong = [line for program in programs() for line in wrong_in(program)]
    print("\n".join(wrong), end="\n" if wrong else "", file=sys.stderr)
    return 1 if wrong else 0


if __name__ == "__main__":
    sys.exit(main())
