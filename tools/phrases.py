#!/usr/bin/env python3
"""phrases.py [--list] [--most N]: counts the phrases that docs/STYLE.md does not want, in comments and docs.

It reads the comments of all .rt and .antt files of each crate, README.md, CONTRIBUTING.md, CHANGELOG.md and docs/*.md but for
docs/STYLE.md, which names the phrases. Code in backticks or fences does not count. A phrase counts also if it goes on in the next line of its comment.
`stand` is counted in its forms as a verb of place: not `stands for`, which means something else, nor `a standing`, which is a noun.

It prints a line for each crate that has some, one for the docs, and the sum. `--list` shows each place before. The exit status is 0, but
with `--most N` it is 1 if the sum is more than N."""
import argparse
import re
import sys
from collections import Counter
from dataclasses import dataclass

from crates import ROOT, needs_of

NOUN = r"(?<!\ba )(?<!\bthe )(?<!\bone )(?<!\beach )(?<!\bof )"
PHRASES = {
    "behind": r"\bbehind\b",
    "stand": rf"(?:{NOUN}\bstanding|\b(?:stand|stands|stood))\b(?! for\b)",
    "in front": r"\bin front\b",
    "so many": r"\bso many\b",
    "of which": r"\bof which\b",
    "exactly where": r"\bexactly where\b",
    "Refused where": r"\brefused where\b",
}
SEARCHES = {name: re.compile(it, re.I) for name, it in PHRASES.items()}
# How a comment begins in a line of each kind of file: after no string that is still open.
COMMENTS = {
    ".rt": re.compile(r"""^(?:[^"/]|"(?:[^"\\]|\\.)*"|/(?!/))*?//[/!]?(.*)$"""),
    ".antt": re.compile(r"^(?:|.*?\s)--(?:\s(.*))?$"),
}
CODE = re.compile(r"`[^`]*`")


@dataclass(frozen=True)
class Place:
    """Where a phrase is: the file, the line, the phrase, and the text of the line."""

    path: object
    line: int
    phrase: str
    text: str


def comments_in(path):
    """The comments of a source: the number of each line that has one, and its text."""
    found = []
    for number, line in enumerate(path.read_text().split("\n"), 1):
        match = COMMENTS[path.suffix].match(line)
        if match:
            found.append((number, match.group(1) or ""))
    return found


def text_in(path):
    """The lines of a document, without those of code."""
    found, is_code = [], False
    for number, line in enumerate(path.read_text().split("\n"), 1):
        if line.lstrip().startswith("```"):
            is_code = not is_code
        elif not is_code:
            found.append((number, line))
    return found


def blocks_of(lines):
    """Lines that follow one another, in lists."""
    blocks = []
    for number, line in lines:
        if blocks and blocks[-1][-1][0] == number - 1:
            blocks[-1].append((number, line))
        else:
            blocks.append([(number, line)])
    return blocks


def places_in(path, lines):
    """The phrases of some lines of a file."""
    found = []
    for block in blocks_of(lines):
        joined, starts = "", []
        for number, line in block:
            starts.append((len(joined), number, line))
            joined += CODE.sub(lambda it: "`" * len(it.group()), line).strip() + " "
        for name, search in SEARCHES.items():
            for match in search.finditer(joined):
                _, number, line = next(it for it in reversed(starts) if it[0] <= match.start())
                found.append(Place(path.relative_to(ROOT), number, name, line.strip()))
    return found


def of_crate(name):
    folder = ROOT / "crates" / name
    paths = sorted(it for part in ("src", "specs", "proofs") for it in (folder / part).rglob("*") if it.suffix in COMMENTS)
    return [place for path in paths for place in places_in(path, comments_in(path))]


def of_docs():
    paths = [ROOT / "README.md", ROOT / "CONTRIBUTING.md", ROOT / "CHANGELOG.md", *sorted((ROOT / "docs").glob("*.md"))]
    return [place for path in paths if path.name != "STYLE.md" for place in places_in(path, text_in(path))]


def counted(places):
    """How many there are, and of which phrase."""
    counts = Counter(it.phrase for it in places)
    return f"{len(places)} ({', '.join(f'{name} {counts[name]}' for name in PHRASES if counts[name])})"


def main():
    parser = argparse.ArgumentParser(description="Counts the phrases that docs/STYLE.md does not want, in comments and docs.")
    parser.add_argument("--list", action="store_true", help="show each place")
    parser.add_argument("--most", type=int, metavar="N", help="fail if there are more")
    asked = parser.parse_args()
    parts = {**{name: of_crate(name) for name in needs_of()}, "docs": of_docs()}
    every = [place for places in parts.values() for place in places]
    if asked.list:
        for it in sorted(every, key=lambda it: (str(it.path), it.line)):
            print(f"{it.path}:{it.line}: {it.phrase}: {it.text}")
    for name, places in parts.items():
        if places:
            print(f"{name}: {counted(places)}")
    print(f"sum: {counted(every)}")
    if asked.most is not None and len(every) > asked.most:
        print(f"phrases that docs/STYLE.md does not want: {len(every)}, and at most {asked.most} are allowed", file=sys.stderr)
        return 1
    return 0


if __name__ == "__main__":
    sys.exit(main())
