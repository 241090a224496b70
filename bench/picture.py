#!/usr/bin/env python3
"""picture.py [--check]: draws docs/performance.svg, the times of docs/PERFORMANCE.md's table on a million records.

A bar is the processor time of a record, zonewire's in blue and those of other zone readers in grey; a reader without a number has no bar.
The same table gives the same octets. `--check` writes nothing, and fails if docs/performance.svg is not what would be written."""
import argparse
import sys
from html import escape
from pathlib import Path

DOCS = Path(__file__).resolve().parent.parent / "docs"
TABLE, PICTURE = DOCS / "PERFORMANCE.md", DOCS / "performance.svg"
# The columns that are drawn, and what is written above each.
COLUMNS = {"1,000,000 addresses": "1,000,000 address records", "1,000,000 mixed": "1,000,000 records of many types"}
OURS = ("send", "receive", "check", "canon")
# Pixels: the picture, its margin, the names, a bar and the line that it is on, the room for a bar's number, and what is above and below.
WIDTH, MARGIN, NAMES, BAR, LINE, NUMBER, TOP, BOTTOM = 1000, 24, 282, 16, 26, 74, 62, 46
TITLE = "Nanoseconds of processor time a record: less is better"
NOTE = "The readers do different work. A star marks one that found errors in the zone. docs/PERFORMANCE.md says how this was measured."
STYLE = """
    svg { background: #ffffff }
    text { font-family: system-ui, -apple-system, "Segoe UI", "DejaVu Sans", sans-serif; font-size: 13px; fill: #1f2328 }
    .ground { fill: #ffffff }
    .title { font-size: 15px; font-weight: 600 }
    .about { fill: #59636e }
    .ours { fill: #3b6fb6 }
    .other { fill: #a3acb6 }
    .name { text-anchor: end }
    @media (prefers-color-scheme: dark) {
      svg { background: #0d1117 }
      text { fill: #e6edf3 }
      .ground { fill: #0d1117 }
      .about { fill: #9da7b3 }
      .ours { fill: #79b8ff }
      .other { fill: #6e7681 }
    }
"""


def cells_of(line):
    return [it.strip().replace("`", "") for it in line.strip().strip("|").split("|")]


def rows():
    """Each row of the table: its name, and the text of its number in each column that is drawn."""
    lines = TABLE.read_text(encoding="utf-8").split("\n")
    first = next(at for at, line in enumerate(lines) if line.startswith("|") and all(it in cells_of(line) for it in COLUMNS))
    places = [cells_of(lines[first]).index(it) for it in COLUMNS]
    found = []
    for line in lines[first + 2 :]:
        if not line.startswith("|"):
            break
        cells = cells_of(line)
        found.append((cells[0], [cells[it] for it in places]))
    return found


def number(text):
    return int(text.split()[0].replace(",", "")) if text else 0


def words(kind, x, y, said):
    return f'<text class="{kind}" x="{x:g}" y="{y:g}">{escape(said)}</text>'


def picture():
    """The text of the picture."""
    table = rows()
    height = TOP + LINE * len(table) + BOTTOM
    panel = (WIDTH - 2 * MARGIN - NAMES) / len(COLUMNS)
    scale = (panel - NUMBER) / max(number(it) for _, texts in table for it in texts)
    lines = [words("title", MARGIN, 26, TITLE), words("about", MARGIN, height - 16, NOTE)]
    for at, title in enumerate(COLUMNS.values()):
        x = MARGIN + NAMES + at * panel
        lines.append(words("about", x, TOP - 10, title))
        for row, (name, texts) in enumerate(table):
            y, length = TOP + row * LINE, scale * number(texts[at])
            if at == 0:
                lines.append(words("name", x - 10, y + BAR - 3, name))
            if texts[at]:
                kind = "ours" if name.startswith(OURS) else "other"
                lines.append(f'<rect class="{kind}" x="{x:g}" y="{y}" width="{length:.1f}" height="{BAR}" rx="2"/>')
                lines.append(words("about", round(x + length + 6, 1), y + BAR - 3, texts[at]))
    head = (
        f'<svg xmlns="http://www.w3.org/2000/svg" width="{WIDTH}" height="{height}" viewBox="0 0 {WIDTH} {height}" role="img">\n'
        "  <!-- Written by bench/picture.py from docs/PERFORMANCE.md. -->\n"
        f"  <title>{TITLE}</title>\n"
        f"  <style>{STYLE}  </style>\n"
        f'  <rect class="ground" width="{WIDTH}" height="{height}"/>\n'
    )
    return head + "".join(f"  {it}\n" for it in lines) + "</svg>\n"


def main():
    parser = argparse.ArgumentParser(description="Draws docs/performance.svg, from the table of docs/PERFORMANCE.md.")
    parser.add_argument("--check", action="store_true", help="write nothing, and fail if the picture is another")
    asked = parser.parse_args()
    wanted = picture()
    if not asked.check:
        PICTURE.write_text(wanted, encoding="utf-8")
        return 0
    if PICTURE.is_file() and PICTURE.read_text(encoding="utf-8") == wanted:
        return 0
    print("docs/performance.svg is not the picture of docs/PERFORMANCE.md: run python3 bench/picture.py", file=sys.stderr)
    return 1


if __name__ == "__main__":
    sys.exit(main())
