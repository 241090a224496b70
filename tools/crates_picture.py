#!/usr/bin/env python3
"""crates_picture.py [--check]: draws docs/crates.svg, the crates in their layers, from crates.txt.

The lowest layer is at the bottom. In a layer a crate is to the right of those that it uses there, and an arrow leads to each of these;
the line under its name has those of other layers. Both leave out what follows from the rest: a crate that another one uses already. A
layer in which too many crates would be above one another is a grid, and a crate's line there has all that it uses.

The same crates.txt gives the same octets. `--check` writes nothing, and fails if docs/crates.svg is not what would be written. Both fail
if a crate of crates.txt comes before one that it uses."""
import argparse
import sys
import textwrap
from dataclasses import dataclass
from html import escape

from crates import ROOT, layers_of, lower, needs_of

PICTURE = ROOT / "docs" / "crates.svg"
# Pixels: the picture, its margin, a box, the gap between two columns and two rows, and a layer's title and what is between layers.
WIDTH, MARGIN, BOX, GAP, ROW_GAP, TITLE, BETWEEN = 1000, 36, 160, 32, 12, 34, 12
# Pixels: a box of a name alone, and each line under the name.
NAME, NOTE = 30, 14
# Characters of a line under a name, and the most boxes above one another before a layer is a grid.
NOTE_LENGTH, MOST = 26, 4
LEGEND = "Arrows lead to what a crate uses in its layer, and “uses” names the rest. What another of these uses already is left out."
STYLE = """
    svg { background: #ffffff }
    text { font-family: system-ui, -apple-system, "Segoe UI", "DejaVu Sans", sans-serif; font-size: 13px; fill: #1f2328 }
    .ground { fill: #ffffff }
    .layer { fill: #f3f5f8 }
    .box { fill: #ffffff; stroke: #8c959f }
    .title { font-size: 15px; font-weight: 600 }
    .about { fill: #59636e }
    .name { font-family: ui-monospace, "SF Mono", Menlo, Consolas, "DejaVu Sans Mono", monospace; text-anchor: middle }
    .note { font-size: 11px; fill: #59636e; text-anchor: middle }
    .arrow { fill: none; stroke: #3b6fb6; stroke-width: 1.4 }
    .head { fill: #3b6fb6 }
    @media (prefers-color-scheme: dark) {
      svg { background: #0d1117 }
      text { fill: #e6edf3 }
      .ground { fill: #0d1117 }
      .layer { fill: #171c24 }
      .box { fill: #21262d; stroke: #6e7681 }
      .about, .note { fill: #9da7b3 }
      .arrow { stroke: #79b8ff }
      .head { fill: #79b8ff }
    }
"""


@dataclass
class Band:
    """A layer as it is drawn: the column and row of each crate, which crates get arrows to which, and the lines under each name."""

    layer: object
    cells: dict
    arrows: list
    notes: dict

    def rows(self):
        return 1 + max(row for _, row in self.cells.values())

    def box_height(self):
        return NAME + NOTE * max(len(it) for it in self.notes.values())

    def height(self):
        return TITLE + self.rows() * (self.box_height() + ROW_GAP) + 4


def columns():
    return (WIDTH - 2 * MARGIN + GAP) // (BOX + GAP)


def direct(needs):
    """What each crate uses, without what another crate that it uses stands on."""
    below = {name: lower(name, needs) for name in needs}
    return {name: [it for it in used if not any(it in below[other] for other in used)] for name, used in needs.items()}


def check_order(layers, needs):
    """Fails if a crate comes before one that it uses."""
    met = set()
    for name in (it for layer in layers for it in layer.names):
        for used in needs[name]:
            if used not in met:
                raise ValueError(f"crates.txt: {name} comes before {used}, which it uses")
        met.add(name)


def first_free(taken, column, row):
    while (column, row) in taken:
        row += 1
    return row


def placed(names, uses):
    """The column and row of each crate: right of all that it uses, and level with the first of these where there is room."""
    cells, taken = {}, set()
    for name in names:
        used = [cells[it] for it in uses[name] if it in cells]
        column = 1 + max((it[0] for it in used), default=-1)
        row = first_free(taken, column, min((it[1] for it in used), default=0))
        cells[name] = (column, row)
        taken.add(cells[name])
        # An arrow to a far column leads through the columns between, in the row of its end.
        taken.update((between, it[1]) for it in used for between in range(it[0] + 1, column))
    return cells


def band_of(layer, uses):
    """A layer in columns with arrows, or else in a grid."""
    cells = placed(layer.names, uses)
    heights = [sum(1 for it in cells.values() if it[0] == column) for column in range(1 + max(it[0] for it in cells.values()))]
    is_grid = max(heights) > MOST or len(heights) > columns()
    if is_grid:
        cells = {name: (at % columns(), at // columns()) for at, name in enumerate(layer.names)}
    inside = set() if is_grid else set(layer.names)
    arrows = [(name, it) for name in layer.names for it in uses[name] if it in inside]
    others = {name: [it for it in uses[name] if it not in inside] for name in layer.names}
    notes = {name: textwrap.wrap("uses " + ", ".join(used), NOTE_LENGTH) if used else [] for name, used in others.items()}
    return Band(layer, cells, arrows, notes)


def left_of(column):
    return MARGIN + column * (BOX + GAP)


def text(kind, x, y, words):
    return f'<text class="{kind}" x="{x:g}" y="{y:g}">{escape(words)}</text>'


def box_drawn(band, name, top):
    """The box of a crate: its name and the lines under it."""
    column, row = band.cells[name]
    x, y, height = left_of(column), top + row * (band.box_height() + ROW_GAP), band.box_height()
    notes = band.notes[name]
    first = y + (height - NOTE * len(notes)) / 2 + 5 - (1 if notes else 0)
    lines = [f'<rect class="box" x="{x}" y="{y}" width="{BOX}" height="{height}" rx="5"/>', text("name", x + BOX / 2, first, name)]
    return lines + [text("note", x + BOX / 2, first + NOTE * at, it) for at, it in enumerate(notes, 1)]


def arrow_drawn(band, user, used, top):
    """An arrow from the left of a box to the right of one that it uses, through the gap at its own left."""
    (from_column, from_row), (to_column, to_row) = band.cells[user], band.cells[used]
    pitch, middle = band.box_height() + ROW_GAP, band.box_height() / 2
    x, y = left_of(from_column), top + from_row * pitch + middle
    end, level = left_of(to_column) + BOX, top + to_row * pitch + middle
    bend = x - GAP + 9
    path = f"M{x} {y:g} C{x - 14} {y:g} {bend + 12} {level:g} {bend} {level:g} H{end + 7}"
    head = f'<path class="head" d="M{end + 1} {level:g} l9 -4 v8 z"/>'
    return [f'<path class="arrow" d="{path}"/>', head]


def band_drawn(band, y):
    """A layer: its ground and title, and then arrows below boxes."""
    x, top = MARGIN - 18, y + TITLE
    lines = [
        f'<rect class="layer" x="{x}" y="{y}" width="{WIDTH - 2 * x}" height="{band.height()}" rx="8"/>',
        f'<text x="{MARGIN}" y="{y + 22}"><tspan class="title">{escape(band.layer.title)}</tspan>'
        f'<tspan class="about" dx="10">{escape(band.layer.about)}</tspan></text>',
    ]
    for user, used in band.arrows:
        lines += arrow_drawn(band, user, used, top)
    for name in band.layer.names:
        lines += box_drawn(band, name, top)
    return lines


def picture():
    """The text of the picture."""
    layers, needs = layers_of(), needs_of()
    check_order(layers, needs)
    uses = direct(needs)
    lines, y = [], BETWEEN
    for layer in reversed(layers):
        band = band_of(layer, uses)
        lines += band_drawn(band, y)
        y += band.height() + BETWEEN
    lines.append(text("about", MARGIN, y + 10, LEGEND))
    y += 24
    head = (
        f'<svg xmlns="http://www.w3.org/2000/svg" width="{WIDTH}" height="{y}" viewBox="0 0 {WIDTH} {y}" role="img">\n'
        "  <!-- Written by tools/crates_picture.py from crates.txt. -->\n"
        "  <title>The crates of zonewire in layers</title>\n"
        f"  <style>{STYLE}  </style>\n"
        f'  <rect class="ground" width="{WIDTH}" height="{y}"/>\n'
    )
    return head + "".join(f"  {it}\n" for it in lines) + "</svg>\n"


def main():
    parser = argparse.ArgumentParser(description="Draws docs/crates.svg, the crates in their layers, from crates.txt.")
    parser.add_argument("--check", action="store_true", help="write nothing, and fail if the picture is another")
    asked = parser.parse_args()
    try:
        wanted = picture()
    except ValueError as error:
        print(error, file=sys.stderr)
        return 1
    if not asked.check:
        PICTURE.write_text(wanted, encoding="utf-8")
        return 0
    if PICTURE.is_file() and PICTURE.read_text(encoding="utf-8") == wanted:
        return 0
    print("docs/crates.svg is not the picture of crates.txt: run python3 tools/crates_picture.py", file=sys.stderr)
    return 1


if __name__ == "__main__":
    sys.exit(main())
