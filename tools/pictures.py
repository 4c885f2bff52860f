#!/usr/bin/env python3
"""Draws the pictures of ARCHITECTURE.md and README.md: docs/crates.svg, by crates.txt, and docs/run.svg.

Each has a ground and colours for a light page and for a dark one.
"""

import sys
from html import escape

from files import read, write

STYLE = """<style>
.ground { fill: #ffffff } .box { fill: #f3f6f9; stroke: #57606a } .proved { fill: #e6f4ea; stroke: #2f7d46 }
.tested { fill: #fff4d6; stroke: #9a6700 }
text { fill: #1f2328; font: 13px sans-serif } .note { font-size: 11px; fill: #57606a } .name { font-weight: bold }
.edge { stroke: #57606a; fill: none } .head { fill: #57606a } \
.border { stroke: #2f7d46; stroke-dasharray: 6 4; fill: none }
@media (prefers-color-scheme: dark) {
.ground { fill: #0d1117 } .box { fill: #1c232c; stroke: #8b949e } .proved { fill: #12261a; stroke: #56b574 } \
.tested { fill: #2e2410; stroke: #d4a72c }
text { fill: #e6edf3 } .note { fill: #9da7b1 }
.edge { stroke: #8b949e } .head { fill: #8b949e } .border { stroke: #56b574 }
}
</style>"""
HEAD = (
    '<defs><marker id="head" viewBox="0 0 8 8" refX="7" refY="4" markerWidth="7" markerHeight="7" orient="auto">'
    '<path class="head" d="M0 0 L8 4 L0 8 z"/></marker></defs>'
)

# What each crate has, in a few words.
NOTES = {
    "bt_lines": "lines in, bytes out, faults",
    "bt_bed": "BED records, the genome file",
    "bt_runs": "engines of one input",
    "bt_sweep": "the sweep over two inputs",
    "bt_hits": "hits in the order of bedtools",
    "bt_seq": "SAM text, FASTA text",
    "bt_tool": "options, plan, run, outcome",
    "bt_front": "surveys, the verdict",
    "bt_laws": "laws",
    "bt_files": "files, a plan carried out, messages",
    "bedtools": "the program: main",
    "drop_in": "the program of the drop-in",
}


def picture(width, height, parts):
    """The text of an SVG file."""
    head = f'<svg xmlns="http://www.w3.org/2000/svg" viewBox="0 0 {width} {height}" width="{width}" height="{height}">'
    ground = f'<rect class="ground" width="{width}" height="{height}"/>'
    return "\n".join([head, STYLE, HEAD, ground, *parts, "</svg>\n"])


def centred(look, middle, top, text):
    """A line of text around a middle."""
    return f'<text class="{look}" x="{middle}" y="{top}" text-anchor="middle">{text}</text>'


def box(left, top, width, lines, kind="box", height=44):
    """A box with a name and notes below it."""
    parts = [f'<rect class="{kind}" x="{left}" y="{top}" width="{width}" height="{height}" rx="5"/>']
    first = top + height / 2 + 5 - 8 * (len(lines) - 1)
    for place, line in enumerate(lines):
        look = "name" if place == 0 else "note"
        parts.append(centred(look, left + width / 2, f"{first + 16 * place:.0f}", escape(line)))
    return parts


def edge(*points):
    """An arrow through points."""
    return f'<polyline class="edge" points="{" ".join(f"{x},{y}" for x, y in points)}" marker-end="url(#head)"/>'


def crates_below():
    """The crates of the repository that each crate stands on."""
    crates = {}
    for line in read("crates.txt").splitlines():
        name, _, below = line.partition(":")
        crates[name.strip()] = below.split()
    return {name: [other for other in below if other in crates] for name, below in crates.items()}


def layer_of(name, below):
    """How many crates stand below one, one on the other."""
    return 1 + max((layer_of(other, below) for other in below[name]), default=-1)


def nearest(name, below):
    """The crates that one stands on, without those that another of them stands on."""
    return [other for other in below[name] if not any(other in below[third] for third in below[name])]


def draw_crates():
    """The crates by layers, each with an arrow to those it stands on."""
    below = crates_below()
    layers = {}
    for name in below:
        layers.setdefault(layer_of(name, below), []).append(name)
    width, step, middle = 200, 90, 380
    place, parts = {}, []
    for layer, names in layers.items():
        top = 20 + step * (len(layers) - 1 - layer)
        for number, name in enumerate(names):
            place[name] = (middle + (number - (len(names) - 1) / 2) * (width + 30), top)
    for name, (centre, top) in place.items():
        for other in nearest(name, below):
            parts.append(edge((centre, top + 44), (place[other][0] + (centre - place[other][0]) / 5, place[other][1])))
    for name, (centre, top) in place.items():
        parts += box(centre - width / 2, top, width, [name, NOTES[name]])
    top = 20 + step * len(layers)
    note = "Arrows lead to the nearest crates below. A crate may use those below them too."
    parts.append(centred("note", middle, top, note))
    return picture(2 * middle, top + 14, parts)


LEGEND = (("proved", "proved, for all arguments and all bytes"), ("tested", "tested: the program hands over bytes"),
          ("box", "trusted: the system"))
PROMISES = ("If nothing fails, output, message and status are those of a written definition.",
            "If a read, a write or memory fails, what was written is a prefix of the correct output.")
# The boxes of a run: left, top, width, text, kind and height.
BOXES = (
    (20, 45, 130, ["arguments", "of the command line"]),
    (20, 135, 130, ["genome file"]),
    (20, 190, 130, ["first input"]),
    (20, 245, 130, ["second input"]),
    (180, 135, 90, ["open", "each file"], "tested", 154),
    (300, 45, 120, ["plan", "options, files"], "proved"),
    (300, 135, 120, ["readers", "lines, then records"], "proved", 154),
    (450, 135, 90, ["engine", "or sweep"], "proved", 154),
    (570, 190, 80, ["Out", "one block"], "proved"),
    (510, 45, 140, ["outcome", "message, status"], "proved"),
    (680, 45, 70, ["print"], "tested"),
    (680, 190, 70, ["write"], "tested"),
    (780, 45, 130, ["standard error", "and exit status"]),
    (780, 190, 130, ["standard output"]),
)
EDGES = (
    ((150, 67), (299, 67)),
    *(((150, top + 22), (179, top + 22)) for top in (135, 190, 245)),
    ((270, 212), (299, 212)),
    ((360, 89), (360, 134)),
    ((420, 212), (449, 212)),
    ((540, 212), (569, 212)),
    ((650, 212), (679, 212)),
    ((750, 212), (779, 212)),
    ((495, 134), (495, 110), (560, 110), (560, 90)),
    ((650, 67), (679, 67)),
    ((750, 67), (779, 67)),
)


def draw_run():
    """A run: what is proved is in the middle, what is tested beside it, and what is trusted outside."""
    parts = []
    for at, (kind, words) in enumerate(LEGEND):
        left = 20 + 270 * at
        parts += [f'<rect class="{kind}" x="{left}" y="12" width="14" height="14" rx="3"/>',
                  f'<text class="note" x="{left + 20}" y="23">{words}</text>']
    parts += [part for words in BOXES for part in box(*words)]
    parts += [edge(*points) for points in EDGES]
    parts += ['<text class="note" x="368" y="116">run</text>',
              '<text class="note" x="570" y="122">how it ended</text>',
              centred("note", 460, 314, PROMISES[0]), centred("note", 460, 330, PROMISES[1])]
    return picture(930, 342, parts)


def made():
    """Each picture and its text."""
    return {"docs/crates.svg": draw_crates(), "docs/run.svg": draw_run()}


if __name__ == "__main__":
    sys.exit(write(made()))
