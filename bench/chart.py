"""Draws the results of the bench as SVG files, of one width, in colours for a light page and for a dark one."""

import math
import re
from collections.abc import Callable
from html import escape
from typing import NamedTuple

STYLE = """<style>
.ground { fill: #ffffff } text { fill: #1f2328; font: 12px sans-serif } .note { font-size: 11px; fill: #57606a }
.title { font-weight: bold; font-size: 13px } .name { font-weight: bold } .grid { stroke: #d0d7de }
.ours { fill: #c2571a } .theirs { fill: #5b7c99 } .both { fill: #9a7bb5 } .link { stroke: #8c959f }
.line { fill: none; stroke-width: 2 } .line.ours { stroke: #c2571a; fill: none } \
.line.theirs { stroke: #5b7c99; fill: none }
@media (prefers-color-scheme: dark) {
.ground { fill: #0d1117 } text { fill: #e6edf3 } .note { fill: #9da7b1 } .grid { stroke: #30363d } \
.link { stroke: #6e7681 }
.ours { fill: #f0883e } .theirs { fill: #79a6d2 } .both { fill: #b99ad6 } .line.ours { stroke: #f0883e } \
.line.theirs { stroke: #79a6d2 }
}
</style>"""
WIDTH = 900
OURS, THEIRS = "dunekettle", "bedtools"
# What a million of the bench's size is, if it isn't a million records.
SIZES = {"bamtobed": (1 / 3, "M reads"), "maskfasta": (29.6, "MB of FASTA")}


def text(left, top, words, kind="", anchor="start"):
    """A line of text."""
    return f'<text class="{kind}" x="{left:.1f}" y="{top:.1f}" text-anchor="{anchor}">{escape(words)}</text>'


def picture(height, parts):
    """The text of an SVG file."""
    head = f'<svg xmlns="http://www.w3.org/2000/svg" viewBox="0 0 {WIDTH} {height}" width="{WIDTH}" height="{height}">'
    return "\n".join([head, STYLE, f'<rect class="ground" width="{WIDTH}" height="{height}"/>', *parts, "</svg>\n"])


def scale(low, high, left, right):
    """Where a value is on a scale on which each step times the same is as long."""
    return lambda value: left + (right - left) * math.log(value / low) / math.log(high / low)


def seconds(value):
    """A time of two digits."""
    return (f"{value:.0f} s" if value >= 9.95 else f"{value:.1f} s" if value >= 0.995
            else f"{value:.2f} s" if value >= 0.0995 else f"{value:.3f} s")


def size(kilobytes):
    """Memory of two digits."""
    bytes_ = kilobytes * 1024
    unit, of = ("GB", 1e9) if bytes_ >= 995e6 else ("MB", 1e6)
    amount = bytes_ / of
    return (f"{round(amount, -1):.0f} {unit}" if amount >= 99.5 else f"{amount:.0f} {unit}" if amount >= 9.95
            else f"{amount:.1f} {unit}")


def foot(top, caption):
    """The caption, broken where a sentence ends."""
    words = caption.replace("**", "").replace("`", "").strip()
    lines = re.split(r"(?<=\.) (?=[A-Z])|(?<=;) ", words)
    merged = [lines[0]]
    for line in lines[1:]:
        if len(merged[-1]) + len(line) < 140:
            merged[-1] += f" {line}"
        else:
            merged.append(line)
    return [text(16, top + 16 * at, line, "note") for at, line in enumerate(merged)], top + 16 * len(merged)


def ticks(where, values, label, top, bottom):
    """The lines of a scale with their numbers above."""
    return [part for value in values for part in (
        f'<line class="grid" x1="{where(value):.1f}" x2="{where(value):.1f}" y1="{top}" y2="{bottom}"/>',
        text(where(value), top - 5, label(value), "note", "middle"))]


def draw_commands(kept, shown, caption):
    """A row for each command: how many times faster it is than bedtools, by CPU time, and the memory of both."""
    rows = [next(row for row in kept["workloads"] if row["command"] == command and row["name"].endswith(f", {data}"))
            for command, data in shown.items()]
    first, step = 82, 38
    bottom = first + step * len(rows)
    ratios = [row["runs"][THEIRS]["seconds"] / row["runs"][OURS]["seconds"] for row in rows]
    most = 100 if max(ratios) <= 100 else 1000
    less = scale(1, most, 190, 465)
    memory = scale(1, 10_000, 590, 850)
    parts = [text(190, 24, "times faster than bedtools (CPU time)", "title"), text(590, 24, "peak memory", "title"),
             text(190, 40, "below the factor: CPU seconds of bedtools / Dunekettle", "note"),
             *ticks(less, [mark for mark in (1, 2, 5, 10, 20, 50, 100, 200, 500, 1000) if mark <= most], str, 66,
                    bottom - 6),
             *ticks(memory, (1, 10, 100, 1000, 10_000),
                    lambda value: f"{value} MB" if value < 1000 else f"{value // 1000} GB", 66, bottom - 6),
             '<circle class="ours" cx="715" cy="20" r="5"/>', text(724, 24, "Dunekettle"),
             '<circle class="theirs" cx="806" cy="20" r="5"/>', text(815, 24, "bedtools")]
    for at, (row, ratio) in enumerate(zip(rows, ratios)):
        top = first + step * at
        ours, theirs = row["runs"][OURS], row["runs"][THEIRS]
        end = less(min(max(ratio, 1), most))
        parts += [text(16, top + 8, row["command"], "name"), text(16, top + 22, row["name"].split(", ", 1)[1], "note"),
                  f'<rect class="ours" x="190" y="{top}" width="{end - 190:.1f}" height="18" rx="2"/>',
                  text(end + 5, top + 9, f"{ratio:.0f} times" if ratio >= 9.95 else f"{ratio:.1f} times", "name"),
                  text(end + 5, top + 22, f"{seconds(theirs['seconds'])} / {seconds(ours['seconds'])}", "note")]
        low, high = (memory(run["kilobytes"] * 1024 / 1e6) for run in (ours, theirs))
        parts += [f'<line class="link" x1="{low:.1f}" x2="{high:.1f}" y1="{top + 9}" y2="{top + 9}"/>',
                  f'<circle class="ours" cx="{low:.1f}" cy="{top + 9}" r="5"/>',
                  f'<circle class="theirs" cx="{high:.1f}" cy="{top + 9}" r="5"/>',
                  text(low - 8, top + 13, size(ours["kilobytes"]), "note", "end"),
                  text(high + 8, top + 13, size(theirs["kilobytes"]), "note")]
    noted, end = foot(bottom + 20, caption)
    return picture(end + 4, [*parts, *noted])


def curve(points, kind):
    """A line through points, with a dot on each."""
    path = " ".join(f"{x:.1f},{y:.1f}" for x, y in points)
    return [f'<polyline class="line {kind}" points="{path}"/>',
            *(f'<circle class="{kind}" cx="{x:.1f}" cy="{y:.1f}" r="3"/>' for x, y in points)]


class Panel(NamedTuple):
    """A row of charts: where it is, its scale, what it shows of a run, and how its marks are named."""

    top: int
    bottom: int
    low: float
    high: float
    marks: tuple
    value: Callable
    label: Callable


PANELS = (
    Panel(64, 210, 0.01, 100, (0.01, 0.1, 1, 10, 100), lambda run: run["seconds"], lambda value: f"{value:g} s"),
    Panel(260, 406, 1, 10_000, (1, 10, 100, 1000, 10_000), lambda run: run["kilobytes"] * 1024 / 1e6,
          lambda value: f"{value:g} MB" if value < 1000 else f"{value / 1000:g} GB"),
)
# The left end of the columns, how wide each is, and what is between two.
LEFT, WIDE, GAP = 70, 104, 14


def draw_marks(panel, up):
    """The lines across a panel, with their values."""
    right = LEFT + 7 * WIDE + 6 * GAP
    return [part for mark in panel.marks for part in (
        f'<line class="grid" x1="{LEFT}" x2="{right}" y1="{up(mark):.1f}" y2="{up(mark):.1f}"/>',
        text(LEFT - 6, up(mark) + 4, panel.label(mark), "note", "end"))]


def draw_column(panel, up, begin, command, sizes):
    """A command in a panel: the curves of both programs, and below them the sizes."""
    across = scale(min(map(int, sizes)), max(map(int, sizes)), begin + 10, begin + WIDE - 10)
    parts = [text(begin + WIDE / 2, 52, command, "name", "middle")] if panel is PANELS[0] else []
    for program, kind in ((THEIRS, "theirs"), (OURS, "ours")):
        points = [(across(int(records)), up(max(panel.value(runs[program]), panel.low)))
                  for records, runs in sizes.items() if program in runs]
        parts += curve(points, kind) if points else []
    factor, unit = SIZES.get(command, (1, "M records"))
    for records in sizes:
        amount = f"{float(f'{int(records) / 1e6 * factor:.2g}'):g}"
        parts.append(text(across(int(records)), panel.bottom + 16, amount, "note", "middle"))
    return [*parts, text(begin + WIDE / 2, panel.bottom + 30, unit, "note", "middle")]


def draw_growth(kept, caption):
    """A column for each command: time and memory of both programs by the number of records."""
    parts = [text(16, 20, "CPU time and peak memory, by the size of the input", "title"),
             '<circle class="ours" cx="560" cy="16" r="5"/>', text(569, 20, "Dunekettle"),
             '<circle class="theirs" cx="650" cy="16" r="5"/>', text(659, 20, "bedtools")]
    for panel in PANELS:
        up = scale(panel.low, panel.high, panel.bottom, panel.top)
        parts += draw_marks(panel, up)
        for at, (command, sizes) in enumerate(kept["growth"].items()):
            parts += draw_column(panel, up, LEFT + at * (WIDE + GAP), command, sizes)
    noted, end = foot(462, caption)
    return picture(end + 4, [*parts, *noted])


class Form(NamedTuple):
    """A form in which pipelines are measured: its colour, its name, and where the legend has it."""

    name: str
    kind: str
    label: str
    at: int


FORMS = (Form("bedtools", "theirs", "bedtools", 330), Form("drop-in", "both", "drop-in, unchanged", 430),
         Form("rewritten", "ours", "rewritten", 595))


def draw_bars(row, top, left, width_of):
    """A pipeline: what it does, how many calls the drop-in took, and a bar for each form."""
    words = row["what"].split(" ")
    half = next((cut for cut in range(len(words), 0, -1) if len(" ".join(words[:cut])) <= 40), len(words))
    named = [" ".join(part) for part in (words[:half], words[half:]) if part]
    parts = [text(16, top + 12 + 16 * line, part, "name") for line, part in enumerate(named)]
    calls = f"the drop-in took {row['taken']} of {row['calls']} calls"
    parts.append(text(16, top + 12 + 16 * len(named), calls, "note"))
    for line, form in enumerate(FORMS):
        value = row["seconds"][form.name]
        place = f'x="{left}" y="{top + 16 * line}" width="{max(width_of(value), 1):.1f}" height="12"'
        parts += [f'<rect class="{form.kind}" {place} rx="2"/>',
                  text(left + width_of(value) + 6, top + 16 * line + 10, seconds(value), "note")]
    return parts


def draw_pipelines(kept, caption):
    """Three bars for each pipeline, on one linear scale of wall-clock seconds: bedtools, the drop-in, rewritten."""
    most = max(seconds for row in kept["pipelines"] for seconds in row["seconds"].values())
    left, right, first, step = 330, 820, 62, 66
    step_of_ticks = next(mark for mark in (0.1, 0.2, 0.5, 1, 2, 5, 10, 20, 50, 100, 200, 500) if most / mark <= 6)
    values = [step_of_ticks * at for at in range(int(most / step_of_ticks) + 1)]
    bottom = first + step * len(kept["pipelines"])
    parts = [text(16, 20, "whole pipelines, wall-clock seconds", "title")]
    for form in FORMS:
        parts += [f'<rect class="{form.kind}" x="{form.at}" y="10" width="12" height="12" rx="2"/>',
                  text(form.at + 17, 20, form.label)]

    def width_of(value):
        return (right - left) * value / most

    parts += ticks(lambda value: left + width_of(value), values, lambda value: f"{value:g} s", first - 12, bottom - 10)
    for at, row in enumerate(kept["pipelines"]):
        parts += draw_bars(row, first + step * at, left, width_of)
    noted, end = foot(bottom + 18, caption)
    return picture(end + 4, [*parts, *noted])
