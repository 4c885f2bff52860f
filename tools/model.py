#!/usr/bin/env python3
"""Reads which files and definitions say what a run reports, and writes the list of ARCHITECTURE.md and the numbers of
PROVED.md."""

import re
import sys

from files import TOP, read, write

REPORT = TOP / "crates" / "bt_tool" / "specs" / "model" / "Report.antt"
PROVED, ARCHITECTURE = "docs/PROVED.md", "docs/ARCHITECTURE.md"
# Where PROVED.md says in how many files and lines the report is defined.
NUMBERS = re.compile(r"definitions that it names: (\d+) files with about ([\d,]+) lines")
# Where ARCHITECTURE.md lists these files: from one line to another.
BEGINS = "<!-- tools/model.py writes this list -->\n"
ENDS = "<!-- it ends here -->"


def named_by(definition):
    """The files of definitions of this repository that one imports from."""
    text = definition.read_text(encoding="utf-8")
    names = re.findall(r"^(?:pub )?use Rattle\.(bt_\w+)\.specs\.((?:\w+\.)+)\{", text, re.MULTILINE)
    files = ((TOP / "crates" / crate / "specs").joinpath(*name.rstrip(".").split(".")) for crate, name in names)
    return [file.with_suffix(".antt") for file in files if file.with_suffix(".antt").exists()]


def model():
    """The files that one has to believe: those in the folders `model` that don't only list others."""
    files = set(TOP.glob("crates/*/specs/model/**/*.antt"))
    return {file for file in files if not file.with_suffix("").is_dir()}


def definitions():
    """The files that say what the report is: the one that has it, and all that it names in turn."""
    found, open_ones = set(), [REPORT]
    while open_ones:
        definition = open_ones.pop()
        if definition not in found:
            found.add(definition)
            open_ones += named_by(definition)
    return found


def lines_of(definition):
    """How many lines a file has that are neither blank nor an import."""
    lines = definition.read_text(encoding="utf-8").splitlines()
    return sum(1 for line in lines if line.strip() and not line.startswith("use "))


def as_said(files):
    """The words of PROVED.md on these files, whose lines are rounded to tens."""
    lines = round(sum(map(lines_of, files)), -1)
    return f"definitions that it names: {len(files)} files with about {lines:,} lines"


def as_list(files):
    """The list of ARCHITECTURE.md: for each crate the names of its files."""
    crates = {}
    for file in sorted(files):
        crates.setdefault(file.relative_to(TOP).parts[1], []).append(f"`{file.stem}`")
    return "".join(f"- `{crate}/specs/model`: {', '.join(names)}\n" for crate, names in sorted(crates.items()))


def renewed(name, old, new):
    """A page with a text instead of what is there."""
    text = read(name)
    if not old.search(text):
        sys.exit(f"{name}: says nothing of the files that define the report")
    return old.sub(lambda _: new, text, count=1)


def made():
    """Each page and its text."""
    files = definitions()
    between = re.compile(re.escape(BEGINS) + "(?:(?!<!--).*\n)*" + re.escape(ENDS))
    return {PROVED: renewed(PROVED, NUMBERS, as_said(files)),
            ARCHITECTURE: renewed(ARCHITECTURE, between, BEGINS + as_list(files) + ENDS)}


if __name__ == "__main__":
    sys.exit(write(made()))
