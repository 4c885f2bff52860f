#!/usr/bin/env python3
"""Writes the table of RECIPES.md: each script with what it is for, its limits and its costs.

tests/recipes/needs.tsv has the script, what it is for, what to know, and the line of bedtools that its cost is measured
by; bench/recipes.tsv the seconds of bedtools and of the script, which bench/recipes.py measures.
"""

import re
import sys

from files import read, rows, write

PAGE, NEEDS, COSTS = "docs/RECIPES.md", "tests/recipes/needs.tsv", "bench/recipes.tsv"
# The table, between two marks.
MARKS = re.compile(r"(<!-- tools/recipe_table.py writes this table -->\n).*?(<!-- it ends here -->)", re.DOTALL)
HEAD = "| instead of | script | CPU seconds: bedtools, script | what to know |\n|---|---|---|---|\n"
ABOUT = ("\nCPU time, with that of `samtools`, `awk` and `sort`, over {}; the fastest of 3 runs. "
         "{} of {} scripts are slower than bedtools.\n")


def cost_of(costs, script):
    """The cell of a script's cost."""
    if script not in costs:
        return ""
    theirs, ours = costs[script]
    return f"{theirs:.2f}, {ours:.2f}{', **slower**' if ours > theirs else ''}"


def table():
    """The table, and the line below it."""
    costs = {script: (float(theirs), float(ours)) for script, theirs, ours in rows(COSTS)}
    lines = [HEAD]
    for script, need, limits, _ in rows(NEEDS):
        cells = [need, f"[{script}](../recipes/{script})", cost_of(costs, script), limits]
        lines.append("|" + "".join(f" {cell} |" if cell else " |" for cell in cells) + "\n")
    about = read(COSTS).split("\n", 1)[0].split("script, over ")[1]
    slower = sum(ours > theirs for theirs, ours in costs.values())
    return "".join(lines) + ABOUT.format(about, slower, len(costs))


def made():
    """The page and its text."""
    return {PAGE: MARKS.sub(lambda found: found[1] + table() + found[2], read(PAGE))}


if __name__ == "__main__":
    sys.exit(write(made()))
