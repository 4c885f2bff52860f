#!/usr/bin/env python3
"""Measures both forms of what a sweep holds: HeldIndex, by which the program sweeps, and HeldList.

    bench/forms.py [--only WORDS] [--keep FOLDER]

Makes a copy of this repository, with what is proved already, in a temporary folder; puts HeldList in the place of
HeldIndex in the one file of bt_tool that names it; proves and builds that program; and prints the instructions a
record of both programs for the workloads of compare.py over two sorted inputs whose instructions are counted. With
--only it takes those whose names have these words in them. With --keep the copy is made in that folder and stays, and
where it stands there already its program is taken as it is. It needs the Rattle kit and valgrind, and bin/bedtools
as it is here. Ends with 1 where the other form isn't built, or where the outputs of the two differ.
"""

import argparse
import shutil
import subprocess
import sys
import tempfile
from pathlib import Path

from compare import COUNTED, NO_OTHERS, PROGRAM, check_same, instructions_of, lines_of, prepared, runs_of, time_run
from workloads import WORKLOADS

TOP = PROGRAM.parent.parent
FILE = Path("crates", "bt_tool", "src", "loops", "sweeping.rt")
OURS, OTHER = "HeldIndex", "HeldList"
# Where it is imported, where the sweep is declared, and where it is made.
PLACES = 4


def build(copy):
    """The program with the other form, in a copy of this repository, which is made where it isn't there."""
    program = copy / "crates" / "bedtools" / "out" / "bedtools"
    if copy.exists():
        return program
    shutil.copytree(TOP, copy, symlinks=True, ignore=shutil.ignore_patterns(".git", "bin"))
    text = (copy / FILE).read_text(encoding="utf-8")
    if text.count(OURS) != PLACES:
        sys.exit(f"{FILE} names {OURS} {text.count(OURS)} times, not {PLACES}")
    (copy / FILE).write_text(text.replace(OURS, OTHER), encoding="utf-8")
    print(f"proving and building the program with {OTHER}", file=sys.stderr)
    words = ["rt", "run", "--", "merge", "-i", "/dev/null", "-g", "/dev/null"]
    done = subprocess.run(words, cwd=copy / "crates" / "bedtools", stdout=subprocess.PIPE, stderr=subprocess.STDOUT,
                          text=True, check=False)
    if done.returncode != 0:
        sys.exit(f"{done.stdout[-2000:]}the program with {OTHER} isn't built")
    return program


def both_runs(workload, place, other):
    """The run of each program over the inputs of a workload."""
    ours, theirs = (runs_of(workload, NO_OTHERS, place)[0] for _ in range(2))
    ours.program, theirs.program = OURS, OTHER
    theirs.words = [str(other), *theirs.words[1:]]
    return [ours, theirs]


def compare(workload, folder, valgrind, other):
    """Prints a row of the table: the instructions a record of both, once their outputs are the same."""
    place = prepared(workload, folder, COUNTED)
    runs = both_runs(workload, place, other)
    outputs = {run.program: folder / run.program for run in runs}
    for run in runs:
        time_run(run, outputs[run.program])
    check_same(runs, outputs)
    index, of_list = (instructions_of(valgrind, run) / lines_of(place / "records.bed") for run in runs)
    print(f"| {workload.name()} | {index:,.0f} | {of_list:,.0f} | {index / of_list:.2f} |", flush=True)


def main():
    parser = argparse.ArgumentParser(description=__doc__.splitlines()[0])
    parser.add_argument("--only", metavar="WORDS", default="")
    parser.add_argument("--keep", metavar="FOLDER")
    asked = parser.parse_args()
    valgrind = shutil.which("valgrind")
    if not valgrind:
        sys.exit("valgrind isn't on PATH")
    with tempfile.TemporaryDirectory() as folder:
        folder = Path(folder)
        other = build(Path(asked.keep) if asked.keep else folder / "copy")
        print(f"| instructions a record | `{OURS}` | `{OTHER}` | of it |\n|---|---|---|---|")
        for workload in (it for it in WORKLOADS if asked.only in it.name()):
            if workload.words[0] in ("intersect", "subtract") and workload.counts("dunekettle"):
                compare(workload, folder, valgrind, other)


if __name__ == "__main__":
    main()
