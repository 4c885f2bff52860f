#!/usr/bin/env python3
"""Measures what each script of recipes/ costs beside bedtools 2.30.0, into recipes.tsv: seconds of processor.

    bench/recipes.py [RECORDS]

The case of each script is that of tests/recipes/needs.tsv. tools/recipe_table.py writes the table of RECIPES.md.
"""

import os
import resource
import shutil
import subprocess
import sys
import tempfile
import time
from pathlib import Path

TOP = Path(__file__).resolve().parent.parent
sys.path[:0] = [str(TOP), str(TOP / "tools")]

from files import rows  # noqa: E402
from tests.recipes.inputs import LENGTHS, fill  # noqa: E402
from tests.recipes.test_recipes import NEEDS, put_originals, put_ours, recipes  # noqa: E402

# So many records, on chromosomes longer by as much; the least of so many runs counts.
RECORDS, RUNS = 100_000, 3


def processor():
    """The seconds of processor that children took so far."""
    used = resource.getrusage(resource.RUSAGE_CHILDREN)
    return used.ru_utime + used.ru_stime


def took(script, folder, path):
    """The least processor time of some runs of a script, with its children."""
    least = None
    for _ in range(RUNS):
        before = processor()
        subprocess.run(["bash", "-o", "pipefail", "-c", script], cwd=folder, stdin=subprocess.DEVNULL,
                       stdout=subprocess.DEVNULL, check=True,
                       env={**os.environ, "PATH": f"{path}:{os.environ['PATH']}"})
        seconds = processor() - before
        least = seconds if least is None else min(least, seconds)
    return least


def measured(top, times):
    """The rows: each script with the seconds of bedtools and its own, over files so many times as long."""
    for name, kind in (("six", "six columns"), ("twelve", "twelve columns")):
        (top / name).mkdir()
        fill(top / name, kind, 40 * times, times)
    ours_of = {recipe.name: recipe.ours for recipe in recipes() if ".sh" in recipe.ours}
    for script, _, _, case in rows(NEEDS):
        if case:
            folder = top / ("twelve" if "-split" in case and "bam" not in case else "six")
            theirs = took(f"bedtools {case}", folder, top / "theirs")
            ours = took(ours_of[f"bedtools {case}"], folder, top / "ours")
            yield f"{script}\t{theirs:.2f}\t{ours:.2f}\n"


def main():
    records = int(sys.argv[1]) if len(sys.argv) > 1 else RECORDS
    with tempfile.TemporaryDirectory() as made:
        top = Path(made)
        if not put_originals(top / "theirs") or not shutil.which("samtools"):
            print("no bedtools 2.30.0 or no samtools on PATH")
            return 1
        put_ours(top / "ours")
        lines = list(measured(top, records // (40 * len(LENGTHS))))
    commit = subprocess.check_output(["git", "rev-parse", "--short", "HEAD"], cwd=TOP, text=True).strip()
    awk = Path(shutil.which("awk")).resolve().name
    about = f"over {records:,} records by {awk}; commit {commit}, {time.strftime('%Y-%m-%d')}"
    table = f"script\tbedtools\tscript, {about}\n" + "".join(lines)
    (TOP / "bench" / "recipes.tsv").write_text(table, encoding="utf-8")
    print(table, end="")
    return 0


if __name__ == "__main__":
    sys.exit(main())
