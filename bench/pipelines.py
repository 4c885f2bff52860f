#!/usr/bin/env python3
"""Measures whole pipelines by the clock: as they call bedtools, unchanged with the drop-in, and rewritten.

    bench/pipelines.py --results            measures them on an idle machine, and writes pipelines.json, table and chart
    bench/pipelines.py --trial FILE [N]     the same on any machine into a file, over N reads, and touches no page

The pipelines are the scripts of bench/pipelines: NAME.sh calls `bedtools`, and NAME.rewritten.sh `dunekettle-bedtools`.
Their second line says what they do. All three forms have to write the same bytes. Times are those of the clock, the
least of several runs; how many calls the drop-in gave to Dunekettle is counted by DUNEKETTLE_TELL. bench/results.py
writes the table and the chart from pipelines.json, and checks them.
"""

import json
import os
import random
import re
import subprocess
import sys
import tempfile
import time
from pathlib import Path

HERE = Path(__file__).resolve().parent
TOP = HERE.parent
sys.path.insert(0, str(TOP / "tests" / "drop_in"))

from front_tools import TOLD, drop_in, environment, install, original  # noqa: E402
from results import IDLE, commit, machine  # noqa: E402

RESULTS = HERE / "pipelines.json"
# In this order they are shown.
NAMES = ("coverage", "peaks", "counts", "intergenic", "samples")
FORMS = ("bedtools", "drop-in", "rewritten")
READS, TIMES = 2_000_000, 3
GENOME = {"chr1": 248_956_422, "chr10": 133_797_422, "chr2": 242_193_529, "chr3": 198_295_559, "chrX": 156_040_895}


def spread(draw, count, shortest, longest):
    """Features at random places, sorted."""
    sizes = list(GENOME.items())
    names = draw.choices([name for name, _ in sizes], [size for _, size in sizes], k=count)
    rows = ((name, draw.randrange(GENOME[name] - longest), draw.randrange(shortest, longest)) for name in names)
    return sorted((name, start, start + length) for name, start, length in rows)


def write(path, rows):
    """A file of tab-separated rows."""
    path.write_text("".join("\t".join(map(str, row)) + "\n" for row in rows), encoding="utf-8")


def make(folder, reads):
    """The inputs: reads as BAM, exons, genes, peaks, repeats, a blacklist, and small samples."""
    draw = random.Random(7)
    write(folder / "genome.txt", GENOME.items())
    header = "".join(f"@SQ\tSN:{name}\tLN:{size}\n" for name, size in GENOME.items())
    bases, marks = "ACGT" * 25, "I" * 100
    lines = (f"r{n}\t{16 * (n % 2)}\t{name}\t{start + 1}\t60\t100M\t*\t0\t0\t{bases}\t{marks}\n"
             for n, (name, start, _) in enumerate(spread(draw, reads, 100, 101)))
    (folder / "reads.sam").write_text("@HD\tVN:1.6\tSO:coordinate\n" + header + "".join(lines), encoding="utf-8")
    subprocess.run(["samtools", "view", "-b", "-o", "reads.bam", "reads.sam"], cwd=folder, check=True)
    (folder / "reads.sam").unlink()
    write(folder / "exons.bed",
          ((*row, f"exon{n}", 0, "+-"[n % 2]) for n, row in enumerate(spread(draw, reads // 10, 80, 400))))
    for sample in (1, 2, 3):
        write(folder / f"peaks_{sample}.bed",
              ((*row, f"peak{n}", n % 1000) for n, row in enumerate(spread(draw, reads // 10, 150, 900))))
        subprocess.run(["gzip", f"peaks_{sample}.bed"], cwd=folder, check=True)
    write(folder / "promoters.bed", spread(draw, reads // 40, 1000, 1001))
    write(folder / "blacklist.bed", spread(draw, 1000, 500, 5000))
    write(folder / "repeats.bed", spread(draw, reads // 2, 50, 600))
    write(folder / "genes.gtf",
          ((name, "made", "gene", start + 1, end, ".", "+", ".", f'gene_id "g{n}";')
           for n, (name, start, end) in enumerate(spread(draw, reads // 40, 2000, 40_000))))
    (folder / "samples").mkdir()
    for sample in range(200):
        write(folder / "samples" / f"{sample:03}.bed", spread(draw, 50, 100, 1000))
    write(folder / "blacklist_few.bed", spread(draw, 100, 500, 50_000))


def run(script, folder, env):
    """The seconds by the clock of a script, and what it wrote."""
    output = folder / "output.txt"
    with output.open("wb") as file:
        begun = time.monotonic()
        subprocess.run(["bash", script], cwd=folder, env=env, stdout=file, check=True)
        seconds = time.monotonic() - begun
    return seconds, subprocess.run(["cksum", output.name], cwd=folder, stdout=subprocess.PIPE, check=True).stdout


def forms(place):
    """The environment of each form."""
    return {"bedtools": environment(), "drop-in": environment(drop_in(place)), "rewritten": environment(place / "bin")}


def taken(name, folder, place):
    """How many calls of a pipeline there are, and how many Dunekettle takes of the drop-in."""
    told = folder / "told.txt"
    told.write_text("", encoding="utf-8")
    run(HERE / "pipelines" / f"{name}.sh", folder, environment(drop_in(place), DUNEKETTLE_TELL=str(told)))
    who = [taker for taker, _ in TOLD.findall(told.read_text(encoding="utf-8"))]
    return len(who), who.count("Dunekettle")


def measured(name, folder, place):
    """The row of a pipeline."""
    times, outputs = {form: [] for form in FORMS}, set()
    for _ in range(TIMES):
        for form, env in forms(place).items():
            script = HERE / "pipelines" / (f"{name}.rewritten.sh" if form == "rewritten" else f"{name}.sh")
            seconds, output = run(script, folder, env)
            times[form].append(seconds)
            outputs.add(output)
    if len(outputs) > 1:
        sys.exit(f"{name}: the forms write different bytes")
    what = re.search(r"^# (.*)", (HERE / "pipelines" / f"{name}.sh").read_text(encoding="utf-8"), re.MULTILINE)[1]
    calls, by_us = taken(name, folder, place)
    row = {"name": name, "what": what, "seconds": {form: round(min(all_), 3) for form, all_ in times.items()},
           "calls": calls, "taken": by_us}
    print(row, flush=True)
    return row


def main():
    words = sys.argv[1:]
    if words[:1] not in (["--results"], ["--trial"]):
        sys.exit(__doc__)
    is_trial = words[0] == "--trial"
    if not original():
        return 0
    if not is_trial and os.getloadavg()[0] > IDLE:
        sys.exit("the machine isn't idle")
    reads = int(words[2]) if words[2:] else READS
    with tempfile.TemporaryDirectory() as top:
        folder, place = Path(top, "inputs"), install(Path(top, "there"))
        folder.mkdir()
        make(folder, reads)
        rows = [measured(name, folder, place) for name in NAMES]
    kept = {"commit": commit(), "date": time.strftime("%Y-%m-%d"), "machine": machine(), "reads": reads, "times": TIMES,
            "is_trial": is_trial, "pipelines": rows}
    Path(words[1] if is_trial else RESULTS).write_text(json.dumps(kept, indent=1) + "\n", encoding="utf-8")
    return 0 if is_trial else subprocess.run([HERE / "results.py", "--write"], check=False).returncode


if __name__ == "__main__":
    sys.exit(main())
