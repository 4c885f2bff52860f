#!/usr/bin/env python3
"""Shows what each kind of call costs with the drop-in and with bedtools 2.30.0 alone, also where the drop-in loses.

    tests/drop_in/front_costs.py [--write] [WORD..]

The files are made here: 800,000 reads as BED, gzip and BAM on a genome of 360,000,000 bases, exons, transcripts and
sequences, and small ones. For each call it shows who took it and the seconds of both, of the processor and by the
clock, the less of two runs, and compares the bytes. With words it tries the calls that have one of them. Without
words --write puts all rows into front_costs.tsv and some into bench/DROP_IN.md. Ends with 1 if bytes differ, or if a
call that Dunekettle takes needs over a tenth more of the processor than bedtools.
"""

import hashlib
import random
import re
import resource
import subprocess
import sys
import tempfile
import time
from pathlib import Path
from typing import NamedTuple

from front_tools import TOLD, TOP, drop_in, environment, install, original

# The table of bench/DROP_IN.md.
TABLE = re.compile(r"(<!-- a script writes: costs -->\n).*?(<!-- it ends here -->)", re.DOTALL)
COLUMNS = ("call", "run by", "bedtools, CPU s", "drop-in, CPU s", "bedtools, wall-clock s", "drop-in, wall-clock s")
# The file of all rows, and the calls whose rows are on the page.
ROWS = Path(__file__).resolve().parent / "front_costs.tsv"
SHOWN = """
merge -i reads.bed
merge -i reads.bed.gz
cat reads.bed | merge
complement -i reads.bed -g sorted.sizes
intersect -u -a reads.bed -b exons.bed
intersect -wa -wb -a reads.bed -b exons.bed
intersect -c -a exons.bed -b reads.bed
subtract -a reads.bed -b exons.bed
genomecov -bg -i reads.bed -g sorted.sizes
genomecov -i reads.bed -g sorted.sizes
genomecov -bg -ibam reads.bam
bamtobed -i reads.bam
maskfasta -fi long.fa -bed repeats.bed -fo masked.fa
merge -i few.bed
""".strip().splitlines()
SIZES = {"chr1": 120_000_000, "chr2": 100_000_000, "chrX": 80_000_000, "chr10": 60_000_000}
READS, EXONS = 200_000, 40_000  # on each chromosome
CALLS = """
merge -i reads.bed
merge -i natural.bed
merge -S + -i reads.bed
merge -d 100 -i exons.bed
merge -i reads.bed.gz
merge -i - < reads.bed
cat reads.bed | merge
complement -i reads.bed -g sorted.sizes
intersect -u -a reads.bed -b exons.bed
intersect -u -s -a reads.bed -b exons.bed
intersect -u -r -f 0.5 -a reads.bed -b exons.bed
intersect -u -r -f 0.5 -a exons.bed -b whole.bed
intersect -sorted -wa -wb -a reads.bed -b exons.bed
intersect -wa -wb -a reads.bed -b exons.bed
intersect -c -a exons.bed -b reads.bed
intersect -u -a reads.bed -b <(cat exons.bed)
intersect -u -a reads.bed.gz -b exons.bed.gz
intersect -wa -wb -a covered.bed -b covered.bed
subtract -a reads.bed -b exons.bed
genomecov -bg -i reads.bed -g sorted.sizes
genomecov -bg -i natural.bed -g sorted.sizes
genomecov -bga -i natural.bed -g sorted.sizes
genomecov -bg -strand + -i reads.bed -g sorted.sizes
genomecov -bga -strand + -i reads.bed -g sorted.sizes
genomecov -bg -scale 0.37 -i reads.bed -g sorted.sizes
genomecov -i reads.bed -g sorted.sizes
genomecov -max 3 -i reads.bed -g sorted.sizes
genomecov -i reads.bed.gz -g sorted.sizes
genomecov -d -i few.bed -g small.sizes
genomecov -dz -i few.bed -g small.sizes
genomecov -bg -i few.bed -g sorted.sizes
genomecov -bg -split -i transcripts.bed -g sorted.sizes
genomecov -bg -ibam reads.bam
genomecov -bg -split -ibam reads.bam
genomecov -ibam reads.bam
bamtobed -i reads.bam
maskfasta -fi long.fa -bed repeats.bed -fo masked.fa
merge -i few.bed
intersect -u -a few.bed -b few.bed
sort -i few.bed
"""


def write(folder, name, rows):
    """A file of tab-separated rows."""
    with Path(folder, name).open("w", encoding="utf-8") as file:
        file.writelines("\t".join(map(str, row)) + "\n" for row in rows)


def make_reads(folder, draw):
    """The reads in two orders of chromosomes, and as SAM and BAM."""
    sam, reads = [f"@SQ\tSN:{name}\tLN:{size}\n" for name, size in SIZES.items()], {}
    for name, size in SIZES.items():
        starts = sorted(draw.randrange(size - 6000) for _ in range(READS))
        reads[name] = [(name, start, start + draw.randrange(50, 400), f"r{n}", draw.randrange(60), draw.choice("+-"))
                       for n, start in enumerate(starts)]
        for _, start, _, read, quality, strand in reads[name]:
            cigar = draw.choice(["75M"] * 6 + ["30M2D45M", "40M1200N35M", "20M4I51M", "5S70M"])
            flag = 16 if strand == "-" else 0
            sam.append(f"{read}\t{flag}\t{name}\t{start + 1}\t{quality}\t{cigar}\t*\t0\t0\t*\t*\n")
    write(folder, "reads.bed", (row for name in sorted(SIZES) for row in reads[name]))
    write(folder, "natural.bed", (row for name in SIZES for row in reads[name]))
    Path(folder, "reads.sam").write_text("".join(sam), encoding="utf-8")
    subprocess.run(["samtools", "view", "-b", "-o", "reads.bam", "reads.sam"], cwd=folder, check=True)
    subprocess.run(["gzip", "-k", "reads.bed"], cwd=folder, check=True)


def make_files(folder, draw):
    """All the files."""
    make_reads(folder, draw)
    exons, transcripts = [], []
    for name in sorted(SIZES):
        for start in sorted(draw.randrange(SIZES[name] - 30_000) for _ in range(EXONS)):
            exons.append((name, start, start + draw.randrange(50, 300), "exon", 0, draw.choice("+-")))
            lengths = [draw.randrange(50, 300) for _ in range(draw.randrange(1, 7))]
            starts = [at * 2000 for at in range(len(lengths))]
            end = start + starts[-1] + lengths[-1]
            transcripts.append((name, start, end, "tx", 0, draw.choice("+-"), start, end, 0, len(lengths),
                                "".join(f"{length}," for length in lengths), "".join(f"{at}," for at in starts)))
    write(folder, "exons.bed", exons)
    subprocess.run(["gzip", "-k", "exons.bed"], cwd=folder, check=True)
    write(folder, "transcripts.bed", transcripts)
    write(folder, "few.bed", exons[:1000])
    # A long record before many that it covers
    short = (("chr1", start, start + 20) for start in range(0, 3_000_000, 100))
    write(folder, "covered.bed", [("chr1", 0, SIZES["chr1"]), *short])
    write(folder, "whole.bed", ((name, 0, size) for name, size in sorted(SIZES.items())))
    write(folder, "sorted.sizes", sorted(SIZES.items()))
    write(folder, "small.sizes", [("chr1", 4_000_000)])
    line = "".join(draw.choices("ACGT", k=60)) + "\n"
    with Path(folder, "long.fa").open("w", encoding="utf-8") as file:
        file.writelines(f">{name}\n{line * 416_666}" for name in "abcd")
    write(folder, "repeats.bed",
          ((name, start, start + 300) for name in "abcd" for start in range(0, 24_000_000, 2000)))


def script_of(line, program):
    """The call as a shell runs it."""
    first, bar, rest = line.rpartition("| ")
    return f"{first}{bar}{program} {rest}"


class Run(NamedTuple):
    """The seconds of the processor and by the clock of a call, what it wrote, and who took it."""

    used: float
    clock: float
    wrote: tuple
    taker: str


def run(line, program, folder, env):
    """One run of a call."""
    before, begun = resource.getrusage(resource.RUSAGE_CHILDREN), time.monotonic()
    with Path(folder, "out").open("wb") as out, Path(folder, "said").open("wb") as said:
        status = subprocess.run(["bash", "-c", script_of(line, program)], cwd=folder, env=env, stdout=out, stderr=said,
                                check=False).returncode
    clock, after = time.monotonic() - begun, resource.getrusage(resource.RUSAGE_CHILDREN)
    used = after.ru_utime + after.ru_stime - before.ru_utime - before.ru_stime
    file = Path(folder, "masked.fa" if "maskfasta" in line else "out")
    taker = TOLD.findall(Path(folder, "said").read_text(encoding="utf-8", errors="replace"))
    wrote = status, hashlib.sha256(file.read_bytes()).hexdigest()
    return Run(used, clock, wrote, taker[0][0] if taker else "")


def try_call(line, theirs, ours, folder):
    """A row of the table, and whether it is as it has to be."""
    plain, fronted = environment(), environment(ours, DUNEKETTLE_TELL="1")
    alone = [run(line, theirs, folder, plain) for _ in range(2)]
    with_it = [run(line, ours / "bedtools", folder, fronted) for _ in range(2)]
    used = [min(each.used for each in runs) for runs in (alone, with_it)]
    clock = [min(each.clock for each in runs) for runs in (alone, with_it)]
    is_same = len({each.wrote for each in alone + with_it}) == 1
    taker = "Dunekettle" if with_it[0].taker == "Dunekettle" else "bedtools"
    is_cheap = taker == "bedtools" or used[1] <= used[0] * 1.1 + 0.005
    row = [line, taker, *(f"{seconds:.2f}" for seconds in used + clock)]
    print(as_row(row) + ("" if is_same else " BYTES DIFFER") + ("" if is_cheap else " DEARER"), flush=True)
    return row, is_same and is_cheap


def as_row(cells):
    """A row of the page's table: the call, and numbers."""
    line, *others = cells
    return f"| `{line.replace('|', chr(92) + '|')}` | {' | '.join(others)} |"


def write_table(rows):
    """Puts all rows into front_costs.tsv, and those of SHOWN into bench/DROP_IN.md."""
    ROWS.write_text("".join("\t".join(row) + "\n" for row in [COLUMNS, *rows]), encoding="utf-8")
    page = TOP / "bench" / "DROP_IN.md"
    lines = [f"| {' | '.join(COLUMNS)} |", f"|{'---|' * len(COLUMNS)}",
             *(as_row(row) for row in rows if row[0] in SHOWN)]
    text = page.read_text(encoding="utf-8")
    page.write_text(TABLE.sub(lambda found: found[1] + "".join(f"{line}\n" for line in lines) + found[2], text),
                    encoding="utf-8")


def main():
    theirs = original()
    if not theirs:
        return 0
    words = [word for word in sys.argv[1:] if word != "--write"]
    calls = [line for line in CALLS.strip().splitlines() if not words or any(word in line for word in words)]
    with tempfile.TemporaryDirectory() as made:
        folder = Path(made, "data")
        folder.mkdir()
        ours = drop_in(install(Path(made, "there")))
        make_files(folder, random.Random(11))
        print("| call | taken by | processor: bedtools | with the drop-in | clock: bedtools | with the drop-in |")
        rows = [try_call(line, theirs, ours, folder) for line in calls]
    if "--write" in sys.argv and not words:
        write_table([row for row, _ in rows])
    wrong = sum(not is_right for _, is_right in rows)
    print(f"costs: {len(rows)} calls, {wrong} of them not as they have to be")
    return 1 if wrong else 0


if __name__ == "__main__":
    sys.exit(main())
