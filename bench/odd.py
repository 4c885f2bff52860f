"""The odd inputs of the bench: real ones on which a program may be slow, each beside bedtools.

compare.py --odd runs them. Of each workload the outputs of both programs are compared by their checksums, and then each
program is timed with its output to /dev/null. Each input is such that both programs write the same bytes; a note says
how it avoids a difference that differences.tsv names.
"""

import hashlib
import itertools
import json
import math
import os
import shutil
import sys
import tempfile
import time
from collections.abc import Callable
from dataclasses import dataclass
from pathlib import Path

import compare
import odd_inputs as inputs
import results

# A workload that takes bedtools fewer seconds than this is timed five times, and a longer one three times.
SHORT, OFTEN, LESS_OFTEN = 3.0, 5, 3


@dataclass
class Odd:
    """A command over an odd input."""

    words: str
    # What the input is, and what writes it.
    data: str
    write: Callable
    # At most such a part of bedtools' time is aimed at.
    goal: float = 1.0
    # How the input avoids a difference that differences.tsv names.
    note: str = ""

    def name(self):
        return f"{self.words}, {self.data}"

    def command(self, program):
        """The words of a program in the folder of the input, without the output."""
        name, *options = self.words.split()
        is_with_genome = "-g" in options or name in ("complement", "genomecov")
        options = [option for option in options if option != "-g"]
        if is_with_genome and not (name == "merge" and program == "bedtools"):
            options += ["-g", "genome.txt"]
        if name == "subtract" and program == "bedtools":
            options.append("-sorted")
        return [name, *options, *self.files(name)]

    @staticmethod
    def files(name):
        """The options that name the files of the input."""
        if name in ("intersect", "subtract"):
            return ["-a", "a.bed", "-b", "b.bed"]
        if name == "maskfasta":
            return ["-fi", "a.fa", "-bed", "b.bed"]
        return ["-i", "a.sam" if name == "bamtobed" else "a.bed"]

    def runs(self, folder):
        """The run of this program, and that of bedtools."""
        into = "-fo" if self.words.startswith("maskfasta") else None
        programs = {"dunekettle": str(compare.PROGRAM), "bedtools": shutil.which("bedtools")}
        return [compare.Run(name, [path, *self.command(name)], output_option=into, folder=folder)
                for name, path in programs.items()]


def of(write, data, *commands, note=""):
    """The workloads over one input: each a command, with its goal if there is one."""
    pairs = (command if isinstance(command, tuple) else (command, 1.0) for command in commands)
    return [Odd(words, data, write, goal, note) for words, goal in pairs]


WORKLOADS = [
    *of(inputs.two_drafts, "two drafts of 300,000 contigs", ("intersect -sorted -g", 0.15), ("intersect -sorted", 0.15),
        ("merge", 0.08), ("complement", 0.12)),
    *of(inputs.comments, "a comment before each record", ("intersect -sorted", 0.2), ("merge", 0.12)),
    *of(inputs.long_chromosome_names, "names of 75 bytes", ("intersect -sorted", 0.2)),
    *of(inputs.long_record_names, "read names of 75 bytes", "intersect -sorted -wa -wb"),
    *of(inputs.spanned, "1,000,000 in 2,000, one of which spans the chromosome", ("intersect -sorted", 0.35),
        ("intersect -sorted -c", 0.35)),
    *of(inputs.under_one_of_their_own, "1,000,000 under one of their own in 2,000", ("intersect -sorted", 0.35)),
    *of(inputs.many_held, "2,000, one of which spans the chromosome, over 1,000,000", ("intersect -sorted", 0.35),
        ("intersect -sorted -u", 0.35), ("intersect -sorted -c", 0.35)),
    *of(inputs.long_lines, "lines of 1,000 bytes", ("merge", 0.25)),
    *of(inputs.touching_reads, "reads of both strands", ("merge -S +", 0.12)),
    *of(inputs.exons_and_reads, "exons and reads", ("intersect -sorted -s", 0.15)),
    *of(inputs.amplicons, "98 amplicons over 1,000,000 reads", ("intersect -sorted -c", 0.3)),
    *of(inputs.million_mixed_reads, "1,000,000 reads of mixed lengths on 30,000 bases", "genomecov -bg",
        note="depths below 1,000,000"),
    *of(inputs.hundred_thousand_mixed_reads, "100,000 reads of mixed lengths on 30,000 bases", "genomecov -bg"),
    *of(inputs.plain, "three columns", "merge", "intersect -sorted"),
    *of(inputs.crlf, "lines that end with CR LF", "merge", "intersect -sorted -wa -wb", "genomecov -bg",
        note="the genome file's lines end with LF"),
    *of(inputs.zero_padded, "numbers with zeros before", "merge", "intersect -sorted -wo", "subtract"),
    *of(inputs.equal_starts, "100 records at each start", "merge", "intersect -sorted -c", "genomecov -bg -strand +"),
    *of(inputs.deep_fragments, "fragments that cover each base 20,000 times", "genomecov -bg", "merge -s"),
    *of(inputs.isoforms, "isoforms against themselves", "intersect -sorted -c", "intersect -sorted -s",
        "intersect -sorted -f 0.9 -r", note="no overlap is so near to the fraction that seven digits decide"),
    *of(inputs.many_pieces, "chromosomes, less 1,000,000 repeats", "subtract"),
    *of(inputs.sequences_of_contigs, "sequences of 300,000 contigs", "maskfasta", note="all lines of one width"),
    *of(inputs.one_long_line, "a sequence in one line", "maskfasta -soft"),
    *of(inputs.sequences_under_few, "five chromosomes, 1,000 records", "maskfasta -mc X",
        note="all lines of one width"),
    *of(inputs.nanopore_alignments, "nanopore reads with long CIGARs", "bamtobed -split", "bamtobed -cigar",
        note="bedtools reads the same SAM text"),
    *of(inputs.spliced_alignments, "spliced reads of many exons", "bamtobed -split", note="no block without bases"),
    *of(inputs.short_alignments, "short reads of pairs", "bamtobed"),
    *of(inputs.nanopore_reads, "nanopore reads and genes", "intersect -sorted -wa -wb", "merge", "genomecov -bg"),
    *of(inputs.blank_lines, "a blank line after each record", "merge", "complement", "genomecov -bg",
        note="no records that touch"),
    *of(inputs.no_last_line_feed, "the last line feed missing", "intersect -sorted -v", "complement"),
    *of(inputs.many_columns, "100 columns", "merge", "intersect -sorted -u"),
    *of(inputs.genes_and_peaks, "genes of twelve columns and peaks", "intersect -sorted -wo", "subtract -A"),
    *of(inputs.tiny_chromosomes, "200,000 transcripts", "genomecov -bg", "subtract", note="each transcript has reads"),
    *of(inputs.one_chromosome, "one chromosome", "intersect -sorted -u", "genomecov -bga"),
    *of(inputs.variants_and_genes, "variants of one base and genes", "intersect -sorted -wa -wb",
        "intersect -sorted -v"),
    *of(inputs.bins, "bins of a genome", "merge", "intersect -sorted -wa -wb", "genomecov -bga"),
    *of(inputs.karyotype_order, "chromosomes in another order", "merge -g -d 1000000", "intersect -sorted -g",
        "subtract -g -f 0.5"),
    *of(inputs.sparse, "records on few of 200,000 scaffolds", "complement -L", "complement"),
    *of(inputs.long_positions, "chromosomes of three billion bases", "intersect -sorted -wo -f 0.1", "merge -d 100000"),
    *of(inputs.one_record, "one record and 1,000,000", "intersect -sorted"),
    *of(inputs.header_lines, "header lines before each hundredth record", "merge"),
    *of(inputs.empty_second, "an empty second input", "intersect -sorted -v", "subtract"),
    *of(inputs.touching_sites, "sites of two bases that touch", "merge", "complement", "intersect -sorted -c",
        "genomecov -bg"),
    *of(inputs.spaces, "names with spaces", "intersect -sorted -wa -wb"),
    *of(inputs.short_names, "chromosomes named by one byte or two", "merge", "intersect -sorted -u"),
    *of(inputs.nested_domains, "domains twelve deep and peaks", "intersect -sorted -wo"),
    *of(inputs.itself, "records against themselves", "intersect -sorted -f 1 -r", "subtract"),
    *of(inputs.elsewhere, "inputs that share no chromosome", "intersect -sorted -g", "subtract -g"),
    *of(inputs.segments, "segments of many patients and genes", "intersect -sorted -c", "merge"),
    *of(inputs.inserted_sequences, "variants with long sequences", "intersect -sorted", "merge"),
    *of(inputs.stranded_reads, "reads of both strands, each at another base", "merge -s", note="no equal starts"),
    *of(inputs.dense_masks, "a sequence under 1,000,000 records", "maskfasta"),
    *of(inputs.alignments_to_draft, "reads on 300,000 contigs", "bamtobed"),
]


def timed(run, output):
    """Runs a program once, and returns the seconds that it took."""
    run.seconds = math.inf
    compare.time_run(run, output)
    return run.seconds


def checksum(run, folder):
    """The checksum and the size of what a program writes, and the seconds that it took."""
    output = folder / f"{run.program}.out"
    took = timed(run, output)
    found = hashlib.sha256()
    with open(output, "rb") as written:
        while part := written.read(1 << 20):
            found.update(part)
    size = output.stat().st_size
    output.unlink()
    return found.hexdigest(), size, took


def measured(workload, folder):
    """The row of a workload: what both programs wrote, the least and the most time that each took, and its memory."""
    runs = workload.runs(folder)
    (ours, size, _), (theirs, _, took) = (checksum(run, folder) for run in runs)
    row = {"name": workload.name(), "note": workload.note, "sha256": ours, "bytes": size, "is_same": ours == theirs,
           "runs": {}}
    times = {run.program: [] for run in runs}
    for _ in range(OFTEN if took < SHORT else LESS_OFTEN):
        for run in runs:
            times[run.program].append(timed(run, Path(os.devnull)))
    for run in runs:
        seconds = times[run.program]
        row["runs"][run.program] = {"seconds": round(min(seconds), 4), "most": round(max(seconds), 4),
                                    "kilobytes": run.kilobytes}
    return row


def line_of(workload, row):
    """What is printed of a workload."""
    ours, theirs = row["runs"]["dunekettle"], row["runs"]["bedtools"]
    ratios = f"{results.ratio(row):.3f} of bedtools' time (aim: {workload.goal})"
    times = f"{ours['seconds']:.3f} to {ours['most']:.3f} s, bedtools {theirs['seconds']:.3f} to {theirs['most']:.3f} s"
    same = f"{row['bytes']} bytes" if row["is_same"] else "THE OUTPUTS DIFFER"
    return f"{ratios}  {row['name']}: {times}; {same}; {ours['kilobytes']} and {theirs['kilobytes']} kB"


def rows_of(workloads):
    """Yields the row of each workload. The inputs of those that share them are written once, and removed after the
    last."""
    for write, group in itertools.groupby(workloads, lambda workload: workload.write):
        with tempfile.TemporaryDirectory() as folder:
            write(Path(folder))
            for workload in group:
                row = measured(workload, Path(folder))
                print(line_of(workload, row), flush=True)
                yield row


def measure(only, trial):
    """Measures the workloads whose names have these words in them, and writes all of them into odd.json and the pages,
    or into the file of a trial. Returns the exit status."""
    original = shutil.which("bedtools")
    if not original or Path(original).resolve() == compare.PROGRAM:
        sys.exit("not on PATH: bedtools")
    if not only and not trial:
        results.check_idle()
    kept = {
        "commit": results.commit(), "date": time.strftime("%Y-%m-%d"), "machine": results.machine(),
        "is_trial": bool(trial),
        "bedtools": results.version_of(["bedtools", "--version"], r"v(\S+)"),
    }
    kept["odd"] = list(rows_of(workload for workload in WORKLOADS if only in workload.name()))
    if not kept["odd"]:
        sys.exit("no workload has these words in its name")
    worst = max(kept["odd"], key=results.ratio)
    print(f"the largest ratio: {results.ratio(worst):.3f}, {worst['name']}")
    if not all(row["is_same"] for row in kept["odd"]):
        return 1
    if trial or not only:
        Path(trial or results.ODD).write_text(json.dumps(kept, indent=1) + "\n", encoding="utf-8")
    return 0 if trial or only else results.agree(True)
