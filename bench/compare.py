#!/usr/bin/env python3
"""Times the commands of this repository on sorted records that it makes itself.

    bench/compare.py [RECORDS] [--only WORDS] [--times N] [--discard]
    bench/compare.py --results [RECORDS] [--times N] [--trial FILE] [--inputs FOLDER]
    bench/compare.py --prepare [RECORDS] --inputs FOLDER
    bench/compare.py --odd [--only WORDS] [--trial FILE]
    bench/compare.py --check [--store] [--only WORDS]

Prints, for each command and kind of record, for RECORDS records (5,000,000 where it is missing) and
for a tenth of them, the processor time and the peak memory; beside them those of the bedtools and the
bedops on PATH, where they are there and do the same job, and for `merge` over three columns those of
plain_merge.c, a plain C program that merges and does nothing else, where cc is there to build it; and the
instructions a record, where valgrind is there. For `bamtobed` samtools makes the BAM file that bedtools
reads, and bedops' convert2bed, which writes further columns, isn't compared. With `--only` it takes the
workloads alone whose names have these words in them; with `--times` each program runs so many times, and
the least time and the highest memory are printed; with `--discard` the outputs go to /dev/null, and aren't
compared. It fails where a program fails, where two outputs differ, or where this program's memory grows
with its input.

With `--results` it measures in one run, on an idle machine, all that the pages and the charts say, into
results.json, and writes them anew: results.py says what. With `--trial` the machine may be busy, and FILE is
written instead, marked as a trial. With `--inputs` the inputs stay in FOLDER, and those that are there are taken:
`--prepare` only writes them, on all processors.

With `--odd` it measures the odd inputs of odd.py beside bedtools, at one size, into odd.json and the pages; with
`--only` it prints some of them and writes nothing. It fails where the outputs differ. A trial is as above.

With `--check` nothing is timed: the instructions a record of this program are compared with those in
instructions.txt. It fails where a workload takes over 3 percent more than there, or isn't there, and says
which take over 3 percent less; with `--store` it writes what it counted into that file instead.
"""

import argparse
import ctypes
import filecmp
import math
import os
import re
import shutil
import subprocess
import sys
import tempfile
from dataclasses import dataclass
from pathlib import Path

from workloads import COUNTED_WORKLOADS, TIMED, WORKLOADS, Alignments, write_genome

PROGRAM = Path(__file__).resolve().parent.parent / "bin" / "bedtools"
# The plain C program.
PLAIN = Path(__file__).resolve().parent / "plain_merge.c"
# The other programs by their names, where none of them is there.
NO_OTHERS = dict.fromkeys(("bedtools", "bedops", "convert2bed", "plain C"))
# Requests of Linux' ptrace(2), by which a process stops where it is about to end or becomes another program, and the
# event of the first.
LIBC = ctypes.CDLL(None, use_errno=True)
LIBC.ptrace.argtypes = [ctypes.c_long, ctypes.c_long, ctypes.c_void_p, ctypes.c_void_p]
LIBC.ptrace.restype = ctypes.c_long
TRACEME, CONTINUE, SETOPTIONS, STOP_AT_EVENTS = 0, 7, 0x4200, 0x50
AT_EXIT = 6
# How much more memory, in kilobytes, a ten times longer input may show: what the system adds to any program.
SLACK = 1024
# So many records are enough to count instructions: they repeat.
COUNTED = 100_000
# The instructions a record that are to be kept to, and by which part they may differ.
STORED = Path(__file__).resolve().parent / "instructions.txt"
ALLOWED = 0.03


@dataclass
class Run:
    """What one program took for a workload."""

    program: str
    words: list
    # What it reads from standard input, if anything, and whether its output is to be that of this program.
    source: Path = None
    is_same: bool = True
    # The option that names the output file, where it isn't written to standard output.
    output_option: str = None
    # The folder that it runs in, if it isn't this program's.
    folder: Path = None
    seconds: float = math.inf
    kilobytes: int = 0

    def words_into(self, output):
        """The words by which it writes to a file, where it doesn't write to standard output."""
        return [*self.words, self.output_option, str(output)] if self.output_option else self.words


def time_run(run, output):
    """Runs a program, and keeps its least processor time in seconds and its highest peak memory in kilobytes."""
    with open(run.source or os.devnull, "rb") as source, open(output, "wb") as out:
        process = subprocess.Popen(run.words_into(output), stdin=source, stdout=out, cwd=run.folder,
                                   preexec_fn=lambda: trace(TRACEME, 0))
    kilobytes, status, seconds = ended(process.pid)
    run.kilobytes = max(run.kilobytes, kilobytes)
    process.returncode = os.waitstatus_to_exitcode(status)
    if process.returncode != 0:
        sys.exit(f"{' '.join(run.words_into(output))}: status {process.returncode}")
    run.seconds = min(run.seconds, seconds)


def trace(request, process, data=0):
    """A request of ptrace(2)."""
    if LIBC.ptrace(request, process, None, data) != 0:
        sys.exit(f"ptrace: {os.strerror(ctypes.get_errno())}")


def ended(process):
    """Waits for a traced process, which stands at its first instruction. Answers its peak memory in kilobytes, its
    status and its processor time in seconds. What the system keeps of an ended process counts its parent's memory
    too, so the peak is read where the process is about to end; and the time that it took before its first
    instruction is that of copying this process, so it isn't counted."""
    os.waitpid(process, 0)
    before = time_so_far(process)
    trace(SETOPTIONS, process, STOP_AT_EVENTS)
    peak = given_on = 0
    while True:
        trace(CONTINUE, process, given_on)
        _, status, usage = os.wait4(process, 0)
        if not os.WIFSTOPPED(status):
            return peak, status, usage.ru_utime + usage.ru_stime - before
        # A signal is given on to the process, an event isn't one.
        event = status >> 16
        given_on = 0 if event else os.WSTOPSIG(status)
        if event == AT_EXIT:
            peak = peak_of(process)


def time_so_far(process):
    """The processor time of a process so far in seconds, where Linux keeps it in its file schedstat, and else none."""
    kept = Path(f"/proc/{process}/schedstat")
    return int(kept.read_text(encoding="ascii").split()[0]) / 1e9 if kept.exists() else 0


def peak_of(process):
    """The peak memory of a process in kilobytes."""
    status = Path(f"/proc/{process}/status").read_text(encoding="ascii")
    return int(re.search(r"VmHWM:\s*(\d+)", status)[1])


def runs_of(workload, others, folder):
    """The runs of a workload: this program's first, then those of the other programs that do the same job."""
    genome = {program: ["-g", str(folder / "genome.txt")] for program in workload.genome_of}
    inputs = workload.data.inputs(folder)
    into = workload.output_option
    runs = [Run("dunekettle", [str(PROGRAM), *workload.words, *inputs, *genome.get("dunekettle", [])],
                output_option=into)]
    if others["bedtools"] and (not isinstance(workload.data, Alignments) or shutil.which("samtools")):
        inputs = getattr(workload.data, "inputs_of_bedtools", workload.data.inputs)(folder)
        words = workload.words_of_bedtools or workload.words
        runs.append(Run("bedtools", [others["bedtools"], *words, *inputs, *genome.get("bedtools", [])],
                        output_option=into))
    if others["bedops"] and workload.bedops:
        runs.append(Run("bedops", [others["bedops"], *workload.bedops, str(folder / "records.bed")]))
    if others["plain C"] and workload.is_plain:
        runs.append(Run("plain C", [others["plain C"], str(folder / "records.bed")]))
    if others["convert2bed"] and workload.convert2bed:
        runs.append(Run("convert2bed", [others["convert2bed"], *workload.convert2bed], folder / "records.bed", False))
    return runs


def prepared(workload, folder, size):
    """The folder of a workload's inputs of this size, which are written unless they are there."""
    place = folder / f"{workload.data.name()}, {size}"
    if not place.exists():
        begun = Path(tempfile.mkdtemp(dir=folder))
        write_genome(begun / "genome.txt")
        workload.data.write(begun, size)
        begun.rename(place)
    return place


def compare(workload, others, folder, size, asked):
    """Runs a workload on `size` records by each program, as often as is asked. Answers what each took, with its least
    time."""
    place = prepared(workload, folder, size)
    runs = runs_of(workload, others, place)
    megabytes = (place / "records.bed").stat().st_size / 1e6
    print(f"{workload.name()}: about {size} records, {megabytes:.0f} MB")
    outputs = {run.program: Path(os.devnull) if asked.discard else folder / f"{run.program}.bed" for run in runs}
    for _ in range(asked.times):
        for run in runs:
            time_run(run, outputs[run.program])
        if not asked.discard:
            check_same(runs, outputs)
    for run in runs:
        part = "" if run is runs[0] else f", of which ours is {runs[0].seconds / run.seconds:.2f}"
        print(f"  {run.program:10} {run.seconds:6.3f} s{part}; {run.kilobytes} kB", flush=True)
    return runs


def check_same(runs, outputs):
    """Ends the bench where the output of another program differs."""
    for run in (run for run in runs[1:] if run.is_same):
        if not filecmp.cmp(outputs[runs[0].program], outputs[run.program], shallow=False):
            sys.exit(f"the output of {run.program} differs")


def count_instructions(valgrind, workload, others, folder):
    """Prints the instructions a record of each program."""
    place = prepared(workload, folder, COUNTED)
    runs = [run for run in runs_of(workload, others, place) if workload.counts(run.program)]
    if not runs:
        return
    lines = lines_of(place / "records.bed")
    aim = f", at most {workload.instructions} aimed at" if workload.instructions else ""
    print(f"{workload.name()}: instructions a record{aim}")
    for run in runs:
        print(f"  {run.program:10} {instructions_of(valgrind, run) / lines:6.0f}", flush=True)


def instructions_of(valgrind, run):
    """The instructions of a run, as callgrind counts them."""
    words = [valgrind, "--tool=callgrind", "--callgrind-out-file=/dev/null", *run.words_into(os.devnull)]
    with open(run.source or os.devnull, "rb") as source:
        counted = subprocess.run(words, stdin=source, stdout=subprocess.DEVNULL, stderr=subprocess.PIPE, check=True,
                                 text=True)
    return int(re.search(r"Collected : (\d+)", counted.stderr).group(1))


def lines_of(path):
    """How many lines a file has."""
    with open(path, "rb") as lines:
        return sum(1 for _ in lines)


def stored_instructions():
    """The instructions a record of each workload by its name, as they are stored."""
    if not STORED.exists():
        return {}
    lines = [line.split(maxsplit=1) for line in STORED.read_text(encoding="ascii").splitlines()
             if not line.startswith("#")]
    return {name: float(count) for count, name in lines}


def store_instructions(counts):
    """Stores the instructions a record of each workload, in the order of the workloads."""
    head = "# Instructions a record, which bench/compare.py --check keeps to, and writes anew with --store.\n"
    names = [workload.name() for workload in (*WORKLOADS, *COUNTED_WORKLOADS) if workload.name() in counts]
    STORED.write_text(head + "".join(f"{counts[name]:9.1f}  {name}\n" for name in names), encoding="ascii")


def checked_instructions(valgrind, only):
    """Counts this program's instructions a record of each workload, and yields its name with them."""
    with tempfile.TemporaryDirectory() as folder:
        for workload in (it for it in (*WORKLOADS, *COUNTED_WORKLOADS)
                         if only in it.name() and it.counts("dunekettle")):
            place = prepared(workload, Path(folder), COUNTED)
            run = runs_of(workload, NO_OTHERS, place)[0]
            yield workload.name(), instructions_of(valgrind, run) / lines_of(place / "records.bed")


def check(valgrind, only, is_stored):
    """Compares the instructions of this program with the stored ones, or stores them. Answers the exit status."""
    stored = stored_instructions()
    kept = dict(stored)
    grown = []
    fallen = []
    for name, count in checked_instructions(valgrind, only):
        kept[name] = count
        change = count / stored[name] - 1 if name in stored else None
        print(f"{count:9.1f}  {name}, " + ("not stored" if change is None else f"{change:+.1%} beside the stored ones"),
              flush=True)
        if change is None or change > ALLOWED:
            grown.append(name)
        elif change < -ALLOWED:
            fallen.append(name)
    print(f"{len(fallen)} fell by over {ALLOWED:.0%}" + "".join(f"\n  {name}" for name in fallen))
    if is_stored:
        store_instructions(kept)
        return 0
    print(f"{len(grown)} grew by over {ALLOWED:.0%}, or aren't stored" + "".join(f"\n  {name}" for name in grown))
    return 1 if grown else 0


def main():
    parser = argparse.ArgumentParser(description=__doc__.splitlines()[0])
    parser.add_argument("records", nargs="?", type=int, default=TIMED)
    parser.add_argument("--only", metavar="WORDS", default="")
    parser.add_argument("--times", metavar="N", type=int, default=1)
    parser.add_argument("--discard", action="store_true")
    parser.add_argument("--results", action="store_true")
    parser.add_argument("--trial", metavar="FILE")
    parser.add_argument("--inputs", metavar="FOLDER", type=Path)
    parser.add_argument("--prepare", action="store_true")
    parser.add_argument("--odd", action="store_true")
    parser.add_argument("--check", action="store_true")
    parser.add_argument("--store", action="store_true")
    asked = parser.parse_args()
    if asked.times < 1:
        parser.error("--times takes a number above 0")
    if asked.store and not asked.check:
        parser.error("--store goes with --check")
    if asked.prepare and not asked.inputs:
        parser.error("--prepare goes with --inputs")
    if asked.odd:
        import odd  # pylint: disable=import-outside-toplevel,cyclic-import

        sys.exit(odd.measure(asked.only, asked.trial))
    valgrind = shutil.which("valgrind")
    if asked.results or asked.prepare:
        import results  # pylint: disable=import-outside-toplevel,cyclic-import

        if asked.prepare:
            sys.exit(results.prepare(asked.inputs, asked.records))
        sys.exit(results.measure(asked.records, asked.times, asked.trial, asked.inputs))
    if asked.check:
        sys.exit(check(valgrind, asked.only, asked.store) if valgrind else "valgrind isn't on PATH")
    compare_all(asked, valgrind)


def found_others(folder):
    """The other programs: those on PATH, and plain_merge.c, which is built in this folder where cc is on PATH."""
    others = NO_OTHERS | {name: shutil.which(name) for name in ("bedtools", "bedops", "convert2bed")}
    if others["bedtools"] and Path(others["bedtools"]).resolve() == PROGRAM:
        others["bedtools"] = None
    compiler = shutil.which("cc")
    if compiler:
        others["plain C"] = str(folder / PLAIN.stem)
        subprocess.run([compiler, "-O2", "-o", others["plain C"], str(PLAIN)], check=True)
    return others


def compare_all(asked, valgrind):
    """Compares the programs on each workload that is asked for."""
    with tempfile.TemporaryDirectory() as folder:
        folder = Path(folder)
        others = found_others(folder)
        for workload in (it for it in WORKLOADS if asked.only in it.name()):
            sizes = (asked.records // 10, asked.records)
            small, large = (compare(workload, others, folder, size, asked) for size in sizes)
            if large[0].kilobytes > small[0].kilobytes + SLACK:
                sys.exit("the memory grows with the input")
            if others["bedtools"]:
                print(f"  at most {workload.part} of bedtools' time aimed at")
            if valgrind:
                count_instructions(valgrind, workload, others, folder)
        for workload in (it for it in COUNTED_WORKLOADS if valgrind and asked.only in it.name()):
            count_instructions(valgrind, workload, others, folder)


if __name__ == "__main__":
    main()
