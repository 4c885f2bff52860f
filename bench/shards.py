#!/usr/bin/env python3
"""Measures runs in shards as SHARDS.md has them, with 1, 2 and 4 jobs, beside the whole run.

    bench/shards.py [--records N] [--times N]

Over N records (1,000,000 where it is missing) the least of so many rounds is printed; beside each is what other work
took of the processors meanwhile. Needs tabix, bgzip and GNU parallel.
"""

import argparse
import math
import os
import shutil
import sys
import tempfile
import time
from pathlib import Path

TOP = Path(__file__).resolve().parent.parent
sys.path.insert(0, str(TOP))

from tests.recipes.shard_runs import FILES, run  # noqa: E402
from workloads import EXONS, READS, Features, write_genome  # noqa: E402

LINES = ("intersect -a a.bed -b b.bed -g genome.txt -u", "intersect -a a.bed -b long.bed -g genome.txt -s -c")


def rows_of(words):
    """What is timed of a command line, by it and a name: the whole run, with 1, 2 and 4 jobs, and the largest shard."""
    shard = f"./shard.sh {{}} {words.replace('.bed', '.bed.gz')}"
    piped = words.replace("-a a.bed", "-a -")
    scripts = {"whole": f"dunekettle-bedtools {words} > out",
               "whole, unpacked by bgzip": f"bgzip -dc a.bed.gz | dunekettle-bedtools {piped} > out"}
    for jobs in (1, 2, 4):
        scripts[f"shards, jobs: {jobs}"] = f"parallel --jobs {jobs} --keep-order {shard} :::: names.txt > out"
    scripts["the largest shard"] = f"{shard.replace('{}', 'chr1')} > out"
    return {(words, name): script for name, script in scripts.items()}


def seconds(script, folder):
    """How long a script takes by the clock, how much time of processors, and how much all other processes took."""
    before, begin, all_before = os.times(), time.monotonic(), busy()
    done = run(script, folder)
    after, end, all_after = os.times(), time.monotonic(), busy()
    if done.returncode:
        raise ValueError(done.stderr)
    used = after.children_user - before.children_user + after.children_system - before.children_system
    return end - begin, used, max(0.0, all_after - all_before - used)


def busy():
    """The seconds that all processors were busy since the machine was started."""
    ticks = Path("/proc/stat").read_text(encoding="ascii").splitlines()[0].split()[1:]
    user, nice, system, _idle, _wait, hard, soft, stolen = (int(each) for each in ticks[:8])
    return (user + nice + system + hard + soft + stolen) / os.sysconf("SC_CLK_TCK")


def fill(folder, count):
    """Makes a folder with the inputs, and their indexes."""
    shutil.copytree(FILES, folder)
    READS.write(folder / "a.bed", count, 1)
    EXONS.write(folder / "b.bed", count, 2)
    Features("long features", 10, 10_000_000, 20_000_000, 6).write(folder / "long.bed", count, 3)
    write_genome(folder / "genome.txt")
    index = "./index.sh a.bed b.bed long.bed; ./names.sh genome.txt a.bed.gz b.bed.gz long.bed.gz > names.txt"
    ready = seconds(index, folder)
    print(f"  index.sh and names.sh: {ready[0]:.2f} s by the clock, {ready[1]:.2f} s of processors")


def times(folder, rounds):
    """Prints the times of whole runs, and of shards with 1, 2 and 4 jobs, the least of so many rounds."""
    rows = {row: script for line in LINES for row, script in rows_of(line).items()}
    least = dict.fromkeys(rows, (math.inf,))
    for _ in range(rounds):
        least = {row: min(least[row], seconds(script, folder)) for row, script in rows.items()}
    print(f"  the least of {rounds} rounds by the clock; what it took of processors; what other work took meanwhile")
    for (words, name), (by_clock, used, others) in least.items():
        head = f"  {words}\n" if name == "whole" else ""
        print(f"{head}    {name:<26}{by_clock:6.2f} s{used:7.2f} s{others:7.2f} s")


def main():
    parser = argparse.ArgumentParser(description="Measures runs in shards.")
    parser.add_argument("--records", type=int, default=1_000_000)
    parser.add_argument("--times", type=int, default=1)
    given = parser.parse_args()
    count = given.records
    print(f"times: {count:,} reads, {count // 10:,} exons and {count // 10:,} features of 15 million bases, on the "
          f"lengths of the human chromosomes, on {os.cpu_count()} processors, with a load of {os.getloadavg()[0]:.1f}")
    with tempfile.TemporaryDirectory() as top:
        folder = Path(top, "times")
        fill(folder, count)
        times(folder, given.times)
    return 0


if __name__ == "__main__":
    sys.exit(main())
