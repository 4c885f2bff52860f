#!/usr/bin/env python3
"""Tries pipelines as people have them, unchanged, with the drop-in first on PATH and without it.

    tests/drop_in/front.py [WORD..]     runs the scripts of pipelines/ whose names have one of these words, or all
    tests/drop_in/front.py --write      writes front_pipelines.tsv, the table of bench/DROP_IN.md and the line of README

The 45 scripts of pipelines/ run over files that front_data.py makes; so do 27 calls of pybedtools, a rule of
Snakemake, a module as nf-core has them, and a Makefile. Both runs have to write the same bytes and to end with the same
status: it ends with 1 where one differs, and with 0 and a word where there is no bedtools 2.30.0. What isn't installed
is passed over with a word. It says which goals are missed: of all calls of the seven commands in the scripts 85 percent
go to Dunekettle, in a quarter of the time of the processor, and no script takes over a tenth longer.
"""

import re
import resource
import shutil
import sys
import tempfile
import time
from pathlib import Path
from typing import NamedTuple

from front_data import make_all
from front_tools import TOLD, Count, call, drop_in, environment, install, original

HERE = Path(__file__).resolve().parent
TOP = HERE.parents[1]
# The commands that Dunekettle has.
SEVEN = ("merge", "complement", "intersect", "subtract", "genomecov", "bamtobed", "maskfasta")
# Who took a command line, which, and why.
WHY = re.compile(r"^dunekettle: (.*?) takes (\w*): (.*)", re.MULTILINE)
# The goals: the part of the calls that is taken, that of the time that is left, and how much longer a script may take,
# beside the hundredths of a second by which two runs of one differ.
TAKEN, LEFT, LONGER, SECONDS = 0.85, 0.25, 1.1, 0.02
# A script under so many seconds runs so many times: the least counts.
SHORT, RUNS = 3, 3
# The table of the scripts in bench/DROP_IN.md.
TABLE = re.compile(r"(<!-- a script writes: pipelines -->\n).*?(<!-- it ends here -->)", re.DOTALL)
GAIN = re.compile(r"(<!-- a script writes: gain -->\n).*?(<!-- it ends here -->)", re.DOTALL)
# The file of all rows, its columns, and how many of those that gain and lose most are on the page.
ROWS, MOST = "front_pipelines.tsv", 5
COLUMNS = ("pipeline", "calls", "taken", "small", "as quick", "seconds without", "with")
# Why a call isn't taken although it could be: its files are below the size from which a look pays, or bedtools is as
# quick with any.
SMALL = re.compile("its inputs are small")
QUICK = re.compile("as quick")
# A Python that has pybedtools.
PYTHONS = ("/usr/bin/python3", sys.executable)
SNAKEFILE = """
rule all:
    input: "counts.bed", "gaps.bed"
rule counts:
    input: a="genes.bed", b="peaks_1.narrowPeak"
    output: "counts.bed"
    shell: "bedtools intersect -c -a {input.a} -b {input.b} > {output}"
rule gaps:
    input: "exons.bed"
    output: "gaps.bed"
    shell: "bedtools merge -i {input} | bedtools complement -i - -g sorted.sizes > {output}"
"""
MAKEFILE = """all: hits.bed merged.bed
hits.bed: genes.bed peaks_1.narrowPeak
\tbedtools intersect -u -a genes.bed -b peaks_1.narrowPeak > $@
merged.bed: exons.bed
\tbedtools merge -i $< > $@
"""
# The script of a module, and how it asks for the version.
MODULE = """set -e -u -o pipefail
bedtools \\
    merge \\
    -i exons.bed \\
    -d 50 \\
    > test.bed

cat <<-END_VERSIONS > versions.yml
"BEDTOOLS_MERGE":
    bedtools: $(bedtools --version | sed -e "s/bedtools v//g")
END_VERSIONS
"""


class Row(NamedTuple):
    """A script: its calls of the seven commands, how many of them Dunekettle took, how many it left as small and as
    quick, and the seconds of the processor without and with the drop-in."""

    name: str
    calls: int
    taken: int
    small: int
    quick: int
    before: float
    after: float


class Tool(NamedTuple):
    """A tool that runs pipelines: its words, and the files that it makes."""

    name: str
    words: list
    made: list


TOOLS = (Tool("snakemake", ["snakemake", "--cores", "1", "--quiet"], ["counts.bed", "gaps.bed"]),
         Tool("make", ["make", "--silent"], ["hits.bed", "merged.bed"]))


def processor():
    """The seconds of processor that children took so far."""
    used = resource.getrusage(resource.RUSAGE_CHILDREN)
    return used.ru_utime + used.ru_stime


def timed(script, folder, env):
    """Runs a script of bash: what it gave, and its seconds, by the clock and of the processor."""
    clock, used = time.monotonic(), processor()
    gave = call(["bash", script], folder, env, timeout=1200)
    return gave, time.monotonic() - clock, processor() - used


def run_script(script, folder, env, count):
    """Runs a script in both ways: its row, and why Dunekettle didn't take the other calls."""
    told, plains, fronteds = folder.parent / "told.txt", [], []
    while not plains or len(plains) < RUNS and plains[0] < SHORT:
        without, _, plain = timed(script, folder, environment())
        told.unlink(missing_ok=True)
        given, _, fronted = timed(script, folder, {**env, "DUNEKETTLE_TELL": str(told)})
        count.expect(script.name, (without[0], without[2]), (given[0], given[2]))
        plains.append(plain)
        fronteds.append(fronted)
    plain, fronted = min(plains), min(fronteds)
    if without[2]:
        print(without[1][:300])
    lines = WHY.findall(told.read_text(encoding="utf-8") if told.exists() else "")
    calls = [(who, command, why) for who, command, why in lines if command in SEVEN]
    left = [(command, why) for who, command, why in calls if who != "Dunekettle"]
    small, quick = (sum(bool(reason.search(why)) for _, why in left) for reason in (SMALL, QUICK))
    return Row(script.stem, len(calls), len(calls) - len(left), small, quick, plain, fronted), left


def try_pipelines(folder, env, count, words):
    """Runs the scripts in both ways, and gives a row for each."""
    rows, reasons = [], {}
    head = f"{'pipeline':<26}{'calls':>7}{'taken':>7}{'small':>7}{'quick':>7}{'without':>10}{'with':>8}"
    print(f"{head}   seconds of processor")
    for script in sorted((HERE / "pipelines").glob("*.sh")):
        if words and not any(word in script.stem for word in words):
            continue
        row, left = run_script(script, folder, env, count)
        rows.append(row)
        print("{:<26}{:>7}{:>7}{:>7}{:>7}{:10.2f}{:8.2f}".format(*row), flush=True)
        for command, why in left:
            reasons.setdefault(f"{command}: {why}", []).append(script.stem)
    for reason, where in sorted(reasons.items(), key=lambda item: -len(item[1])):
        print(f"  {len(where):>3} {reason}  ({', '.join(sorted(set(where)))})")
    return rows


def sums(rows):
    """The row of all rows."""
    return Row("all", *(sum(row[at] for row in rows) for at in range(1, len(Row._fields))))


def summary(rows):
    """What all rows come to."""
    total = sums(rows)
    left = total.calls - total.taken
    return (f"{len(rows)} pipelines: of {total.calls} calls of the seven commands Dunekettle took {total.taken} "
            f"({100 * total.taken / max(total.calls, 1):.0f} percent); {total.before:.0f} seconds of CPU time became "
            f"{total.after:.0f} ({100 * total.after / max(total.before, 0.01):.0f} percent). Of the other {left}, "
            f"{total.small} have inputs too small for a check to be worth it, {total.quick} are as quick in bedtools "
            f"at any size, and {left - total.small - total.quick} have options or files that Dunekettle doesn't take")


def goals_missed(rows):
    """The goals that are missed, a line each."""
    total = sums(rows)
    if total.taken < TAKEN * total.calls:
        yield f"Dunekettle took {total.taken} of {total.calls} calls, fewer than {100 * TAKEN:.0f} percent"
    if total.after > LEFT * total.before:
        yield f"{total.after:.1f} seconds of {total.before:.1f} are more than {100 * LEFT:.0f} percent"
    for row in rows:
        if row.after > LONGER * row.before + SECONDS:
            yield f"{row.name} takes {row.after:.2f} seconds of processor with the drop-in, {row.before:.2f} without"


def write_table(rows):
    """Puts all rows into front_pipelines.tsv, their sum and some into bench/DROP_IN.md, and the sum into README."""
    page = TOP / "bench" / "DROP_IN.md"
    shown = [(name[3:].replace("-", " "), *map(str, counts), f"{before:.2f}", f"{after:.2f}")
             for name, *counts, before, after in rows]
    (HERE / ROWS).write_text("".join("\t".join(row) + "\n" for row in [COLUMNS, *shown]), encoding="utf-8")
    by_gain = sorted(shown, key=lambda row: float(row[-1]) - float(row[-2]))
    lines = [f"{summary(rows)}. [All rows](../tests/drop_in/{ROWS}); those that gain and lose most:", ""]
    lines += [f"| {' | '.join(row)} |" for row in (COLUMNS, ["---"] * len(COLUMNS), *by_gain[:MOST], *by_gain[-MOST:])]
    text = page.read_text(encoding="utf-8")
    page.write_text(TABLE.sub(lambda found: found[1] + "\n".join(["", *lines, "", ""]) + found[2], text),
                    encoding="utf-8")
    first = TOP / "README.md"
    total = sums(rows)
    gain = (f"**With the drop-in**, [{len(rows)} pipelines](bench/DROP_IN.md#what-was-tried) took {total.after:.0f} "
            f"seconds of CPU time instead of {total.before:.0f}, without a change. "
            f"Dunekettle ran {total.taken} of their {total.calls} calls.\n")
    text = GAIN.sub(lambda found: found[1] + gain + found[2], first.read_text(encoding="utf-8"))
    first.write_text(text, encoding="utf-8")


def try_pybedtools(folder, env, count):
    """Runs 27 calls of pybedtools in both ways."""
    python = next((p for p in PYTHONS if call([p, "-c", "import pybedtools"], folder, environment())[2] == 0), None)
    if not python:
        print("no pybedtools: passed over")
        return
    words, told = [python, HERE / "pipelines" / "calls.py"], folder / "told.txt"
    # pybedtools takes any line on standard error for a fault.
    without, with_it = call(words, folder, environment()), call(words, folder, {**env, "DUNEKETTLE_TELL": str(told)})
    count.expect("pybedtools ends well", (0, 0), (without[2], with_it[2]))
    theirs, ours = (gave[0].decode().splitlines() for gave in (without, with_it))
    count.expect("pybedtools: number of calls", 27, len(theirs))
    for line, other in zip(theirs, ours):
        count.expect(f"pybedtools {line.split()[0]}", line, other)
    ours = [who for who, _ in TOLD.findall(told.read_text(encoding="utf-8"))].count("Dunekettle")
    print(f"pybedtools: {len(theirs)} calls, {ours} of its command lines taken by us")


def both_ways(tool, folder, env, count):
    """Runs a tool in both ways, each in a copy of the folder, and compares the files that it makes."""
    gave = []
    for way, env_of_it in (("without", environment()), ("with", env)):
        there = folder.parent / f"{tool.name}-{way}"
        shutil.copytree(folder, there)
        status = call(tool.words, there, env_of_it)[2]
        gave.append((status, [(there / file).read_bytes() if (there / file).exists() else None for file in tool.made]))
        if way == "without":
            count.expect(f"{tool.name} ends well", 0, status)
    count.expect(tool.name, gave[0], gave[1])
    return folder.parent / f"{tool.name}-with"


def try_tools(folder, env, count):
    """A rule of Snakemake, a Makefile, and a module with its versions."""
    (folder / "Snakefile").write_text(SNAKEFILE, encoding="utf-8")
    (folder / "Makefile").write_text(MAKEFILE, encoding="utf-8")
    (folder / "module.sh").write_text(MODULE, encoding="utf-8")
    for tool in TOOLS:
        if shutil.which(tool.name):
            both_ways(tool, folder, env, count)
        else:
            print(f"no {tool.name}: passed over")
    there = both_ways(Tool("module", ["bash", "module.sh"], ["test.bed"]), folder, env, count)
    versions = (there / "versions.yml").read_text(encoding="utf-8")
    count.expect("the module's versions", True,
                 bool(re.fullmatch(r'"BEDTOOLS_MERGE":\n    bedtools: 2\.30\.0\n', versions)))


def main():
    if not original():
        return 0
    words = [word for word in sys.argv[1:] if word != "--write"]
    count = Count("pipelines")
    with tempfile.TemporaryDirectory() as made:
        top = Path(made)
        env = environment(drop_in(install(top / "there")), DUNEKETTLE_TELL="1")
        folder = top / "data"
        folder.mkdir()
        make_all(folder)
        if not words:
            try_tools(folder, env, count)
            try_pybedtools(folder, env, count)
        rows = try_pipelines(folder, env, count, words)
    print(summary(rows))
    for line in [] if words else goals_missed(rows):
        print(f"a goal that is missed: {line}")
    if "--write" in sys.argv[1:] and not words:
        write_table(rows)
    return 1 if count.close() else 0


if __name__ == "__main__":
    sys.exit(main())
