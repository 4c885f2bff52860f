#!/usr/bin/env python3
"""The results of the bench: measures them, writes them into the pages, draws them, and checks that all agree.

    bench/results.py             fails if a table, a number or a chart isn't that of results.json
    bench/results.py --write     writes them anew
    bench/results.py --render FILE FOLDER     writes the tables and charts of another file into a folder

bench/compare.py --results measures results.json: in one run of one commit the least time and the highest memory of each
program over the reported workloads, the instructions a record of this program, and how time and memory grow with the
input. It ends with 1 if the memory of this program does by over a megabyte. The outputs are compared at a tenth of the
size, and then go to /dev/null. It needs an idle machine, bedtools, bedops, samtools and valgrind. A page has a table
between the two lines that MARKS finds, and nothing else of it is touched.
"""

import json
import math
import os
import re
import shutil
import statistics
import subprocess
import sys
import tempfile
import time
from concurrent.futures import ProcessPoolExecutor
from pathlib import Path

import chart
import compare
import workloads

HERE = Path(__file__).resolve().parent
TOP = HERE.parent
RESULTS = HERE / "results.json"
# What bench/pipelines.py measured.
PIPELINES = HERE / "pipelines.json"
# What bench/odd.py measured. The page shows the worst of it.
ODD = HERE / "odd.json"
WORST = 10
# The same as tables of all rows.
RESULT_ROWS, ODD_ROWS = HERE / "results.tsv", HERE / "odd.tsv"
# What is measured of growth: a workload for each command, also the one that the chart shows, by the name of its data.
SHOWN = {
    "merge": "3 columns",
    "complement": "3 columns",
    "intersect": "reads and exons",
    "subtract": "reads and exons",
    "genomecov": "reads at 30x",
    "bamtobed": "alignments",
    "maskfasta": "many records",
}
# What the inputs of these have, where their names don't say it.
NAMES = {
    **dict.fromkeys(("intersect", "subtract"), (("records.bed", "reads.bed"), ("second.bed", "exons.bed"))),
    "genomecov": (("records.bed", "reads.bed"),),
    "bamtobed": (("records.bed", "reads.sam"),),
    "maskfasta": (("records.bed", "sequences.fa"), ("second.bed", "records.bed")),
}
# What is reported beside the workloads that say so: other shapes, and what holds or waits for many records.
ALSO = (
    "intersect -sorted -v, reads and exons", "intersect -sorted -c, reads and exons",
    "intersect -sorted -u, 2,000 in 10,000 nested", "intersect -sorted, 100,000 under a long one",
    "merge -s, 200,000 after one of the other strand", "genomecov -bg, peaks",
)
SIZES = (1_000_000, 2_000_000, 4_000_000, 8_000_000)
# A machine with more to do than this isn't idle.
IDLE = 0.5
# A table in a page: its name, and what is between the two marks.
MARKS = re.compile(r"(<!-- bench/results.py --write: (\w+) -->\n).*?(<!-- it ends here -->)", re.DOTALL)
PAGES = ("README.md", "bench/README.md")


def reported():
    """The workloads that the tables have."""
    return [it for it in workloads.WORKLOADS if (it.is_reported and "without -g" not in it.name()) or it.name() in ALSO]


def shown(command):
    """The workload of a command that the chart shows."""
    return next(it for it in reported() if it.words[0] == command and it.data.name() == SHOWN[command])


def output_of(*words):
    """What a program writes on standard output, in one line."""
    done = subprocess.run(words, cwd=TOP, stdout=subprocess.PIPE, stderr=subprocess.DEVNULL, text=True, check=False)
    return " ".join(done.stdout.split())


def machine():
    """What the machine is: its processor, how many there are, and its system."""
    model = re.search(r"model name\s*: (.*)", Path("/proc/cpuinfo").read_text(encoding="utf-8"))
    system = re.search(r'PRETTY_NAME="(.*)"', Path("/etc/os-release").read_text(encoding="utf-8"))
    return f"{model[1] if model else 'x86-64'}, {os.cpu_count()} processors, {system[1] if system else 'Linux'}"


def commit():
    """The commit that is measured."""
    changed = output_of("git", "status", "--porcelain", "--", "crates")
    return output_of("git", "rev-parse", "--short", "HEAD") + (" with changes" if changed else "")


def version_of(words, pattern):
    """The version that a program names."""
    found = re.search(pattern, output_of(*words))
    return found[1] if found else "unknown"


def timed(workload, others, folder, size, times):
    """What each program took over so many records, with the output to /dev/null: seconds and kilobytes by its name."""
    place = compare.prepared(workload, folder, size)
    runs = compare.runs_of(workload, others, place)
    for _ in range(times):
        for run in runs:
            compare.time_run(run, Path(os.devnull))
    took = ", ".join(f"{run.program} {run.seconds:.3f} s {run.kilobytes} kB" for run in runs)
    print(f"{workload.name()}, {size}: {took}", flush=True)
    return {run.program: {"seconds": round(run.seconds, 4), "kilobytes": run.kilobytes} for run in runs}


def check_outputs(workload, others, folder, size):
    """Compares the outputs of all programs once."""
    runs = compare.runs_of(workload, others, compare.prepared(workload, folder, size))
    outputs = {run.program: folder / f"{run.program}.out" for run in runs}
    for run in runs:
        compare.time_run(run, outputs[run.program])
    compare.check_same(runs, outputs)


def measured(workload, others, folder, records, times):
    """The row of a workload, but for the instructions."""
    check_outputs(workload, others, folder, records // 10)
    return {"name": workload.name(), "command": workload.words[0],
            "runs": timed(workload, others, folder, records, times)}


def instructions(workload, folder, valgrind):
    """The instructions a record of this program."""
    place = compare.prepared(workload, folder, compare.COUNTED)
    run = compare.runs_of(workload, compare.NO_OTHERS, place)[0]
    return round(compare.instructions_of(valgrind, run) / compare.lines_of(place / "records.bed"), 1)


def grown(command, others, folder, sizes, times):
    """How the time and the memory of a command grow: what each program took, by the size."""
    rows = {}
    for size in sizes:
        runs = timed(shown(command), others, folder, size, times)
        rows[str(size)] = {program: runs[program] for program in ("dunekettle", "bedtools") if program in runs}
    ours = [row["dunekettle"]["kilobytes"] for row in rows.values()]
    if max(ours) > min(ours) + compare.SLACK:
        sys.exit(f"{command}: the memory grows with the input")
    return rows


def sizes_for(records):
    """The sizes at which growth is measured."""
    return [size * records // workloads.TIMED for size in SIZES]


def prepare(folder, records):
    """Writes all inputs into a folder, on all processors: nothing is measured while they are written. Returns the exit
    status."""
    folder.mkdir(parents=True, exist_ok=True)
    wanted = [(it, size) for it in reported() for size in (records, records // 10, compare.COUNTED)]
    wanted += [(shown(command), size) for command in SHOWN for size in sizes_for(records)]
    inputs = {(it.data.name(), size): (it, folder, size) for it, size in wanted}
    with ProcessPoolExecutor() as pool:
        list(pool.map(compare.prepared, *zip(*inputs.values())))
    return 0


def check_idle():
    """Ends the bench if the machine isn't idle."""
    load = os.getloadavg()[0]
    if load > IDLE:
        sys.exit(f"the machine isn't idle: its load is {load:.1f}")


def measure(records, times, trial, inputs=None):
    """Measures all and writes it, and the pages unless it is a trial. Returns the exit status."""
    valgrind = shutil.which("valgrind")
    absent = [name for name in ("bedtools", "bedops", "samtools", "valgrind") if not shutil.which(name)]
    if absent:
        sys.exit(f"not on PATH: {', '.join(absent)}")
    if not trial:
        check_idle()
    kept = {
        "commit": commit(), "date": time.strftime("%Y-%m-%d"), "machine": machine(), "records": records, "times": times,
        "is_trial": bool(trial),
        "bedtools": version_of(["bedtools", "--version"], r"v(\S+)"),
        "bedops": version_of(["bedops", "--version"], r"version:\s*(\S+)"),
    }
    with tempfile.TemporaryDirectory() as own:
        folder = inputs or Path(own)
        prepare(folder, records)
        others = compare.found_others(folder)
        kept["workloads"] = [measured(workload, others, folder, records, times)
                             | {"instructions": instructions(workload, folder, valgrind)} for workload in reported()]
        kept["growth"] = {command: grown(command, others, folder, sizes_for(records), times) for command in SHOWN}
    Path(trial or RESULTS).write_text(json.dumps(kept, indent=1) + "\n", encoding="utf-8")
    return 0 if trial else agree(True)


def digits(number):
    """A number of two significant digits."""
    if number >= 99.5:
        return f"{round(number, 1 - int(math.log10(number))):,.0f}"
    return (f"{number:.0f}" if number >= 9.95 else f"{number:.1f}" if number >= 0.995
            else f"{number:.2f}" if number >= 0.0995 else f"{number:.3f}")


def megabytes(kilobytes):
    """Memory of so many times 1,024 bytes, in units of a million or a thousand million bytes."""
    size = kilobytes * 1024 / 1e6
    return f"{digits(size / 1000)} GB" if size >= 995 else f"{digits(size)} MB"


def times_faster(row):
    """How many times faster this program is than bedtools, by CPU time."""
    return row["runs"]["bedtools"]["seconds"] / row["runs"]["dunekettle"]["seconds"]


def spread(values, text):
    """The least and the greatest of some values, or the one that both are."""
    low, high = text(min(values)), text(max(values))
    if low == high:
        return low
    same_unit = low.split()[1:] == high.split()[1:]
    return f"{low.split()[0] if same_unit else low} to {high}"


def caption(kept, about=""):
    """How the numbers were measured: what is said first, and then the runs, the machine and the commit."""
    trial = "**A trial on a busy machine, no result.** " if kept["is_trial"] else ""
    records = about or f"Up to {kept['records'] / 1e6:g} million records"
    runs = ("the fastest of several runs" if not kept["times"] else "one run" if kept["times"] == 1
            else f"the fastest of {kept['times']} runs")
    note = f" {kept['note']}" if "note" in kept else ""
    others = f"bedtools {kept['bedtools']}, bedops {kept['bedops']}"
    return f"{trial}{records}, {runs}. {kept['machine']}; commit {kept['commit']}, {kept['date']}; {others}.{note}\n"


def command_line(command):
    """The command line of the workload that the chart shows, with files named for what they have."""
    line = " ".join(["dunekettle", *compare.runs_of(shown(command), compare.NO_OTHERS, Path("."))[0].words[1:]])
    for name, better in NAMES.get(command, ()):
        line = line.replace(name, better)
    return line


# The reads of a human genome at 30x, of 150 bases each, in millions; how many of the bench's size are alignments; and
# by how much `samtools view` and bamtobed together are faster than bamtobed of bedtools is on BAM.
GENOME_READS = 600
ALIGNED = 1.6
WITH_SAMTOOLS = (1.5, 1.8)


def whole_genome(kept):
    """What a BAM file of a human genome at 30x would cost, by the rates that were measured."""
    took = {row["command"]: row["runs"] for row in kept["workloads"]
            if row["name"].endswith((", alignments", ", reads at 30x"))}
    theirs = took["bamtobed"]["bedtools"]["seconds"] / ALIGNED * GENOME_READS / 60
    depths = took["genomecov"]["dunekettle"]["seconds"] / (kept["records"] / 1e6) * GENOME_READS / 60
    low, high = (theirs / factor for factor in reversed(WITH_SAMTOOLS))
    return (f"**A BAM file at 30x** has about {GENOME_READS} million reads of a human genome. By the rates measured "
            f"here, `samtools view` and `bamtobed` take {low:.0f} to {high:.0f} minutes of CPU time for it, where "
            f"`bedtools bamtobed` takes {theirs:.0f}; `dunekettle genomecov -bg` of its reads takes {depths:.0f} "
            f"minute{'' if round(depths) == 1 else 's'} more. This is extrapolated, not measured.\n")


def summary(kept):
    """What README.md says of all workloads: the command lines of the chart, three sentences, and a whole genome."""
    factors = [times_faster(row) for row in kept["workloads"] if row["command"] in SHOWN]
    half = digits(statistics.median_low(factors))
    on_text = digits(next(times_faster(row) for row in kept["workloads"] if row["command"] == "bamtobed"))
    lines = "".join(f"    {command_line(command)}\n" for command in SHOWN)
    return (f"The bars are these calls, on up to {kept['records'] / 1e6:g} million records:\n\n{lines}\n"
            f"Over [{len(factors)} workloads](bench/README.md#results) Dunekettle is {spread(factors, digits)} times "
            f"faster than bedtools {kept['bedtools']} (CPU time), in half of them at least {half} times. `bamtobed` "
            f"is {on_text} times faster on SAM text than bedtools on BAM; with `samtools view` before it, the two "
            f"together are {WITH_SAMTOOLS[0]} to {WITH_SAMTOOLS[1]} times faster. [Some inputs are "
            f"slow](bench/README.md#what-is-slow-and-why).\n\n{whole_genome(kept)}\n")


def by_command(kept):
    """The table of bench/README.md by command: how much faster each is, and below it what other programs than bedtools
    take."""
    lines = ["| command | times faster | for example | CPU seconds | bedtools | memory | bedtools |\n|" + "---|" * 7
             + "\n"]
    for command in SHOWN:
        rows = [row for row in kept["workloads"] if row["command"] == command]
        ours, theirs = ([row["runs"][program]["kilobytes"] for row in rows] for program in ("dunekettle", "bedtools"))
        example = next(row for row in rows if row["name"] == shown(command).name())
        took = " | ".join(digits(example["runs"][program]["seconds"]) for program in ("dunekettle", "bedtools"))
        lines.append(f"| `{command}` | {spread([times_faster(row) for row in rows], digits)} | {SHOWN[command]} | "
                     f"{took} | {spread(ours, megabytes)} | {spread(theirs, megabytes)} |\n")
    plain = [f"A [plain C program](plain_merge.c) that does only this ({row['name']}) takes "
             f"{digits(row['runs']['plain C']['seconds'])} s.\n" for row in kept["workloads"]
             if "plain C" in row["runs"]]
    all_rows = f"[{RESULT_ROWS.name}]({RESULT_ROWS.name}) has each of the {len(kept['workloads'])} workloads.\n"
    return "".join(lines) + "".join(f"\n{line}" for line in [all_rows, *plain, bedops(kept), caption(kept)])


def result_rows(kept):
    """The file of all workloads."""
    rows = [["workload", "Dunekettle, s", "bedtools, s", "times faster", "MB", "MB of bedtools"]]
    for row in kept["workloads"]:
        runs = [row["runs"][program] for program in ("dunekettle", "bedtools")]
        rows.append([row["name"], *(digits(run["seconds"]) for run in runs), digits(times_faster(row)),
                     *(digits(run["kilobytes"] * 1024 / 1e6) for run in runs)])
    return "".join("\t".join(cells) + "\n" for cells in rows)


def bedops(kept):
    """What the programs of bedops take for the same workloads."""
    sentences = []
    for program, words in (("bedops", "`bedops --merge` takes"),
                           ("convert2bed", "`convert2bed`, which writes more columns, takes")):
        took = [f"{digits(row['runs'][program]['seconds'])} s ({row['name']})" for row in kept["workloads"]
                if program in row["runs"]]
        sentences += [f"{words} {' and '.join(took)}."] if took else []
    return " ".join(sentences) + "\n"



def growth(kept):
    """The chart of growth, if it was measured."""
    if "growth" not in kept:
        return "How time and memory grow with the input wasn't measured yet.\n"
    return "![time and memory over inputs of four sizes](growth.svg)\n"


def pipeline_caption(measured):
    """How whole pipelines were measured."""
    trial = "**A trial on a busy machine, no result.** " if measured["is_trial"] else ""
    return (f"{trial}Wall-clock seconds, over {measured['reads'] / 1e6:g} million reads and the other inputs, the "
            f"fastest of {measured['times']} runs. {measured['machine']}; commit {measured['commit']}, "
            f"{measured['date']}.\n")


def pipelines(_):
    """The table and the chart of whole pipelines, if they were measured."""
    if not PIPELINES.exists():
        return ("Whole pipelines are measured by `bench/pipelines.py --results`; there is no result of this commit "
                "yet.\n")
    measured = json.loads(PIPELINES.read_text(encoding="utf-8"))
    lines = ["| pipeline, wall-clock seconds | bedtools | drop-in, unchanged | calls it took | [rewritten](pipelines) "
             "|\n|---|---|---|---|---|\n"]
    for row in measured["pipelines"]:
        theirs, front, ours = (digits(row["seconds"][form]) for form in ("bedtools", "drop-in", "rewritten"))
        lines.append(f"| {row['what']} | {theirs} | {front} | {row['taken']} of {row['calls']} | {ours} |\n")
    return ("".join(lines) + "\n![whole pipelines: bedtools, the drop-in, rewritten](pipelines.svg)\n\n"
            + pipeline_caption(measured))


def ratio(row):
    """The part of bedtools' CPU time that this program takes."""
    return row["runs"]["dunekettle"]["seconds"] / row["runs"]["bedtools"]["seconds"]


def by_ratio(kept):
    """The cells of each odd input, the largest part of bedtools' time first."""
    for row in sorted(kept["odd"], key=ratio, reverse=True):
        runs = [row["runs"][program] for program in ("dunekettle", "bedtools")]
        yield [row["name"], *(digits(run["seconds"]) for run in runs), digits(ratio(row)),
               *(digits(run["kilobytes"] * 1024 / 1e6) for run in runs)]


def odd_inputs(kept):
    """The table of odd inputs: the worst ones, and last the largest part."""
    if not kept:
        return "Odd inputs weren't measured yet.\n"
    rows = list(by_ratio(kept))
    lines = ["| workload | Dunekettle, s | bedtools, s | part of bedtools' time | MB | bedtools, MB |\n|" + "---|" * 6
             + "\n"]
    lines += [f"| {' | '.join(cells)} |\n" for cells in rows[:WORST]]
    if len(rows) > WORST:
        lines.append(f"| [{len(rows) - WORST} others]({ODD_ROWS.name}) | | | at most {rows[WORST][3]} | | |\n")
    lines.append(f"| **the largest ratio** | | | **{rows[0][3]}** | | |\n")
    return "".join(lines) + f"\n{odd_caption(kept)}"


def odd_rows(kept):
    """The file of all odd inputs."""
    head = ["workload", "Dunekettle, s", "bedtools, s", "part of bedtools' time", "MB", "MB of bedtools"]
    return "".join("\t".join(cells) + "\n" for cells in (head, *by_ratio(kept)))


def odd_caption(kept):
    """How the odd inputs were measured."""
    trial = "**A trial on a busy machine, no result.** " if kept["is_trial"] else ""
    return (f"{trial}CPU time, the fastest of three or five runs. {kept['machine']}; commit {kept['commit']}, "
            f"{kept['date']}; bedtools {kept['bedtools']}.\n")


def odd_claim(kept):
    """The item of README.md on odd inputs, if they were measured."""
    if not kept:
        return ""
    ratios = [ratio(row) for row in kept["odd"]]
    slower = sum(part > 1 for part in ratios)
    on = f"{len(ratios)} workloads of [odd inputs](bench/README.md#odd-inputs)"
    if slower:
        return (f"On {slower} of {on} it is slower than bedtools, and takes at most {digits(max(ratios))} times its "
                "CPU time.\n")
    return f"On {on} it is never slower than bedtools: it takes at most {digits(max(ratios))} of its CPU time.\n"


TABLES = {"summary": summary, "by_command": by_command, "growth": growth, "pipelines": pipelines}
# Those of odd.json, for which it may be missing. The claim comes after the summary.
ODD_TABLES = {"odd_inputs": odd_inputs, "odd_claim": odd_claim}


def charts(kept):
    """The charts by their files."""
    drawn = {"chart.svg": chart.draw_commands(kept, SHOWN, caption(kept))}
    if "growth" in kept:
        drawn["growth.svg"] = chart.draw_growth(kept, caption(kept, "Each point"))
    if PIPELINES.exists():
        measured = json.loads(PIPELINES.read_text(encoding="utf-8"))
        drawn["pipelines.svg"] = chart.draw_pipelines(measured, pipeline_caption(measured))
    return drawn


def read(path):
    """The results in a file, or none if it is missing."""
    return json.loads(path.read_text(encoding="utf-8")) if path.exists() else None


def page(path, kept, odd):
    """The text of a page with its tables."""
    made = ({name: table(kept) for name, table in TABLES.items()}
            | {name: table(odd) for name, table in ODD_TABLES.items()})
    made["summary"] += made["odd_claim"]
    return MARKS.sub(lambda match: match[1] + made[match[2]] + match[3], path.read_text(encoding="utf-8"))


def agree(is_written):
    """Writes or compares all that is made of the results. Returns the exit status."""
    kept, odd = read(RESULTS), read(ODD)
    made = {TOP / name: page(TOP / name, kept, odd) for name in PAGES}
    made |= {HERE / name: text for name, text in charts(kept).items()}
    made |= {RESULT_ROWS: result_rows(kept), **({ODD_ROWS: odd_rows(odd)} if odd else {})}
    differ = [path for path, text in made.items() if not path.exists() or path.read_text(encoding="utf-8") != text]
    for path in differ:
        if is_written:
            path.write_text(made[path], encoding="utf-8")
        print(f"{path.relative_to(TOP)}: "
              f"{'written anew' if is_written else 'not that of the results in bench: bench/results.py --write'}")
    measured = ((path, read(path)) for path in (RESULTS, PIPELINES, ODD))
    trials = [path.name for path, found in measured if found and found["is_trial"]]
    for name in trials:
        print(f"bench/{name} is a trial, which no page may show")
    print(f"{len(made)} pages and charts, {len(differ)} of them differ from the results in bench")
    return 1 if trials or (differ and not is_written) or memory_differs(kept) else 0


def memory_differs(kept):
    """Whether differences.tsv says another memory of bedtools' genomecov than was measured."""
    theirs = spread([row["runs"]["bedtools"]["kilobytes"] for row in kept["workloads"]
                     if row["command"] == "genomecov"],
                    megabytes)
    text = (TOP / "tests" / "differences" / "differences.tsv").read_text(encoding="utf-8")
    said = re.search(r"^genomecov\tmemory\t[^\t]*?([\d.]+ [GM]B)", text, re.MULTILINE)
    if said and said[1] == theirs:
        return False
    print(f"differences.tsv: genomecov of bedtools takes {said and said[1]}, and {theirs} was measured")
    return True


def render(kept, folder):
    """Writes the tables and charts of some results into a folder."""
    folder.mkdir(parents=True, exist_ok=True)
    tables, rows = ((ODD_TABLES, {ODD_ROWS.name: odd_rows(kept)}) if "odd" in kept
                    else (TABLES, {RESULT_ROWS.name: result_rows(kept)}))
    drawn = {} if "odd" in kept else charts(kept)
    for name, text in [*rows.items(), *drawn.items(), *((f"{name}.md", table(kept)) for name, table in tables.items())]:
        (folder / name).write_text(text, encoding="utf-8")
    return 0


def main():
    if sys.argv[1:2] == ["--render"]:
        return render(read(Path(sys.argv[2])), Path(sys.argv[3]))
    return agree("--write" in sys.argv[1:])


if __name__ == "__main__":
    sys.exit(main())
