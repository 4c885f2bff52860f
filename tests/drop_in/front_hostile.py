#!/usr/bin/env python3
"""Tries what may go wrong with the front and the drop-in, and shows what a call costs.

    tests/drop_in/front_hostile.py

Hints and the check of files; no bedtools behind the drop-in, or one that is ourselves; folders and words with spaces,
stars and line feeds; a file that changes; closed streams, signals and full temporary folders; 200 calls at once; other
shells. Needs no bedtools 2.30.0, but tries more where there is one. Ends with 1 where something differs.
"""

import concurrent.futures
import os
import resource
import shutil
import subprocess
import sys
import tempfile
import time
from pathlib import Path
from typing import NamedTuple

from front_broken import try_paths
from front_faults import try_faults
from front_hints import (FILES, MERGED, WHOSE, fill, try_help, try_hints, try_names, try_pasted, try_terminal,
                         try_warnings)
from front_originals import try_originals
from front_signals import try_streams
from front_tools import TOP, Count, call, drop_in, fake, install, looking, original, shell, with_path
from tests.pages.test_examples import examples_of

# What the report says of the calls that are tried.
REPORT = """9 calls, of which 8 of the seven commands; Dunekettle took 2 of 8 (25 percent)
  merge       1 of 7 (14 percent)
  intersect   1 of 1 (100 percent)
why bedtools took the others:
       3  merge: FILE has a NUL
       2  merge: record is out of order
       1  merge: unknown option: -c
"""
SHELLS = (["dash"], ["bash", "--posix"], ["busybox", "sh"], ["zsh", "--emulate", "sh"], ["ksh"], ["mksh"], ["yash"])
# Files for each awk, calls that Dunekettle takes of them, and calls that bedtools takes.
AWK_FILES = {
    "d.bed": b"chr1\t2\t6\ta\t0\t+\nchr2\t4\t8\tb\t0\t-\n", "late.bed": b"chr2\t4\t8\tb\t0\t-\n",
    "two.fa": b">chr1\nACGTA\nACGTA\nAC\n>chr2\nACGTA\nACGT\n",
    "blocks.bed": b"chr2\t1\t8\tt\t0\t+\t1\t8\t0\t2\t2,3,\t0,4,\n", "past.bed": b"chr1\t25\t30\n",
    "long.bed": b"chr1\t0\t70\n", "crlf2.bed": b"chr1\t2\t6\r\n",
    "zero.sam": FILES["sam.sam"].replace(b"chr1\t3\t", b"chr1\t0\t"),
    "wide.bed": b"chr1\t2\t6\t" + 1020 * b"n" + b"\n",
}
OURS = (
    "complement -i d.bed -g g.txt", "genomecov -bga -i d.bed -g g.txt", "intersect -s -u -a d.bed -b f.bed",
    "intersect -a d.bed -b d.bed", "intersect -f 0.25 -u -a d.bed -b f.bed",
    "merge -i a\nb.bed", "merge -i crlf2.bed", "genomecov -i late.bed -g g.txt", "genomecov -d -i d.bed -g g.txt",
    "genomecov -dz -i d.bed -g g.txt", "genomecov -bg -scale 0.3 -i d.bed -g g.txt",
    "genomecov -bga -strand + -i d.bed -g g.txt", "genomecov -bga -i late.bed -g g.txt",
    "genomecov -bg -split -i blocks.bed -g g.txt", "intersect -wa -wb -a f.bed -b f.bed",
    "intersect -wo -a f.bed -b f.bed", "intersect -a f.bed -b f.bed",
)
THEIRS = (
    "complement -i past.bed -g g.txt", "intersect -s -u -a d.bed -b dot.bed",
    "intersect -f 0.25000001 -u -a long.bed -b f.bed", "maskfasta -fi two.fa -bed d.bed -fo masked.fa",
    "bamtobed -i sam.sam", "bamtobed -i zero.sam", "merge -i crlf.bed", "merge -i numbers.vcf", "merge -i wide.bed",
    "intersect -u -a d.bed -b bare.bed", "subtract -a bare.bed -b d.bed",
)
# What awk writes itself, but for one call of these.
BY_AWK, BUT_FOR = ("genomecov",), "genomecov -bga -i d.bed -g g.txt"


class Cost(NamedTuple):
    """A way to call merge whose time is shown."""

    name: str
    program: Path
    variables: dict = {}
    words: tuple = ()


def try_report(place, folder, count):
    """What `report` says of the file that DUNEKETTLE_TELL names, and of one that has no call."""
    front, told = place / "bin" / "dunekettle", folder.parent / "report.txt"
    env = with_path(drop_in(place), folder.parent / "says", folder.parent / "tools", DUNEKETTLE_TELL=str(told))
    for line in ("merge -i f.bed", "merge -i unsorted.bed", "merge -d 1 -i unsorted.bed",
                 "merge -i f.bed -c 4 -o count", "intersect -u -a f.bed -b f.bed", "sort -i f.bed", "--version"):
        call(["bedtools", *line.split()], folder, env)
    # A reason is counted without the name of its file, also if that has spaces or no dot.
    for name in ("zeros", "a name", "with two.bed"):
        (folder / name).write_bytes(b"chr1\t2\t6\t\0\n")
        call(["bedtools", "merge", "-i", name], folder, env)
        (folder / name).unlink()
    count.expect("report", (REPORT.encode(), "", 0), call([front, "report", told], folder, env))
    for name in ("mawk", "gawk", "busybox"):
        if shutil.which(name):
            words = [name, "awk"][: 1 + (name == "busybox")]
            output = call([*words, "-f", TOP / "front" / "report.awk"], folder, looking(), input=told.read_bytes())[0]
            count.expect(f"report by {name}", REPORT.encode(), output)
    for words, status in (([], 2), (["none"], 2), (["."], 2), ([told, told], 2), (["f.bed"], 1)):
        output, said, found = call([front, "report", *words], folder, env)
        count.expect(f"report {words}", (b"", status, 1), (output, found, len(said.splitlines())))


def try_places(place, folder, count):
    """Folders with odd names, a place that was moved, and links."""
    top = folder.parent
    odd = install(top / "odd * place").rename(top / "odd *\nplace")
    count.expect("an odd place", (MERGED, "", 0),
                 call(["bedtools", "merge", "-i", "f.bed"], folder, looking(drop_in(odd))))
    count.expect("dunekettle there", (MERGED, "", 0),
                 call([odd / "bin" / "dunekettle", "merge", "-i", "f.bed"], folder, looking()))
    moved = odd.rename(top / "moved")
    count.expect("a place that was moved", (MERGED, "", 0),
                 call([drop_in(moved) / "mergeBed", "-i", "f.bed"], folder, looking()))
    (top / "home").mkdir()
    (top / "home" / "dk").symlink_to(place / "bin" / "dunekettle")
    (top / "home" / "bedtools").symlink_to("../there/lib/dunekettle/bin/bedtools")
    count.expect("a link to the front", (MERGED, "", 0),
                 call([top / "home" / "dk", "merge", "-i", "f.bed"], folder, looking()))
    count.expect("a link to the drop-in", (MERGED, "", 0),
                 call([top / "home" / "bedtools", "merge", "-i", "f.bed"], folder, looking()))


def try_spoilt(place, folder, count):
    """An awk that spoils the file after it was looked at."""
    changed = "chr1\\t9\\t12\\nchr1\\t2\\t6\\n"
    spoils = fake(folder.parent / "spoils", "awk",
                  f'{shutil.which("awk")} "$@"\nstatus=$?\n'
                  f'case "$*" in *visibility*) printf "{changed}" > changes.bed ;; esac\nexit $status')
    (folder / "changes.bed").write_bytes(FILES["f.bed"])
    words = ["genomecov", "-bg", "-i", "changes.bed", "-g", "g.txt"]
    found = call([place / "lib" / "dunekettle" / "script" / "bedtools", *words], folder,
                 looking(drop_in(place), spoils, DUNEKETTLE_WHY=""))
    wanted = "bedtools genomecov: changes.bed:2: record is out of order\n" + WHOSE
    count.expect("a file that changes", (b"", wanted, 1), found)


def try_temporary_folders(place, folder, count):
    """A temporary folder that can't be used, 200 calls at once, and a mktemp that dies."""
    top = folder.parent
    front, words = place / "bin" / "dunekettle", ["merge", "-i", "f.bed"]
    for name, there in (("missing", top / "nowhere"), ("a file", folder / "f.bed")):
        found = call([front, "merge", "-i", "unsorted.bed"], folder, looking(TMPDIR=str(there)))
        count.expect(f"temporary folder {name}", (2, 1), (len(found[1].splitlines()), found[2]))
    temporary = top / "temporary"
    temporary.mkdir()
    env = looking(drop_in(place), TMPDIR=str(temporary))
    calls = [["bedtools", *words], [front, *words]] * 100
    with concurrent.futures.ThreadPoolExecutor(200) as pool:
        found = list(pool.map(lambda each: call(each, folder, env), calls))
    count.expect("200 calls at once", [(MERGED, "", 0)] * 200, found)
    count.expect("what they left", [], list(temporary.iterdir()))
    dies = fake(top / "dies", "mktemp", f'{shutil.which("mktemp")} "$@"\nkill -s KILL $$')
    env = with_path(drop_in(place), dies, top / "says", top / "tools", TMPDIR=str(temporary))
    words = ["genomecov", "-bga", "-strand", "+", "-i", "f.bed", "-g", "g.txt"]
    status = call(["bedtools", *words], folder, env)[2]
    count.expect("a mktemp that dies", (7, []), (status, list(temporary.iterdir())))


def try_shells(place, folder, count):
    """The same by each shell that is installed."""
    top = folder.parent
    scripts = {"bin/dunekettle": "merge -i f.bed", "lib/dunekettle/bin/bedtools": "merge -i f.bed",
               "lib/dunekettle/bin/mergeBed": "-i f.bed"}
    for first, *more in SHELLS:
        if not shutil.which(first):
            print(f"no {first}: passed over")
            continue
        name, words = " ".join([first, *more]), [shutil.which(first), *more]
        for script, line in scripts.items():
            found = call([*words, place / script, *line.split()], folder, looking(drop_in(place)))
            count.expect(f"{name} {script}", (MERGED, "", 0), found)
        found = call([*words, place / "bin" / "dunekettle", "merge", "-i", "unsorted.bed"], folder, looking())
        count.expect(f"{name}: a hint", (2, 1), (len(found[1].splitlines()), found[2]))
        found = call([*words, drop_in(place) / "bedtools", "intersect", "-s", "-u", "-a", "f.bed", "-b", "dot.bed"],
                     folder, with_path(top / "says", top / "tools", DUNEKETTLE_TELL="1"))
        why = "records without a strand" if first in ("dash", "bash", "busybox") else "this sh can open no pipes"
        count.expect(f"{name}: strands", (7, True), (found[2], why in found[1]))


def try_a_change(place, folder, count):
    """A file that changes after the program of the drop-in has looked at its first line, before it reads it again."""
    env, changed = looking(drop_in(place)), False
    text = b"".join(b"chr1\t%d\t%d\n" % (n, n + 5) for n in range(3_000_000, 5_000_000))
    for _ in range(20):
        (folder / "grows.bed").write_bytes(text)
        with subprocess.Popen(["bedtools", "merge", "-i", "grows.bed"], cwd=folder, env=env, stdout=subprocess.PIPE,
                              stderr=subprocess.PIPE) as child:
            while child.poll() is None and not reads_at(child.pid, folder / "grows.bed"):
                pass
            with (folder / "grows.bed").open("r+b") as file:
                file.seek(9 * len(b"chr1\t3000000\t3000005\n"))
                file.write(b"chr1\t2000000")
            output, said = child.communicate()
        # It may have changed before the first look was there, or after the second reading.
        changed = said == b"bedtools merge: grows.bed:10: record is out of order\n" + WHOSE.encode()
        count.expect("a file that changes in the look", True, not changed or (output, child.returncode) == (b"", 1))
        if changed:
            break
    (folder / "grows.bed").unlink()
    if not changed:
        print("a file that changes in the look: this machine was too quick, or too slow, in 20 calls")


def reads_at(process, file):
    """How far a process that a call has started is in a file."""
    try:
        for child in Path(f"/proc/{process}/task/{process}/children").read_text(encoding="utf-8").split():
            for link in Path(f"/proc/{child}/fd").iterdir():
                if os.readlink(link) == str(file):
                    return int(Path(f"/proc/{child}/fdinfo/{link.name}").read_text(encoding="utf-8").split()[1])
    except OSError:
        pass
    return 0


def try_awks(place, folder, count):
    """The same decisions and the same checks by each awk that is installed."""
    top, reports = folder.parent, {}
    for name, text in AWK_FILES.items():
        (folder / name).write_bytes(text)
    for name in ("mawk", "gawk", "busybox", "original-awk", "nawk"):
        if not shutil.which(name):
            print(f"no {name}: passed over")
            continue
        applet = "awk " if name == "busybox" else ""
        made = fake(top / f"awk by {name}", "awk", f'exec {shutil.which(name)} {applet}"$@"')
        env = with_path(drop_in(place), made, top / "says", top / "tools")
        # What awk writes goes to bedtools where awk ends well although it couldn't write.
        is_silent = call(["sh", "-c", "awk 'BEGIN { print 1 }' > /dev/full"], folder, env)[2] == 0
        for line in (*OURS, *THEIRS):
            is_left = is_silent and line.startswith(BY_AWK) and line != BUT_FOR
            count.expect(f"{name}: {line}", 7 if line in THEIRS or is_left else 0,
                         call(["bedtools", *line.split(" ")], folder, env)[2])
        files = sorted(file.name for file in folder.iterdir() if file.name != "-x")
        reports[name] = call([place / "bin" / "dunekettle", "check", "--json", *files], folder, env)[0]
        count.expect(f"{name}: check", True, len(reports[name]) > 1000 and len(set(reports.values())) == 1)


def try_page(place, folder, count):
    """The examples of cases/front.txt, in a folder of their own, with the front and the drop-in on PATH."""
    made = folder.parent / "page"
    made.mkdir()
    env = looking(drop_in(place), place / "bin")
    for one in examples_of((TOP / "tests" / "pages" / "cases" / "front.txt").read_text(encoding="utf-8")):
        output, said, _ = shell(one.command, made, env)
        count.expect(f"front.txt:{one.number}: {one.command}", one.wanted, (output.decode() + said).splitlines())


def show_costs(place, folder):
    """The milliseconds of a call, the middle of several on a small file."""
    env, theirs, rows = looking(drop_in(place)), original(), []
    program, front, ours = (place / "bin" / "dunekettle-bedtools", place / "bin" / "dunekettle",
                            drop_in(place) / "bedtools")
    costs = [Cost("the program", program), Cost("dunekettle", front),
             Cost("dunekettle, no hints", front, {"DUNEKETTLE_HINTS": "0"}), Cost("drop-in, taken by us", ours),
             Cost("drop-in, ALWAYS", ours, {"DUNEKETTLE_ALWAYS": "1"})]
    if theirs:
        costs += [Cost("bedtools", theirs),
                  Cost("drop-in, taken by bedtools", ours, words=("-c", "1", "-o", "count"))]
    for cost in costs:
        took = []
        for _ in range(60):
            begun = time.monotonic()
            call([cost.program, "merge", "-i", "f.bed", *cost.words], folder, {**env, **cost.variables})
            took.append(time.monotonic() - begun)
        rows.append(f"{cost.name} {sorted(took)[30] * 1000:.1f}")
    print("milliseconds a call of merge: " + "; ".join(rows))
    if theirs:
        show_large_costs(place, folder, env, theirs)


def show_large_costs(place, folder, env, theirs):
    """The seconds of processor over a million records, without the drop-in, with it, and of the program alone."""
    with (folder / "million.bed").open("w", encoding="utf-8") as file:
        file.writelines(f"chr1\t{50 * n}\t{50 * n + 150}\tread{n}\t60\t{'+-'[n % 2]}\n" for n in range(1_000_000))
    with (folder / "exons.bed").open("w", encoding="utf-8") as file:
        file.writelines(f"chr1\t{250 * n}\t{250 * n + 100}\texon{n}\t0\t{'+-'[n % 2]}\n" for n in range(200_000))
    rows = []
    for line in ("merge -i million.bed", "intersect -u -a million.bed -b exons.bed",
                 "intersect -s -u -a million.bed -b exons.bed", "intersect -f 0.5 -u -a million.bed -b exons.bed",
                 "subtract -a million.bed -b exons.bed"):
        used = []
        for program in (theirs, drop_in(place) / "bedtools", place / "bin" / "dunekettle-bedtools"):
            before = resource.getrusage(resource.RUSAGE_CHILDREN)
            call([program, *line.split()], folder, env)
            after = resource.getrusage(resource.RUSAGE_CHILDREN)
            used.append(after.ru_utime + after.ru_stime - before.ru_utime - before.ru_stime)
        rows.append(f"{line}: {used[0]:.2f} {used[1]:.2f} {used[2]:.2f}")
    print("seconds of processor of bedtools, with the drop-in, of the program alone:", *rows, sep="\n  ")


# All trials in their order: what one leaves in a folder another may need.
TRIALS = (try_hints, try_pasted, try_terminal, try_warnings, try_help, try_originals, try_paths, try_names, try_streams,
          try_report, try_places, try_spoilt, try_a_change, try_temporary_folders, try_shells, try_awks, try_page,
          try_faults)


def main():
    count = Count("hostile cases")
    with tempfile.TemporaryDirectory() as made:
        top = Path(made)
        place, folder = install(top / "there"), top / "data"
        folder.mkdir()
        fill(folder)
        for trial in TRIALS:
            trial(place, folder, count)
        show_costs(place, folder)
    return 1 if count.close() else 0


if __name__ == "__main__":
    sys.exit(main())
