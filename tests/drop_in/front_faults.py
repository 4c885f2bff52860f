"""Helper tools that die half way, and temporary folders that are full, under the drop-in: no byte may be lost without a
fault and a status that isn't 0. front_hostile.py tries this.

Each tool that the drop-in calls is faked by one that does its work, but at one of its calls writes the first half alone
and kills itself: at each of its calls in turn."""

import concurrent.futures
import shutil
import subprocess
import tempfile
from pathlib import Path

from front_tools import call, drop_in, looking, original

# What the drop-in calls. What a script of the trial calls itself has a whole path.
HELPERS = ("awk", "cat", "cut", "df", "grep", "gzip", "head", "mktemp", "rm", "samtools", "sort", "tail", "tr", "wc")
FAKE = """#!/bin/sh
call=1
until mkdir "$CALLS/TOOL $call" 2> /dev/null; do call=$((call + 1)); done
[ "TOOL $call" = "$DIES" ] || exec REAL "$@"
REAL "$@" > "$CALLS/out"
HEAD -c "$(($(WC -c < "$CALLS/out") / 2))" "$CALLS/out"
kill -s KILL $$
"""
# The calls, each a script of bash. Sizes are such that half of what a tool writes is never a whole answer.
SCRIPTS = (
    "bedtools merge -i a.bed", "bedtools merge -i late_long.bed", "bedtools merge -i natural.bed",
    "bedtools complement -i a.bed -g g.txt", "bedtools complement -i past.bed -g g.txt",
    "bedtools intersect -a a.bed -b b.bed", "bedtools intersect -a a.bed -b twice.bed",
    "bedtools intersect -a natural.bed -b natural.bed", "bedtools intersect -wo -a natural.bed -b twice_natural.bed",
    "bedtools intersect -wa -wb -a wide.bed -b mixed.bed",
    "bedtools intersect -wo -f 0.01 -a natural_wide.bed -b natural_mixed.bed",
    "bedtools intersect -wb -a <(CAT wide.bed) -b mixed.bed",
    "bedtools intersect -s -u -a a.bed -b a.bed", "bedtools intersect -f 0.25 -u -a a.bed -b b.bed",
    "bedtools intersect -f 0.123456 -r -u -a late_wide.bed -b late_wide.bed",
    "bedtools subtract -a a.bed.gz -b b.bed.gz", "bedtools merge -i many.bed.gz",
    "bedtools genomecov -i natural.bed -g natural.txt", "bedtools genomecov -bg -i natural.bed -g g.txt",
    "bedtools genomecov -bga -strand + -i natural.bed -g g.txt", "bedtools genomecov -d -i a.bed -g g.txt",
    "bedtools genomecov -dz -i a.bed -g g.txt", "bedtools genomecov -bg -scale 0.3 -i a.bed -g g.txt",
    "bedtools genomecov -bg -split -i blocks.bed -g g.txt", "bedtools genomecov -bga -split -i blocks.bed -g g.txt",
    "bedtools genomecov -bg -i deep.bed -g g.txt",
    "bedtools genomecov -bga -split -ibam r.bam", "bedtools genomecov -ibam r.bam",
    "bedtools genomecov -d -i a.bed.gz -g g.txt", "bedtools intersect -wo -a a.bed.gz -b b.bed",
    "bedtools genomecov -d -i natural.bed -g g.txt", "CAT a.bed | bedtools genomecov -i - -g g.txt",
    "CAT a.bed | bedtools merge", "bedtools intersect -u -a <(CAT a.bed) -b <(CAT b.bed)",
    "bedtools genomecov -bga -i <(CAT natural.bed) -g <(CAT g.txt)",
    "CAT a.bed | DUNEKETTLE_ROOM=500 bedtools merge",
    "DUNEKETTLE_ROOM=500 bedtools intersect -sorted -u -a <(CAT a.bed) -b <(CAT b.bed)",
    "DUNEKETTLE_ROOM=500 bedtools intersect -sorted -c -a <(CAT a.bed) -b <(SLEEP 0.3; CAT few.bed)",
    "CAT a.bed.gz | bedtools merge -i -",
)
NAMES = ("chr1", "chr10", "chr2", "chr3", "chrX")
NATURAL = ("chr1", "chr2", "chr3", "chr10", "chrX")


def rows(names, count, step, length, more="\tr\t0\t+"):
    """Records of each chromosome."""
    return [f"{name}\t{step * n}\t{step * n + length}{more}\n" for name in names for n in range(count)]


def reads(names, cigars):
    """SAM text."""
    lines = ["@HD\tVN:1.6\tSO:coordinate\n", *(f"@SQ\tSN:{name}\tLN:4100000\n" for name in names)]
    return (lines
            + [f"r\t{16 * (n % 2)}\t{name}\t{90 * n + 1}\t9\t{cigars[n % len(cigars)]}\t*\t0\t0\t*\t*\n"
               for name in names for n in range(60)])


def fill(folder):
    """Writes the files. What is odd in one is near its end, where a tool that died doesn't come."""
    features = rows(NAMES, 60, 90, 40)
    wide, mixed = rows(("c",), 60, 30_000, 40_000), rows(("c",), 200, 9000, 6000, "\tm\t0\t-")
    files = {
        "wide.bed": wide, "mixed.bed": mixed,
        "natural_wide.bed": [line.replace("c", name, 1) for name in NATURAL for line in wide],
        "natural_mixed.bed": [line.replace("c", name, 1) for name in NATURAL for line in mixed],
        "a.bed": features, "b.bed": rows(NAMES, 50, 95, 30, "\tr\t0\t-"), "few.bed": features[:5],
        "natural.bed": rows(NATURAL, 60, 90, 40, "\tr\t0\t-")[:-1] + ["chrX\t9000\t9040\tr\t0\t+\n"],
        "late_long.bed": [*features, f"chrX\t9000\t9040\t{1100 * 'n'}\n"],
        "past.bed": [*features, "chrX\t9000\t99999999\n"], "twice.bed": [*features, features[-1]],
        "twice_natural.bed": [*rows(NATURAL, 60, 90, 40), "chrX\t5310\t5350\tr\t0\t+\n"],
        "late_wide.bed": [*features, "chrX\t9000\t8000000\tr\t0\t+\n"], "many.bed": rows(NAMES, 900, 90, 40),
        "blocks.bed": [f"{name}\t{90 * n}\t{90 * n + 60}\tt\t0\t+\t0\t0\t0\t2\t9,20,\t0,40,\n" for name in NATURAL
                       for n in range(60)],
        "deep.bed": 1_000_001 * ["chr2\t5\t9\n"], "g.txt": [f"{name}\t20000\n" for name in NAMES],
        "natural.txt": [f"{name}\t20000\n" for name in NATURAL],
        "r.sam": reads(NATURAL, ("30M", "9M2D9M", "9M30N9M")),
        "odd.sam": [*reads(NATURAL, ("30M", "9M30N9M")), "r\t0\tchrX\t9000\t9\t2M3N2N3M\t*\t0\t0\t*\t*\n"],
    }
    for name, lines in files.items():
        (folder / name).write_text("".join(lines), encoding="utf-8")
    for name in ("a.bed", "b.bed", "many.bed"):
        subprocess.run(["gzip", "-k", name], cwd=folder, check=True)
    if shutil.which("samtools"):
        subprocess.run(["samtools", "view", "-b", "-o", "r.bam", "r.sam"], cwd=folder, check=True)


def answer(script, folder, env):
    """What a script answers: its bytes, its status, and whether it said something."""
    for tool in ("CAT", "SLEEP"):
        script = script.replace(tool, shutil.which(tool.lower()))
    output, said, status = call(["bash", "-c", f"set -o pipefail; {script}"], folder, env)
    return output, status, said


def is_lost(wanted, found):
    """Whether the answer isn't that of bedtools, and isn't a fault that is reported."""
    return found[:2] != wanted[:2] and (found[1] == 0 or not found[2])


def fakes(folder):
    """A folder with all helper tools, each of which dies at the call that DIES says. CALLS gets their calls."""
    folder.mkdir()
    for tool in filter(shutil.which, HELPERS):
        text = FAKE.replace("TOOL", tool)
        for word, real in (("REAL", tool), ("HEAD", "head"), ("WC", "wc")):
            text = text.replace(word, shutil.which(real))
        (folder / tool).write_text(text.replace("mkdir", shutil.which("mkdir")), encoding="utf-8")
        (folder / tool).chmod(0o755)
    return folder


def with_death(dies, script, place, top):
    """What a script answers if a tool dies at one of its calls, the calls of all tools, and what is left in TMPDIR."""
    with tempfile.TemporaryDirectory(dir=top) as made:
        calls, temporary = Path(made, "calls"), Path(made, "temporary")
        calls.mkdir()
        temporary.mkdir()
        env = looking(drop_in(place), top / "fakes", DIES=dies, CALLS=str(calls), TMPDIR=str(temporary))
        found = answer(script, top / "data", env)
        return (found, sorted(file.name for file in calls.iterdir() if file.is_dir()),
                [file.name for file in temporary.iterdir()])


def try_deaths(script, place, top):
    """A script with each tool that dies at each of its calls: their number, and what is wrong."""
    wanted = answer(script, top / "data", looking())
    found, calls, left = with_death("nothing", script, place, top)
    wrong = [] if found[:2] == wanted[:2] and not left else [f"without a death: {wanted!r:.200} {found!r:.200} {left}"]
    for dies in calls:
        found, _, left = with_death(dies, script, place, top)
        if is_lost(wanted, found) or left and dies.split()[0] not in ("rm", "mktemp"):
            wrong.append(f"{dies} dies: status {found[1]}, {len(found[0])} bytes for {len(wanted[0])}, "
                         f"{found[2]!r:.200}, left {left}")
    return script, calls, wrong


def runnable():
    """The scripts whose tools are there."""
    return [script for script in SCRIPTS if "sam" not in script and "bam" not in script or shutil.which("samtools")]


def try_dying_tools(place, folder, count):
    """Each helper tool dies at each of its calls."""
    top = folder.parent / "dying tools"
    (top / "data").mkdir(parents=True)
    fill(top / "data")
    fakes(top / "fakes")
    deaths = dict.fromkeys(filter(shutil.which, HELPERS), 0)
    with concurrent.futures.ThreadPoolExecutor(2) as pool:
        for script, calls, wrong in pool.map(lambda script: try_deaths(script, place, top), runnable()):
            count.expect(f"tools that die: {script}", [], wrong)
            for name in calls:
                deaths[name.split()[0]] += 1
    print("calls at which a tool died: " + ", ".join(f"{tool} {number}" for tool, number in deaths.items()))
    count.expect("tools that were never called", [], [tool for tool, number in deaths.items() if not number])


def try_full_folders(place, folder, count):
    """A TMPDIR that gets full, sooner and later."""
    top = folder.parent / "full folders"
    full = top / "full"
    full.mkdir(parents=True)
    (top / "data").mkdir()
    fill(top / "data")
    wanted = {script: answer(script, top / "data", looking()) for script in runnable()}
    # A df that says that there is room.
    (top / "df").write_text("#!/bin/sh\nprintf 'a\\na 1 1 99999999 1 a\\n'\n", encoding="utf-8")
    (top / "df").chmod(0o755)
    for size in (4, 8, 12, 16, 20, 24, 32, 40, 64, 128):
        mount = ["mount", "-t", "tmpfs", "-o", f"size={size}k", "none", full]
        if subprocess.run(mount, stderr=subprocess.DEVNULL, check=False).returncode:
            print("no mount: a TMPDIR that gets full wasn't tried")
            return
        try:
            for script, answered in wanted.items():
                found = answer(script, top / "data", looking(drop_in(place), top, TMPDIR=str(full)))
                count.expect(f"{size} kB of room: {script}", (False, []),
                             (is_lost(answered, found) and (len(found[0]), found[1]),
                              [file.name for file in full.iterdir()]))
        finally:
            subprocess.run(["umount", "-l", full], check=True)


def try_faults(place, folder, count):
    """Both, if there is a bedtools 2.30.0 to compare with."""
    if original():
        try_dying_tools(place, folder, count)
        try_full_folders(place, folder, count)
