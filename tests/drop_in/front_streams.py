#!/usr/bin/env python3
"""Tries what may go wrong with streams and gzip files that the drop-in reads, and with its files in TMPDIR.

    tests/drop_in/front_streams.py

A TMPDIR that is missing, read-only, full or a file; endless, slow and long streams; gzip files that are cut; signals
while a stream or a gzip file is read, while files are looked at, while awk writes, and while bedtools reads a long
stream; other shells; and the folders and processes of others, and a redirection that fails (front_others.py).
Each call has to answer as bedtools 2.30.0 does, or to end with a fault, and no file and no process may be left. Ends
with 1 where something differs, and with 0 and a word where there is no bedtools 2.30.0.
"""

import contextlib
import os
import shutil
import signal
import subprocess
import sys
import tempfile
import time
from pathlib import Path
from typing import NamedTuple

from front_others import try_others
from front_tools import TOLD, Count, call, drop_in, fake, install, is_busy, looking, original

SHELLS = ("dash", "bash --posix", "busybox sh")
# Each stream is longer than a pipe holds.
ROWS = "".join(f"chr1\t{50 * n}\t{50 * n + 20}\tr{n}\t0\t{'+-'[n % 2]}\n" for n in range(8000))
ENDLESS = "awk 'BEGIN { for (;;) printf \"chr1\\t%d\\t%d\\n\", 50 * n, 50 * n++ + 20 }'"
SCRIPTS = [
    "PROGRAM merge -i a.bed", "PROGRAM merge < a.bed", "cat a.bed | PROGRAM merge -i stdin",
    "PROGRAM intersect -u -a <(cat a.bed) -b <(tail -n 999 a.bed)",
    "PROGRAM genomecov -i <(cat a.bed) -g <(cat g.txt)", "PROGRAM complement -i a.bed -g <(cat g.txt)",
    "(head -n 9 a.bed; sleep 0.3; tail -n +10 a.bed) | PROGRAM merge",
    "{ read -r first; PROGRAM merge -i -; } < a.bed", "{ read -r first; PROGRAM merge -i /dev/stdin; } < a.bed",
    "PROGRAM merge -i - < /dev/null", "PROGRAM subtract -a <(cat none) -b a.bed",
    "exec 3< a.bed 4< a.bed 5< a.bed 6< a.bed 7< a.bed 8< a.bed 9< a.bed; cat a.bed | PROGRAM merge",
    "exec 3< a.bed 4< g.txt; PROGRAM complement -i /dev/fd/3 -g /dev/fd/4",
    "exec 3< a.bed 4< a.bed; PROGRAM genomecov -bga -i - -g g.txt < a.bed",
    "gzip -c a.bed > z.gz; PROGRAM subtract -a z.gz -b <(head -n 5 a.bed)", "PROGRAM merge -i - <&-",
    f"{ENDLESS} | PROGRAM intersect -sorted -u -a - -b a.bed | head -n 2",
    f"PROGRAM intersect -sorted -u -a <({ENDLESS}) -b <({ENDLESS}) | head -n 2",
    "head -n 5 a.bed | PROGRAM intersect -sorted -c -a a.bed -b -",
    "PROGRAM intersect -wa -wb -a <(cat wide.bed) -b <(cat a.bed)",
    "cat wide.bed | PROGRAM intersect -wo -a a.bed -b -",
    "gzip -c wide.bed > z.gz; PROGRAM intersect -wb -a z.gz -b wide.bed",
    "PROGRAM intersect -wa -wb -a wide.bed -b a.bed | head -n 3",
    "gzip -c a.bed > z.gz; PROGRAM merge -i z.gz", "gzip -c a.bed > z.gz; PROGRAM intersect -u -a z.gz -b z.gz",
    "gzip -c a.bed > z.gz; PROGRAM genomecov -d -i z.gz -g g.txt | tail -n 2",
    "gzip -c a.bed | head -c 9000 > z.gz; PROGRAM subtract -a z.gz -b wide.bed",
    "(gzip -c wide.bed; gzip -c a.bed) > z.gz; PROGRAM merge -i z.gz",
    "cat a.bed | PROGRAM genomecov -i - -g g.txt", "cat a.bed | PROGRAM genomecov -bg -scale 0.3 -i - -g g.txt",
    "PROGRAM genomecov -dz -i <(head -n 99 a.bed) -g g.txt", "PROGRAM genomecov -bg -split -i - -g g.txt < blocks.bed",
]
# Calls whose looks need files in TMPDIR.
LOOKS = [
    "PROGRAM genomecov -bga -strand + -i a.bed -g g.txt", "PROGRAM genomecov -split -i blocks.bed -g g.txt",
    "PROGRAM genomecov -bg -i back.bed -g g.txt",
]

class Ways(NamedTuple):
    """What a script is run by, where, and what counts it."""

    theirs: str
    place: Path
    folder: Path
    count: Count


def compare(name, script, ways, **more):
    """A script in both ways: the same bytes and the same status."""
    ours = drop_in(ways.place)
    wanted = call(["bash", "-c", script.replace("PROGRAM", ways.theirs)], ways.folder, looking())
    found = call(["bash", "-c", script.replace("PROGRAM", str(ours / "bedtools"))], ways.folder, looking(ours, **more))
    ways.count.expect(f"{name}: {script}", (wanted[0], wanted[2]), (found[0], found[2]))


def try_rooms(theirs, place, folder, count):
    """Streams that are short and long, and the temporary folders that one may have."""
    temporary, ways = folder.parent / "temporary", Ways(theirs, place, folder, count)
    temporary.mkdir()
    for room in ("", "200", "70000", "0", "x"):
        for script in (*SCRIPTS, *LOOKS):
            more = {"DUNEKETTLE_ROOM": room} if room else {}
            compare(f"room {room}", script, ways, TMPDIR=str(temporary), **more)
            count.expect(f"what {script} leaves", [], list(temporary.iterdir()))
    rooms = {"missing": "/nowhere", "a file": str(folder / "a.bed"), "read-only": "/proc",
             "a folder with a space": str(folder.parent / "a b")}
    (folder.parent / "a b").mkdir()
    full = folder.parent / "full"
    full.mkdir()
    mount = ["mount", "-t", "tmpfs", "-o", "size=64k", "none", full]
    if not subprocess.run(mount, stderr=subprocess.DEVNULL, check=False).returncode:
        rooms["full"] = str(full)
    else:
        print("no mount: a full TMPDIR was tried by a df and a head of our own alone")
    for name, where in rooms.items():
        for script in (*LOOKS, *SCRIPTS[:8]):
            compare(f"TMPDIR {name}", script, ways, TMPDIR=where)
    if "full" in rooms:
        subprocess.run(["umount", full], check=True)


def try_losses(place, folder, count):
    """What is kept in memory needs no room in TMPDIR; and a stream that isn't fed any longer: a fault and a status."""
    little = fake(folder.parent / "little room", "df", "printf 'a\\na 1 1 1 1 a\\n'")
    for script in ("cat wide.bed | bedtools intersect -wo -a - -b a.bed", "cat a.bed | bedtools merge"):
        found = call(["bash", "-c", script], folder, looking(drop_in(place), little, DUNEKETTLE_TELL="1"))
        count.expect(f"little room: {script}", ("Dunekettle", 0), (TOLD.findall(found[1])[0][0], found[2]))
    if is_busy("a feeder that is killed"):
        return
    slow = "(head -n 4000 a.bed; sleep 2; tail -n 4000 a.bed)"
    script = f"{slow} | bedtools merge > /dev/null; exit ${{PIPESTATUS[1]}}"
    child = start(script, place, folder, DUNEKETTLE_ROOM="1000")
    time.sleep(1)
    feeders = [pid for pid, comm in started_by(child.pid) if comm == "drop-in"]
    for pid in feeders:
        os.kill(pid, signal.SIGKILL)
    count.expect("a stream that isn't fed any longer", (True, 1), (bool(feeders), child.wait(timeout=20)))


def start(script, place, folder, *first, **more):
    """A script, whose processes `started_by` finds."""
    env = looking(drop_in(place), *first, **more)
    return subprocess.Popen(["bash", "-c", script], cwd=folder, env=env, stdin=subprocess.DEVNULL,
                            stdout=subprocess.DEVNULL, stderr=subprocess.DEVNULL, start_new_session=True)


def started_by(leader):
    """The processes that a script has started, with it, and their names."""
    found = []
    for entry in Path("/proc").iterdir():
        if entry.name.isdigit():
            try:
                name, fields = entry.joinpath("stat").read_text(encoding="utf-8", errors="replace").rsplit(")", 1)
            except OSError:
                continue
            if int(fields.split()[3]) == leader and fields.split()[0] != "Z":
                found.append((int(entry.name), name.split("(", 1)[1]))
    return found


def try_signals(place, folder, count):
    """A signal ends a call at once, and neither a process nor a file is left."""
    if is_busy("signals"):
        return
    slow = fake(folder.parent / "slow tr", "tr", "exec sleep 60")
    unzips = fake(folder.parent / "slow gzip", "gzip", "while sleep 0.05; do printf 'chr1\\t2\\t9\\n'; done")
    awk = fake(folder.parent / "slow awk", "awk",
               f'case "$*" in *histogram*) exec sleep 60 ;; esac; exec {shutil.which("awk")} "$@"')
    scripts = {
        "reads": ("exec bedtools merge -i <(sleep 60)", ()),
        "unzips": ("exec bedtools merge -i z.gz", (unzips,)),
        "looks": ("exec bedtools genomecov -bga -strand + -i a.bed -g g.txt", (slow,)),
        "writes a form": ("exec bedtools genomecov -i a.bed -g g.txt", (awk,)),
        "writes": ("exec bedtools genomecov -split -i blocks.bed -g g.txt", (awk,)),
        "pours": ("exec bedtools merge -i <(tee < a.bed; sleep 60)", ()),
    }
    subprocess.run("gzip -c a.bed > z.gz", cwd=folder, shell=True, check=True)
    temporary = folder.parent / "after signals"
    temporary.mkdir()
    for name, (script, first) in scripts.items():
        for sent in (signal.SIGTERM, signal.SIGHUP, signal.SIGINT, signal.SIGQUIT, signal.SIGKILL):
            more = {"DUNEKETTLE_ROOM": "1000"} if "pours" in name else {}
            child = start(script, place, folder, *first, TMPDIR=str(temporary), **more)
            time.sleep(0.8)
            begun = time.monotonic()
            child.send_signal(sent)
            status = child.wait(timeout=30)
            took = time.monotonic() - begun
            time.sleep(0.2)
            # The producers are the trial's own; a kill leaves what nobody can end.
            left = [comm for _, comm in started_by(child.pid)
                    if comm not in ("bash", "tee", "sleep" if name in ("reads", "pours") else "")]
            count.expect(f"{sent.name} while it {name}", (-sent, True, [], []),
                         (status, took < 3, left if sent != signal.SIGKILL else [], list(temporary.iterdir())))
            for pid, _ in started_by(child.pid):
                with contextlib.suppress(ProcessLookupError):
                    os.kill(pid, signal.SIGKILL)


def try_shells(theirs, place, folder, count):
    """The same in other shells."""
    for shell in SHELLS:
        if not shutil.which(shell.split()[0]):
            print(f"no {shell}: passed over")
            continue
        for room in ("1000000", "500"):
            for script in (*SCRIPTS[:7], *SCRIPTS[-4:]):
                wanted = call(["bash", "-c", script.replace("PROGRAM", theirs)], folder, looking())
                script = script.replace("PROGRAM", f"{shell} {drop_in(place) / 'bedtools'}")
                found = call(["bash", "-c", script], folder, looking(drop_in(place), DUNEKETTLE_ROOM=room))
                count.expect(f"{shell}, room {room}: {script}", (wanted[0], wanted[2]), (found[0], found[2]))


def main():
    theirs = original()
    if not theirs:
        return 0
    count = Count("streams and TMPDIR")
    with tempfile.TemporaryDirectory() as made:
        folder = Path(made, "data")
        folder.mkdir()
        (folder / "a.bed").write_text(ROWS, encoding="utf-8")
        (folder / "wide.bed").write_text("".join(f"chr1\t{9000 * n}\t{9000 * n + 20_000}\tw{n}\n" for n in range(40)),
                                         encoding="utf-8")
        (folder / "g.txt").write_text("chr1\t500000\nchr2\t1000\n", encoding="utf-8")
        (folder / "back.bed").write_text("chr2\t5\t9\tr\t0\t+\n" + ROWS, encoding="utf-8")
        (folder / "blocks.bed").write_text("".join(f"chr1\t{90 * n}\t{90 * n + 60}\tt\t0\t+\t0\t0\t0\t2\t9,20,\t0,40,\n"
                                                   for n in range(3000)), encoding="utf-8")
        place = install(Path(made, "there"))
        try_rooms(theirs, place, folder, count)
        try_losses(place, folder, count)
        try_signals(place, folder, count)
        try_shells(theirs, place, folder, count)
        try_others(place, folder, count)
    return 1 if count.close() else 0


if __name__ == "__main__":
    sys.exit(main())
