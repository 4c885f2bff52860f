"""Standard streams of the front and the drop-in: closed ones, pipes, signals, and readers that are gone.
front_hostile.py tries this."""

import os
import shutil
import signal
import socket
import subprocess
import time
from pathlib import Path

from front_hints import FILES, MERGED, WHOSE
from front_tools import call, drop_in, is_busy, looking, shell, with_path

# Calls whose standard input Dunekettle takes, also an empty one; and those that bedtools takes.
OURS = (
    "intersect -sorted -a - -b f.bed -u -g g.txt", "complement -i - -g g.txt",
    "intersect -g g.txt -sorted -u -a f.bed -b /dev/stdin", "merge -i -", "merge", "complement -i stdin -g g.txt",
    "intersect -a - -b f.bed -u", "intersect -sorted -a - -b f.bed -u", "genomecov -bg -i - -g g.txt",
    "subtract -a f.bed -b /dev/fd/0", "merge -i link.bed", "merge -i /dev/./stdin",
    "intersect -sorted -g g.txt -s -u -a - -b f.bed", "intersect -f 0.5 -u -a - -b f.bed",
    "genomecov -bga -i - -g g.txt", "merge -S + -i -", "genomecov -i - -g g.txt", "genomecov -d -i - -g g.txt",
    "genomecov -bg -scale 2 -i - -g g.txt",
)
THEIRS = (
    "intersect -sorted -a - -b /dev/stdin", "bamtobed", "bamtobed -i -", "maskfasta -fi s.fa -bed -",
    "maskfasta -fi - -bed f.bed", "complement -g g.txt", "genomecov -bg -g g.txt", "merge -i f.bed.gz -",
    "intersect -sorted -u -a - -b unsorted.bed", "genomecov -split -i - -g g.txt", "complement -i f.bed -g -",
)
# Calls whose output is longer than a pipe holds.
LONG = (
    "merge -i long.bed", "intersect -u -a long.bed -b long.bed", "complement -i long.bed -g far.txt",
    "maskfasta -fi long.fa -bed f.bed -fo /dev/stdout", "genomecov -bg -i long.bed -g far.txt",
    "genomecov -bga -scale 0.5 -i long.bed -g far.txt", "genomecov -d -i long.bed -g far.txt",
    "intersect -wa -wb -a long.bed -b long.bed", "intersect -wa -wb -a wide.bed -b long.bed",
    "merge -i <(cat long.bed)",
)


def with_original(place, folder):
    """The environment with an original behind the drop-in that says what it was given, and ends with 7."""
    return with_path(drop_in(place), folder.parent / "says", folder.parent / "tools")


def try_standard_input(place, folder, count):
    """Standard input is left as it is."""
    for name in ("bedtools", str(place / "bin" / "dunekettle")):
        for line in ("merge -i f.bed", "merge -x", "merge -i none.bed"):
            output = shell(f"{name} {line} > /dev/null 2>&1; cat", folder, with_original(place, folder),
                           input=b"left as it is")[0]
            count.expect(f"standard input after {name} {line}", b"left as it is", output)


def try_closed_streams(place, folder, count):
    """Closed streams are as for the program alone."""
    front, program = place / "bin" / "dunekettle", place / "bin" / "dunekettle-bedtools"
    env, alone, given = looking(drop_in(place)), with_original(place, folder), FILES["f.bed"]
    for line in ("merge -i f.bed", "merge -i unsorted.bed", "merge", "merge -x", "complement -g g.txt"):
        for streams in ("<&-", ">&-", "2>&-", "<&- >&-", ">&- 2>&-", "<&- >&- 2>&-", "> /dev/full"):
            wanted = shell(f"{program} {line} {streams}", folder, looking(), input=given)
            found = shell(f"{front} {line} {streams}", folder, looking(), input=given)
            hints = "".join(said + "\n" for said in found[1].splitlines() if not said.startswith("dunekettle: "))
            count.expect(f"dunekettle {line} {streams}", wanted, (found[0], hints, found[2]))
            always = shell(f"bedtools {line} {streams}", folder, {**env, "DUNEKETTLE_ALWAYS": "1"}, input=given)
            count.expect(f"bedtools {line} {streams}, always", wanted, always)
            if line == "merge -i f.bed":
                judged = shell(f"bedtools {line} {streams}", folder, alone, input=given)
                told = wanted[1] and wanted[1] + WHOSE
                count.expect(f"bedtools {line} {streams}", (wanted[0], told, wanted[2]), judged)


def try_sources(place, folder, count):
    """One stream is read and looked at, and bedtools takes two, or a genome file that is one."""
    alone = with_original(place, folder)
    (folder / "link.bed").symlink_to("/dev/stdin")
    for line in (*OURS, *THEIRS):
        for source in ("", "< f.bed", "cat f.bed |"):
            script = f"bedtools {line} {source}" if "|" not in source else f"{source} bedtools {line}"
            count.expect(f"a stream: {script}", 7 if line in THEIRS else 0, shell(script, folder, alone)[2])
    (folder / "link.bed").unlink()
    for line, status in (("merge -i <(cat f.bed)", 0), ("complement -i <(cat f.bed) -g g.txt", 0),
                         ("intersect -sorted -g g.txt -u -a f.bed -b <(cat f.bed)", 0),
                         ("genomecov -i <(cat f.bed) -g g.txt", 0), ("complement -i f.bed -g <(cat g.txt)", 7),
                         ("intersect -u -a <(cat f.bed) -b <(cat f.bed)", 7),
                         ("genomecov -i <(cat f.bed) -g <(cat g.txt)", 7)):
        count.expect(f"a pipe of a shell: {line}", status, call(["bash", "-c", f"bedtools {line}"], folder, alone)[2])


def try_named_pipes(place, folder, count):
    """One named pipe is taken; of two none is opened."""
    alone = with_original(place, folder)
    for name in ("pipe", "other"):
        os.mkfifo(folder / name)
    count.expect("a named pipe", 0, shell("cat f.bed > pipe & bedtools complement -i pipe -g g.txt", folder, alone)[2])
    words = ["bedtools", "intersect", "-u", "-a", "pipe", "-b", "other"]
    count.expect("two named pipes", 7, call(words, folder, alone)[2])
    for name in ("pipe", "other"):
        (folder / name).unlink()


def try_unreadable(place, folder, count):
    """A stream that can't be read."""
    alone = with_original(place, folder)
    count.expect("a stream of which nothing can be read", (b"merge\0", "", 7),
                 shell("bedtools merge < .", folder, alone))


def try_signals(place, folder, count):
    """A signal ends a call as it ends the program, and nothing of it goes on."""
    if is_busy("signals"):
        return
    ways = (("program", [place / "bin" / "dunekettle-bedtools"], looking()),
            ("dunekettle", [place / "bin" / "dunekettle"], looking()),
            ("no hints", [place / "bin" / "dunekettle"], looking(DUNEKETTLE_HINTS="0")),
            ("bedtools", [drop_in(place) / "bedtools"], looking(drop_in(place), DUNEKETTLE_ALWAYS="1")))
    for name, words, env in ways:
        for sent in (signal.SIGTERM, signal.SIGHUP, signal.SIGINT, signal.SIGQUIT):
            child = subprocess.Popen([*words, "merge"], cwd=folder, env=env, stdin=subprocess.PIPE,
                                     stdout=subprocess.PIPE, stderr=subprocess.DEVNULL)
            child.stdin.write(b"chr1\t2\t6\n")
            child.stdin.flush()
            time.sleep(0.4)
            child.send_signal(sent)
            status = child.wait(timeout=20)
            # Standard output has ended only once no process has it any longer.
            begun = time.monotonic()
            rest = child.stdout.read()
            count.expect(f"{name} after {sent.name}", (-sent, b"", True), (status, rest, time.monotonic() - begun < 5))
            child.stdin.close()
        # A file that grows too large ends it by SIGXFSZ, whose status a shell gives as 153.
        (folder / "many.bed").write_bytes(9999 * b"chr1\t2\t6\n")
        line = f"{words[0]} intersect -sorted -u -a many.bed -b f.bed > out.bed"
        limited = shell(f"ulimit -c 0; (ulimit -f 1; exec {line}); echo $?", folder, env)[0]
        count.expect(f"{name} after a file that is too large", b"153\n", limited)


def try_checks(place, folder, count):
    """A signal ends the drop-in in its check, whenever it comes, and each process of it."""
    if is_busy("signals in the check"):
        return
    with (folder / "checked.bed").open("w", encoding="utf-8") as file:
        file.writelines(f"chr1\t{9 * n}\t{9 * n + 5}\ta name\t0\t{'+-'[n % 2]}\n" for n in range(800_000))
    mark = f"SLOW_CHECK={folder}"
    env = looking(drop_in(place), SLOW_CHECK=str(folder))
    lines = ("intersect -s -u -a checked.bed -b checked.bed", "genomecov -bg -scale 2 -i checked.bed -g far.txt",
             "merge -i <(cat checked.bed)")
    (folder / "far.txt").write_bytes(b"chr1\t9000000\n")
    for words in (["dash"], ["bash", "--posix"], ["busybox", "sh"]):
        if not shutil.which(words[0]):
            continue
        for number, line in enumerate(lines * 4):
            sent = (signal.SIGTERM, signal.SIGHUP, signal.SIGINT)[number // 3 % 3]
            script = f"exec {' '.join(words)} {drop_in(place) / 'bedtools'} {line}"
            # Nobody reads what it writes, so that it doesn't end by itself.
            child = subprocess.Popen(["bash", "-c", script], cwd=folder, env=env, stdout=subprocess.PIPE,
                                     stderr=subprocess.DEVNULL)
            time.sleep(0.02 + 0.06 * number)
            child.send_signal(sent)
            status, begun = child.wait(timeout=20), time.monotonic()
            while (left := with_variable(mark)) and time.monotonic() - begun < 1:
                time.sleep(0.02)
            count.expect(f"{words}: {sent.name} in the check of {line}", (-sent, []), (status, left))


def with_variable(line):
    """The processes that have a variable in their environment."""
    found = []
    for process in Path("/proc").glob("[0-9]*"):
        try:
            if line.encode() in (process / "environ").read_bytes().split(b"\0"):
                found.append(process.name)
        except OSError:
            pass
    return found


def write_long_files(folder):
    """The files of the calls in LONG."""
    for name, text in {
        "long.bed": "".join(f"chr1\t{9 * n}\t{9 * n + 5}\n" for n in range(99_999)),
        "wide.bed": "".join(f"chr1\t{9000 * n}\t{9000 * n + 20_000}\n" for n in range(99)),
        "long.fa": ">chr1\n" + 99_999 * "ACGTACGT\n",
        "far.txt": "chr1\t9000000\n",
    }.items():
        (folder / name).write_text(text, encoding="utf-8")


def try_gone_readers(place, folder, count):
    """A reader that goes away ends a call of the drop-in by SIGPIPE, silently, as it ends bedtools."""
    write_long_files(folder)
    env = looking(drop_in(place))
    for name, *more in (["sh"], ["dash"], ["bash", "--posix"], ["busybox", "sh"], ["mksh"], ["yash"]):
        if not shutil.which(name):
            continue
        program = " ".join([shutil.which(name), *more, str(drop_in(place) / "bedtools")])
        for line in LONG:
            for further in ({}, {"DUNEKETTLE_ALWAYS": "1"})[: 1 if " -scale " in line or " -d " in line else 2]:
                script = f"{program} {line} | head -n 1 > /dev/null; exit ${{PIPESTATUS[0]}}"
                found = call(["bash", "-c", script], folder, {**env, **further})
                count.expect(f"a reader that is gone: {program} {line}", (b"", "", 141), found)
    # A signal that is ignored ends nothing: the call says what it couldn't do.
    script = f"trap '' PIPE; bedtools {LONG[0]} | head -n 1 > /dev/null; exit ${{PIPESTATUS[0]}}"
    found = call(["bash", "-c", script], folder, {**env, "DUNEKETTLE_ALWAYS": "1"})
    count.expect("a reader that is gone, SIGPIPE ignored", (b"", "bedtools merge: writing failed\n", 1), found)
    try_failed_writes(place, folder, count)
    # A socket is as a pipe. What isn't read before the reader goes away has no status of its own.
    ours, theirs = socket.socketpair()
    child = subprocess.Popen(["bedtools", *LONG[0].split()], cwd=folder, env=env, stdout=theirs,
                             stderr=subprocess.PIPE)
    theirs.close()
    ours.recv(99)
    ours.close()
    count.expect("a socket that is gone", (b"", -signal.SIGPIPE), (child.stderr.read(), child.wait()))
    # Where the output goes elsewhere, nothing is written to the pipe.
    found = shell("bedtools maskfasta -fi long.fa -bed f.bed -fo /dev/full | cat", folder,
                  {**env, "DUNEKETTLE_ALWAYS": "1"})
    count.expect("a full -fo beside a pipe", (b"", "bedtools maskfasta: writing failed\n"), found[:2])
    found = shell("bedtools merge -i long.bed | cat > /dev/null; bedtools merge -i f.bed | cat", folder, env)
    count.expect("a reader that stays", (MERGED, "", 0), found)


def try_failed_writes(place, folder, count):
    """What awk can't write of a form of genomecov is a fault as that of the program is."""
    for name in filter(shutil.which, ("mawk", "gawk")):
        made = folder.parent / f"{name} alone"
        made.mkdir()
        (made / "awk").symlink_to(shutil.which(name))
        env = with_path(drop_in(place), made, folder.parent / "says", folder.parent / "tools")
        for line in ("genomecov -d -i long.bed -g far.txt", "genomecov -bg -scale 0.5 -i long.bed -g far.txt",
                     "genomecov -i long.bed -g far.txt"):
            command, line = line.split()[0], f"bedtools {line}"
            for script in (f"{line} > /dev/full", f"{line} >&-",
                           f"trap '' PIPE; {line} | true; exit ${{PIPESTATUS[0]}}"):
                found = call(["bash", "-c", script], folder, env)
                count.expect(f"{name}: {script}", (b"", f"bedtools {command}: writing failed\n{WHOSE}", 1), found)


def try_streams(place, folder, count):
    """All of these, after those of front_originals.py."""
    for trial in (try_standard_input, try_closed_streams, try_sources, try_named_pipes, try_unreadable, try_signals,
                  try_checks, try_gone_readers):
        trial(place, folder, count)
