"""The drop-in and the front in folders and beside processes of others, where a redirection fails, and where a signal
comes while TMPDIR has a folder of theirs. front_streams.py tries this.

What can't be so with a drop-in that is a script is named in KNOWN, and printed."""

import os
import random
import shutil
import signal
import subprocess
import time
from pathlib import Path

from front_tools import TOP, call, drop_in, install, is_busy, looking

# What isn't tried, and why.
KNOWN = ("a first line of 40 MB is read byte by byte by the shell, for seconds: a script has no other way to look at "
         "one without a process more",
         "an exported SHELLOPTS reaches the bedtools behind the drop-in as the shell has it by then, without errexit")
SHELLS = (["dash"], ["bash", "--posix"])
MERGED = "".join(f"chr1\t{50 * n}\t{50 * n + 20}\n" for n in range(8000)).encode()
# Calls of which one open of /dev/null fails at a time. Standard input is a file that may be written.
OPENED = ("bedtools merge <> a.bed", "bedtools merge -i a.bed", "bedtools intersect -u -a - -b a.bed <> b.bed",
          "cat a.bed | bedtools merge", "cat a.bed | DUNEKETTLE_ROOM=1000 bedtools merge",
          "bedtools genomecov -i <(cat a.bed) -g g.txt",
          "exec 5<> c.bed 6<> c.bed 7<> c.bed 8<> c.bed 9<> c.bed; bedtools merge <> a.bed",
          "bedtools merge -i nowhere.bed", "dunekettle merge -i nowhere.bed", "dunekettle merge -i a.bed",
          "dunekettle check a.bed")


def try_links(place, folder, count):
    """Beside a link others have put parts and a program: those of the installation are read and run."""
    far = folder.parent / "mnt" / "open" / "to"
    hostile = "touch 'HERE/hit'\nexit 0\n".replace("HERE", str(folder))
    for bin_folder in (far / "all" / "bin", far / "all" / "lib" / "dunekettle" / "bin"):
        bin_folder.mkdir(parents=True)
        for name in ("bedtools", "mergeBed"):
            (bin_folder / name).symlink_to(drop_in(place) / name)
        (bin_folder / "dunekettle").symlink_to(place / "bin" / "dunekettle")
    # Wherever the parts and the program may be looked for from there.
    for where in (far / "all", far / "all" / "lib" / "dunekettle", far / "all" / "lib",
                  far / "all" / "lib" / "lib" / "dunekettle"):
        where.mkdir(parents=True, exist_ok=True)
        for part in (TOP / "front").glob("*.*"):
            (where / part.name).write_text(hostile, encoding="utf-8")
    for where in (far / "bin", far.parent / "bin", far / "all" / "bin", far / "all" / "lib" / "bin",
                  far / "all" / "lib" / "dunekettle" / "bin"):
        where.mkdir(parents=True, exist_ok=True)
        (where / "dunekettle-bedtools").write_text(f"#!/bin/sh\n{hostile}", encoding="utf-8")
        (where / "dunekettle-bedtools").chmod(0o755)
    for bin_folder in (far / "all" / "bin", far / "all" / "lib" / "dunekettle" / "bin"):
        for line in ("bedtools merge -i a.bed", "mergeBed -i a.bed", "dunekettle merge -i a.bed"):
            program, *words = line.split()
            for asked in (str(bin_folder / program), program):
                found = call([asked, *words], folder, looking(bin_folder))
                count.expect(f"{asked} by a link in a folder of others", ((MERGED, "", 0), False),
                             (found, (folder / "hit").exists()))
        found = call([bin_folder / "dunekettle", "merge", "-i", "nowhere.bed"], folder, looking())
        count.expect("a hint by a link in a folder of others", (1, True, False),
                     (found[2], "isn't there" in found[1], (folder / "hit").exists()))


def open_folder(place, scratch, mode, hostile):
    """A folder that is open to others, with copies of the front below it, and parts and a program of others."""
    # The last of these is in the open folder itself.
    for where in (scratch / "bin", scratch / "both", scratch / "open"):
        where.mkdir(parents=True)
        for name in ("bedtools", "mergeBed", "dunekettle"):
            shutil.copy(place / "bin" / "dunekettle", where / name)
    for where in (scratch, scratch / "open"):
        (where / "lib" / "dunekettle").mkdir(parents=True)
        for part in (TOP / "front").glob("*.*"):
            (where / "lib" / "dunekettle" / part.name).write_text(hostile, encoding="utf-8")
        where.chmod(mode)
    shutil.copy(place / "bin" / "dunekettle-bedtools", scratch / "both")
    (scratch / "open" / "dunekettle-bedtools").write_text(hostile, encoding="utf-8")
    (scratch / "open" / "dunekettle-bedtools").chmod(0o755)
    return install(scratch / "own")


def try_copy(place, bin_folder, folder, count):
    """The calls of a copy: those of others aren't read."""
    for line in ("bedtools merge -i a.bed", "mergeBed -i a.bed", "dunekettle merge -i a.bed",
                 "bedtools merge -i nowhere.bed", "dunekettle merge -i nowhere.bed", "dunekettle check a.bed"):
        program, *words = line.split()
        if not (bin_folder / program).exists():
            continue
        output, said, status = call([bin_folder / program, *words], folder, looking(place / "bin"))
        wanted = (True, True, 1) if "nowhere.bed" in words else (True, False, 0)
        is_right = (output == MERGED if "a.bed" in words and "merge" in line
                    else output.startswith(b"a.bed: BED") if "check" in words else not output)
        count.expect(f"{line} by a copy in {bin_folder.parent.name}/{bin_folder.name}: {said[:200]}",
                     (wanted, False), ((is_right, said != "", status), (folder / "hit").exists()))
        (folder / "hit").unlink(missing_ok=True)


def try_copies(place, folder, count):
    """Copies of the front below a folder that is open to all, where others have put parts and a program."""
    hostile = f"#!/bin/sh\ntouch '{folder}/hit'\nexit 0\n"
    for mode in (0o1777, 0o777):
        scratch = folder.parent / f"scratch {mode:o}"
        own = open_folder(place, scratch, mode, hostile)
        # In the other one they may replace bin/ itself, and need no parts.
        is_sticky = mode & 0o1000
        for bin_folder in (scratch / "bin", own / "bin", drop_in(own),
                           *((scratch / "both", scratch / "open") if is_sticky else ())):
            try_copy(place, bin_folder, folder, count)
    both = folder.parent / f"scratch {0o1777:o}" / "both"
    fault = f"dunekettle: others may put files beside {both}/dunekettle-bedtools: put a link in its place\n"
    output, said, status = call(["dunekettle", "merge", "-i", "a.bed"], folder, looking(both))
    count.expect("a copy of both on PATH", (b"", fault, 127, False), (output, said, status, (folder / "hit").exists()))


def try_tell(place, folder, count):
    """DUNEKETTLE_TELL on a named pipe, without a reader and with one."""
    os.mkfifo(folder / "told")
    env = looking(drop_in(place), DUNEKETTLE_TELL=str(folder / "told"))
    count.expect("TELL on a named pipe without a reader", (MERGED, "", 0),
                 call([shutil.which("timeout"), "20", "bedtools", "merge", "-i", "a.bed"], folder, env))
    script = '(read -r line < told; echo "$line" >&2) & sleep 0.3; bedtools merge -i a.bed > /dev/null; wait'
    output, _, status = call(["bash", "-c", script], folder, env)
    count.expect("TELL on a named pipe with a reader", (b"", 0), (output, status))
    (folder / "told").unlink()


def try_options_of_shells(place, folder, count):
    """Options of a shell that the caller exports change no answer."""
    for option in ("errexit", "nounset", "noglob", "noclobber", "pipefail",
                   "errexit:nounset:noclobber:noglob:pipefail"):
        for script in ("merge -i a.bed", "merge < a.bed", "merge -i <(cat a.bed)", "intersect -u -a a.bed -b a.bed",
                       "intersect -wa -wb -a few.bed -b few.bed", "genomecov -bg -i a.bed -g g.txt",
                       "merge -i nowhere.bed", "merge -x", "merge -i unsorted.bed"):
            for program in (drop_in(place) / "bedtools", place / "bin" / "dunekettle"):
                line = f"bash --posix {program} {script}"
                wanted, found = (call(["bash", "-c", each], folder, looking())
                                 for each in (line, f"env SHELLOPTS={option} {line}"))
                count.expect(f"SHELLOPTS={option} {program.name} {script}", wanted, found)


def try_failed_opens(place, folder, count):
    """An open of /dev/null that fails, at each of a call: the right answer or a fault, and no file is changed."""
    if not shutil.which("cc"):
        print("no cc: opens that fail were passed over")
        return
    library, counted = folder.parent / "no_file.so", folder.parent / "opens"
    subprocess.run(["cc", "-shared", "-fPIC", "-o", library, Path(__file__).with_name("no_file.c"), "-ldl"], check=True)
    texts = {name: (folder / name).read_bytes() for name in ("a.bed", "b.bed", "c.bed")}
    tried = 0
    for words in SHELLS:
        for script in OPENED:
            line, number, opens, wanted = script, 0, 1, None
            for name, path in (("bedtools", drop_in(place) / "bedtools"), ("dunekettle", place / "bin" / "dunekettle")):
                line = line.replace(f"{name} ", f"{' '.join(words)} {path} ")
            while number <= opens:
                counted.write_bytes(bytes(4))
                env = looking(drop_in(place), LD_PRELOAD=str(library), NO_FILE_AT=str(number),
                              NO_FILE_COUNT=str(counted))
                output, _, status = call([shutil.which("timeout"), "60", "bash", "-c", line], folder, env)
                if number == 0:
                    wanted, opens = (output, status), int.from_bytes(counted.read_bytes(), "little")
                is_right = (output, status) == wanted or status not in (0, 124)
                count.expect(f"{words[0]}: {script}, where open {number} of {opens} fails", (True, []),
                             (is_right or (output[:99], status),
                              [name for name, text in texts.items() if (folder / name).read_bytes() != text]))
                for name, text in texts.items():
                    (folder / name).write_bytes(text)
                number += 1
            tried += number
    print(f"{tried} calls in which an open of /dev/null failed")


def try_left_folders(place, folder, count):
    """Signals at any time of a call leave no folder in TMPDIR."""
    if is_busy("signals at any time"):
        return
    dice, temporary = random.Random(81), folder.parent / "any time"
    temporary.mkdir()
    for script in ("genomecov -bga -strand + -i a.bed -g g.txt", "genomecov -d -i a.bed -g g.txt"):
        for sent in (signal.SIGTERM, signal.SIGINT, signal.SIGHUP, signal.SIGPIPE):
            for _ in range(60):
                with subprocess.Popen([drop_in(place) / "bedtools", *script.split()], cwd=folder,
                                      env=looking(drop_in(place), TMPDIR=str(temporary)),
                                      stdin=(folder / "a.bed").open(), stdout=subprocess.DEVNULL,
                                      stderr=subprocess.DEVNULL) as child:
                    time.sleep(dice.random() * 0.08)
                    child.send_signal(sent)
                    child.wait(timeout=30)
            left = [path.name for path in temporary.iterdir()]
            count.expect(f"what 60 calls of {script} leave after {sent.name} at any time", [], left)
            for path in temporary.iterdir():
                shutil.rmtree(path)


def try_others(place, folder, count):
    """All of these, in a folder with a.bed and g.txt."""
    for name in ("b.bed", "c.bed"):
        shutil.copy(folder / "a.bed", folder / name)
    lines = (folder / "a.bed").read_text(encoding="utf-8").splitlines(keepends=True)
    (folder / "few.bed").write_text("".join(lines[:9]), encoding="utf-8")
    (folder / "unsorted.bed").write_text("chr1\t9\t12\nchr1\t2\t6\n", encoding="utf-8")
    for trial in (try_links, try_copies, try_tell, try_options_of_shells, try_failed_opens, try_left_folders):
        trial(place, folder, count)
    print("known:", *KNOWN, sep="\n  ")
