#!/usr/bin/env python3
"""Tries the script `bedtools` of the drop-in with a program that plays each line of what the real one may say.

    tests/drop_in/front_stub.py

Each shell whose here-documents are pipes has to do what the line says: words, bytes, statuses, descriptors, closed
streams, signals, and what a reader or a feeder that is gone becomes. In the other shells the script drop-in takes the
call. Needs no bedtools and no prover.
"""

import gzip
import itertools
import os
import shutil
import signal
import subprocess
import sys
import tempfile
import time
import unittest
from pathlib import Path

from front_tools import TOP, call, is_busy

STUB = TOP / "front" / "bedtools"
# Shells that start the program, and shells that leave the call to the script drop-in.
PIPES = (["dash"], ["bash", "--posix"], ["bash"], ["busybox", "sh"])
FILES = (["mksh"], ["ksh"], ["yash"], ["zsh", "--emulate", "sh"])
SIGNALS = (signal.SIGHUP, signal.SIGINT, signal.SIGQUIT, signal.SIGTERM)
# What follows a message of the program.
WHOSE = "dunekettle: the message is from Dunekettle, which ran this call instead of bedtools\n"
SILENT = "the program of the drop-in gave no answer"
WORDS = ["merge", "-i", "a b", "", "line\nfeed", "*", "\\", "'\"$(x)", "-"]
BYTES = b"".join(b"chr1\t%d\t%d\n" % (n, n + 9) for n in range(30_000))
# The program: PLAY is a script of sh, in which `tell` writes a line and `feed` what comes from standard input.
PROGRAM = """#!/bin/sh
number=${1%%,*} unzipped=${1#"${1%%,*}"}
shift
tell() { eval "printf '%s\\n' \\"\\$1\\" >&$number"; }
feed() { eval "cat >&$number"; }
eval "$PLAY"
"""
# The other bedtools, and the script drop-in: what they were given.
SHOWS = """#!/bin/sh
[ -z "${SAYS-}" ] || eval "$SAYS"
printf 'NAME\\n'
printf '%s\\0' "$@"
printf '\\n%s\\n' "${DUNEKETTLE_TRIED-}${DUNEKETTLE_WHY-}"
cat
exit 7
"""
# Calls of genomecov that awk makes, by the arguments, and the arguments of the program.
FORMS = (
    ("-i a.bed -g g.txt", "-i a.bed -g g.txt -bga"), ("-d -i a.bed -g g.txt", "-bga -i a.bed -g g.txt"),
    ("-i a.bed -dz -g g.txt", "-i a.bed -bga -g g.txt"), ("-max 2 -i a.bed -g g.txt", "-i a.bed -g g.txt -bga"),
    ("-bg -scale 0.5 -i a.bed -g g.txt", "-bga -i a.bed -g g.txt"),
    ("-i a.bed -scale 2 -bga -g g.txt", "-i a.bed -bga -g g.txt"),
    ("-strand + -i a.bed -g g.txt", "-strand + -i a.bed -g g.txt -bga"),
)
# Calls that the program gets as they come.
NO_FORMS = ("-bg -i a.bed -g g.txt", "-bga -i a.bed -g g.txt", "-bg -max 2 -i a.bed -g g.txt", "-ibam a.bam",
            "-split -i a.bed -g g.txt", "-scale 2 -i a.bed -g g.txt", "-d -scale 2 -i a.bed -g g.txt",
            "-max x -i a.bed -g g.txt", "-max 0 -i a.bed -g g.txt", "-scale 1e3 -bg -i a.bed -g g.txt",
            "-d -dz -i a.bed -g g.txt", "-d -d -i a.bed -g g.txt", "-i a.bed -g g.txt -max", "-i a.bed -g g.txt -max ")
# What the program writes with -bga, and what awk makes of it.
COVERED = b"chr1\t0\t2\t0\nchr1\t2\t4\t1\nchr1\t4\t5\t3\n"
MADE = {
    "-i a.bed -g g.txt": b"chr1\t0\t2\t5\t0.4\nchr1\t1\t2\t5\t0.4\nchr1\t3\t1\t5\t0.2\n"
                         b"genome\t0\t2\t5\t0.4\ngenome\t1\t2\t5\t0.4\ngenome\t3\t1\t5\t0.2\n",
    "-max 2 -i a.bed -g g.txt": b"chr1\t0\t2\t5\t0.4\nchr1\t1\t2\t5\t0.4\nchr1\t2\t1\t5\t0.2\n"
                                b"genome\t0\t2\t5\t0.4\ngenome\t1\t2\t5\t0.4\ngenome\t2\t1\t5\t0.2\n",
    "-d -i a.bed -g g.txt": b"chr1\t1\t0\nchr1\t2\t0\nchr1\t3\t1\nchr1\t4\t1\nchr1\t5\t3\n",
    "-dz -i a.bed -g g.txt": b"chr1\t2\t1\nchr1\t3\t1\nchr1\t4\t3\n",
    "-bg -scale 0.5 -i a.bed -g g.txt": b"chr1\t2\t4\t0.5\nchr1\t4\t5\t1.5\n",
    "-bga -scale 0.5 -i a.bed -g g.txt": b"chr1\t0\t2\t0\nchr1\t2\t4\t0.5\nchr1\t4\t5\t1.5\n",
}


def known(shells):
    """Those that are installed, with their paths."""
    return [[shutil.which(first), *more] for first, *more in shells if shutil.which(first)]


def environment(**more):
    """The variables of a call."""
    plain = {name: value for name, value in os.environ.items() if not name.startswith("DUNEKETTLE_")}
    return {**plain, **more}


def is_running(process):
    """Whether a process is there, and not its status alone."""
    try:
        fields = Path(f"/proc/{process}/stat").read_text(encoding="utf-8", errors="replace").rsplit(")", 1)[1]
        return fields.split()[0] not in "ZX"
    except OSError:
        return False


def with_mark(mark):
    """The processes that have a variable MARK of this value."""
    found = []
    for process in Path("/proc").glob("[0-9]*"):
        try:
            if f"MARK={mark}".encode() in (process / "environ").read_bytes().split(b"\0") and is_running(process.name):
                found.append(process.name)
        except OSError:
            pass
    return found


def ended_by(shell, sent, what):
    """The status after a signal. A bash and the sh of busybox can't end by SIGQUIT."""
    return 128 + sent if "dash" not in shell[0] and sent == signal.SIGQUIT and not what.startswith("is") else -sent


class Stub(unittest.TestCase):
    """A folder with the stub, the program that plays, a script drop-in, and another bedtools."""

    def setUp(self):
        made = tempfile.TemporaryDirectory()
        self.addCleanup(made.cleanup)
        self.top = Path(made.name)
        self.home = self.top / "lib" / "dunekettle"
        self.stub, self.program = self.home / "bin" / "bedtools", self.home / "drop-in"
        self.other = self.top / "an other" / "bedtools"
        for file, text in ((self.stub, STUB.read_text(encoding="utf-8")), (self.program, PROGRAM),
                           (self.home / "script" / "bedtools", SHOWS.replace("NAME", "script")),
                           (self.other, SHOWS.replace("NAME", "other"))):
            file.parent.mkdir(parents=True, exist_ok=True)
            file.write_text(text, encoding="utf-8")
            file.chmod(0o755)
        for part in (*STUB.parent.glob("*.awk"), STUB.parent / "forms.sh", STUB.parent / "gzip.sh"):
            shutil.copy(part, self.home)
        (self.stub.parent / "mergeBed").symlink_to("bedtools")

    def run_stub(self, shell, play, words=("merge",), given=b"", **more):
        """What a call gives: bytes, what it said, status."""
        more = {"OTHER": str(self.other), "PLAY": play, **more}
        return call([*shell, self.stub, *words], self.top, environment(**more), input=given)

    def shown(self, name, words, tried, given=b""):
        """What the other bedtools or the script drop-in shows."""
        return f"{name}\n".encode() + "".join(f"{word}\0" for word in words).encode() + f"\n{tried}\n".encode() + given

    def test_the_program_takes_it(self):
        for shell in known(PIPES):
            for status in (0, 1, 2, 120, 127, 128):
                found = self.run_stub(shell, f"tell d; cat; echo fault >&2; exit {status}", given=BYTES)
                self.assertEqual(found, (BYTES, "fault\n" + (WHOSE if status == 1 else ""), status), shell)
            for play in ("tell d", "tell r; tell d"):
                found = self.run_stub(shell, play + r"; printf '%s\0' "+'"$@"', WORDS)
                self.assertEqual(found[0], "".join(f"{word}\0" for word in WORDS).encode(), shell)

    def test_a_signal_of_the_program(self):
        for shell in known(PIPES):
            for sent in (signal.SIGKILL, signal.SIGSEGV, signal.SIGXFSZ, signal.SIGABRT):
                self.assertEqual(self.run_stub(shell, f"tell d; kill -s {sent.name[3:]} $$")[2], -sent, shell)

    def test_another_bedtools_takes_it(self):
        for shell in known(PIPES):
            for words in (WORDS, ["sort"], ["merge", "-i", "-"]):
                found = self.run_stub(shell, 'tell "o $OTHER"', words, b"bytes")
                self.assertEqual(found, (self.shown("other", words, f":{self.other}", b"bytes"), "", 7), shell)
            found = self.run_stub(shell, 'tell "o $OTHER"', ["sort"], DUNEKETTLE_TRIED=":/x/bedtools")
            self.assertEqual(found[0], self.shown("other", ["sort"], f":/x/bedtools:{self.other}"), shell)

    def test_a_stream_replaces_a_word(self):
        for shell in known(PIPES):
            for number, word in ((0, "name"), (3, "name"), (3, "/dev/fd/63"), (3, "-"), (3, "stdin"), (3, "/dev/stdin"),
                                 (3, "/dev/fd/0")):
                words = ["merge", "-i", word, "-g", "a b", ""]
                wanted = [*words]
                if number and word not in ("stdin", "/dev/stdin", "/dev/fd/0"):
                    wanted[2] = "-"
                for first in ("", "tell r; "):
                    found = self.run_stub(shell, f'{first}tell "s {number} $OTHER"; feed', words, BYTES)
                    self.assertEqual(found, (self.shown("other", wanted, f":{self.other}", BYTES), "", 7), shell)

    def test_a_feeder_that_is_lost(self):
        for shell in known(PIPES):
            for end in ("exit 1", "exit 2", "kill -s KILL $$", "kill -s TERM $$"):
                found = self.run_stub(shell, f'tell r; tell "s 0 $OTHER"; feed; {end}', given=BYTES)
                self.assertEqual((found[0].endswith(BYTES), "dunekettle: a stream was lost\n" in found[1], found[2]),
                                 (True, True, 1), (shell, end))

    def test_a_bedtools_that_ends_early(self):
        # The feeder waits for ever, or has nobody who reads.
        for shell in known(PIPES):
            for play in ("feed; exec sleep 60", "exec sleep 60", "exec cat /dev/zero >&$number"):
                begun = time.monotonic()
                found = self.run_stub(shell, f'tell r; tell "s 0 $OTHER"; {play}', given=b"ab", SAYS="exit 5",
                                      MARK=str(self.top))
                self.assertEqual((found, with_mark(self.top)), ((b"", "", 5), []), (shell, play))
                self.assertLess(time.monotonic() - begun, 30)

    def test_whom_it_ends(self):
        # The number of a feeder that has ended may be that of another process by then.
        for shell in known(PIPES):
            for play, wanted in (("feed", 0), ("exec sleep 60", 1)):
                log = self.top / "kills"
                log.write_text("", encoding="utf-8")
                script = "kill() { echo \"$*\" >> \"$LOG\"; command kill \"$@\"; }; . \"$0\""
                says = "exit 5" if wanted else "sleep 0.3"
                call([*shell, "-c", script, self.stub, "merge"], self.top,
                     environment(OTHER=str(self.other), PLAY=f'tell "s 0 $OTHER"; {play}', SAYS=says, LOG=str(log)))
                self.assertEqual(log.read_text(encoding="utf-8").count("USR1"), wanted, shell)

    def test_no_verdict(self):
        for shell in known(PIPES):
            for play in ("tell 't a word'", "tell t", "printf 'o %s' \"$OTHER\" >&$number", "exit 0", "exit 1",
                         "kill -s KILL $$", "tell x", "tell 'd '", "tell ''"):
                why = {"tell 't a word'": "a word", "tell t": ""}.get(play, SILENT)
                found = self.run_stub(shell, play, WORDS, b"bytes")
                self.assertEqual((found[0], found[2]), (self.shown("script", WORDS, why, b"bytes"), 7), (shell, play))
            # Bytes that it took away nobody else gets.
            for play in ("tell r", "tell r; exit 1", "tell r; kill -s KILL $$", "tell r; printf d >&$number"):
                found = self.run_stub(shell, play, WORDS, b"bytes")
                self.assertEqual((found[0], "dunekettle: a stream was lost\n" in found[1], found[2]), (b"", True, 1),
                                 (shell, play))

    def test_no_program(self):
        for how in ("missing", "empty", "a folder", "not executable"):
            self.program.unlink()
            if how == "a folder":
                self.program.mkdir()
            elif how != "missing":
                self.program.write_text("" if how == "empty" else PROGRAM, encoding="utf-8")
                self.program.chmod(0o755 if how == "empty" else 0o644)
            for shell in known(PIPES):
                why = "the program of the drop-in is missing" if how != "empty" else SILENT
                self.assertEqual(self.run_stub(shell, "tell d", WORDS, b"bytes"),
                                 (self.shown("script", WORDS, why, b"bytes"), "", 7), (shell, how))
            if how == "a folder":
                self.program.rmdir()
            self.program.touch()

    def test_other_shells(self):
        for shell in known(FILES):
            for words in (WORDS, ["sort"]):
                self.assertEqual(self.run_stub(shell, "tell d", words, b"bytes"),
                                 (self.shown("script", words, "this sh can open no pipes", b"bytes"), "", 7), shell)

    def test_what_the_script_takes(self):
        for shell in known((*PIPES, *FILES)):
            for words, more in (([], {}), ([""], {}), (["--version"], {}), (["-h"], {}), (["--help"], {}),
                                (["help"], {}), (["merge"], {"DUNEKETTLE_ALWAYS": "1"})):
                found = self.run_stub(shell, "tell d", words, b"bytes", **more)
                # Without words, printf writes an empty one.
                wanted = self.shown("script", words or [""], "", b"bytes")
                self.assertEqual(found, (wanted, "", 7), (shell, words))

    def zipped(self, name, text):
        """A gzip file, whose feeder ends well."""
        (self.top / name).write_bytes(gzip.compress(text))
        return name

    def test_gzip_files(self):
        words = ["merge", "-i", self.zipped("a 'b\".gz", BYTES)]
        play = 'case $unzipped in ,3=*) tell d; eval "cat <&${unzipped#*=}" ;; *) tell "z 3" ;; esac'
        for shell in known(PIPES):
            self.assertEqual(self.run_stub(shell, play, words, MARK=str(self.top)), (BYTES + b"\0", "", 0), shell)
            self.assertEqual(with_mark(self.top), [], shell)
        whole = (self.top / words[2]).read_bytes()
        for cut in (whole[:-4], whole[:40], whole + b"junk", b"", b"\x1f"):
            (self.top / words[2]).write_bytes(cut)
            for shell in known(PIPES):
                self.assertFalse(self.run_stub(shell, play, words)[0].endswith(b"\0"), (shell, len(cut)))
        words[2] = "missing"
        for shell in known(PIPES):
            self.assertEqual(self.run_stub(shell, play, words), (b"", "", 0), shell)

    def test_two_gzip_files(self):
        words = ["subtract", "-a", self.zipped("a.gz", BYTES), "-b", self.zipped("b.gz", b"b\n")]
        play = ('case $unzipped in *,*,*) tell d; first=${unzipped#,3=}; '
                'eval "cat <&${first%%,*}; cat <&${unzipped##*=}" ;; *,*) tell "z 5" ;; *) tell "z 3" ;; esac')
        for shell in known(PIPES):
            self.assertEqual(self.run_stub(shell, play, words), (BYTES + b"\0b\n\0", "", 0), shell)
            for left, given, shown in (('tell "o $OTHER"', b"bytes", b"bytes"),
                                       ('tell r; tell "s 0 $OTHER"; echo poured >&$number', b"", b"poured\n")):
                found = self.run_stub(shell, play.replace("tell d", left + "; exit"), words, given, MARK=str(self.top))
                self.assertEqual(found, (self.shown("other", words, f":{self.other}", shown), "", 7), (shell, left))
                time.sleep(0.1)
                self.assertEqual(with_mark(self.top), [], (shell, left))
            # One that is asked for again and again ends once no descriptor is free.
            found = self.run_stub(shell, 'tell "z 3"', words, b"bytes")
            self.assertEqual(found, (self.shown("script", words, "this sh can open no pipes", b"bytes"), "", 7), shell)

    def test_forms_of_genomecov(self):
        for shell in known(PIPES):
            for line, wanted in (*FORMS, *zip(NO_FORMS, NO_FORMS)):
                play = 'printf "%s," "$@" > given; tell "o $OTHER"'
                found = self.run_stub(shell, play, ["genomecov", *line.split(" ")])
                self.assertEqual(found[0], self.shown("other", ["genomecov", *line.split(" ")], f":{self.other}"), line)
                self.assertEqual((self.top / "given").read_text(encoding="utf-8"),
                                 ",".join(["genomecov", *wanted.split(" "), ""]), (shell, line))
            for line, wanted in MADE.items():
                play = f"tell d; cat; exit {len(line) % 2}"
                found = self.run_stub(shell, play, ["genomecov", *line.split(" ")], COVERED)
                self.assertEqual(found[1:], (WHOSE if len(line) % 2 else "", len(line) % 2), (shell, line))
                if not len(line) % 2:
                    self.assertEqual(found[0], wanted, (shell, line))

    def test_how_a_form_ends(self):
        fault = "bedtools genomecov: writing failed\n" + WHOSE
        for shell in known(PIPES):
            words = ["genomecov", "-d", "-i", "a.bed", "-g", "g.txt"]
            program = f"{' '.join(shell)} {self.stub} {' '.join(words)}"
            env = environment(PLAY="tell d; exec 2> /dev/null; yes 'chr1	0	9	1' | head -n 99999 || exit 121")
            found = call(["bash", "-c", f"{program} | head -n 1; exit ${{PIPESTATUS[0]}}"], self.top, env)
            self.assertEqual(found, (b"chr1\t1\t1\n", "", 141), shell)
            for script in (f"{program} > /dev/full", f"{program} >&-",
                           f"trap '' PIPE; {program} | true; exit ${{PIPESTATUS[0]}}"):
                self.assertEqual(call(["bash", "-c", script], self.top, env), (b"", fault, 1), (shell, script))
            self.assertEqual(self.run_stub(shell, "tell d; kill -s KILL $$", words)[2], -signal.SIGKILL, shell)
            words = ["genomecov", "-max", "9", "-i", "x", "-g", "g"]
            for number, place in ((0, None), (3, 4), (5, 6)):
                found = self.run_stub(shell, f'tell r; tell "s {number} $OTHER"; feed', words, b"bytes")
                wanted = ["-" if at == place else word for at, word in enumerate(words)]
                self.assertEqual(found, (self.shown("other", wanted, f":{self.other}", b"bytes"), "", 7), shell)

    def test_older_names(self):
        names = {"mergeBed": "merge", "complementBed": "complement", "intersectBed": "intersect",
                 "subtractBed": "subtract", "genomeCoverageBed": "genomecov", "bamToBed": "bamtobed",
                 "maskFastaFromBed": "maskfasta"}
        for name, command in names.items():
            link = self.top / name
            link.symlink_to(self.stub)
            found = call([link, "a b", ""], self.top, environment(PLAY='tell d; printf "%s," "$@"'))
            self.assertEqual(found, (f"{command},a b,,".encode(), "", 0))

    def test_closed_streams(self):
        for shell in known(PIPES):
            for closed in itertools.product((False, True), repeat=3):
                closing = "".join(f" {number}{'<' if number == 0 else '>'}&-" for number in range(3) if closed[number])
                opened = "".join("o" if not is_closed else "c" for is_closed in closed)
                look = ('for n in 0 1 2; do if [ -e /dev/fd/$n ]; then out=${out-}o; else out=${out-}c; fi; done; '
                        'echo "$out" > "$FOUND"')
                for play, says in ((f"tell d; {look}", ""), ('tell "o $OTHER"', look + "; exit 0"),
                                   ("tell t", look + "; exit 0"), ('tell r; tell "s 0 $OTHER"', look + "; exit 0")):
                    found = self.top / "found"
                    found.unlink(missing_ok=True)
                    env = environment(OTHER=str(self.other), PLAY=play, SAYS=says, FOUND=str(found))
                    status = subprocess.run(["bash", "-c", f"exec {' '.join(shell)} {self.stub} merge{closing}"],
                                            env=env, stdin=subprocess.DEVNULL, stdout=subprocess.DEVNULL,
                                            check=False).returncode
                    wanted, seen = ("o" + opened[1:] if "s 0" in play else opened,
                                    found.read_text(encoding="utf-8").strip())
                    # A bash itself opens a script as the first number that is free.
                    is_right = seen == wanted or "bash" in shell[0] and seen[0] == wanted[0]
                    self.assertEqual((is_right, status), (True, 0), (shell, closing, play, seen))

    def test_descriptors(self):
        # What the caller has open goes on, and nothing else is open; without four free ones the script takes the call.
        show = "for n in 0 1 2 3 4 5 6 7 8 9; do [ ! -e /proc/$$/fd/$n ] || printf $n; done; exit 0"
        for shell in known(PIPES):
            for mine in ("", "9", "5", "34", "679", "6789", "3456789"):
                opening = "".join(f" {number}< /dev/null" for number in mine)
                env = environment(OTHER=str(self.other), SAYS=show)
                for play in ('tell "o $OTHER"', "tell t", 'tell r; tell "s 0 $OTHER"'):
                    found = call(["bash", "-c", f"exec {' '.join(shell)} {self.stub} merge{opening}"], self.top,
                                 {**env, "PLAY": play})
                    self.assertEqual(found, (f"012{mine}".encode(), "", 0), (shell, mine, play))
                found = call(["bash", "-c", f"exec {' '.join(shell)} {self.stub} merge{opening}"], self.top,
                             {**env, "PLAY": "tell d; printf native", "SAYS": "printf script; exit"})
                self.assertEqual(found[0], b"native" if len(mine) < 4 else b"script", (shell, mine))

    def test_a_reader_that_is_gone(self):
        for shell in known(PIPES):
            program = f"{' '.join(shell)} {self.stub}"
            env = environment(PLAY="tell d; exit 121", OTHER=str(self.other))
            self.assertEqual(call([*shell, self.stub, "merge"], self.top, env), (b"", "", -signal.SIGPIPE), shell)
            found = call(["bash", "-c", f"trap '' PIPE; {program} merge"], self.top, env)
            self.assertEqual(found, (b"", "bedtools merge: writing failed\n" + WHOSE, 1), shell)
            found = call(["bash", "-c", f"yes | {program} merge | head -n 1 > /dev/null; echo ${{PIPESTATUS[1]}}"],
                         self.top, {**env, "PLAY": 'tell r; tell "s 0 $OTHER"; feed', "SAYS": "exec cat"})
            self.assertEqual(found, (b"141\n", "", 0), shell)

    def test_signals(self):
        if is_busy("signals of the stub"):
            return
        slow = {"waits for a line": "exec sleep 60", "reads": "tell r; exec sleep 60", "runs": "tell d; exec sleep 60",
                "pours": 'tell "s 0 $OTHER"; exec sleep 60', "has poured": 'tell "s 0 $OTHER"',
                "is another": 'tell "o $OTHER"', "is the script": "tell t"}
        for shell in known(PIPES):
            for (name, play), sent in itertools.product(slow.items(), SIGNALS):
                env = environment(OTHER=str(self.other), PLAY=play, SAYS="exec sleep 60", MARK=str(self.top))
                with subprocess.Popen([*shell, self.stub, "merge"], env=env, stdin=subprocess.DEVNULL,
                                      stdout=subprocess.DEVNULL, stderr=subprocess.PIPE) as child:
                    time.sleep(0.15)
                    begun = time.monotonic()
                    child.send_signal(sent)
                    status = child.wait(timeout=20)
                    took, left, said = time.monotonic() - begun, with_mark(self.top), child.stderr.read()
                self.assertEqual((status, left, said), (ended_by(shell, sent, name), [], b""), (shell, name, sent))
                self.assertLess(took, 0.1, (shell, name, sent))

    def test_signals_at_any_time(self):
        # A signal in the microseconds before a shell reads is heeded once it has read, or with the next one.
        if is_busy("signals at any time"):
            return
        for shell in known(PIPES):
            late = 0
            for count in range(80):
                play = ("tell d; exec sleep 60", 'tell "s 0 $OTHER"; exec sleep 60')[count // 3 % 2]
                sent = (signal.SIGHUP, signal.SIGINT, signal.SIGTERM)[count % 3]
                env = environment(OTHER=str(self.other), PLAY=f"sleep 0.01; {play}", SAYS="exec sleep 60",
                                  MARK=str(self.top))
                with subprocess.Popen([*shell, self.stub, "merge"], env=env, stdin=subprocess.DEVNULL,
                                      stdout=subprocess.DEVNULL, stderr=subprocess.DEVNULL) as child:
                    time.sleep(0.0003 * count)
                    child.send_signal(sent)
                    begun = time.monotonic()
                    self.assertEqual((child.wait(timeout=20), with_mark(self.top)), (-sent, []), (shell, count))
                    late += time.monotonic() - begun > 1
            self.assertLessEqual(late, 2, shell)

    def test_ignored_signals(self):
        for shell in known(PIPES):
            for play, wanted in (("sleep 0.3; tell d; sleep 0.3; echo done", b"done\n"),
                                 ('tell "s 0 $OTHER"; sleep 0.3; echo done >&$number', b"done\n")):
                for sent in SIGNALS:
                    script = f"trap '' {sent.name[3:]}; exec {' '.join(shell)} {self.stub} merge"
                    env = environment(OTHER=str(self.other), PLAY=play, SAYS="exec cat")
                    with subprocess.Popen(["bash", "-c", script], env=env, stdin=subprocess.DEVNULL,
                                          stdout=subprocess.PIPE) as child:
                        time.sleep(0.2)
                        child.send_signal(sent)
                        self.assertEqual((child.stdout.read(), child.wait(timeout=20)), (wanted, 0), (shell, sent))

    def test_options_of_the_caller(self):
        shell = [shutil.which("bash"), "--posix"]
        for option in ("errexit", "nounset", "noglob", "noclobber", "pipefail", "monitor", "allexport",
                       "errexit:nounset:noclobber:noglob:pipefail:monitor"):
            for play, says in (("tell d; printf %s \"$1\"; exit 3", ""), ('tell "o $OTHER"', "exit 3"),
                               ('tell r; tell "s 0 $OTHER"; feed', "cat; exit 3"), ("tell t", "exit 3")):
                wanted = self.run_stub(shell, play, given=BYTES, SAYS=says)
                self.assertEqual(wanted[2], 3)
                self.assertEqual(self.run_stub(shell, play, given=BYTES, SAYS=says, SHELLOPTS=option), wanted,
                                 (option, play))

    def test_the_environment(self):
        variables = {name: "mine"
                     for name in ("file", "line", "home", "status", "each", "read", "write", "at", "path", "count",
                                  "name", "rest", "number", "IFS_", "child", "feeder")}
        for shell in known(PIPES):
            for play in ('tell "o $OTHER"', 'tell "s 0 $OTHER"', "tell t"):
                output = self.run_stub(shell, play, SAYS="env; exit", **variables)[0].decode().splitlines()
                self.assertEqual(([name for name in variables if f"{name}=mine" not in output],
                                  [line for line in output if line.startswith("dk_")]),
                                 ([], []), shell)

    def test_homes(self):
        # Behind links; a copy beside which others may put files; and a copy that finds the installation on PATH.
        hostile = f"#!/bin/sh\ntouch '{self.top}/hit'\n"
        program = self.top / "bin" / "dunekettle-bedtools"
        program.parent.mkdir()
        program.write_text(hostile, encoding="utf-8")
        program.chmod(0o755)
        (self.top / "first").symlink_to("lib/dunekettle/bin/bedtools")
        (self.top / "second").symlink_to(self.top / "first")
        env = environment(PLAY="tell d; echo native")
        for place in (self.top / "first", self.top / "second", self.stub.parent / "mergeBed"):
            self.assertEqual(call([place, "merge"], self.top, env), (b"native\n", "", 0))
        self.assertEqual(call(["sh", "bedtools", "merge"], self.stub.parent, env), (b"native\n", "", 0))
        self.assertEqual(call(["bedtools", "merge"], self.stub.parent, {**env, "PATH": f":{env['PATH']}"}),
                         (b"native\n", "", 0))
        for sticky in ("open", "open/bin"):
            scratch = self.top / f"scratch {sticky.replace('/', ' ')}"
            for file in ("open/drop-in", "open/script/bedtools", "drop-in", "script/bedtools"):
                (scratch / file).parent.mkdir(parents=True, exist_ok=True)
                (scratch / file).write_text(hostile, encoding="utf-8")
                (scratch / file).chmod(0o755)
            (scratch / "open" / "bin").mkdir()
            copy = scratch / "open" / "bin" / "bedtools"
            shutil.copy(self.stub, copy)
            (scratch / sticky).chmod(0o1777)
            found = call([copy, "merge"], self.top, {**env, "PATH": f"{program.parent}:{env['PATH']}"})
            self.assertEqual((found, (self.top / "hit").exists()), ((b"native\n", "", 0), False), sticky)
            found = call([copy, "merge"], self.top,
                         {**env, "PATH": f"{copy.parent}:{self.other.parent}:/usr/bin:/bin",
                          "SAYS": "echo other; exit"})
            self.assertEqual((found, (self.top / "hit").exists()), ((b"other\n", "", 0), False), sticky)
            (self.top / "tools").mkdir(exist_ok=True)
            found = call([shutil.which("dash"), copy, "merge"], self.top,
                         {**env, "PATH": f"{copy.parent}:{self.top / 'tools'}"})
            self.assertEqual((found[0], found[1].count("\n"), "is a copy" in found[1], found[2],
                              (self.top / "hit").exists()),
                             (b"", 1, True, 127, False), sticky)

    def test_two_copies(self):
        # Copies without an installation don't call each other for ever.
        for name in ("one", "two"):
            (self.top / name).mkdir()
            shutil.copy(STUB, self.top / name / "bedtools")
        env = environment(PATH=f"{self.top / 'one'}:{self.top / 'two'}:{self.other.parent}:/usr/bin:/bin",
                          SAYS="echo other; exit")
        self.assertEqual(call([self.top / "one" / "bedtools", "mergeBed"], self.top, env), (b"other\n", "", 0))
        env["PATH"] = f"{self.top / 'one'}:{self.top / 'two'}"
        self.assertEqual(call([shutil.which("dash"), self.top / "one" / "bedtools", "sort"], self.top, env)[2], 127)


if __name__ == "__main__":
    if not shutil.which("dash"):
        print("no dash: what needs it fails", file=sys.stderr)
    unittest.main()
