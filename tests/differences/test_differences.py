"""Each row of differences.tsv, tried with the program in bin/, with the bedtools 2.30.0 on PATH, and with the drop-in.

A trial is one command line for each program, in a folder with the files of trials.py, and what each has to answer:
standard output and exit status, and for ours standard error too. A row of the file has a trial of its name, and each
trial has a row, whose kind is that of the answers. The drop-in gets the command line of bedtools, has to give it to the
program that the row names, and to answer as that one does. What other pages say of bedtools is tried with bedtools
alone. Each option that bedtools names in the help text of a command has a row in tools/options.tsv, and the program
takes it if and only if that row says what it does. Without that bedtools nothing of this is tried, but for the rows.
"""

import base64
import gzip
import os
import re
import shutil
import subprocess
import tempfile
import unittest
from pathlib import Path
from typing import NamedTuple

from tests.differences.trials import FILES, SAID, TRIALS, Trial
from tests.support import DROP_IN, PROGRAM, TOP, Counted, each

from migrating import differences, options

COMMANDS = ("merge", "complement", "intersect", "subtract", "genomecov", "bamtobed", "maskfasta")
# An option in a help text: at the begin of a line behind a tab, or behind `[OPTIONS]`.
NAMED = re.compile(r"^\t(-\w+)", re.MULTILINE)
INPUTS = re.compile(r"(-\w+) <")
# Who took a command line, as DUNEKETTLE_TELL says it.
TOLD = re.compile(r"^dunekettle: (.*?) takes ", re.MULTILINE)
# A BAM file of three mapped reads: 4M at POS 0, 4S at POS 5, * at POS 5. As SAM, samtools takes the first for unmapped.
AT_ZERO = """
H4sIBAAAAAAA/wYAQkMCAGoAc3L0ZRRkYGBwCA7kDPazKkpN4/TxszIx5WIECrIAMVCEQRdIgzAI/AcCZjkPIZj8fygAyRUZ
MjgAKSEPkABMA0gRHg0ucA2aaBoYsGuAKAYAOM0PibgAAAAfiwgEAAAAAAD/BgBCQwIAGwADAAAAAAAAAAAA
"""


class Named(NamedTuple):
    """A trial, by the name of its row."""

    name: str
    trial: Trial


class Command(NamedTuple):
    """A command, by its name."""

    name: str


def ran(program, command, folder, environment=None):
    """What a program answers to a command line, in which `{}` may be its name: output, error and status."""
    line = command.replace("{}", str(program)) if "{}" in command else f"{program} {command}"
    done = subprocess.run(["bash", "-c", f"{line}\nexit $?"], cwd=folder, stdin=subprocess.DEVNULL,
                          capture_output=True, text=True, check=False, env=environment)
    return done.stdout, done.stderr, done.returncode


def fill(folder):
    """Writes the files of the trials."""
    for name, text in FILES.items():
        Path(folder, name).write_bytes(text.encode())
    # Lines of 16 bytes, so that a block ends between two of them.
    even = "".join(f"c\t{n}0\t{n}5\n".replace("\t", "\t0", 2) for n in range(1001, 9001))
    Path(folder, "even.bed").write_text(even, encoding="utf-8")
    Path(folder, "f.bed.gz").write_bytes(gzip.compress(FILES["f.bed"].encode()))
    Path(folder, "magic.bed").write_bytes(b"\x1fx\t2\t6\n")
    Path(folder, "at_zero.bam").write_bytes(base64.b64decode(AT_ZERO))
    Path(folder, "many.bed").write_text("chr1\t2\t6\n" * 100_000, encoding="utf-8")
    Path(folder, "pile.bed").write_text("chr1\t2\t6\n" * 1_000_010, encoding="utf-8")


def original():
    """The bedtools 2.30.0 on PATH, or None."""
    found = shutil.which("bedtools")
    return found if found and "v2.30.0" in ran(found, "--version", ".")[0] else None


class BesideOriginal(Counted):
    """Tests that run bedtools 2.30.0, in one folder with the files."""

    @classmethod
    def setUpClass(cls):
        super().setUpClass()
        cls.theirs = original()
        if not cls.theirs:
            raise unittest.SkipTest("no bedtools 2.30.0 on PATH")
        folder = tempfile.TemporaryDirectory()
        cls.addClassCleanup(folder.cleanup)
        cls.folder = Path(folder.name)
        fill(cls.folder)


@each([Named(trial.row, trial) for trial in TRIALS])
class Differences(BesideOriginal):
    said = "{trials} trials with both programs"

    def case(self, named):
        trial = named.trial
        output, _, status = ran(self.theirs, trial.theirs.command, self.folder)
        wanted = (trial.theirs.output, trial.theirs.status)
        self.assertEqual((output, status), wanted, f"bedtools {trial.theirs.command}")
        found = ran(PROGRAM, trial.ours.command, self.folder)
        wanted = (trial.ours.output, trial.ours.error, trial.ours.status)
        self.assertEqual(found, wanted, f"{PROGRAM} {trial.ours.command}")
        self.counts["trials"] += 1


# What the drop-in says after a message of Dunekettle
WHOSE = "dunekettle: the message is from Dunekettle, which ran this call instead of bedtools\n"


@each([Named(trial.row, trial) for trial in TRIALS])
class WithDropIn(BesideOriginal):
    said = "{trials} trials with the drop-in"

    @classmethod
    def setUpClass(cls):
        super().setUpClass()
        place = cls.folder / "there"
        subprocess.run([TOP / "packaging" / "install.sh", place, place, "dunekettle-bedtools", PROGRAM, DROP_IN],
                       check=True)
        cls.drop_in = place / "lib" / "dunekettle" / "bin" / "bedtools"
        cls.told = cls.folder / "told.txt"
        cls.takers = {row.name: row.taker for row in differences()}

    def case(self, named):
        trial = named.trial
        self.told.write_text("", encoding="utf-8")
        environment = {**os.environ, "DUNEKETTLE_TELL": str(self.told), "DUNEKETTLE_SMALL": "0"}
        output, error, status = ran(self.drop_in, trial.theirs.command, self.folder, environment)
        takers = {"Dunekettle" if who == "Dunekettle" else "bedtools"
                  for who in TOLD.findall(self.told.read_text(encoding="utf-8"))}
        is_as_theirs = (output, status) == (trial.theirs.output, trial.theirs.status)
        # Where the command lines are others, ours isn't what Dunekettle answers to theirs. A form of bedtools is its
        # answer.
        message = trial.ours.error and trial.ours.error + WHOSE
        is_as_ours = (output, error, status) == (trial.ours.output, message, trial.ours.status)
        is_other = trial.theirs.command != trial.ours.command
        is_theirs = takers == {"bedtools"} and is_as_theirs
        is_ours = takers == {"Dunekettle"} and (is_other or is_as_ours or is_as_theirs)
        wanted = {"bedtools": is_theirs, "Dunekettle": is_ours, "either": is_theirs or is_ours}
        said = f"{takers} take {trial.theirs.command}: {output, error, status}"
        self.assertTrue(wanted[self.takers[trial.row]], said)
        self.counts["trials"] += 1


@each(SAID)
class SaidOfBedtools(BesideOriginal):
    said = "{sentences} sentences"

    def case(self, said):
        output, _, status = ran(self.theirs, said.command, self.folder)
        self.assertEqual((output, status), (said.output, said.status))
        self.counts["sentences"] += 1


@each([Command(name) for name in COMMANDS])
class Options(BesideOriginal):
    said = "{options} options"

    def named(self, command):
        """The options that bedtools names in the help text of a command."""
        _, text, _ = ran(self.theirs, f"{command} -h", ".")
        usage = next(line for line in text.splitlines() if line.startswith("Usage:"))
        return set(INPUTS.findall(usage)) | set(NAMED.findall(text))

    def case(self, command):
        taken = [(word, row.taken) for row in options() if row.command == command.name
                 for word in row.words if word.startswith("-")]
        words = [word for word, _ in taken]
        self.assertEqual(sorted(words), sorted(set(words) | self.named(command.name)), "each option has one row")
        for word, is_taken in taken:
            said = ran(PROGRAM, f"{command.name} {word}", self.folder)[1]
            is_unknown = said == f"bedtools: unknown option: {word}\n"
            self.assertEqual(is_taken, "no" if is_unknown else "yes", f"{command.name} {word}")
        self.counts["options"] += len(words)


class Rows(unittest.TestCase):
    def test_each_row_has_a_trial(self):
        self.assertEqual(set(row.name for row in differences()), set(trial.row for trial in TRIALS))

    def test_kinds_are_those_of_the_answers(self):
        """A silent row has a trial where both programs end with 0 and write other bytes, an error one that fails."""
        for row in differences():
            trials = [trial for trial in TRIALS if trial.row == row.name]
            is_silent = any(trial.theirs.status == trial.ours.status == 0 and trial.theirs.output != trial.ours.output
                            for trial in trials)
            is_error = any(trial.theirs.status or trial.ours.status for trial in trials)
            with self.subTest(row.name):
                self.assertTrue({"silent": is_silent, "error": is_error, "cosmetic": True}[row.kind])
