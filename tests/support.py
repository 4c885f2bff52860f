"""What all tests share: where things are, a test for each row of a table, and how a failure is shown."""

import os
import re
import shlex
import shutil
import subprocess
import tempfile
import unittest
from collections import Counter
from dataclasses import dataclass
from pathlib import Path

TOP = Path(__file__).resolve().parent.parent
# Another program than the one in bin/ may be tried: PROGRAM=FILE.
PROGRAM = str(Path(os.environ.get("PROGRAM", TOP / "bin" / "bedtools")).resolve())
DROP_IN = TOP / "bin" / "drop-in"
FAILED = TOP / "bin" / "failed"


def number(name, otherwise):
    """A number that the environment gives, as SEED=7 or INPUTS=1000."""
    return int(os.environ.get(name, otherwise))


def name_of(text):
    """A text as a part of a test's name."""
    return re.sub(r"\W+", "_", text).strip("_").lower()


def each(rows):
    """Gives a class a test for each row of a table, named for the row's `name`. The class's `case` tries a row."""
    def add_to(tests):
        seen = Counter()
        for row in rows:
            name = f"test_{name_of(row.name) or 'nothing'}"
            seen[name] += 1
            name += f"_{seen[name]}" if seen[name] > 1 else ""
            setattr(tests, name, lambda self, row=row: self.case(row))
        return tests
    return add_to


@dataclass
class Answer:
    """What a run ended with, wrote and reported. Where a signal ended it, the status is above 128 or below zero."""

    status: int
    output: bytes
    error: bytes


def shortened(text, most=1000):
    """Bytes as they are, or the ends of them."""
    return repr(text) if len(text) <= most else f"{text[:most // 2]!r} .. {text[-most // 2:]!r} ({len(text)} bytes)"


def shown(answer):
    """An answer for people."""
    return f"status {answer.status}, output {shortened(answer.output)}, error {shortened(answer.error)}"


def write_files(folder, files):
    """Writes files, of which each is text or bytes."""
    for name, text in files.items():
        Path(folder, name).write_bytes(text.encode("ascii") if isinstance(text, str) else text)


def kept(name, folder):
    """Keeps the files of a failed test. Returns the words that go there."""
    target = FAILED / name_of(name)
    shutil.rmtree(target, ignore_errors=True)
    shutil.copytree(folder, target, symlinks=True, ignore=shutil.ignore_patterns("pipe", "disk"))
    return f"cd {shlex.quote(str(target.relative_to(TOP)))}"


class Counted(unittest.TestCase):
    """Tests that say at the end what was tried, so that nobody takes none for all."""

    # What is said, with the counts in braces: the tests add to them.
    said = ""

    @classmethod
    def setUpClass(cls):
        cls.counts = Counter()

    @classmethod
    def tearDownClass(cls):
        if cls.said and cls.counts:
            print(f"{cls.__name__}: {cls.said.format_map(cls.counts)}", flush=True)


class InFolder(Counted):
    """Tests in folders of their own, in which `bedtools` is the program."""

    # The files that each test begins with.
    files = {}

    def setUp(self):
        made = tempfile.TemporaryDirectory()
        self.addCleanup(made.cleanup)
        self.folder = Path(made.name)
        write_files(self.folder, self.files)

    def shell(self, line, seconds=60):
        """Runs a line of sh in the test's folder."""
        environment = {**os.environ, "PATH": f"{Path(PROGRAM).parent}:{os.environ['PATH']}"}
        ran = subprocess.run(["sh", "-c", line], cwd=self.folder, env=environment, stdin=subprocess.DEVNULL,
                             capture_output=True, timeout=seconds, check=False)
        return Answer(ran.returncode, ran.stdout, ran.stderr)

    def fail_by_hand(self, line, wanted, found):
        """Fails, keeps the files, and says how the line is run by hand."""
        go = kept(self.id(), self.folder)
        path = f"PATH={shlex.quote(str(Path(PROGRAM).parent))}:$PATH"
        self.fail(f"\nby hand: ({go} && {path} sh -c {shlex.quote(line)})\n"
                  f"alone: python3 -m unittest {self.id()}\nwanted: {wanted}\nfound: {found}")

    def expect(self, line, wanted, found=None):
        """Runs a line, unless it was run, and compares its answer."""
        found = found or self.shell(line)
        if found != wanted:
            self.fail_by_hand(line, shown(wanted), shown(found))
