"""One way to run the program with something refused: memory, room in a file, growths, reads or writes.

A run is a line of sh, which a failed test shows. refuse.c, preloaded into the program, refuses growths, reads and
writes.
"""

import shlex
import shutil
import subprocess
from dataclasses import dataclass, field
from pathlib import Path

from tests.support import PROGRAM, TOP

SOURCE = Path(__file__).with_name("refuse.c")
LIBRARY = TOP / "bin" / "refuse.so"
# So many kilobytes of memory are enough for any run: one that takes more is not to take the machine's.
MOST_MEMORY = 1 << 20


@dataclass
class Run:
    """A run of the program. Standard input is empty unless it is a file."""

    words: str
    stream: str = "/dev/null"
    # Where standard output goes instead of to the test.
    into: str = ""
    # How many kilobytes of address space there are, and how many bytes a file takes.
    space: int = MOST_MEMORY
    size: int = None
    # What is said to refuse.c. It is preloaded if anything is said.
    said: dict = field(default_factory=dict)
    # How the program is named: a test program of a crate may be run instead.
    program: str = PROGRAM

    def command(self):
        """The run's command, or nothing."""
        return self.words.split(" ")[0]

    def line(self):
        """The run as a line of sh. A limit of a file's size fails the write, since its signal is ignored."""
        said = {"LD_PRELOAD": str(LIBRARY), **self.said} if self.said else {}
        variables = "".join(f"{name}={shlex.quote(value)} " for name, value in said.items())
        ahead = "" if self.size is None else f"prlimit --fsize={self.size} "
        trap = "" if self.size is None else "trap '' XFSZ; "
        into = f" > {self.into}" if self.into else ""
        program = f"{shlex.quote(self.program)} {self.words}".strip()
        return f"{trap}ulimit -v {self.space} && {variables}exec {ahead}{program} < {self.stream}{into}"


def build_library():
    """Builds refuse.c for these runs, if it isn't built."""
    if LIBRARY.exists() and LIBRARY.stat().st_mtime > SOURCE.stat().st_mtime:
        return
    if not shutil.which("gcc"):
        raise FileNotFoundError("gcc isn't on PATH, and these tests need it: install gcc (Debian: apt-get install gcc)")
    LIBRARY.parent.mkdir(exist_ok=True)
    subprocess.run(["gcc", "-O1", "-shared", "-fPIC", "-o", LIBRARY, SOURCE], check=True)


def bed(starts, length, further="", name="chr1"):
    """BED lines of one length."""
    return "".join(f"{name}\t{start}\t{start + length}{further}\n" for start in starts)
