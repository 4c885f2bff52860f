"""The examples of README.md, of the pages in docs/ and of cases/ write what is below them, and the example on the first
page of each crate is its test.

A page shows what a reader needs. What else is tried, and in the same form, is in cases/: a file for each theme.

An example is a block, indented by four spaces or more, that begins with `$ `. A line that begins with `> ` continues
the command above it. Each command is run by sh, in one folder for a page. What it writes, standard error after
standard output, has to be what the page has below it. Commands of blocks that begin with anything else aren't run.
A page whose examples call `dunekettle-bedtools` has the program under that name alone: there `bedtools` fails. On
the other pages `bedtools` is the program. The first page of a crate is the comment at the head of its src/lib.rt, with
the first function of src/example.rt, which is its test or is run by it; or the comment of its src/main.rt, with a shell
example that is run in the crate's folder. The code of LIBRARY.md is that of the file named above it.
"""

import os
import re
import shutil
import subprocess
import tempfile
from dataclasses import dataclass, field
from pathlib import Path
from typing import NamedTuple

from tests.support import PROGRAM, TOP, Counted, each

COMMAND = re.compile(r"( {4,})\$ (.*)")
CONTINUED = "> "
# The name under which the program is installed, that of the original, and that of the front.
INSTALLED, ORIGINAL, FRONT = "dunekettle-bedtools", "bedtools", "dunekettle"
# A crate of laws alone has no call to show.
LAWS = TOP / "crates" / "bt_laws" / "src" / "lib.rt"
# The example on a crate's first page, and the first function of a file.
FIRST_PAGE = re.compile(r"^//! ```text\n(.*?)^//! ```$", re.MULTILINE | re.DOTALL)
# A piece of code, with the file that it is from.
CODE = re.compile(r"^\[[^\]]*\]\(([^)]*)\).*?\n```rust\n(.*?)^```$", re.MULTILINE | re.DOTALL)
FUNCTION = re.compile(r"^fn .*?^\}\n", re.MULTILINE | re.DOTALL)


@dataclass
class Example:
    """A command of a page, its line, and what it must write."""

    number: int
    command: str
    wanted: list = field(default_factory=list)


def examples_of(text):
    """The examples of a page in order."""
    found = []
    margin = None
    for number, line in enumerate(text.splitlines(), 1):
        command = COMMAND.fullmatch(line)
        if command:
            margin = command[1]
            found.append(Example(number, command[2]))
        elif margin is not None and line.startswith(margin + CONTINUED) and not found[-1].wanted:
            found[-1].command += f"\n{line[len(margin + CONTINUED):]}"
        elif margin is not None and line.startswith(margin):
            found[-1].wanted.append(line[len(margin):])
        else:
            margin = None
    return found


def put_names(examples, folder):
    """Makes a folder of programs for examples: the program under the name that they call it by, and no original beside
    it. Where it is the installed name, `dunekettle` is there too, as in an installation."""
    is_installed = any(INSTALLED in one.command or FRONT in one.command.split() for one in examples)
    names = Path(folder, "bin")
    names.mkdir()
    (names / (INSTALLED if is_installed else ORIGINAL)).symlink_to(PROGRAM)
    if is_installed:
        (names / ORIGINAL).symlink_to("/bin/false")
        shutil.copy(TOP / "front" / FRONT, names)
        files = shutil.copytree(TOP / "front", Path(folder, "lib", FRONT))
        for name in ("help.txt", "instead.txt"):
            shutil.copy(TOP / "generated" / name, files)
    return names


def wrote(command, folder, names):
    """What a command writes in a folder, with the programs of another folder first on PATH."""
    path = f"{names}:{os.environ['PATH']}"
    ran = subprocess.run(["sh", "-c", command], cwd=folder, env={**os.environ, "PATH": path}, stdin=subprocess.DEVNULL,
                         capture_output=True, text=True, check=False)
    return (ran.stdout + ran.stderr).splitlines()


class Page(NamedTuple):
    """A page, by its name."""

    name: str


def pages():
    """The pages and the files of cases."""
    files = [TOP / "README.md", *sorted(TOP.glob("docs/*.md")), *sorted(TOP.glob("tests/pages/cases/*.txt"))]
    return [Page(str(file.relative_to(TOP))) for file in files]


class OfPage(Counted):
    """Tests that run the examples of a page."""

    def expect_examples(self, name, text, folder):
        """Runs the examples of a page's text in a folder, and compares what they write."""
        examples, differ = examples_of(text), []
        with tempfile.TemporaryDirectory() as programs:
            names = put_names(examples, programs)
            for one in examples:
                found = wrote(one.command, folder, names)
                if found != one.wanted:
                    lines = [f"\n{name}:{one.number}: {one.command}", "wanted:", *one.wanted, "found:", *found]
                    differ.append("\n  ".join(lines))
        self.counts["examples"] += len(examples)
        if differ:
            self.fail("".join(differ))


@each(pages())
class Pages(OfPage):
    said = "{examples} examples of pages and cases"

    def case(self, page):
        with tempfile.TemporaryDirectory() as folder:
            os.symlink(TOP / "bin", f"{folder}/bin")
            self.expect_examples(page.name, (TOP / page.name).read_text(encoding="utf-8"), folder)


def first_example(page):
    """The example on a crate's first page, or nothing."""
    found = FIRST_PAGE.search(page.read_text(encoding="utf-8"))
    return "".join(f"{line[4:]}\n" for line in found[1].splitlines()) if found else ""


class FirstPages(OfPage):
    said = "{examples} examples of crates"

    def test_programs(self):
        for page in sorted(TOP.glob("crates/*/src/main.rt")):
            shell = "".join(f"    {line}\n" for line in first_example(page).splitlines())
            self.expect_examples(page.relative_to(TOP), shell, page.parent.parent)

    def test_libraries(self):
        for page in sorted(set(TOP.glob("crates/*/src/lib.rt")) - {LAWS}):
            with self.subTest(page.relative_to(TOP)):
                code = FUNCTION.search(page.with_name("example.rt").read_text(encoding="utf-8"))
                self.assertEqual(first_example(page), code and code[0], "the example isn't its test")
                self.counts["examples"] += 1

    def test_code_of_the_library_page(self):
        page = TOP / "docs" / "LIBRARY.md"
        for name, code in CODE.findall(page.read_text(encoding="utf-8")):
            with self.subTest(name):
                self.assertIn(code, (page.parent / name).read_text(encoding="utf-8"))
                self.counts["examples"] += 1
