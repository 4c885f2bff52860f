"""Each recipe of recipes/ with the program in bin/ beside the bedtools 2.30.0 on PATH.

A case of recipes.tsv is a command line of bedtools, one of a script or of the program that must write the same bytes,
and the kinds of files over which it must not. Both are run by bash over files of each kind of inputs.py, and what uses
a genome file over files in natural order too; a kind over which bedtools itself ends with an error is left out. Scripts
are run as they are installed, with the program as `dunekettle-bedtools`, and the original isn't on their PATH: there
`bedtools` fails. The block of MIGRATING.md that compares the two programs is run with both on PATH. needs.tsv says of
each script what it is for, its limits, and which case its cost is measured by. Without that bedtools or samtools only
the rows are looked at.
"""

import os
import re
import shutil
import subprocess
import tempfile
import textwrap
import unittest
from pathlib import Path
from typing import NamedTuple

from tests.recipes.inputs import KINDS, NATURAL, fill
from tests.support import PROGRAM, TOP, Counted, each

from files import read, rows

SCRIPTS = TOP / "recipes"
CASES, NEEDS = "tests/recipes/recipes.tsv", "tests/recipes/needs.tsv"
# What a case has that is tried over files in natural order too.
BY_GENOME = re.compile(r"GENOME=|(?:genomecov-(?:ends|split|bam)|by-genome)\.sh")
# The block of MIGRATING.md that compares both programs, and its first line.
BLOCK = re.compile(r"((?:^    .*\n)+)", re.MULTILINE)
BOTH = "bedtools intersect "
# The histogram of a genome of 3,100,000,000 bases in 310 chromosomes, of which one has features. bedtools 2.30.0 wrote
# it in 154 seconds of processor, so it is here. Then the awks that have to write it.
WHOLE_GENOME = "".join((
    "chr3\t0\t9009300\t10000000\t0.90093\n", "chr3\t1\t707900\t10000000\t0.07079\n",
    "chr3\t2\t282800\t10000000\t0.02828\n",
    *(f"chr{number}\t0\t10000000\t10000000\t1\n" for number in range(1, 311) if number != 3),
    "genome\t0\t3099009300\t3100000000\t0.99968\n", "genome\t1\t707900\t3100000000\t0.000228355\n",
    "genome\t2\t282800\t3100000000\t9.12258e-05\n"))
AWKS = ("mawk", "gawk", "busybox awk")
# Lines of scripts that lack an option without which bedtools writes something else, or have one that the script doesn't
# know, or read a pipe twice: each ends with status 2.
REFUSED = (
    "intersect-split.sh -a a.bed -b b.bed",
    "intersect-loj.sh -a a.bed -b b.bed",
    "intersect-files.sh -a a.bed -b b.bed c.bed",
    "intersect-files.sh -a a.bed -b b.bed c.bed -wa",
    "intersect-F.sh -a a.bed -b b.bed -F 0.5 -wb",
    "intersect-F.sh -a a.bed -b b.bed -F 0.5 -u -c",
    "intersect-F.sh -a a.bed -b b.bed -F 0.5 -S",
    "intersect-loj.sh -a a.bed -b b.bed c.bed -wao",
    "intersect-files.sh -a a.bed -b b.bed c.bed -u -S",
    "subtract-F.sh -a a.bed -b b.bed -f 0.5 -N",
    "merge-overlap.sh -3 a.bed",
    "bam.sh reads.bam -tag NM -split",
    "bam.sh reads.bam -bed12 -splitD",
    "bam.sh reads.bam -color 1,2,3",
    "cat a.bed | header.sh merge -i -",
    "merge-c.sh -i <(cat a.bed) -c 5 -o count",
    "intersect-files.sh -a <(cat a.bed) -b b.bed c.bed -wa -wb",
    "merge-c.sh -i a.bed -c 5",
    "merge-c.sh -i a.bed -o count",
    "merge-c.sh -i a.bed -c 5 -o first",
    "subtract-N.sh -a a.bed -b b.bed",
    "intersect-loj.sh -a a.bed -wao",
    "histogram.sh -i a.bed",
    "genomecov-scale.sh -i a.bed -g genome.txt -bg",
    "intersect-bam.sh -a <(cat reads.bam) -b b.bed",
    "genomecov-bam.sh -ibam <(cat reads.bam) -bg",
    "genomecov-split.sh -i a.bed -g <(cat genome.txt) -bg",
    "genomecov-d.sh -i a.bed -g genome.txt",
    "genomecov-scale.sh -i a.bed -g genome.txt -scale 2",
    "genomecov-split.sh -i a.bed -g genome.txt",
    "genomecov-ends.sh -i a.bed -g genome.txt -5",
    "genomecov-bam.sh -ibam reads.bam",
    "genomecov-bam.sh -ibam reads.bam -5",
)


class Recipe(NamedTuple):
    """A case: the line of bedtools, that of ours, and the kinds of files over which they differ."""

    name: str
    ours: str
    differ: tuple

    def kinds(self):
        """The kinds of files that it is tried over."""
        return (*KINDS, NATURAL) if BY_GENOME.search(self.ours) else KINDS


def recipes():
    """The cases of recipes.tsv."""
    return [Recipe(f"bedtools {theirs}", ours, tuple(kind.strip() for kind in differ.split(",") if kind))
            for theirs, ours, differ in rows(CASES)]


class Line(NamedTuple):
    """A line of a script that has to be refused, or an awk."""

    name: str


def wrote(script, folder, path):
    """What a script writes and says, and its status, with the programs of a path before the others."""
    done = subprocess.run(["bash", "-euo", "pipefail", "-c", script], cwd=folder, stdin=subprocess.DEVNULL,
                          capture_output=True, check=False, env={**os.environ, "PATH": f"{path}:{os.environ['PATH']}"})
    return done.stdout, done.stderr.decode(), done.returncode


def put_originals(folder):
    """Makes a folder with nothing but the bedtools on PATH. Returns whether it is 2.30.0."""
    theirs = shutil.which("bedtools")
    if not theirs:
        return False
    said = subprocess.run([theirs, "--version"], stdout=subprocess.PIPE, text=True, check=False).stdout
    folder.mkdir()
    (folder / "bedtools").symlink_to(theirs)
    return "v2.30.0" in said


def put_ours(folder):
    """Makes a folder with the scripts, the program under the name that they call, what people call, and no original."""
    folder.mkdir()
    (folder / "dunekettle-bedtools").symlink_to(PROGRAM)
    shutil.copy(TOP / "front" / "dunekettle", folder)
    (folder / "bedtools").symlink_to("/bin/false")
    for script in SCRIPTS.glob("*.sh"):
        shutil.copy(script, folder)


class BesideOriginal(Counted):
    """Tests that need bedtools 2.30.0 and samtools, with folders of both programs, and of files of each kind."""

    @classmethod
    def setUpClass(cls):
        super().setUpClass()
        made = tempfile.TemporaryDirectory()
        cls.addClassCleanup(made.cleanup)
        cls.top = Path(made.name)
        cls.theirs, cls.ours = cls.top / "theirs", cls.top / "ours"
        if not put_originals(cls.theirs) or not shutil.which("samtools"):
            raise unittest.SkipTest("no bedtools 2.30.0 or no samtools on PATH")
        put_ours(cls.ours)
        for kind in (*KINDS, NATURAL):
            (cls.top / kind).mkdir()
            fill(cls.top / kind, kind)


@each(recipes())
class Recipes(BesideOriginal):
    said = "{cases} recipes and command lines, {runs} runs over kinds of files"

    def case(self, recipe):
        tried = 0
        for kind in recipe.kinds():
            theirs, _, status = wrote(recipe.name, self.top / kind, self.theirs)
            if status == 0:
                with self.subTest(kind):
                    self.expect_same(recipe, kind, theirs)
                tried += 1
        self.assertGreater(tried, 0, "bedtools ends with an error over each kind of files")
        self.counts.update(cases=1, runs=tried)

    def expect_same(self, recipe, kind, theirs):
        """Runs our line over a kind of files. It writes the same as theirs, unless its row says that it differs."""
        ours, error, status = wrote(recipe.ours, self.top / kind, self.ours)
        is_same = (ours, status) == (theirs, 0)
        if is_same != (kind not in recipe.differ):
            self.fail(f"{recipe.ours}, over {kind}: {'is the same' if is_same else 'differs'}\n"
                      f"bedtools: {theirs[:300]!r}\nours, status {status}: {ours[:300]!r} {error.strip()}")


@each([Line(line) for line in REFUSED])
class Refused(BesideOriginal):
    said = "{lines} lines of scripts that are refused"

    def case(self, line):
        output, error, status = wrote(line.name, self.top / KINDS[0], self.ours)
        self.assertEqual((output, status), (b"", 2), error)
        self.counts["lines"] += 1


@each([Line(awk) for awk in AWKS])
class WholeGenome(BesideOriginal):
    """The histogram over a whole genome by each awk."""

    said = "{awks} awks write the histogram of a whole genome"

    def case(self, awk):
        name, *words = awk.name.split()
        if not shutil.which(name):
            self.skipTest(f"no {name}")
        folder, made = self.top / f"whole {name}", self.top / f"bin {name}"
        folder.mkdir()
        made.mkdir()
        genome = "".join(f"chr{number}\t10000000\n" for number in range(1, 311))
        features = "".join(f"chr3\t{start}\t{start + 900}\n" for start in range(0, 990_000, 700))
        (folder / "genome.txt").write_text(genome, encoding="utf-8")
        (folder / "a.bed").write_text(features, encoding="utf-8")
        command = " ".join([shutil.which(name), *words])
        (made / "awk").write_text(f'#!/bin/sh\nexec {command} "$@"\n', encoding="utf-8")
        (made / "awk").chmod(0o755)
        found = wrote("histogram.sh -i a.bed -g genome.txt", folder, f"{made}:{self.ours}")
        self.assertEqual(found, (WHOLE_GENOME.encode(), "", 0))
        self.counts["awks"] += 1


class BothPrograms(BesideOriginal):
    """The block of MIGRATING.md that compares both programs, over files of each kind."""

    said = "{runs} runs of the block that compares both programs"

    def test_block_of_the_page(self):
        found = [textwrap.dedent(block) for block in BLOCK.findall(read("docs/MIGRATING.md"))]
        scripts = [block for block in found if block.startswith(BOTH)]
        self.assertTrue(scripts)
        for script in scripts:
            for kind in KINDS:
                with self.subTest(kind):
                    _, error, status = wrote(script, self.top / kind, f"{self.theirs}:{self.ours}")
                    self.assertEqual(status, 0, error)
                    self.counts["runs"] += 1


class OddNames(unittest.TestCase):
    def test_names_and_calls(self):
        """What safe.py tries of these scripts."""
        safe = Path(__file__).with_name("safe.py")
        ran = subprocess.run([safe, "recipes", SCRIPTS], capture_output=True, text=True, check=False)
        self.assertEqual(ran.returncode, 0, ran.stdout + ran.stderr)


class Rows(unittest.TestCase):
    scripts = {path.name for path in SCRIPTS.glob("*.sh")} - {"functions.sh"}

    def test_each_script_has_a_case(self):
        called = " ".join(recipe.ours for recipe in recipes())
        self.assertEqual([name for name in sorted(self.scripts) if name not in called], [])

    def test_each_script_has_a_need(self):
        self.assertEqual({script for script, _, _, _ in rows(NEEDS)}, self.scripts)
