"""What the trials of SHARDS.md share: inputs of 25 chromosomes, the blocks of the page, and runs of them."""

import atexit
import functools
import os
import random
import re
import shutil
import subprocess
import tempfile
import time
from pathlib import Path

from tests.support import PROGRAM, TOP

PAGE = TOP / "docs" / "SHARDS.md"
FILES = TOP / "shards"
CHROMOSOMES = [f"chr{name}" for name in [*range(1, 23), "X", "Y", "M"]]
LENGTHS = {name: 6000 - 200 * number for number, name in enumerate(CHROMOSOMES)}
# One chromosome has no record at all, and two have records of one input alone.
EMPTY, ONLY_A, ONLY_B = "chr5", "chr7", "chr9"
HEADER = "# made for a trial\nbrowser position chr1:1-3000\ntrack name=trial\n\n"
KINDS = ("three columns", "six columns", "twelve columns", "CR LF", "header lines")
# The command line of the page's recipes, which is exchanged for each of the others.
WORDS = "intersect -a a.bed -b b.bed -g genome.txt -wo"
SEQUENCES, ALIGNMENTS = "maskfasta -fi sequences.fa -bed a.bed", "bamtobed -i reads.sam"


def record(dice, kind, chrom, start, name):
    """A record of a kind."""
    end = start + dice.randint(1, 120)
    if kind == "three columns":
        return f"{chrom}\t{start}\t{end}"
    six = f"{chrom}\t{start}\t{end}\t{name}\t{dice.randint(0, 1000)}\t{dice.choice('+-.')}"
    return f"{six}\t{start}\t{end}\t0\t1\t{end - start},\t0," if kind == "twelve columns" else six


def records(dice, kind, name, chromosomes):
    """The text of a file of a kind: sorted records on these chromosomes, but for those that it has none on."""
    without = {EMPTY, ONLY_B if name == "a" else ONLY_A}
    end = "\r\n" if kind == "CR LF" else "\n"
    lines = []
    for chrom in chromosomes:
        count = 0 if chrom in without else dice.randint(1, 60)
        starts = sorted(dice.randrange(LENGTHS[chrom]) for _ in range(count))
        lines += [record(dice, kind, chrom, start, f"{name}{number}") + end for number, start in enumerate(starts)]
    if kind == "header lines":
        lines.insert(len(lines) // 2, HEADER)
        lines.insert(0, HEADER)
    return "".join(lines)


def alignments(dice):
    """A SAM text with header lines, in no order, with reads that aren't mapped and lines that end with CR LF."""
    lines = [f"@SQ\tSN:{name}\tLN:{length}" for name, length in LENGTHS.items()]
    for number in range(500):
        flag, cigar = dice.choice([0, 16, 99, 147, 4]), dice.choice(["30M", "10M12N8M", "12M5D9M", "4S20M", "*"])
        place = f"{dice.choice(CHROMOSOMES)}\t{dice.randint(1, 3000)}\t{dice.randint(0, 60)}"
        lines.append(f"r{number}\t{flag}\t{place}\t{cigar}\t*\t0\t0\tACGT\t*\tNM:i:{number}"
                     + ("\r" if number % 5 == 0 else ""))
    return "".join(f"{line}\n" for line in lines)


def sequences(dice, kind):
    """A FASTA text with a sequence for each chromosome, whose lines have other lengths in each, and a blank line."""
    end = "\r\n" if kind == "CR LF" else "\n"
    text = ""
    for number, (chrom, length) in enumerate(LENGTHS.items()):
        bases = "".join(dice.choice("ACGTacgtN") for _ in range(length))
        width = 50 + number
        text += f">{chrom} number {number}{end}"
        text += "".join(f"{bases[at:at + width]}{end}" for at in range(0, length, width)) + (end if number == 3 else "")
    return text


def fill(folder, kind, chromosomes=tuple(CHROMOSOMES)):
    """Makes a folder with inputs of a kind, and the scripts of the page."""
    dice = random.Random(kind)
    shutil.copytree(FILES, folder)
    for name in "ab":
        Path(folder, f"{name}.bed").write_text(records(dice, kind, name, chromosomes), encoding="utf-8", newline="")
    genome = "# made for a trial\n" + "".join(f"{name}\t{LENGTHS[name]}\tmore\n" for name in chromosomes)
    Path(folder, "genome.txt").write_text(genome, encoding="utf-8")
    Path(folder, "sequences.fa").write_text(sequences(dice, kind), encoding="utf-8", newline="")
    Path(folder, "reads.sam").write_text(alignments(dice), encoding="utf-8", newline="")


@functools.cache
def names():
    """A folder with the program under the name that it is installed by, and with an original that fails."""
    folder = tempfile.mkdtemp()
    atexit.register(shutil.rmtree, folder)
    os.symlink(PROGRAM, f"{folder}/dunekettle-bedtools")
    os.symlink("/bin/false", f"{folder}/bedtools")
    return folder


def run(script, folder, more=None):
    """Runs a script by bash as the page says, with the program first on PATH under the name that it is installed by."""
    environment = {**os.environ, "PATH": f"{names()}:{os.environ['PATH']}", "HOME": str(folder), **(more or {})}
    environment.pop("BEDTOOLS", None)
    return subprocess.run(["bash", "-euo", "pipefail", "-c", script], cwd=folder, env=environment,
                          stdin=subprocess.DEVNULL, capture_output=True, text=True, check=False)


def blocks():
    """The page's indented blocks, by their first lines' comments."""
    text = PAGE.read_text(encoding="utf-8")
    found = re.findall(r"^    (?:#!/bin/bash\n    )?# (.*)\n((?:^    .*\n)*)", text, re.MULTILINE)
    return {name: re.sub(r"^    ", "", script, flags=re.MULTILINE) for name, script in found}


def block(name):
    """The block of the page whose comment begins so."""
    return next(script for comment, script in blocks().items() if comment.startswith(name))


def exchanged(script, old, new):
    """A script of the page for another command line than its own."""
    beds, fasta = re.findall(r"\S+\.bed\b", new), re.findall(r"\S+\.fa\b", new)
    named = re.findall(r"\S+\.txt\b", new) + [f"{file}.index" for file in fasta] + [f"{bed}.gz" for bed in beds]
    script = re.sub(r"(?m)^\./index\.sh .*$", f"./index.sh {' '.join(beds + fasta)}", script)
    script = re.sub(r"(?m)^\./names\.sh .* >", f"./names.sh {' '.join(named)} >", script)
    for pattern in (r"(\.bed)\b", r"(\.bed)"):
        by_index = re.sub(pattern, r"\1.gz", old)
        if by_index in script:
            return script.replace(by_index, re.sub(r"(\.bed)\b", r"\1.gz", new))
    if old not in script:
        raise ValueError(f"no {old} in {script}")
    return script.replace(old, new)


def whole(words, folder):
    """What the whole run writes."""
    return subprocess.run([PROGRAM, *words.split()], cwd=folder, stdin=subprocess.DEVNULL, capture_output=True,
                          check=False)


def clean(folder, output):
    """Takes away what a recipe has made."""
    for name in ("shards", "logs", ".snakemake"):
        shutil.rmtree(Path(folder, name), ignore_errors=True)
    Path(folder, output).unlink(missing_ok=True)


def folder_of(top, kind, chromosomes=tuple(CHROMOSOMES)):
    """The folder with the files of a kind, which is made where it isn't there."""
    folder = Path(top, f"{kind} {len(chromosomes)} {chromosomes[1]}".replace(" ", "-"))
    if not folder.exists():
        fill(folder, kind, chromosomes)
    return folder


def recipe(words):
    """GNU parallel's recipe of the page for a command line."""
    for name, old in (("Alignments", ALIGNMENTS), ("Sequences", SEQUENCES)):
        if words.split()[0] == old.split()[0]:
            return exchanged(block(name), old, words)
    return exchanged(block("One machine"), WORDS, words)


def wait_until(is_so, seconds=20):
    """Waits until something is so, and answers whether it is."""
    end = time.monotonic() + seconds
    while not is_so():
        if time.monotonic() > end:
            return False
        time.sleep(0.2)
    return True
