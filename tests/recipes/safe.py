#!/usr/bin/env python3
"""Tries names, cuts and links that may do harm on the scripts of an installation.

    tests/recipes/safe.py recipes FOLDER      each script of recipes/, in this folder
    tests/recipes/safe.py shards FOLDER       those of shards/
    tests/recipes/safe.py cut FILE..          each script, cut behind each of its lines

A recipe and a shard script has to write the same for a file of any name, as `a=b.bed`, which awk takes for an
assignment, or `-x.bed`, and to run nothing that stands in a name. A chromosome whose name leads out of the folder of
shards is refused before anything is made. A script that is cut, or doesn't find its functions, ends with an error and
writes nothing. The program is what BEDTOOLS names, or bin/bedtools of this repository. Ends with 1 where something
differs; what needs a tool that isn't here is passed over with a word.
"""

import functools
import os
import re
import shlex
import shutil
import subprocess
import sys
import tempfile
from pathlib import Path

TOP = Path(__file__).resolve().parents[2]
# What a file's name begins with, and what a chromosome's name may be. Each that is run leaves a file named hit.
NAMES = ("rep=1", "-x", "--help", "two words", "line\nfeed", " around ", "*", "[a-z]?", "$(touch hit)", "`touch hit`",
         ";touch hit", "|touch hit", "'quote'", '"quotes"',
         "back\\tslash", "~", "#number", "%s", "{brace}", "{{x}}", "&", "!", "é", "$HOME", "a,b")
# Lines that read the first file by a name of standard input, in whose place a pipe has another one.
BY_INPUT = ("a.bed intersect-F.sh -a INPUT -b b.bed -F 0.1 -v", "b.bed intersect-F.sh -a a.bed -b INPUT -F 0.1 -v",
            "a.bed intersect-opposite.sh -a INPUT -b b.bed",
            "a.bed intersect-files.sh -a INPUT -b b.bed c.bed -v",
            "a.bed intersect-files.sh -a INPUT -b b.bed c.bed -wa -wb",
            "b.bed intersect-files.sh -a a.bed -b INPUT c.bed -c",
            "a.bed merge-c.sh -i INPUT -c 4 -o distinct", "genome.txt genomecov-ends.sh -i a.bed -g INPUT -5 -bg",
            "genome.txt genomecov-split.sh -i a.bed -g INPUT -bg",
            "genome.txt by-genome.sh INPUT", "a.bed header.sh merge -i INPUT",
            "b.bed intersect-loj.sh -a a.bed -b INPUT -loj", "b.bed subtract-F.sh -a a.bed -b INPUT -F 0.5",
            "b.bed subtract-N.sh -a a.bed -b INPUT -f 0.3", "a.bed merge-s-c.sh -i INPUT", "a.bed with-strand.sh INPUT")
# Further cases: what cat is given, and what sed is given with variables of others.
FURTHER = ("intersect-files.sh -a a.bed -b b.bed -v", "intersect-F.sh -a a.bed -b b.bed -F 0.1 -wa -wb")
# Variables that others have for other things.
EXPORTED = {"POSIXLY_CORRECT": "1", "CDPATH": "/", "GLOBIGNORE": "*", "AWKPATH": "/nowhere",
            "BASHOPTS": "nocasematch:nullglob", "LC_ALL": "C.UTF-8", "IFS": "t",
            **dict.fromkeys(("folder", "file", "files", "name", "names", "words", "rule", "part", "path", "before",
                             "number", "opt_s", "opt_f", "TAB", "here"), "x")}
OUTSIDE = (".", "..", "../..", "../../out", "a/..", "a/../..", "a/./b", "/a", "a/", "a//b")
# The files that a case of recipes.tsv names.
FILE = re.compile(r"(?<![\w./-])(?:[abc]\.bed(?:\.gz)?|chr1\.bed|genome\.txt|reads\.bam|mapped\.bam|genes\.gff|"
                  r"calls\.vcf)(?![\w.])")
# Those that are words of a shard's command line.
FILE_OF_SHARDS = re.compile(r"[\w.]+\.(bed|fa|txt|sam|gz|index)")
SIZES = {"chr1": 3000, "chr2": 2000}
# Command lines whose inputs have parts by chromosome, and the files that index.sh is given for each.
SHARDED = (("merge -i a.bed.gz", "a.bed"), ("intersect -a a.bed.gz -b b.bed.gz -g genome.txt -wo", "a.bed b.bed"),
           ("complement -i a.bed.gz -g genome.txt", "a.bed"),
           ("maskfasta -fi s.fa -bed a.bed.gz", "a.bed s.fa"))


class Count:
    """Counts cases, and shows those that differ."""

    def __init__(self):
        self.cases = self.wrong = 0

    def expect(self, name, wanted, found):
        """One case."""
        self.cases += 1
        if wanted != found:
            self.wrong += 1
            print(f"{name}\n  wanted {wanted!r:.500}\n  found  {found!r:.500}")


def run(words, place, path=(), /, **more):
    """Runs words, and gives output, status and what was said."""
    env = {**os.environ, "PATH": os.pathsep.join([*map(str, path), os.environ["PATH"]]), **more}
    done = subprocess.run([*map(str, words)], cwd=place, env=env, stdin=subprocess.DEVNULL, stdout=subprocess.PIPE,
                          stderr=subprocess.PIPE, check=False)
    return done.stdout, done.returncode, done.stderr.decode(errors="replace")


def features(count, name, step):
    """BED records of six columns on each chromosome."""
    return "".join(f"{chrom}\t{step * n}\t{step * n + 40}\t{name}{n}\t0\t{'+-'[n % 2]}\n" for chrom in SIZES
                   for n in range(count))


def write_files(folder):
    """Writes each file that a case names, and gives their names."""
    texts = {"a.bed": "#made\n" + features(30, "a", 50), "b.bed": features(20, "b", 70), "c.bed": features(10, "c", 90),
             "chr1.bed": "".join(features(30, "a", 50).splitlines(True)[:30]),
             "genome.txt": "".join(f"{chrom}\t{size}\n" for chrom, size in SIZES.items()),
             "genes.gff": "".join(f"{chrom}\tx\texon\t{90 * n + 1}\t{90 * n + 50}\t.\t+\t.\tID={n}\n" for chrom in SIZES
                                  for n in range(9)),
             "calls.vcf": "".join(f"{chrom}\t{90 * n + 1}\t.\tA\tC\t.\tPASS\t.\n" for chrom in SIZES for n in range(9))}
    for name, text in texts.items():
        Path(folder, name).write_text(text, encoding="utf-8")
    for name in "abc":
        subprocess.run(["gzip", "-k", "-n", f"{name}.bed"], cwd=folder, check=True)
    if shutil.which("samtools"):
        reads = [f"@SQ\tSN:{chrom}\tLN:{size}\n" for chrom, size in SIZES.items()]
        reads += [f"r{n}\t{16 * (n % 2)}\t{chrom}\t{60 * n + 1}\t9\t20M5N20M\t*\t0\t0\t{'A' * 40}\t*\tNM:i:{n}\n"
                  for chrom in SIZES for n in range(30)]
        for name in ("reads.bam", "mapped.bam"):
            subprocess.run(["samtools", "view", "-b", "-o", name, "-"], cwd=folder, input="".join(reads).encode(),
                           check=True)
    return [path.name for path in Path(folder).iterdir()]


def cases_of(recipes):
    """For each script the first of its cases, and each case with GENOME."""
    seen, has_samtools = set(), shutil.which("samtools")
    for line in (TOP / "tests" / "recipes" / "recipes.tsv").read_text(encoding="utf-8").splitlines()[1:]:
        words = line.split("\t")[1]
        names = set(re.findall(r"[\w-]+\.sh", words))
        if not names or "bam" in words and not has_samtools:
            continue
        if names - seen or "GENOME=" in words or "-filenames" in words:
            seen |= names
            yield words
    yield from FURTHER
    for script in sorted(recipes.glob("*.sh")):
        if script.name not in seen | {"functions.sh"} and has_samtools:
            raise ValueError(f"no case of {script.name} in recipes.tsv")


def listed(folder):
    """The names of a folder's files."""
    return sorted(path.name for path in Path(folder).iterdir())


def try_names_of_recipes(recipes, top, count):
    """Each recipe writes the same of files with other names, and makes none."""
    folder = Path(top, "recipes")
    folder.mkdir()
    files = write_files(folder)
    for prefix in NAMES:
        for name in files:
            shutil.copy(folder / name, folder / f"{prefix}.{name}")
    for words in cases_of(recipes):
        before = listed(folder)
        wanted = run(["bash", "-o", "pipefail", "-c", words], folder, [recipes])[:2]
        count.expect(f"{words} writes something, and ends with 0", (True, 0), (wanted[0] != b"", wanted[1]))
        for prefix in NAMES:
            named = FILE.sub(lambda found, prefix=prefix: shlex.quote(f"{prefix}.{found[0]}"),
                             words.replace('^browser" ', '^browser" -- '))
            output, status, said = run(["bash", "-o", "pipefail", "-c", named], folder, [recipes])
            # A line has no place for such a name, and a further word of -b that begins so is an option.
            if "-filenames" in words and "\n" in prefix or "b.bed c.bed" in words and prefix.startswith("-"):
                count.expect(f"{named}", (b"", 2), (output, status))
                continue
            if "-filenames" in words:
                output = re.sub(re.escape(prefix.encode()) + rb"\.(?=[abc]\.bed)", b"", output)
            count.expect(f"{named}\n  {said.strip()}", wanted, (output, status))
            if "hit" in (after := listed(folder)) or after != before:
                count.expect(f"what {named} leaves", before, after)
                (folder / "hit").unlink(missing_ok=True)


def try_inputs_of_recipes(recipes, top, count):
    """Standard input by any of its names gives the same as the file, or status 2; and no exported variable gives
    another answer."""
    folder = Path(top, "inputs")
    folder.mkdir()
    write_files(folder)
    shutil.copy(folder / "c.bed", folder / "-")
    for line in BY_INPUT:
        file, words = line.split(" ", 1)
        wanted = run(["bash", "-c", words.replace("INPUT", file) + (" < a.bed" if words.startswith("by-") else "")],
                     folder, [recipes])[:2]
        count.expect(f"{line} writes something", (True, 0), (wanted[0] != b"", wanted[1]))
        for name in ("-", "/dev/stdin", "/dev/fd/0", "/proc/self/fd/0"):
            output, status, said = run(["bash", "-c", f"{words.replace('INPUT', name)} < {file}"], folder, [recipes])
            count.expect(f"{line}, by {name}: {said}", True, (output, status) in (wanted, (b"", 2)))
    for words in cases_of(recipes):
        plain, odd = (run(["bash", "-o", "pipefail", "-c", words], folder, [recipes], **more)[:2]
                      for more in ({}, EXPORTED))
        count.expect(f"{words} with exported variables", plain, odd)


def try_folders_of_recipes(recipes, top, count):
    """A folder in TMPDIR with any name is used and removed, also if a signal ends all just when it is made."""
    folder, fakes = Path(top, "folders"), Path(top, "fakes")
    folder.mkdir()
    fakes.mkdir()
    write_files(folder)
    for name in ("mkdir", "mktemp"):
        (fakes / name).write_text(f"#!/bin/sh\n{shutil.which(name)} \"$@\"\n"
                                  "trap '' TERM HUP\nkill -s \"$SENT\" 0\nsleep 0.1\n", encoding="utf-8")
        (fakes / name).chmod(0o755)
    words = ["setsid", "--wait", recipes / "intersect-F.sh", "-a", "a.bed", "-b", "b.bed", "-F", "0.1", "-c"]
    wanted = run(words, folder)
    count.expect("intersect-F.sh finds hits", (True, 0, ""), (b"\t1\n" in wanted[0], *wanted[1:]))
    for name in ("two words", "-x", "line\nfeed", "back\\tslash", "*", "a=b", "$(touch hit)"):
        (folder / name).mkdir()
        count.expect(f"TMPDIR={name}", (wanted, []), (run(words, folder, TMPDIR=name), listed(folder / name)))
        for sent in ("TERM", "HUP"):
            output, status, _ = run(words, folder, [fakes], TMPDIR=name, SENT=sent)
            count.expect(f"TMPDIR={name}, after {sent}", (b"", True, []), (output, status != 0, listed(folder / name)))
    output, status, _ = run(words, folder, TMPDIR="nowhere")
    count.expect("TMPDIR=nowhere", (b"", True), (output, status != 0))


def try_lost_files_of_recipes(recipes, top, count):
    """A file of a run that is lost before it is read ends the script with an error, and isn't taken for no hits."""
    folder, fakes = Path(top, "lost"), Path(top, "losing")
    folder.mkdir()
    fakes.mkdir()
    write_files(folder)
    (fakes / "awk").write_text("#!/bin/sh\ncase $* in *getline*) rm -f \"$folder/hits\" \"$folder/bases\" ;; esac\n"
                               f"exec {shutil.which('awk')} \"$@\"\n", encoding="utf-8")
    (fakes / "awk").chmod(0o755)
    for words in ("intersect-F.sh -a a.bed -b b.bed -F 0.1 -v", "intersect-F.sh -a a.bed -b b.bed -F 0.1 -c",
                  "intersect-split.sh -a a.bed -b b.bed -v", "subtract-N.sh -a a.bed -b b.bed -f 0.3",
                  "intersect-bam.sh -a reads.bam -b b.bed -v"):
        if "bam" in words and not shutil.which("samtools"):
            continue
        script, *rest = words.split()
        wanted = run([recipes / script, *rest], folder)
        count.expect(f"{words} writes something", (True, 0), (wanted[0] != b"", wanted[1]))
        output, status, said = run([recipes / script, *rest], folder, [fakes])
        count.expect(f"{words}, where a file of the run is lost: {said}", (b"", True, True),
                     (output, status in (1, 2), "unreadable file of this run" in said))


def try_fractions_of_recipes(recipes, top, count):
    """A fraction that is no number is refused, and not compared as text."""
    folder = Path(top, "fractions")
    folder.mkdir()
    write_files(folder)
    for words in ("intersect-F.sh -F 0.1 -f", "intersect-F.sh -F", "subtract-F.sh -F 0.5 -e -f", "subtract-F.sh -F",
                  "subtract-N.sh -f", "intersect-opposite.sh -f", "intersect-loj.sh -loj -f",
                  "intersect-files.sh -v -f", "intersect-bam.sh -f"):
        script, *rest = words.split()
        for value in ("0,5", "x", "", ".", "-1", "0x1", "1e-9", "0.5.1", " 0.5", "0.5\n", "nan", "inf", "-"):
            output, status, said = run([recipes / script, "-a", "a.bed", "-b", "b.bed", *rest, value], folder)
            count.expect(f"{words} {value!r}: {said}", (b"", 2, f"{script}: {rest[-1]} is no number: {value}\n"),
                         (output, status, said))
        for value in ("0.5", "0", "1", ".5", "1.", "00.50"):
            if "bam" not in script:
                _, status, said = run([recipes / script, "-a", "a.bed", "-b", "b.bed", *rest, value], folder)
                count.expect(f"{words} {value}", (0, ""), (status, said))


def try_calls_of_recipes(recipes, top, count):
    """A recipe finds its functions by its own folder, whoever calls it and through a link, and fails without them."""
    folder, alone, links = (Path(top, name) for name in ("calls", "alone", "links"))
    for made in (folder, alone, links):
        made.mkdir()
    write_files(folder)
    # What a script would write into a folder that it hasn't made goes into `alone`, and not into that of the system.
    trap = "touch hit; exit 0\n"
    Path(folder, "functions.sh").write_text(trap, encoding="utf-8")
    Path(links, "functions.sh").write_text(trap, encoding="utf-8")
    for script in sorted(recipes.glob("*.sh")):
        if script.name == "functions.sh":
            continue
        shutil.copy(script, alone)
        (links / script.name).symlink_to(script)
        first = script.read_text(encoding="utf-8").splitlines()[3][2:] + "\n"
        for words, place, path in (([script], folder, []), (["bash", script.name], folder, [recipes]),
                                   (["bash", script.name], recipes, []), ([script.name], folder, [recipes]),
                                   ([links / script.name], folder, []), ([script.name], folder, [links]),
                                   ([f"../links/{script.name}"], folder, [])):
            _, status, said = run(words, place, path, folder=str(alone))
            count.expect(f"{' '.join(map(str, words))}, in {place.name}", (2, True), (status, said.startswith(first)))
        for words, place in (([alone / script.name], folder), (["bash", script.name], alone),
                             ([f"./{script.name}"], alone)):
            before = listed(alone)
            output, status, _ = run([*words, "-i", "a.bed", "-a", "a.bed", "-b", "b.bed", "-g", "genome.txt"], place,
                                    folder=str(alone))
            count.expect(f"{' '.join(map(str, words))} without its functions", (b"", 2, before),
                         (output, status, listed(alone)))
    count.expect("what was run or left beside them", (False, ["functions.sh"]),
                 ((folder / "hit").exists(), [name for name in listed(links) if name not in listed(alone)]))
    # Functions that were cut, which no script takes.
    text = (recipes / "functions.sh").read_text(encoding="utf-8").splitlines(True)
    for number in range(len(text)):
        (alone / "functions.sh").write_text("".join(text[:number]), encoding="utf-8")
        output, status, _ = run([alone / "header.sh", "merge", "-i", "a.bed"], folder)
        count.expect(f"functions.sh, cut behind line {number}", (b"", 2), (output, status))


def try_cuts(scripts, top, count):
    """A script that was cut behind any line of its group ends with an error, and writes nothing."""
    folder = Path(top, "cuts")
    folder.mkdir()
    write_files(folder)
    for script in scripts:
        lines = script.read_text(encoding="utf-8").splitlines(True)
        begun = next(number for number, line in enumerate(lines, 1) if line.startswith("{"))
        count.expect(f"the group of {script.name} begins late, or something is run behind it",
                     (True, ["exit\n", "}\n"]), (begun <= 3, lines[-2:]))
        for number in range(begun, len(lines)):
            made = folder / script.name
            made.write_text("".join(lines[:number]), encoding="utf-8")
            made.chmod(0o755)
            output, status, said = run([made, "merge", "-i", "a.bed"], folder)
            count.expect(f"{script.name}, cut behind line {number}", (b"", True, True),
                         (output, status != 0, re.search("unexpected|[Uu]nterminated", said) is not None))


def with_prefix(prefix, words):
    """The words of a shard's command line, in which files have other names."""
    return [f"{prefix}.{word}" if FILE_OF_SHARDS.fullmatch(word) else word for word in words.split()]


def try_files_of_shards(shards, top, count):
    """The shard scripts do the same with files of other names."""
    folder = Path(top, "files")
    folder.mkdir()
    files = {name: Path(top, "plain", name) for name in ("a.bed", "b.bed", "genome.txt", "s.fa", "reads.sam")}
    for prefix in NAMES:
        for name, path in files.items():
            shutil.copy(path, folder / f"{prefix}.{name}")
        named = functools.partial(with_prefix, prefix)
        for words, indexed in SHARDED:
            done = run([shards / "index.sh", *named(indexed)], folder)
            count.expect(f"index.sh {named(indexed)}", (b"", 0, ""), done)
            genome = "s.fa.index" if "s.fa" in words else "genome.txt"
            output, status, said = run([shards / "names.sh", *named(f"{genome} a.bed.gz")], folder)
            count.expect(f"names.sh {named(genome)}: {said}", ("".join(f"{name}\n" for name in SIZES).encode(), 0),
                         (output, status))
            for name in SIZES:
                wanted = run([shards / "shard.sh", name, *words.split()], Path(top, "plain"))
                count.expect(f"shard.sh {name} {words} writes something", (True, 0), (wanted[0] != b"", wanted[1]))
                found = run([shards / "shard.sh", name, *named(words)], folder)
                count.expect(f"shard.sh {name} {named(words)}", wanted, found)
                if prefix == NAMES[0]:
                    found = run([shards / "shard.sh", name, *named(words)], folder, **EXPORTED)
                    count.expect(f"shard.sh {name} {named(words)} with exported variables", wanted, found)
        wanted = run([shards / "shard.sh", "1/2", "bamtobed", "-i", "reads.sam"], Path(top, "plain"))
        count.expect(f"shard.sh 1/2 bamtobed of {prefix}", wanted,
                     run([shards / "shard.sh", "1/2", *named("bamtobed -i reads.sam")], folder))
    count.expect("what was run", False, any("hit" in name and "touch" not in name for name in listed(folder)))


def try_links_of_shards(shards, top, count):
    """What another user has put where a script writes is removed, and not written to; an input is no part of its
    own."""
    folder, victim = Path(top, "links", "in"), Path(top, "links", "victim")
    (folder / "shards" / "chr1").mkdir(parents=True)
    for name in ("a.bed", "s.fa", "reads.sam", "genome.txt"):
        shutil.copy(Path(top, "plain", name), folder)
    victim.write_text("victim", encoding="utf-8")
    for name in ("a.bed.part.gz", "a.bed.part.gz.tbi", "a.bed.gz", "a.bed.gz.tbi", "s.fa.part", "s.fa.index",
                 "shards/chr1/a.bed", "shards/chr1/s.fa", "shards/chr1/genome.txt"):
        (folder / name).symlink_to(victim)
    count.expect("index.sh where links are", (b"", 0, ""), run([shards / "index.sh", "a.bed", "s.fa"], folder))
    for words in ("merge -i a.bed.gz", "maskfasta -fi s.fa -bed a.bed.gz", "complement -i a.bed.gz -g genome.txt"):
        words = ["shard.sh", "chr1", *words.split()]
        found = run([shards / words[0], *words[1:]], folder)
        count.expect(f"{words} where links are", run([shards / words[0], *words[1:]], Path(top, "plain")), found)
    (folder / "a.bed.gz").unlink()
    (folder / "a.bed.gz").mkdir()
    count.expect("index.sh where a folder is", (b"", 1, []),
                 (*run([shards / "index.sh", "a.bed"], folder)[:2], listed(folder / "a.bed.gz")))
    (folder.parent / "other").mkdir()
    (folder / "shards" / "chr2").symlink_to("../../other")
    (folder / "shards" / "1").symlink_to("../../other")
    shutil.copy(Path(top, "plain", "a.bed.gz"), folder / "whole.bed.gz")
    shutil.copy(Path(top, "plain", "a.bed.gz.tbi"), folder / "whole.bed.gz.tbi")
    for words in ("chr2 merge -i whole.bed.gz", "1/2 bamtobed -i reads.sam"):
        output, status, said = run([shards / "shard.sh", *words.split()], folder)
        count.expect(f"shard.sh {words} behind a link: {said}", (b"", 1, True),
                     (output, status, "a link leads out of the folder shards" in said))
    (folder / "shards" / "1").unlink()
    (folder / "shards" / "1" / "2").mkdir(parents=True)
    part = Path(shutil.copy(folder / "reads.sam", folder / "shards" / "1" / "2"))
    count.expect("an input where its part would be", (b"", 1),
                 run([shards / "shard.sh", "1/2", "bamtobed", "-i", part.relative_to(folder)], folder)[:2])
    count.expect("what others have", (b"victim", [], part.read_bytes()),
                 (victim.read_bytes(), [name for name in listed(folder.parent / "other") if name != "2"],
                  (folder / "reads.sam").read_bytes()))


def try_links_of_snakemake(shards, top, count):
    """The Snakefile's jobs write through no link: a shard's folder is refused, and a log replaced."""
    if not shutil.which("snakemake"):
        print("no snakemake: links were passed over")
        return
    for number, link in enumerate(("shards/chr2", "logs/chr1.txt")):
        folder, other = Path(top, f"snake{number}"), Path(top, f"snake{number} other")
        shutil.copytree(shards, folder)
        other.mkdir()
        (other / "victim").write_text("victim", encoding="utf-8")
        shutil.copy(Path(top, "plain", "a.bed"), folder)
        (folder / link).parent.mkdir()
        is_folder = "shards" in link
        (folder / link).symlink_to(other if is_folder else other / "victim")
        _, status, said = run(["snakemake", "--cores", "2", "--quiet", "--config", "command=merge -i a.bed",
                               "output=made.bed"], folder)
        count.expect(f"Snakemake, where {link} is a link: {said[-500:]}",
                     (is_folder, is_folder, not is_folder, ["victim"], "victim"),
                     (status != 0, f"a link leads out of the folder shards: {link}" in said,
                      (folder / "made.bed").exists(), listed(other), (other / "victim").read_text(encoding="utf-8")))


def try_chromosomes_outside(shards, top, count):
    """The shard scripts refuse the names of chromosomes that lead elsewhere."""
    for place in OUTSIDE:
        folder = Path(top, "outside", "in", "it")
        shutil.rmtree(Path(top, "outside"), ignore_errors=True)
        folder.mkdir(parents=True)
        text = f"{place}\t1\t5\te\nchr1\t2\t6\n"
        (folder / "a.bed").write_text(text, encoding="utf-8")
        (folder / "g.txt").write_text(f"chr1\t90\n{place}\t90\n", encoding="utf-8")
        (folder / "s.fa").write_text(f">chr1\nACGT\n>{place}\nACGT\n", encoding="utf-8")
        shutil.copy(Path(top, "plain", "a.bed.gz"), folder / "whole.bed.gz")
        shutil.copy(Path(top, "plain", "a.bed.gz.tbi"), folder / "whole.bed.gz.tbi")
        before = sorted(Path(top, "outside").rglob("*"))
        for words in (["index.sh", "a.bed"], ["index.sh", "s.fa"], ["names.sh", "g.txt"],
                      ["shard.sh", place, "merge", "-i", "whole.bed.gz"]):
            output, status, said = run([shards / words[0], *words[1:]], folder)
            count.expect(f"{words} with {place}: {said}", (b"", 1, True),
                         (output, status, "no folder can be named so" in said))
        count.expect(f"what is left of {place}", (before, text),
                     (sorted(Path(top, "outside").rglob("*")), (folder / "a.bed").read_text(encoding="utf-8")))


def try_regions(shards, top, count):
    """The shard scripts refuse a name in which tabix reads a region: in the first the chromosome a, from its first base
    to its second."""
    folder = Path(top, "regions")
    folder.mkdir()
    (folder / "a.bed").write_text("".join(f"{name}\t{n}\t{n + 5}\n" for name in ("a", "a}:1-2", "b}c}:1")
                                          for n in (1, 30)), encoding="utf-8")
    run([shards / "index.sh", "a.bed"], folder)
    for words in (["names.sh", "a.bed.gz"], ["shard.sh", "a}:1-2", "merge", "-i", "a.bed.gz"]):
        output, status, said = run([shards / words[0], *words[1:]], folder)
        count.expect(f"{words} with a region in a name: {said}", (b"", 1, True),
                     (output, status, "tabix reads a region in this name: a}:1-2" in said))
    count.expect("shard.sh of a name that has no region", (b"b}c}:1\t1\t6\nb}c}:1\t30\t35\n", 0),
                 run([shards / "shard.sh", "b}c}:1", "merge", "-i", "a.bed.gz"], folder)[:2])


def try_odd_chromosomes(shards, top, count):
    """The shard scripts and the Snakefile with chromosomes of other names."""
    odd = sorted({name for name in NAMES if "\n" not in name and not name.startswith("#")} | {"a/b", "chr1"},
                 key=str.encode)
    folder = Path(top, "odd")
    shutil.copytree(shards, folder)
    (folder / "a.bed").write_text("".join(f"{name}\t{n}\t{n + 5}\n" for name in odd for n in (1, 3, 20)),
                                  encoding="utf-8")
    (folder / "genome.txt").write_text("".join(f"{name}\t90\n" for name in odd), encoding="utf-8")
    for words in ("merge -i a.bed", "complement -i a.bed -g genome.txt"):
        wanted = run(["dunekettle-bedtools", *words.split()], folder)[0]
        run(["./index.sh", "a.bed"], folder)
        names = run(["./names.sh", "genome.txt", "a.bed.gz"], folder)[0].decode().splitlines()
        count.expect("the names of chromosomes", odd, names)
        found = b"".join(run(["./shard.sh", name, *words.replace(".bed", ".bed.gz").split()], folder)[0]
                         for name in names)
        count.expect(f"{words} by shards of odd names", wanted, found)
        if shutil.which("snakemake"):
            shutil.rmtree(folder / "shards")
            done = run(["snakemake", "--cores", "2", "--quiet", "--config", f"command={words}", "output=made.bed"],
                       folder)
            made = folder / "made.bed"
            count.expect(f"{words} by Snakemake with odd names: {done[2][-500:]}", (0, wanted),
                         (done[1], made.read_bytes() if made.exists() else None))
            made.unlink(missing_ok=True)
        else:
            print("no snakemake: passed over")
    count.expect("what was run", False, (folder / "hit").exists())


def try_shards(shards, top, count):
    """The scripts of shards: their names, and what they are cut to."""
    if not shutil.which("tabix") or not shutil.which("bgzip"):
        print("no tabix and bgzip: shards were passed over")
        return
    folder = Path(top, "plain")
    folder.mkdir()
    write_files(folder)
    (folder / "s.fa").write_text("".join(f">{name}\n{'ACGT' * (size // 4)}\n" for name, size in SIZES.items()),
                                 encoding="utf-8")
    (folder / "reads.sam").write_text("".join(f"r{n}\t0\tchr1\t{n + 1}\t9\t4M\t*\t0\t0\tACGT\t*\n" for n in range(20)),
                                      encoding="utf-8")
    count.expect("index.sh", (b"", 0, ""), run([shards / "index.sh", "a.bed", "b.bed", "s.fa"], folder))
    try_files_of_shards(shards, top, count)
    try_links_of_shards(shards, top, count)
    try_links_of_snakemake(shards, top, count)
    try_chromosomes_outside(shards, top, count)
    try_regions(shards, top, count)
    try_odd_chromosomes(shards, top, count)


def main():
    what, *places = sys.argv[1:]
    count = Count()
    places = [Path(place).resolve() for place in places]
    with tempfile.TemporaryDirectory() as top:
        Path(top, "bin").mkdir()
        program = Path(os.environ.pop("BEDTOOLS", TOP / "bin" / "bedtools"))
        Path(top, "bin", "dunekettle-bedtools").symlink_to(program.resolve())
        os.environ["PATH"] = os.pathsep.join([f"{top}/bin", os.environ["PATH"]])
        if what == "recipes":
            try_names_of_recipes(places[0], top, count)
            try_calls_of_recipes(places[0], top, count)
            try_inputs_of_recipes(places[0], top, count)
            try_folders_of_recipes(places[0], top, count)
            try_lost_files_of_recipes(places[0], top, count)
            try_fractions_of_recipes(places[0], top, count)
        elif what == "shards":
            try_shards(places[0], top, count)
        elif what == "cut":
            try_cuts(places, top, count)
        else:
            raise SystemExit(__doc__)
    print(f"{what}: {count.cases} cases of names, calls and cuts, {count.wrong} of them differ")
    return 1 if count.wrong else 0


if __name__ == "__main__":
    sys.exit(main())
