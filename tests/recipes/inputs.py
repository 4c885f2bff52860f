"""The files that recipes are tried over, of each kind: records, alignments, genes, calls and sequences, at random."""

import gzip
import random
import re
import shutil
import subprocess
from pathlib import Path

LENGTHS = {"chr1": 3000, "chr10": 2000, "chr2": 1500}
KINDS = ("six columns", "CR LF", "no sign", "three columns", "twelve columns", "header lines")
# The kind whose chromosomes have another order than that of their bytes.
NATURAL = "natural order"
HEADER = "# made for a trial\nbrowser position chr1:1-3000\ntrack name=trial\n"


def blocks_of(dice, length):
    """The counts, lengths and starts of one to three blocks that begin and end with a feature."""
    if length < 12 or dice.random() < 0.3:
        return f"1\t{length},\t0,"
    first, last = dice.randint(1, length // 3), dice.randint(1, length // 3)
    if dice.random() < 0.5:
        return f"2\t{first},{last},\t0,{length - last},"
    return f"3\t{first},2,{last},\t0,{length // 2},{length - last},"


def record(dice, kind, chrom, start, name):
    """A record of a kind."""
    length = dice.randint(4, 90)
    if kind == "three columns":
        return f"{chrom}\t{start}\t{start + length}"
    strand = dice.choice("+-." if kind == "no sign" else "+-")
    six = f"{chrom}\t{start}\t{start + length}\t{name}\t{dice.randint(0, 1000)}\t{strand}"
    if kind == "twelve columns":
        return f"{six}\t{start}\t{start + length}\t0\t{blocks_of(dice, length)}"
    return six


def lengths(kind, times=1):
    """The chromosomes with their lengths, so many times as long, in the order of a kind."""
    names = sorted(LENGTHS, key=lambda name: int(name[3:])) if kind == NATURAL else LENGTHS
    return {name: LENGTHS[name] * times for name in names}


def records(dice, kind, name, count, places):
    """The lines of a file of a kind: sorted records, some of them twice, on each chromosome."""
    lines = []
    for chrom, length in places.items():
        starts = sorted(dice.randrange(length - 90) for _ in range(count))
        for number, start in enumerate(starts):
            lines.append(record(dice, kind, chrom, start, f"{name}{number % 7}"))
            if dice.random() < 0.1:
                lines.append(lines[-1])
    return lines


def text_of(kind, lines):
    """The text of a file of a kind."""
    end = "\r\n" if kind == "CR LF" else "\n"
    header = HEADER if kind == "header lines" else ""
    return header + "".join(line + end for line in lines)


def alignments(dice, count, places):
    """A SAM text, sorted: reads with introns, deletions, clips and tags, and some that aren't mapped."""
    cigars = ["30M", "10M12N8M", "12M5D9M", "4S20M", "9M2I9M", "6M3D6M20N7M1D5M", "10=2X8=", "5H10M"]
    lines = [f"@SQ\tSN:{chrom}\tLN:{length}" for chrom, length in places.items()]
    for chrom, length in places.items():
        for number, start in enumerate(sorted(dice.randrange(1, length - 90) for _ in range(count))):
            flag = dice.choice([0, 16, 99, 147, 83, 163, 256, 1040, 73, 512])
            cigar = dice.choice(cigars)
            bases = sum(int(size) for size, kind in re.findall(r"(\d+)(.)", cigar) if kind in "MIS=X")
            mate = f"=\t{start}\t0" if flag & 1 else "*\t0\t0"
            lines.append(f"r{number % 9}\t{flag}\t{chrom}\t{start}\t{dice.randint(0, 60)}\t{cigar}\t{mate}\t"
                         f"{'A' * bases}\t*\tNM:i:{dice.randint(0, 300)}\tAS:i:{dice.randint(0, 99)}")
    lines += ["p\t133\tchr2\t390\t0\t*\t=\t390\t0\tACGT\t*", "u\t4\t*\t0\t0\t*\t*\t0\t0\tACGT\t*"]
    return "".join(f"{line}\n" for line in lines)


def genes(dice, lines):
    """A GFF text of records' lines."""
    text = "##gff-version 3\n"
    for line in lines:
        chrom, start, end = line.split("\t")[:3]
        text += f"{chrom}\tmade\texon\t{int(start) + 1}\t{end}\t.\t{dice.choice('+-.')}\t.\tID={start}\n"
    return text


def calls(dice, lines):
    """A VCF text at records' places."""
    text = "##fileformat=VCFv4.2\n#CHROM\tPOS\tID\tREF\tALT\tQUAL\tFILTER\tINFO\n"
    for line in lines:
        chrom, start = line.split("\t")[:2]
        alleles = f"{dice.choice(['A', 'AC', 'ACGTA'])}\t{dice.choice(['G', 'T,C'])}"
        text += f"{chrom}\t{int(start) + 1}\t.\t{alleles}\t.\tPASS\t.\n"
    return text


def sequences(dice, times):
    """A FASTA text with a sequence for each chromosome."""
    text = ""
    for chrom, length in lengths("", times).items():
        bases = "".join(dice.choice("ACGTacgtN") for _ in range(length))
        text += f">{chrom}\n" + "".join(f"{bases[at:at + 60]}\n" for at in range(0, length, 60))
    return text


def fill(folder, kind, count=40, times=1):
    """Writes the files of a kind, with so many records on each chromosome, which are so many times as long."""
    dice, places = random.Random(kind), lengths(kind, times)

    def put(name, text):
        Path(folder, name).write_text(text, encoding="utf-8")
    for name in "abc":
        lines = records(dice, kind, name, count, places)
        put(f"{name}.bed", text_of(kind, lines))
        if name == "a":
            put("chr1.bed", text_of(kind, [line for line in lines if line.startswith("chr1\t")]))
            put("genes.gff", genes(dice, lines))
            put("calls.vcf", calls(dice, lines))
        Path(folder, f"{name}.bed.gz").write_bytes(gzip.compress(Path(folder, f"{name}.bed").read_bytes()))
    put("genome.txt", "".join(f"{name}\t{size}\n" for name, size in places.items()))
    put("sequences.fa", sequences(dice, times))
    put("reads.sam", alignments(dice, count * 3 // 2, places))
    if shutil.which("samtools"):
        for name, only in (("reads.bam", []), ("mapped.bam", ["-F", "4"])):
            subprocess.run(["samtools", "view", "-b", *only, "-o", name, "reads.sam"], cwd=folder, check=True)
