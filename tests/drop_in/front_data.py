"""The files of the pipelines that front.py runs: peaks, genes, reads, repeats and others, at random places."""

import gzip
import random
import re
import subprocess
from pathlib import Path
from typing import NamedTuple

# A genome of a thousand million bases, about that of a chicken. Its annotation and its repeats are as many as a chicken
# has; reads and fragments are fewer, so that a trial ends.
SIZES = {"chr1": 130_000_000, "chr2": 120_000_000, "chr3": 110_000_000, "chr4": 105_000_000, "chr5": 100_000_000,
         "chr6": 95_000_000, "chr10": 90_000_000, "chr11": 85_000_000, "chr12": 80_000_000, "chrX": 85_000_000}
SMALL = {"chr1": 120_000, "chr10": 60_000, "chr2": 90_000}
# What reads have their bases and qualities of.
BASES, QUALITIES = ("".join(random.Random(5).choices(letters, k=1_000_000)) for letters in ("ACGT", "FFFFFFFF:,#"))


def write(folder, name, rows):
    """A file of tab-separated rows."""
    text = "".join("\t".join(map(str, row)) + "\n" for row in rows)
    Path(folder, name).write_text(text, encoding="utf-8")


def by_bytes(rows):
    """Rows in the order of the bytes of their names, then of their starts."""
    return sorted(rows, key=lambda row: (row[0], row[1]))


class Place(NamedTuple):
    """A feature at a random place, and its number."""

    number: int
    name: str
    start: int
    end: int
    strand: str

    def bed(self, *more):
        """Its row with further columns."""
        return [self.name, self.start, self.end, *more]


class Transcript(NamedTuple):
    """The exons of a transcript, with the gene's row and the transcript's name."""

    gene: Place
    name: str
    parts: list

    def bed12(self):
        """Its row of twelve columns."""
        start, end = self.gene.start, self.parts[-1][1]
        sizes = "".join(f"{high - low}," for low, high in self.parts)
        starts = "".join(f"{low - start}," for low, _ in self.parts)
        return [self.gene.name, start, end, self.name, 0, self.gene.strand, start, end, "0", len(self.parts), sizes,
                starts]

    def gtf(self):
        """Its lines of GTF."""
        gene, end = self.gene, self.parts[-1][1]
        tail = f'.\t{gene.strand}\t.\tgene_id "gene{gene.number}";'
        yield f"{gene.name}\ttrial\ttranscript\t{gene.start + 1}\t{end}\t{tail}"
        for low, high in self.parts:
            yield f"{gene.name}\ttrial\texon\t{low + 1}\t{high}\t{tail}"


class Read(NamedTuple):
    """A read of a BAM file."""

    name: str
    start: int
    cigar: str
    strand: str


def spread(draw, count, shortest, longest):
    """Features at random places."""
    chromosomes = list(SIZES)
    for number in range(count):
        chromosome = chromosomes[int(draw.random() * len(chromosomes))]
        length = shortest + int(draw.random() * (longest - shortest))
        start = int(draw.random() * (SIZES[chromosome] - length))
        yield Place(number, chromosome, start, start + length, "+-"[draw.random() < 0.5])


def splicings(draw, start, end):
    """The exons of the transcripts of a gene: the first has all, the others lack some behind the first exon."""
    parts, at = [], start
    while at + 150 < end:
        parts.append((at, min(at + draw.randrange(80, 400), end)))
        at = parts[-1][1] + draw.randrange(300, 6000)
    yield parts
    for _ in range(draw.randrange(4)):
        yield [part for number, part in enumerate(parts) if not number or draw.random() < 0.8]


def peak(draw, sample, place):
    """A row of narrowPeak."""
    score, signal = draw.randrange(1000), round(draw.random() * 20, 3)
    return place.bed(f"sample{sample}", score, ".", signal, -1, -1, (place.end - place.start) // 2)


def make_features(folder, draw):
    """Peaks, genes, their exons and transcripts, a blacklist, and windows in no order. Returns the transcripts."""
    for sample in range(1, 9):
        rows = by_bytes(peak(draw, sample, place) for place in spread(draw, 80_000, 100, 800))
        write(folder, f"peaks_{sample}.narrowPeak", rows)
    peaks = Path(folder, "peaks_1.narrowPeak").read_bytes()
    subprocess.run(["gzip", "-c"], input=peaks, stdout=Path(folder, "peaks.bed.gz").open("wb"), check=True)
    write(folder, "blacklist.bed", by_bytes(place.bed() for place in spread(draw, 300, 500, 5000)))
    genes = list(spread(draw, 30_000, 2_000, 40_000))
    write(folder, "genes.bed", by_bytes(gene.bed(f"gene{gene.number}", 0, gene.strand) for gene in genes))
    transcripts = [Transcript(gene, f"tx{gene.number}.{number}", parts) for gene in genes
                   for number, parts in enumerate(splicings(draw, gene.start, gene.end))]
    exons = ([gene.name, low, high, f"gene{gene.number}", 0, gene.strand] for gene, _, parts in transcripts
             for low, high in parts)
    write(folder, "exons.bed", by_bytes(exons))
    write(folder, "transcripts.bed12", by_bytes(transcript.bed12() for transcript in transcripts))
    lines = ["##description: genes of a trial", *(line for transcript in transcripts for line in transcript.gtf())]
    Path(folder, "genes.gtf").write_text("\n".join(lines) + "\n", encoding="utf-8")
    write(folder, "unsorted.bed", [place.bed(f"window{place.number}") for place in spread(draw, 40_000, 200, 2000)])
    return transcripts


def make_alignments(folder, draw):
    """Reads as SAM and BAM."""
    order = list(SIZES)
    reads = sorted((order.index(place.name), place.start, place.strand)
                   for place in spread(draw, 300_000, 6000, 6001))
    lines = [f"@SQ\tSN:{name}\tLN:{size}" for name, size in SIZES.items()]
    for number, (rank, start, strand) in enumerate(reads):
        cigar = draw.choice(["75M"] * 6 + ["30M2D45M", "40M1200N35M", "20M4I51M", "5S70M"])
        place = f"{order[rank]}\t{start + 1}\t{draw.randrange(61)}\t{cigar}"
        lines.append(f"r{number}\t{16 if strand == '-' else 0}\t{place}\t*\t0\t0\t{read_bases(number, 75)}")
    Path(folder, "reads.sam").write_text("\n".join(lines) + "\n", encoding="utf-8")
    subprocess.run(["samtools", "view", "-b", "-o", "reads.bam", "reads.sam"], cwd=folder, check=True)


def variant(draw, place):
    """A row of VCF."""
    return [place.name, place.start + 1, f"rs{place.number}", draw.choice("ACGT"), draw.choice("ACGT"), 50, "PASS",
            "DP=9"]


def make_others(folder, draw):
    """Genome files, reads, variants, and sequences with their repeats."""
    write(folder, "chrom.sizes", SIZES.items())
    write(folder, "sorted.sizes", sorted(SIZES.items()))
    make_alignments(folder, draw)
    variants = by_bytes(variant(draw, place) for place in spread(draw, 20_000, 1, 2))
    text = "".join("\t".join(map(str, row)) + "\n" for row in variants)
    head = "##fileformat=VCFv4.2\n#CHROM\tPOS\tID\tREF\tALT\tQUAL\tFILTER\tINFO\n"
    Path(folder, "calls.vcf").write_text(head + text, encoding="utf-8")
    make_sequences(folder, draw, "small.fa", "repeats.bed", SMALL)


def make_sequences(folder, draw, fasta, bed, sizes):
    """A FASTA file, whose bases are those of a part again and again, and a BED file of its repeats."""
    part = "".join(draw.choices("ACGT", k=6000))
    with Path(folder, fasta).open("w", encoding="utf-8") as file:
        for name, size in sizes.items():
            bases = (part * (size // len(part) + 1))[:size]
            file.write(f">{name}\n" + "".join(bases[at : at + 60] + "\n" for at in range(0, size, 60)))
    repeats = ([name, start, start + draw.randrange(20, 300)] for name, size in sizes.items()
               for start in (draw.randrange(size - 300) for _ in range(size // 400)))
    write(folder, bed, by_bytes(repeats))


def read_bases(number, length):
    """The bases and the qualities of a read."""
    at = number * 17 % (len(BASES) - length)
    return f"{BASES[at : at + length]}\t{QUALITIES[at : at + length]}"


def write_bam(folder, name, sizes, reads):
    """A BAM file of reads, in the order of a genome."""
    rank = {chromosome: number for number, chromosome in enumerate(sizes)}
    lines = ["@HD\tVN:1.6\tSO:coordinate", *(f"@SQ\tSN:{each}\tLN:{size}" for each, size in sizes.items())]
    for number, read in enumerate(sorted(reads, key=lambda read: (rank[read.name], read.start))):
        length = sum(int(count) for count, letter in re.findall(r"(\d+)(.)", read.cigar) if letter == "M")
        place = f"{16 if read.strand == '-' else 0}\t{read.name}\t{read.start + 1}\t60\t{read.cigar}"
        lines.append(f"r{number}\t{place}\t*\t0\t0\t{read_bases(number, length)}")
    text = ("\n".join(lines) + "\n").encode()
    subprocess.run(["samtools", "view", "-b", "-o", name, "-"], input=text, cwd=folder, check=True)


def spliced(draw, transcripts, count):
    """Reads of 75 bases that begin in an exon and go on in the next one."""
    for _ in range(count):
        gene, _, parts = draw.choice(transcripts)
        at = draw.randrange(len(parts))
        low, high = parts[at]
        begin = low + draw.randrange(high - low)
        here = high - begin
        if here >= 75:
            yield Read(gene.name, begin, "75M", gene.strand)
        elif at + 1 < len(parts) and parts[at + 1][1] - parts[at + 1][0] > 75 - here:
            gap = parts[at + 1][0] - high
            yield Read(gene.name, begin, f"{here}M{gap}N{75 - here}M", gene.strand)


def captured(draw, targets, count):
    """Reads of 100 bases on targets."""
    for _ in range(count):
        target = draw.choice(targets)
        start = draw.randrange(target.start - 70, target.end)
        yield Read(target.name, start, draw.choice(["100M"] * 9 + ["60M2D40M"]), draw.choice("+-"))


def make_reads(folder, draw, transcripts):
    """BAM files of ChIP, its input, RNA and capture, with the targets of the last, and the fragments of ATAC."""
    for name, count in (("chip.bam", 700_000), ("input.bam", 500_000)):
        reads = (Read(place.name, place.start, "50M", place.strand) for place in spread(draw, count, 50, 51))
        write_bam(folder, name, SIZES, reads)
    write_bam(folder, "rna.bam", SIZES, spliced(draw, transcripts, 400_000))
    targets = [place for place in spread(draw, 200_000, 100, 400) if place.start > 200]
    write(folder, "targets.bed", by_bytes(target.bed(f"target{n}") for n, target in enumerate(targets)))
    write_bam(folder, "capture.bam", SIZES, captured(draw, targets, 500_000))
    fragments = by_bytes(place.bed(f"cell{place.number % 700}") for place in spread(draw, 400_000, 40, 600))
    text = "".join("\t".join(map(str, row)) + "\n" for row in fragments)
    Path(folder, "fragments.bed.gz").write_bytes(gzip.compress(text.encode(), 6))


def make_rest(folder, draw):
    """Segments and gaps of CNV, the repeats of a genome and of contigs, and a virus with its reads and amplicons."""
    segments = spread(draw, 800, 100_000, 2_000_000)
    write(folder, "segments.bed", by_bytes(place.bed(f"segment{place.number}") for place in segments))
    write(folder, "gaps.bed", by_bytes(place.bed() for place in spread(draw, 60, 10_000, 50_000)))
    families = ("Alu", "L1", "MIR", "simple", "LTR")
    repeats = by_bytes(place.bed(families[place.number % 5], draw.randrange(9999), place.strand)
                       for place in spread(draw, 600_000, 30, 900))
    text = "".join("\t".join(map(str, row)) + "\n" for row in repeats)
    Path(folder, "rmsk.bed.gz").write_bytes(gzip.compress(text.encode(), 6))
    make_sequences(folder, draw, "contigs.fa", "contig.repeats.bed",
                   {"contig1": 12_000_000, "contig2": 9_000_000, "contig3": 6_000_000})
    virus = {"NC_045512.2": 29_903}
    make_sequences(folder, draw, "virus.fa", "virus.repeats.bed", virus)
    reads = (Read("NC_045512.2", int(29_753 * draw.random() ** 2), "150M", draw.choice("+-")) for _ in range(200_000))
    write_bam(folder, "virus.bam", virus, reads)
    amplicons = enumerate(range(30, 29_400, 300))
    write(folder, "primers.bed",
          [["NC_045512.2", at, at + 400, f"amplicon{n}", n % 2 + 1, "+"] for n, at in amplicons])


def make_all(folder):
    """All files, the same each time."""
    draw = random.Random(7)
    transcripts = make_features(folder, draw)
    make_others(folder, draw)
    make_reads(folder, draw, transcripts)
    make_rest(folder, draw)
