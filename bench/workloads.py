"""The workloads of compare.py: commands over sorted records at random places, always the same ones."""

import random
import shutil
import subprocess
from dataclasses import dataclass
from typing import NamedTuple

# The lengths of the human chromosomes in GRCh38, in million bases.
GRCH38 = [249, 242, 198, 190, 182, 171, 159, 145, 138, 134, 135, 133, 114, 107, 102, 90, 83, 80, 59, 64, 47, 51,
          156, 57]
# The chromosomes in the order of their names' bytes, so that -g may be left out.
CHROMOSOMES = sorted(zip((f"chr{name}" for name in [*range(1, 23), "X", "Y"]), GRCH38))
NAMES = [name for name, _ in CHROMOSOMES]
LENGTHS = [length for _, length in CHROMOSOMES]
# So many records are timed, where no other number is asked for.
TIMED = 5_000_000


class OneInput:
    """The input of a workload, as one file."""

    def inputs(self, folder):
        return ["-i", str(folder / "records.bed")]


class TwoInputs:
    """The inputs of a workload, as two files."""

    def inputs(self, folder):
        return ["-a", str(folder / "records.bed"), "-b", str(folder / "second.bed")]


@dataclass
class Touching(OneInput):
    """Records of which a third touch or overlap the one before, as one input."""

    columns: int
    # What the names of the chromosomes begin with: nothing where they are named as Ensembl's are.
    prefix: str = "chr"

    def name(self):
        return f"{self.columns} columns" + ("" if self.prefix else ", names of one or two bytes")

    def write(self, folder, count):
        write_records(folder / "records.bed", count, self.columns, 1, self.prefix)


class Part(NamedTuple):
    """A part of each chromosome, and where it begins."""

    size: float = 1.0
    begin: float = 0.0


@dataclass
class Features:
    """Records at random places, of lengths from the shortest to below the longest; one for so many asked for."""

    word: str
    each: int
    shortest: int
    longest: int
    columns: int

    def write(self, path, count, seed, part=1.0):
        write_features(path, count // self.each, self, seed, Part(part, 1 - part))


@dataclass
class Behind(OneInput):
    """200,000 short records of one strand behind a long one of the other, whatever the size asked for."""

    def name(self):
        return "200,000 after one of the other strand"

    def write(self, folder, count):
        lines = (f"chr1\t{at * 1000}\t{at * 1000 + 500}\tx\t1\t-\n" for at in range(1, 200_001))
        (folder / "records.bed").write_text("chr1\t0\t240000000\tx\t1\t+\n" + "".join(lines), encoding="ascii")


@dataclass
class Overlapping(OneInput):
    """Pairs of records that overlap, one of each strand, each pair apart from the next."""

    def name(self):
        return "overlapping pairs of both strands"

    def write(self, folder, count):
        lines = (f"chr1\t{at * 50}\t{at * 50 + 20}\tx\t1\t+\nchr1\t{at * 50 + 1}\t{at * 50 + 21}\tx\t1\t-\n"
                 for at in range(count // 2))
        (folder / "records.bed").write_text("".join(lines), encoding="ascii")


@dataclass
class Pair(TwoInputs):
    """Records of two kinds, as two inputs: on whole chromosomes, or as close to one another as so many records that are
    timed, whatever the size asked for."""

    first: Features
    second: Features
    is_close: bool = False

    def name(self):
        return f"{'close ' if self.is_close else ''}{self.first.word} and {self.second.word}"

    def write(self, folder, count):
        part = min(1.0, count / TIMED) if self.is_close else 1.0
        self.first.write(folder / "records.bed", count, 1, part)
        self.second.write(folder / "second.bed", count, 2, part)


@dataclass
class Alone(OneInput):
    """Records of one kind, as one input: at random places on whole chromosomes, or with a depth on so much of each
    chromosome's begin that they cover it so many times."""

    features: Features
    depth: int = 0

    def name(self):
        return f"{self.features.word} at {self.depth}x" if self.depth else self.features.word

    def write(self, folder, count):
        part = 1.0
        if self.depth:
            bases = count // self.features.each * (self.features.shortest + self.features.longest) // 2
            part = min(part, bases / self.depth / (sum(LENGTHS) * 1_000_000))
        write_features(folder / "records.bed", count // self.features.each, self.features, 1, Part(part))


@dataclass
class Nested(TwoInputs):
    """2,000 exons inside so many records that lie one in another, whatever the size asked for."""

    depth: int

    def name(self):
        return f"2,000 in {self.depth:,} nested"

    def write(self, folder, count):
        lines = (f"chr1\t{100_000_000 + at * 1000}\t{100_000_500 + at * 1000}\tx\t1\t+\n" for at in range(2000))
        (folder / "records.bed").write_text("".join(lines), encoding="ascii")
        lines = (f"chr1\t{at * 10}\t{200_000_000 - at * 10}\n" for at in range(self.depth))
        (folder / "second.bed").write_text("".join(lines), encoding="ascii")


@dataclass
class Under(TwoInputs):
    """100,000 short records under a long one, over as many of the second input, whatever the size asked for."""

    def name(self):
        return "100,000 under a long one"

    def write(self, folder, count):
        lines = (f"chr1\t{at * 900 + 10}\t{at * 900 + 200}\n" for at in range(100_000))
        (folder / "records.bed").write_text("chr1\t0\t100000000\n" + "".join(lines), encoding="ascii")
        lines = (f"chr1\t{at * 900 + 50}\t{at * 900 + 300}\n" for at in range(100_000))
        (folder / "second.bed").write_text("".join(lines), encoding="ascii")


@dataclass
class Alignments(OneInput):
    """Reads of 100 bases as SAM text, one for three records asked for; bedtools has them as BAM, made by samtools."""

    def name(self):
        return "alignments"

    def inputs_of_bedtools(self, folder):
        return ["-i", str(folder / "records.bam")]

    def write(self, folder, count):
        write_alignments(folder / "records.bed", count // 3, 1)
        if not shutil.which("samtools"):
            return
        with open(folder / "records.bam", "wb") as bam:
            subprocess.run(["samtools", "view", "-b", str(folder / "records.bed")], stdout=bam, check=True)


@dataclass
class Sequences:
    """24 sequences in lines of 60 bases, about 30 bytes for each record asked for, and records that mask them:
    one for so many bases."""

    word: str
    apart: int

    def name(self):
        return f"{self.word} records"

    def inputs(self, folder):
        return ["-fi", str(folder / "records.bed"), "-bed", str(folder / "second.bed")]

    def write(self, folder, count):
        write_sequences(folder, count // 106, self.apart, 1)


READS = Features("reads", 1, 149, 151, 6)
EXONS = Features("exons", 10, 50, 400, 6)
PEAKS = Features("peaks", 25, 200, 2000, 3)
REPEATS = Features("repeats", 1, 10, 600, 6)


@dataclass
class Workload:
    """A command over records of some kind, and how the others do the same job."""

    words: list
    data: object
    # Which of the programs take -g there.
    genome_of: tuple
    # The words by which bedops does it, if it does.
    bedops: list
    # At most so many instructions a record are aimed at, if that is said.
    instructions: int
    # At most such a part of bedtools' time is aimed at.
    part: float
    is_reported: bool = True
    # The words of bedtools, where they are others.
    words_of_bedtools: list = None
    # The programs whose instructions are counted, where these aren't all of what is drawn and none of what isn't.
    counted: tuple = None

    # The words by which convert2bed of bedops does a job like it, from standard input.
    convert2bed: list = None
    # The option that names the output file, where it isn't written to standard output.
    output_option: str = None
    # Whether plain_merge.c does the same job.
    is_plain: bool = False

    def counts(self, program):
        return self.is_reported if self.counted is None else program in self.counted

    def name(self):
        without = ", without -g" if self.words[0] in ("merge", "intersect", "subtract") and not self.genome_of else ""
        return f"{' '.join(self.words)}, {self.data.name()}{without}"


OURS = ("dunekettle",)
BOTH = ("dunekettle", "bedtools")
SHAPES = [[], ["-wa"], ["-wb"], ["-wa", "-wb"], ["-wo"], ["-u"], ["-v"], ["-c"]]
# Those that write a line of a record that nothing hits.
UNHIT_SHAPES = [["-v"], ["-c"]]
# Of many held records: what is written of each hit, and what is asked of all of them at once.
COUNTED_SHAPES = [[], ["-u"], ["-c"]]
# Those that write both records of a hit.
BOTH_SHAPES = [["-wa", "-wb"], ["-wo"]]

WORKLOADS = [
    Workload(["merge"], Touching(3), OURS, ["--merge"], 450, 0.2, is_plain=True),
    Workload(["merge"], Touching(6), OURS, ["--merge"], 600, 0.3),
    # Lines that end far behind their third column.
    Workload(["merge"], Touching(12), OURS, ["--merge"], None, 0.3, False, counted=OURS),
    Workload(["merge", "-S", "+", "-d", "100"], Touching(6), OURS, None, 600, 0.3),
    Workload(["merge", "-s"], Alone(EXONS), OURS, None, None, 0.35),
    Workload(["merge", "-s"], Behind(), OURS, None, None, 0.35, False),
    Workload(["complement"], Touching(3), BOTH, None, 450, 0.2),
    Workload(["complement"], Touching(6), BOTH, None, 600, 0.3),
    *(
        Workload(["intersect", "-sorted", *shape], data, BOTH, None, None, 0.35, not shape,
                 counted=OURS if shape in UNHIT_SHAPES else None)
        for data in (Pair(READS, EXONS), Pair(EXONS, PEAKS))
        for shape in SHAPES
    ),
    # Many records of the second input between those of the first.
    *(
        Workload(["intersect", "-sorted", *shape], Pair(PEAKS, REPEATS), BOTH, None, None, 0.35, False, counted=OURS)
        for shape in COUNTED_SHAPES
    ),
    # What a sweep holds: many records that lie one in another, and many short ones under a long one.
    *(
        Workload(["intersect", "-sorted", *shape], Nested(10_000), BOTH, None, None, 0.35, not shape,
                 counted=OURS if shape in COUNTED_SHAPES else ())
        for shape in SHAPES
    ),
    *(
        Workload(["intersect", "-sorted", *shape], Nested(1_000), BOTH, None, None, 0.35, False, counted=OURS)
        for shape in (*COUNTED_SHAPES, *BOTH_SHAPES)
    ),
    # In the order of the names' bytes, beside the same in that of a genome file.
    Workload(["merge"], Touching(3), (), ["--merge"], 450, 0.2, is_plain=True),
    Workload(["merge"], Touching(6), (), ["--merge"], 600, 0.3),
    *(
        Workload(["intersect", "-sorted"], data, (), None, None, 0.35)
        for data in (Pair(READS, EXONS), Pair(EXONS, PEAKS))
    ),
    *(
        Workload(["subtract"], data, (), None, None, 0.3, words_of_bedtools=["subtract", "-sorted"])
        for data in (Pair(READS, EXONS), Pair(EXONS, PEAKS))
    ),
    *(
        Workload(["intersect", "-sorted", *shape], Under(), BOTH, None, None, 0.35, False, counted=OURS)
        for shape in COUNTED_SHAPES
    ),
    Workload(["subtract"], Under(), BOTH, None, None, 0.3, False, ["subtract", "-sorted"], OURS),
    Workload(["intersect", "-sorted", "-f", "0.5", "-r"], Pair(READS, EXONS), BOTH, None, None, 0.35, False),
    Workload(["intersect", "-sorted", "-f", "0.1", "-s"], Pair(READS, EXONS), BOTH, None, None, 0.35, False),
    *(
        Workload(["subtract", *shape], data, BOTH, None, None, 0.3, not shape, ["subtract", "-sorted", *shape])
        for data in (Pair(READS, EXONS), Pair(EXONS, PEAKS), Pair(PEAKS, REPEATS))
        for shape in ([], ["-A"], ["-f", "0.5"])
    ),
    # bedtools goes over each base of the genome, so its instructions aren't counted: that would take half an hour.
    *(
        Workload(["genomecov", *options], data, BOTH, None, None, part, data.depth > 0 and options == ["-bg"],
                 counted=OURS)
        for data, part in ((Alone(READS, 30), 0.1), (Alone(PEAKS), 0.02))
        for options in (["-bg"], ["-bga"], ["-bg", "-strand", "+"])
        if data.features.columns > 3 or "-strand" not in options
    ),
    Workload(["bamtobed"], Alignments(), (), None, None, 0.15, convert2bed=["--input=sam", "--do-not-sort"]),
    Workload(["bamtobed", "-split"], Alignments(), (), None, None, 0.15, False),
    *(
        Workload(["maskfasta", *how], Sequences(word, apart), (), None, None, 0.3, not how, output_option="-fo")
        for word, apart in (("few", 100_000), ("many", 400))
        for how in ([], ["-soft"])
    ),
    # What a line costs that no record lies on or before.
    Workload(["maskfasta"], Sequences("no", 1_000_000_000_000), (), None, None, 0.3, False, counted=OURS,
             output_option="-fo"),
]

# What is counted alone: of fewer records on whole chromosomes almost none share a base, so that these lie as close as
# those that are timed.
COUNTED_WORKLOADS = [
    Workload([*command, *shape], Pair(*kinds, True), BOTH, None, None, None, False, counted=OURS)
    for kinds in ((READS, EXONS), (EXONS, PEAKS), (PEAKS, REPEATS))
    for command, shape in (
        *((["intersect", "-sorted"], shape) for shape in ([], ["-v"], *BOTH_SHAPES)),
        (["subtract"], []),
    )
] + [
    # Where each other record makes a second run wait.
    Workload(["merge", "-s"], Overlapping(), OURS, None, None, None, False, counted=OURS),
    Workload(["merge"], Touching(6, ""), (), None, None, None, False, counted=OURS),
]


def write_genome(path):
    """Writes the genome file."""
    with open(path, "w", encoding="ascii") as genome:
        for name, length in zip(NAMES, LENGTHS):
            genome.write(f"{name}\t{length * 1_000_000}\n")


def further_columns(numbers, columns, start, stop):
    """The columns after the third: none, or a name, a score and a strand; of twelve also those of one block."""
    if columns == 3:
        return ""
    block = f"\t{start}\t{stop}\t0\t1\t{stop - start},\t0," if columns == 12 else ""
    return f"\tread{numbers.randrange(1_000_000)}\t{numbers.randrange(1000)}\t{numbers.choice('+-')}{block}"


def write_records(path, count, columns, seed, prefix="chr"):
    """Writes about `count` records in order, a third of which touch or overlap the one before."""
    numbers = random.Random(seed)
    total = sum(LENGTHS)
    with open(path, "w", encoding="ascii") as records:
        for name, length in zip(NAMES, LENGTHS):
            size = length * 1_000_000
            mean = size // (count * length // total)
            named = prefix + name.removeprefix("chr")
            start = numbers.randrange(mean)
            stop = start + numbers.randrange(1, mean)
            while stop <= size:
                records.write(f"{named}\t{start}\t{stop}{further_columns(numbers, columns, start, stop)}\n")
                start += numbers.randrange(2 * mean - 1)
                stop = start + numbers.randrange(1, mean)


def write_features(path, count, features, seed, part=Part()):
    """Writes about `count` records at random places in a part of each chromosome, in order."""
    numbers = random.Random(seed)
    total = sum(LENGTHS)
    with open(path, "w", encoding="ascii") as records:
        for name, length in zip(NAMES, LENGTHS):
            first = int(length * 1_000_000 * part.begin)
            last = first + int(length * 1_000_000 * part.size) - features.longest
            for start in sorted(numbers.randrange(first, last) for _ in range(count * length // total)):
                stop = start + numbers.randrange(features.shortest, features.longest)
                records.write(f"{name}\t{start}\t{stop}{further_columns(numbers, features.columns, start, stop)}\n")


def write_alignments(path, count, seed):
    """Writes about `count` reads of 100 bases in SAM text, with a header, sorted as aligners leave them."""
    numbers = random.Random(seed)
    total = sum(LENGTHS)
    cigars = ["100M", "100M", "100M", "60M1500N40M", "5S95M", "50M2D50M", "48M2I50M"]
    bases = "".join(numbers.choice("ACGT") for _ in range(4000))
    with open(path, "w", encoding="ascii") as reads:
        reads.write("@HD\tVN:1.6\tSO:coordinate\n")
        reads.writelines(f"@SQ\tSN:{name}\tLN:{length * 1_000_000}\n" for name, length in zip(NAMES, LENGTHS))
        for name, length in zip(NAMES, LENGTHS):
            last = length * 1_000_000 - 5000
            for start in sorted(numbers.randrange(1, last) for _ in range(count * length // total)):
                flag = numbers.choice([99, 147, 83, 163, 0, 16])
                place = f"{name}\t{start}\t{numbers.randrange(61)}\t{numbers.choice(cigars)}\t=\t{start + 200}\t300"
                at = numbers.randrange(3900)
                reads.write(f"read{start}\t{flag}\t{place}\t{bases[at : at + 100]}\t{'F' * 100}\tNM:i:0\n")


def write_sequences(folder, count, apart, seed):
    """Writes 24 sequences, of about `count` bases for each million of a chromosome, and records in order."""
    numbers = random.Random(seed)
    text = "".join(numbers.choice("ACGTacgtN") for _ in range(60_000))
    sequences, features = folder / "records.bed", folder / "second.bed"
    with open(sequences, "w", encoding="ascii") as lines, open(features, "w", encoding="ascii") as records:
        for name, length in zip(NAMES, LENGTHS):
            bases = count * length
            lines.write(f">{name}\n")
            for at in range(0, bases, 60):
                first = at * 7 % 59_940
                lines.write(f"{text[first : first + min(60, bases - at)]}\n")
            start = numbers.randrange(2 * apart)
            while start < bases:
                records.write(f"{name}\t{start}\t{min(start + numbers.randrange(1, 300), bases)}\n")
                start += numbers.randrange(1, 2 * apart)
