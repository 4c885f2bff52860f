"""What the program allocates over many records, counted by refuse.c, which is preloaded into it.

Each command line below is run over 1,000 records and over 10,000, of lines of one length, of which no more is to be
kept at once in the one than in the other: a run, a place, the records open at one start. Over 10,000 it may have no
more bytes allocated at once than over 1,000, but for half a byte a record: so a second list beside the one that is to
be kept, of starts, of names, of whole lines or of records, is seen. Where no record is kept for the other input, or
opens a run beside another, no more growths may come either: so is a copy that is made anew for each record though
there is a buffer for it.

These bodies were planted by hand, and each rose with the records: `merge` and `genomecov` that keep all starts; a sweep
that copies each record of the second input, and one that keeps held records once they are cleared; masking that keeps
each line or each record's chromosome; a second list of starts in `State::take`, `UnstrandedMerge::step` and
`MaskState::take_bed`, with which 21, 10 and 5 of 65 command lines rise.
"""

from typing import Callable, NamedTuple

from tests.program.runs import Run, build_library
from tests.support import InFolder, each, write_files

FEW, MANY = 1000, 10_000
SLACK = MANY // 2
# The first start: so many digits has each number below.
FROM = 10_000_000
GENOME = "chr1\t900000000\nchr2\t900000000\n"


class Job(NamedTuple):
    """A command line, and what makes its files of so many records."""

    name: str
    words: str
    files: Callable


def bed(count, apart, length, further="", name="chr1"):
    """Records of one length, whose starts are so far apart."""
    starts = (FROM + at * apart for at in range(count))
    return "".join(f"{name}\t{start}\t{start + length}{further}\n" for start in starts)


def chromosomes(count, length, further=""):
    """Records on as many chromosomes, in the order of their names."""
    return "".join(f"chr{FROM + at}\t{FROM}\t{FROM + length}{further}\n" for at in range(count))


def with_comments(count):
    """Records with a comment before each."""
    return "".join(f"#x\nchr1\t{FROM + at * 20}\t{FROM + at * 20 + 10}\n" for at in range(count))


def strands(count, apart, length):
    """Records of both strands in turn."""
    starts = (FROM + at * apart for at in range(count))
    return "".join(f"chr1\t{start}\t{start + length}\tx\t0\t{'+-'[at % 2]}\n" for at, start in enumerate(starts))


def nested(count):
    """Records with one start, the longest last."""
    return "".join(f"chr1\t{FROM}\t{FROM + FROM + at}\n" for at in range(count))


def reads(count):
    """Alignments of SAM text, with a skipped part each."""
    return "".join(f"r{FROM + at}\t0\tchr1\t{FROM + at}\t30\t5M2N5M\t*\t0\t0\tACGTAACGTA\t*\n" for at in range(count))


def sequences(count):
    """FASTA text with as many sequences."""
    return "".join(f">chr{FROM + at}\nACGTACGTAC\n" for at in range(count))


def lines(count):
    """FASTA text of one sequence, in as many lines."""
    return ">chr1\n" + "ACGTACGTAC\n" * count


def within(count, apart, length):
    """Records that lie on the lines of a sequence."""
    return "".join(f"chr1\t{at * apart:08}\t{at * apart + length:08}\n" for at in range(count))


def one_input(words, text):
    """A command line over one input."""
    return Job(words, words, lambda count: {"a": text(count)})


def two_inputs(words, first, second):
    """A command line over two inputs."""
    return Job(words, words, lambda count: {"a": first(count), "b": second(count)})


# Columns that are too long to stand inside a record that is kept: they are in a buffer.
LONG = "\t" + "x" * 40
FAR = f"chr1\t{8 * FROM}\t{8 * FROM + 5}\n"
INTERSECT, SUBTRACT, MASK = "intersect -a a -b b", "subtract -a a -b b", "maskfasta -fi a -bed b"


def far(_):
    """One record behind all others."""
    return FAR


def on_last(_):
    """One record on a chromosome behind all others."""
    return f"chr9\t{FROM}\t{FROM + 5}\n"


def over(text, *words):
    """Command lines over one input."""
    return [one_input(line, text) for line in words]


def beside(first, second, *words):
    """Command lines over two inputs."""
    return [two_inputs(line, first, second) for line in words]


def apart(count, further=""):
    """Records with gaps between them."""
    return bed(count, 20, 10, further)


def dense(count):
    """Records that overlap the next ones."""
    return bed(count, 1, 10)


# Command lines that keep no record for the other input, and open no run beside another: no growth comes with a record.
STEADY = [
    *over(lambda count: strands(count, 20, 10), "merge -i a", "merge -i a -d 5", "merge -i a -S +", "merge -i a -g g"),
    *over(dense, "merge -i a", "merge -i a -d 5", "merge -i a -s", "merge -i a -S +", "merge -i a -g g"),
    *over(nested, "merge -i a"),
    *over(with_comments, "merge -i a"),
    *over(lambda count: chromosomes(count, 10), "merge -i a"),
    *over(apart, "complement -i a -g g", "complement -i a -g g -L"),
    *over(dense, "complement -i a -g g"),
    *over(nested, "complement -i a -g g"),
    *over(apart, "genomecov -i a -g g -bg", "genomecov -i a -g g -bga"),
    *over(lambda count: strands(count, 5, 10), "genomecov -i a -g g -bg", "genomecov -i a -g g -bg -strand -"),
    *over(reads, "bamtobed -i a", "bamtobed -i a -split", "bamtobed -i a -cigar"),
    # Records of the second input that end before the first one's, with one of the first behind them all, and the
    # other way round; and on as many chromosomes.
    *beside(far, apart, INTERSECT, f"{INTERSECT} -c", SUBTRACT),
    *beside(lambda count: apart(count, "\tx"), far,
            INTERSECT, f"{INTERSECT} -v", f"{INTERSECT} -g g", SUBTRACT, f"{SUBTRACT} -A"),
    *beside(lambda count: chromosomes(count, 10, "\tx"), far, f"{INTERSECT} -v", SUBTRACT),
    *beside(lambda count: apart(count, LONG), far, INTERSECT, SUBTRACT),
    *beside(lambda count: chromosomes(count, 10, LONG), far, f"{INTERSECT} -v", SUBTRACT),
    *beside(on_last, lambda count: chromosomes(count, 10), INTERSECT),
    # Lines that no record reaches, and records that reach no line.
    *beside(lines, lambda count: f"chr1\t{FROM}\t{FROM + 5}\n", MASK),
    *beside(lambda count: f">chr1\n{'A' * (MANY * 20)}\n", lambda count: within(1, 1, 1) + bed(count, 1, 5), MASK),
]


def long_lived(count):
    """Records that overlap, of the first input."""
    return bed(count, 20, 30, "\tx")


def others(count):
    """Records that overlap, of the second input."""
    return bed(count, 5, 40, "\ty")


# Command lines that keep a record, or a run, for a while, and as many at once however many come.
KEEPING = [
    # Each line is longer than a block.
    *over(lambda count: apart(count, "\t" + "x" * 9000), "merge -i a"),
    *over(lambda count: strands(count, 5, 20), "merge -i a -s"),
    *over(lambda count: strands(count, 20, 10), "merge -i a -s"),
    *over(lambda count: bed(count, 5, 40), "genomecov -i a -g g -bg"),
    *beside(long_lived, others, INTERSECT, *(f"{INTERSECT} {option}" for option in (
        "-wa", "-wb", "-wo", "-u", "-v", "-c", "-f 0.5 -r", "-held 100", "-g g"))),
    *beside(long_lived, others, SUBTRACT, f"{SUBTRACT} -A", f"{SUBTRACT} -f 0.5", f"{SUBTRACT} -held 100"),
    *beside(lambda count: bed(count, 20, 30, LONG), lambda count: bed(count, 5, 40, LONG), INTERSECT, SUBTRACT),
    *beside(lambda count: chromosomes(count, 10), lambda count: chromosomes(count, 20), INTERSECT, SUBTRACT),
    *beside(lines, lambda count: within(count, 10, 5), MASK, f"{MASK} -soft", f"{MASK} -fo o"),
    *beside(lines, lambda count: within(count, 10, 25), MASK),
    *beside(sequences, lambda count: chromosomes(count, 5).replace(
        f"\t{FROM}\t{FROM + 5}", "\t00000002\t00000007"), MASK),
]


class Counts(NamedTuple):
    """How many growths a run has, and the most bytes that are allocated at once."""

    growths: int
    most: int


class Allocations(InFolder):
    said = f"{{jobs}} command lines over {FEW} and over {MANY} records"

    @classmethod
    def setUpClass(cls):
        super().setUpClass()
        build_library()

    def counted(self, words, files):
        """Runs a command line. Returns what was counted."""
        write_files(self.folder, {"g": GENOME, **files})
        line = Run(words, said={"COUNT_NOTES": "notes"}).line()
        answer = self.shell(line)
        self.assertEqual((answer.status, answer.error), (0, b""), line)
        notes = dict(line.split() for line in (self.folder / "notes").read_text().splitlines())
        return Counts(int(notes["growths"]), int(notes["most"]))

    def rises(self, job):
        """Runs a command line over few and over many records, which need no more bytes at once. Returns the growths."""
        few, many = self.counted(job.words, job.files(FEW)), self.counted(job.words, job.files(MANY))
        self.counts["jobs"] += 1
        self.assertGreater(few.growths, 0, "nothing is counted")
        if many.most > few.most + SLACK:
            line = Run(job.words, said={"COUNT_NOTES": "notes"}).line()
            self.fail_by_hand(line, f"{few.most} bytes at once, as over {FEW} records", f"{many.most} over {MANY}")
        return few.growths, many.growths


@each(KEEPING)
class Keeping(Allocations):
    def case(self, job):
        self.rises(job)


@each(STEADY)
class Steady(Allocations):
    def case(self, job):
        few, many = self.rises(job)
        if many > few:
            line = Run(job.words, said={"COUNT_NOTES": "notes"}).line()
            self.fail_by_hand(line, f"{few} growths, as over {FEW} records", f"{many} over {MANY}")
