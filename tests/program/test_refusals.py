"""Each growth of memory of the program is refused in turn, and each read and each write fails.

Each command line below is run again and again: first its first growth is refused, then its second, until a run meets
no refusal; and so once more, where all growths behind the refused one are refused too. Each refused run has to end
with `bedtools COMMAND: no memory` or `bedtools: no memory` and status 1, and to write a prefix of the whole output:
just what was settled, which is what the same command line writes where reading fails at the line that was read last,
or behind it, and behind what was read of the other input. refuse.c hands over a line at most at each read, so that it
knows how far the inputs were read; without it the whole output has to be the same.

Then reading fails at each line of each input and at its end, and writing behind each number of bytes: a run has to
report that with its line, to write a prefix of the whole output (of just so many bytes where writing fails), and not to
try the call again.
"""

from dataclasses import dataclass
from typing import NamedTuple

from tests.program.runs import Run, build_library
from tests.support import Answer, InFolder, each, shown, write_files

GENOME = "chr1\t1000\nchr2\t50\n"
# A command line that grows its memory so many times doesn't end.
MOST = 2000

TOUCHING = "chr1\t100\t200\nchr1\t180\t250\nchr1\t250\t500\nchr1\t501\t1000\n"
STRANDS = "chr1\t0\t100\ta\t0\t+\nchr1\t10\t20\tb\t0\t-\nchr1\t50\t120\tc\t0\t+\nchr1\t60\t70\td\t0\t-\n"
GAPS = "chr1\t0\t10\nchr1\t900\t1200\n"
NESTED = {"a.bed": "chr1\t0\t100\nchr1\t50\t60\n", "b.bed": "chr1\t10\t20\nchr1\t55\t58\nchr1\t90\t95\n"}
PIECES = {"a.bed": "chr1\t0\t100\tn\t5\t+\n", "b.bed": "chr1\t10\t20\nchr1\t15\t30\nchr1\t90\t200\n"}
SECOND_CHROMOSOME = {"g.txt": "chr1\t20\nchr2\t5\n", "a.bed": "chr2\t3\t9\n"}
ALIGNMENTS = (
    "r001\t99\tref\t7\t30\t8M2I4M1D3M\t=\t37\t39\tTTAGATAAAGGATACTG\t*\n"
    "r001\t147\tref\t37\t30\t9M\t=\t7\t-39\tCAGCGGCAT\t*\nr004\t0\tref\t16\t30\t6M14N5M\t*\t0\t0\tATAGCTTCAGC\t*\n"
    "r005\t4\tref\t16\t30\t6M\t*\t0\t0\tATAGCT\t*\nr006\t0\tref\t16\t30\t*\t*\t0\t0\tATAGCT\t*\n"
)
MALFORMED = "r007\t0\tref\t16\t30\t5Q\t*\t0\t0\tATAGCT\t*\n"
MASKED = {"a.fa": ">s d\nACGTAC\nGTAC", "b.bed": "s\t4\t8\n"}
TWO = "-a a.bed -b b.bed -g g.txt"


def spans(starts, length, further=""):
    """BED lines of one length on the second chromosome."""
    return "".join(f"chr2\t{start}\t{start + length}{further}\n" for start in starts)


KEPT = {"a.bed": GAPS + "chr2\t0\t90\n", "b.bed": "chr1\t5\t20\n" + spans(range(50), 9)}

# Columns that are too long to stand inside a record that is kept: each takes a buffer.
LONG = "\t" + "x" * 40
KEPT_LONG = {"a.bed": f"{GAPS}chr2\t0\t90\nchr2\t1\t90{LONG}\n", "b.bed": "chr1\t5\t20\n" + spans(range(50), 9, LONG)}

# (words, files): what each shows stands in its files.
RUNS = [
    ("merge -i a.bed -g g.txt", {"a.bed": TOUCHING}),
    ("merge -i - -g g.txt", {"a.bed": TOUCHING}),
    *((f"merge -i a.bed -g g.txt {further}", {"a.bed": STRANDS}) for further in ("-s", "-S -", "-S +", "")),
    *((f"complement -i a.bed -g g.txt {further}", {"a.bed": GAPS}) for further in ("", "-L")),
    *((f"intersect {TWO} {further}", NESTED) for further in ("", "-wa", "-wb", "-wa -wb", "-wo", "-u", "-v", "-c")),
    *((f"subtract {TWO} {further}", PIECES) for further in ("", "-A", "-f 0.1")),
    *((f"genomecov -i a.bed -g g.txt {further}", SECOND_CHROMOSOME) for further in ("-bga", "-bg")),
    *((f"bamtobed -i a.sam {further}", {"a.sam": ALIGNMENTS}) for further in ("", "-split", "-cigar", "-split -cigar")),
    *((f"bamtobed -i a.sam {further}", {"a.sam": ALIGNMENTS + MALFORMED}) for further in ("", "-split")),
    *((f"maskfasta -fi a.fa -bed b.bed {further}", MASKED) for further in ("", "-soft", "-mc x",
      "-fullHeader", "-fo masked.fa")),
    # Command lines that can't be used, and the last of two values.
    *((words, {}) for words in ("", "merge -q", "merge -d", "merge", "merge -g -", "intersect -a x", "genomecov -g g")),
    *((words, {}) for words in
      ("intersect -a x -b y -g g -u -c", "intersect -a - -b stdin -g g", "merge -g g -s -S +")),
    ("merge -i a.bed -g g.txt -d 1 -d 5", {"a.bed": TOUCHING}),
    # A fault of an input, whose line takes memory too.
    ("merge -i a.bed -g g.txt", {"a.bed": "chr1\t0\t10\nchr1\t20\t30\nchr1\t5\t8\n"}),
    ("merge -i none.bed -g g.txt", {}),
    # Lines longer than a block.
    ("merge -i a.bed -g g.txt", {"a.bed": GAPS + f"chr2\t0\t5\t{'x' * 40_000}\n"}),
    (f"intersect {TWO} -wo", {"a.bed": f"chr1\t5\t9\t{'x' * 40_000}\n", "b.bed": f"chr1\t0\t10\t{'y' * 40_000}\n" * 3}),
    ("bamtobed -i a.sam", {"a.sam": ALIGNMENTS + ALIGNMENTS.replace("TTAG", "T" * 40_000)}),
    ("maskfasta -fi a.fa -bed b.bed", {"a.fa": f">s\nACGT\n{'A' * 40_000}\nAC\n", "b.bed": "s\t2\t30000\n"}),
    ("complement -i a.bed -g g.txt", {"a.bed": GAPS + f"chr2\t0\t5\t{'x' * 40_000}\n"}),
    (f"subtract {TWO}", {"a.bed": f"{GAPS}chr2\t5\t9\t{'x' * 40_000}\n", "b.bed": GAPS.replace("\t10\n", "\t5\n")}),
    # Many records that are kept behind some that aren't, and many chromosomes.
    ("merge -i a.bed -g g.txt -s", {"a.bed": GAPS + "chr2\t0\t99\tx\t0\t+\n" + spans(range(2, 99, 2), 1, "\tx\t0\t-")}),
    *((f"intersect {TWO} {further}", files) for files in (KEPT, KEPT_LONG) for further in ("", "-c", "-wo")),
    *((f"subtract {TWO} {further}", files) for files in (KEPT, KEPT_LONG) for further in ("", "-A")),
    ("genomecov -i a.bed -g g.txt -bg", {"a.bed": GAPS + spans(range(40), 90)}),
    # Ends that descend, and short records beside long ones.
    ("genomecov -i a.bed -g g.txt -bg", {"a.bed": "".join(f"chr2\t{at}\t{200 - 2 * at}\n" for at in range(60))}),
    ("genomecov -i a.bed -g g.txt -bg",
     {"a.bed": "".join(f"chr2\t{at}\t{at + (90 if at % 3 else 9)}\n" for at in range(60))}),
    ("maskfasta -fi a.fa -bed b.bed", {"a.fa": f">chr2\nACGT\n{'A' * 90}\nAC\n", "b.bed": spans(range(50), 60)}),
    ("complement -i a.bed -g g.txt",
     {"a.bed": GAPS, "g.txt": GENOME + "".join(f"scaffold{at}\t50\n" for at in range(50))}),
]


class Line(NamedTuple):
    """A command line of RUNS with its files."""

    name: str
    words: str
    files: dict


@dataclass
class Refused:
    """The answer of a run, with what is in the file of -fo, and how far each input was read where a growth was refused;
    None where none was."""

    answer: Answer
    lines: dict


class Refuser:
    """Runs one command line of a test with refused growths."""

    def __init__(self, test, line):
        self.test = test
        self.words = line.words
        self.inputs = {"g.txt": GENOME, **line.files}
        write_files(test.folder, self.inputs)
        # The inputs that are read: none where the words can't be used.
        named = self.words.split()
        self.read = [name for name in self.inputs if name in named or "-" in named and name == "a.bed"]
        # What is settled where the inputs were read to these lines.
        self.settled = {}
        self.whole = self.run({}).answer

    def with_said(self, said):
        """The run, with what is said to refuse.c; nothing if that is None."""
        stream = "a.bed" if "a.bed" in self.inputs else "/dev/null"
        return Run(self.words, stream, said={"REFUSE_NOTES": "notes", **said} if said is not None else {})

    def run(self, said):
        """Runs it with what is said to refuse.c."""
        notes, masked = (self.test.folder / name for name in ("notes", "masked.fa"))
        notes.unlink(missing_ok=True)
        masked.unlink(missing_ok=True)
        answer = self.test.shell(self.with_said(said).line())
        if masked.exists():
            answer.output = masked.read_bytes()
        lines = dict(line.split() for line in notes.read_text().splitlines()) if notes.exists() else None
        return Refused(answer, lines)

    def settled_by(self, lines, is_last_taken):
        """What is written where reading fails at the line that was read last, or where that is taken behind it, and
        behind what was read of the other input. The genome file is read whole before."""
        last = list(lines)[-1] if lines and not is_last_taken else None
        others = [name for name in self.inputs if name != "g.txt"]
        reads = "".join(f"{name} {int(lines.get(name, 0)) - (name == last)} " for name in others)
        if reads not in self.settled:
            self.settled[reads] = self.run({"REFUSE_READS": reads}).answer.output
        return self.settled[reads]

    def wrong_with(self, refused):
        """What is wrong with a refused run, if anything."""
        answer = refused.answer
        if answer.status != 1 or answer.error not in (self.error("no memory"), b"bedtools: no memory\n"):
            return "status 1 and no memory"
        if not self.whole.output.startswith(answer.output):
            return f"a front of {self.whole.output!r}"
        settled = [self.settled_by(refused.lines, is_last_taken) for is_last_taken in (False, True)]
        return None if answer.output in settled else f"what was settled: one of {settled!r}"

    def error(self, what):
        """A line of the program on what went wrong."""
        return f"bedtools {self.words.split(' ')[0]}: {what}\n".encode()

    def refuse_each(self, further):
        """Refuses each growth in turn. Returns how many runs were refused."""
        for at in range(1, MOST):
            answer = self.run({"REFUSE_AT": str(at), **further})
            if answer.lines is None:
                self.expect({"REFUSE_AT": str(at), **further}, self.whole, answer.answer)
                return at - 1
            wrong = self.wrong_with(answer)
            if wrong:
                line = self.with_said({"REFUSE_AT": str(at), **further}).line()
                self.test.fail_by_hand(line, wrong, shown(answer.answer))
        return self.test.fail(f"{self.words}: more than {MOST} growths")

    def expect(self, said, wanted, found=None):
        """Compares an answer of a run."""
        self.test.expect(self.with_said(said).line(), wanted, found or self.run(said).answer)

    def fail_reads(self):
        """Lets reading fail at each line of each input, and at its end. Returns how many runs failed."""
        runs = 0
        for name in self.read:
            shown_name = name if name in self.words.split() else "-"
            for at in range(len(self.inputs[name].splitlines()) + 1):
                said = {"REFUSE_READS": f"{name} {at} "}
                found = self.run(said).answer
                line = min(at, self.inputs[name].count("\n")) + 1
                is_front = self.whole.output.startswith(found.output)
                error = self.error(f"{shown_name}:{line}: reading failed")
                self.expect(said, Answer(1, found.output if is_front else self.whole.output, error), found)
                runs += 1
        return runs

    def fail_writes(self):
        """Lets writing fail behind each number of bytes, or some where these are many. Returns how many runs failed."""
        size = len(self.whole.output)
        lengths = range(size) if size < 400 else [at for at in (0, 1, 8191, 8192, 8193, size - 1) if at < size]
        for taken in lengths:
            wanted = Answer(1, self.whole.output[:taken], self.error("writing failed"))
            self.expect({"REFUSE_WRITES": str(taken)}, wanted)
        return len(lengths)


@each([Line(words, words, files) for words, files in RUNS])
class Refusals(InFolder):
    said = ("{lines} command lines, {growths} runs with a refused growth, {reads} with a failed read, "
            "{writes} with a failed write")

    @classmethod
    def setUpClass(cls):
        super().setUpClass()
        build_library()

    def case(self, line):
        refuser = Refuser(self, line)
        refuser.expect(None, refuser.whole)
        growths = refuser.refuse_each({}) + refuser.refuse_each({"REFUSE_ALL": "1"})
        is_used = refuser.whole.status == 0
        reads, writes = (refuser.fail_reads(), refuser.fail_writes()) if is_used else (0, 0)
        self.counts.update(lines=1, growths=growths, reads=reads, writes=writes)
