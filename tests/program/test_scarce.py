"""The program in small address spaces and into full disks.

Address spaces: each command over a long line and over much that is kept, in a dozen sizes of `ulimit -v`. Each run has
to write and report what it does where nothing is scarce, or a prefix of that output with a line that says that there is
no memory, and status 1. The sizes begin where the program is started at all, which is told by a run without words:
where standard error has a line of the program's own, the system had room for the program and the C library, and
whatever a run at such a size does is the program's doing. In less than that the run has to end with status 127, which
is the loader's and never the program's, or where the system ends `true` too.

Full disks: each command into a file that takes only so many bytes (a short output at each of its bytes), and into a
tmpfs with less room than the output, with none, and with no room for a file. The file has to hold a prefix of the
output, and the line has to say that writing failed, with status 1.
"""

import shlex
from dataclasses import dataclass, replace
from typing import Callable

from tests.program.runs import MOST_MEMORY, Run, bed
from tests.support import Answer, InFolder, each, shown, write_files

GENOME = "chr1\t1000000000\nchr2\t1000000000\n"
# So many bytes at most are written at once.
LARGEST_PIECE = 131_072
# The bytes of a long line, and the records that are kept.
LONG = 16 * 1024 * 1024
MANY = 200_000
# How many kilobytes an address space has beyond the least in which the program is started.
SPARE = [0, 64, 256, 1024, 2048, 4096, 8192, 16384, 32768, 65536, 131072, 262144]


@dataclass
class Job:
    """A command line with what makes its files, and those of them that have a bad line instead of the long one."""

    name: str
    words: str
    files: Callable
    bad: Callable = None


def short():
    """A thousand features, 20 bases apart."""
    return bed(range(0, 20_000, 20), 10)


def on_second(text):
    """The same features on the other chromosome."""
    return text.replace("chr1", "chr2")


def long_line():
    return f"chr2\t0\t5\t{'x' * LONG}\n"


def reads(count):
    """Alignments of SAM text."""
    return "".join(f"r{at}\t0\tchr1\t{at + 1}\t30\t5M\t*\t0\t0\tACGTA\t*\n" for at in range(count))


def fasta(count):
    """A sequence in so many lines."""
    return ">chr1\n" + "ACGTACGTAC\n" * count


def long_lines():
    """A job for each command over a long line."""
    bad = "chr2\t0\tx\n"
    thin = bed(range(0, 20_000, 20), 5)
    for words in ("merge", "complement", "genomecov -bga"):
        yield Job(f"{words}, a long line", f"{words} -i a", lambda: {"a": short() + long_line() + on_second(short())},
                  lambda: {"a": short() + bad})
    for words in ("intersect -wb", "subtract"):
        yield Job(f"{words}, a long line", f"{words} -a a -b b", lambda: {"a": short() + long_line(), "b": thin},
                  lambda: {"a": short() + bad, "b": thin})
    start, _, _ = reads(1).rpartition("ACGTA")
    yield Job("bamtobed, a long line", "bamtobed -i a", lambda: {"a": reads(1000) + start + "A" * LONG + "\t*\n"},
              lambda: {"a": reads(1000) + "x\n"})
    yield Job("maskfasta, a long line", "maskfasta -fi a -bed b",
              lambda: {"a": fasta(1000) + "A" * LONG + "\n", "b": short()})


def much_kept():
    """A job for each command over much that is kept."""
    around = "chr2\t0\t900000000\tx\t0\t+\n"
    for words in ("intersect -wb", "subtract"):
        yield Job(f"{words}, much that is kept", f"{words} -a a -b b", lambda: {
            "a": short() + "chr2\t0\t900000000\n", "b": short() + bed(range(MANY), 500_000, name="chr2")})
    yield Job("complement, many chromosomes", "complement -i a", lambda: {
        "a": short(), "g": GENOME + "".join(f"scaffold{at}\t1000\n" for at in range(MANY))})
    yield Job("merge -s, much that is kept", "merge -s -i a", lambda: {
        "a": short() + around + bed(range(10, 20 * MANY, 20), 10, "\tx\t0\t-", "chr2")})
    # Fewer than of the others: one that ends is looked for among those that are open.
    yield Job("genomecov -bg, much that is kept", "genomecov -bg -i a", lambda: {
        "a": short() + around + bed(range(1, MANY // 8 + 1), 10, "0000\tx\t0\t-", "chr2")})
    yield Job("maskfasta, much that is kept", "maskfasta -fi a -bed b", lambda: {
        "a": fasta(1000) + "A" * MANY + "\n",
        "b": bed(range(0, 10_000, 20), 10) + bed(range(10_000, 10_000 + MANY // 2), 300_000)})


def by_genome(job):
    """A job with a genome file, and without one where it needs none."""
    command = job.words.split(" ")[0]
    if command not in ("complement", "genomecov"):
        yield job
    if command not in ("bamtobed", "maskfasta"):
        yield replace(job, name=f"{job.name}, by a genome file", words=f"{job.words} -g g")


def disk_jobs():
    """A job for each command, whose output is longer than the largest piece that is written at once."""
    def apart():
        return bed(range(0, 200_000, 20), 10)

    for words in ("merge", "complement -g g", "genomecov -bg -g g"):
        yield Job(f"{words}, long", f"{words} -i a", lambda: {"a": apart()})
    for words in ("intersect", "subtract -s"):
        yield Job(f"{words}, long", f"{words} -a a -b b",
                  lambda: {"a": apart().replace("\n", "\tx\t0\t+\n"), "b": apart()})
    yield Job("bamtobed, long", "bamtobed -i a", lambda: {"a": reads(10_000)})
    yield Job("maskfasta, long", "maskfasta -fi a -bed b", lambda: {"a": fasta(20_000), "b": apart()})


def short_jobs():
    """A job for each command, whose output is short."""
    spans = {"a": bed([2, 14, 30], 4, "\tx\t0\t+"), "b": bed([3, 16], 2)}
    for words in ("merge", "complement -g g", "genomecov -bga -g g"):
        yield Job(words, f"{words} -i a", lambda: spans)
    for words in ("intersect -wo", "subtract"):
        yield Job(words, f"{words} -a a -b b", lambda: spans)
    yield Job("bamtobed", "bamtobed -i a", lambda: {"a": "r1\t0\tchr1\t3\t60\t4M\t*\t0\t0\tACGT\t*\n" * 2})
    yield Job("maskfasta", "maskfasta -fi a -bed b", lambda: {"a": ">chr1\nACGTACGT\nACGTACGTAC", "b": spans["b"]})


def into_files(jobs):
    """The jobs, and where the output may be named again with -fo."""
    for job in jobs:
        yield job
        if job.words.startswith("maskfasta"):
            yield replace(job, name=f"{job.name} -fo", words=f"{job.words} -fo output")


SPACE_JOBS = [changed for job in [*long_lines(), *much_kept()] for changed in by_genome(job)]
DISK_JOBS = list(into_files([*short_jobs(), *disk_jobs()]))
LONG_OUTPUT = list(into_files(disk_jobs()))


@each(SPACE_JOBS)
class SmallSpaces(InFolder):
    said = ("{runs} runs in address spaces of {least} kB (in less the program isn't started) and more, "
            "{refused} of them without enough memory")

    @classmethod
    def setUpClass(cls):
        super().setUpClass()
        cls.counts["least"] = least_space()

    def case(self, job):
        write_files(self.folder, {"g": GENOME, **job.files()})
        run, refused = Run(job.words), []
        whole = self.shell(run.line())
        self.assertEqual((whole.status, whole.error), (0, b""))
        for spare in SPARE:
            scarce = replace(run, space=self.counts["least"] + spare)
            found = self.shell(scarce.line())
            if found != whole:
                refused.append(found)
                self.expect_prefix(scarce, found, whole)
        self.counts.update(runs=len(SPARE), refused=len(refused))
        self.assertIn(len(refused), range(1, len(SPARE)), "some of the spaces are too small, and some aren't")
        if job.bad:
            self.expect_settled(run, job, refused[-1])

    def expect_prefix(self, run, found, whole):
        """A run without memory wrote a prefix of the output, and said why."""
        lacks = (f"bedtools {run.command()}: no memory\n".encode(), b"bedtools: no memory\n")
        if found.status != 1 or not whole.output.startswith(found.output) or found.error not in lacks:
            self.fail_by_hand(run.line(), "all of the output, or a prefix of it and no memory", shown(found))

    def expect_settled(self, run, job, refused):
        """A run that had no memory for a long line wrote what the lines ahead of it settle."""
        write_files(self.folder, job.bad())
        settled = self.shell(run.line()).output
        if not settled or not refused.output.startswith(settled):
            self.fail_by_hand(run.line(), f"{len(settled)} bytes at least", shown(refused))

    def test_less_than_is_needed(self):
        least = self.counts["least"]
        for kilobytes in [*range(64, least - 256, 64), *range(least - 256, least, 4)]:
            line = Run("", space=kilobytes).line()
            found = self.shell(line)
            is_loaders = (found.status, found.output) == (127, b"")
            if not is_loaders and self.shell(Run("", space=kilobytes, program="true").line()).status == 0:
                self.fail_by_hand(line, "status 127 of the loader, or an end of true too", shown(found))


def is_started(kilobytes):
    """Whether the program is started in an address space of so many kilobytes: whether it says anything itself."""
    test = InFolder()
    test.setUp()
    found = test.shell(Run("", space=kilobytes).line())
    test.doCleanups()
    return found in (Answer(2, b"", b"bedtools: no or unknown command\n"), Answer(1, b"", b"bedtools: no memory\n"))


def least_space():
    """The least address space, in kilobytes, in which the program is started: by halving what is left."""
    low, high = 0, MOST_MEMORY
    while high - low > 4:
        middle = (low + high) // 8 * 4
        low, high = (low, middle) if is_started(middle) else (middle, high)
    return high


class IntoDisk(InFolder):
    """Runs whose output goes into a file: by -fo, or else as standard output."""

    def prepared(self, job):
        """Writes a job's files. Returns its run, and its whole output."""
        write_files(self.folder, {"g": GENOME, **job.files()})
        run = Run(job.words, into="" if "-fo" in job.words else "output")
        _, whole = self.output_of(run.line())
        return run, whole

    def output_of(self, line):
        """Runs a line. Returns its answer, and the file that it wrote into, if any."""
        output = self.folder / "output"
        output.unlink(missing_ok=True)
        return self.shell(line), output.read_bytes() if output.exists() else b""

    def expect_front(self, line, wanted, whole):
        """A line that has to end with an answer and a prefix of the whole output, of which some lengths are right."""
        found, output = self.output_of(line)
        self.counts["runs"] += 1
        is_right = (found.status, found.error) == (wanted.status, wanted.error) and whole.startswith(output)
        if not is_right or len(output) not in wanted.lengths:
            self.fail_by_hand(line, wanted, f"{shown(found)}, a file of {len(output)} bytes")


@dataclass
class Front:
    """How a run has to end, and how many bytes it may have written."""

    status: int
    error: bytes
    lengths: range


@each(DISK_JOBS)
class FullDisks(IntoDisk):
    said = "{runs} runs into files that take only so many bytes"

    def case(self, job):
        run, whole = self.prepared(job)
        error = f"bedtools {run.command()}: writing failed\n".encode()
        sizes = [0, 1, 4096, 8191, 8192, 8193, 100_000, 131_071, 131_072, 131_073, len(whole) - 1, len(whole)]
        for size in range(len(whole) + 1) if len(whole) < 1000 else sizes:
            is_enough = size >= len(whole)
            wanted = Front(0 if is_enough else 1, b"" if is_enough else error, range(size, size + 1))
            if is_enough:
                wanted.lengths = range(len(whole), len(whole) + 1)
            self.expect_front(replace(run, size=size).line(), wanted, whole)


def on_tmpfs(line, size, files=9, is_full=False):
    """A line of sh that runs one in a mount namespace of its own, with a tmpfs for so many files on `disk`."""
    mount = f"mount -t tmpfs -o size={size},nr_inodes={files} tmpfs disk || exit 99"
    fill = "yes > disk/filler 2>&-; " if is_full else ""
    script = f"{mount}; {fill}({line}); status=$?; cp disk/output output 2>&-; exit $status"
    return f"mkdir -p disk; unshare -rm sh -c {shlex.quote(script)}"


@each(LONG_OUTPUT)
class OnTmpfs(IntoDisk):
    said = "{runs} runs onto a tmpfs without room"

    def setUp(self):
        super().setUp()
        if self.shell(on_tmpfs("true", "64k")).status:
            self.skipTest("no tmpfs: unshare -rm isn't allowed here")

    def case(self, job):
        run, whole = self.prepared(job)
        self.assertGreater(len(whole), LARGEST_PIECE)
        run = replace(run, into=run.into and "disk/output", words=run.words.replace("-fo output", "-fo disk/output"))
        error = f"bedtools {run.command()}: writing failed\n".encode()
        for is_full, size in ((False, "64k"), (True, "64k"), (False, "4k")):
            lengths = range(1) if is_full else range(1, len(whole))
            self.expect_front(on_tmpfs(run.line(), size, is_full=is_full), Front(1, error, lengths), whole)

    def test_no_room_for_a_file(self):
        run, whole = self.prepared(LONG_OUTPUT[-1])
        run.words = run.words.replace("-fo output", "-fo disk/output")
        error = b"bedtools maskfasta: disk/output: cannot be opened\n"
        self.expect_front(on_tmpfs(run.line(), "64k", files=1), Front(1, error, range(1)), whole)
