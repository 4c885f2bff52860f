"""The program over random bytes.

So many inputs, as many for each command, of three kinds: any bytes, bytes of the format's alphabet, and good lines with
one byte changed. Each run has to end with status 0 and nothing on standard error, or with status 1 and one line that
the pages know, of a line that the input has; what it wrote has to be whole lines; and the answer has to be the one that
plain.py finds by the rules of the pages. Each tenth input is run again behind a line that ends near the end of a block
of 8,192 bytes, and the answer has to be the same.

Then a good text of each format is cut at each of its bytes, for each command and each of its options; texts with a line
of each kind that is read in a way of its own are put behind a line so that the block ends at each of their bytes; and
random command lines are run, of which those that can't be used have to get status 2 and the line that plain.py finds.

An input goes by the seed, its command and its number. The environment may say SEED=N, INPUTS=N for all commands
together, JOBS=N, as many runs as are under way at a time, and NUMBER=N, which runs that input alone:

    NUMBER=17 python3 -m unittest tests.program.test_random.RandomBytes.test_merge
"""

import collections
import os
import random
import re
import resource
import shlex
import signal
import tempfile
from concurrent.futures import ProcessPoolExecutor
from dataclasses import dataclass, replace
from pathlib import Path
from typing import NamedTuple

from tests.program.plain import COMMANDS as KNOWN, OPTIONS, answer_of, usage_of
from tests.program.random_inputs import KINDS, border_texts, good, line_ahead, random_words
from tests.program.runs import MOST_MEMORY
from tests.support import PROGRAM, Answer, Counted, each, kept, number, shortened, shown

SEED, INPUTS, NUMBER = number("SEED", 1), number("INPUTS", 100_000), number("NUMBER", -1)
JOBS = number("JOBS", len(os.sched_getaffinity(0)))
BLOCK = 8192
# A folder in memory: on a disk the files, which are short and written anew for each run, take most of the time.
MEMORY = "/dev/shm"
# A run that takes longer than so many seconds hangs.
LONGEST = 60
# A process takes so many cases at once.
SHARE = 500
COMMAND_LINES = 10_000
# So many wrong answers are shown.
MOST_SHOWN = 5
# The files of the random command lines, each good.
SMALL = {
    "a.bed": "chr1\t2\t6\n", "b.bed": "chr1\t4\t9\n", "g.txt": "chr1\t20\n", "a.fa": ">chr1\nACGTACGT\n",
    "a.sam": "r1\t0\tchr1\t3\t60\t4M\t*\t0\t0\tACGT\t*\n",
}
FAULT = re.compile(
    rb"bedtools (?P<command>[a-z]+): (?:(?P<name>[a-z.-]+):(?P<line>[1-9][0-9]*): (?:too few columns|"
    rb"empty chromosome name|start is not a number|end is not a number|start is not below end|"
    rb"chromosome is not in the genome file|record is out of order|length is not a number|chromosome is repeated|"
    rb"flag is not a number|position is not a number|mapping quality is not a number|CIGAR is malformed|"
    rb"text before the first header|no such sequence from here on|end is too large|too many open records))\n"
)


class Input(NamedTuple):
    """An input of a command: the option that names it, its file, and its format."""

    option: str
    file: str
    form: str


GENOME = Input("-g", "g.txt", "genome")
ONE_INPUT = [Input("-i", "a.bed", "bed"), GENOME]
TWO_INPUTS = [Input("-a", "a.bed", "bed"), Input("-b", "b.bed", "bed"), GENOME]
# Without a genome file: the chromosomes are in the order of their names.
ONE_NAMED = [Input("-i", "a.bed", "named")]
TWO_NAMED = [Input("-a", "a.bed", "named"), Input("-b", "b.bed", "named")]
SEQUENCES = [Input("-fi", "a.fa", "fasta"), Input("-bed", "b.bed", "bed")]


@dataclass
class Command:
    """A command with its inputs, and the options that it is tried with."""

    name: str
    command: str
    inputs: list
    options: list


def flags(command):
    """The options of a command that have no value, each alone."""
    return [option.word for option in KNOWN[command].options if not option.value]


OF_MERGE = ["", *flags("merge"), "-d 3", "-s -d 7", "-S +", "-S -"]
OF_INTERSECT = ["", *flags("intersect"), "-wa -wb", "-f 0.5 -r", "-f 0.1 -s -v", "-held 0", "-c -held 1", "-held 3"]
OF_SUBTRACT = ["", *flags("subtract"), "-f 0.5", "-held 1", "-A -held 2"]
COMMANDS = [
    Command("merge", "merge", ONE_INPUT, OF_MERGE),
    Command("merge by names", "merge", ONE_NAMED, OF_MERGE),
    Command("complement", "complement", ONE_INPUT, ["", *flags("complement")]),
    Command("intersect", "intersect", TWO_INPUTS, OF_INTERSECT),
    Command("subtract", "subtract", TWO_INPUTS, OF_SUBTRACT),
    Command("intersect by names", "intersect", TWO_NAMED, OF_INTERSECT),
    Command("subtract by names", "subtract", TWO_NAMED, OF_SUBTRACT),
    Command("genomecov", "genomecov", ONE_INPUT, [*flags("genomecov"), "-bg -strand +", "-bga -strand -"]),
    Command("bamtobed", "bamtobed", [Input("-i", "a.sam", "sam")], ["", *flags("bamtobed"), "-split -cigar"]),
    Command("maskfasta", "maskfasta", SEQUENCES, ["", *flags("maskfasta"), "-mc x"]),
]


@dataclass
class Case:
    """A run: its command, its options, and the bytes of its files. One of them may be standard input."""

    command: Command
    options: list
    files: dict
    stream: str = None

    def words(self):
        """The words of the run."""
        words = [PROGRAM, self.command.command, *self.options]
        for option, name, _ in self.command.inputs:
            words += [option, "-" if name == self.stream else name]
        return words

    def file_of(self, name):
        """The file that a fault line names."""
        return self.stream if name == "-" else name


def run(case):
    """Runs a case in the folder where the process is."""
    for name, text in case.files.items():
        Path(name).write_bytes(text)
    return run_words(case.words(), case.stream)


def run_words(words, stream):
    """Runs words."""
    into = os.O_WRONLY | os.O_CREAT | os.O_TRUNC
    streams = [
        (os.POSIX_SPAWN_OPEN, 0, stream or os.devnull, os.O_RDONLY, 0),
        (os.POSIX_SPAWN_OPEN, 1, "output", into, 0o600),
        (os.POSIX_SPAWN_OPEN, 2, "error", into, 0o600),
    ]
    process = os.posix_spawn(PROGRAM, words, {}, file_actions=streams)
    signal.signal(signal.SIGALRM, lambda *_: os.kill(process, signal.SIGKILL))
    signal.alarm(LONGEST)
    _, status = os.waitpid(process, 0)
    signal.alarm(0)
    return Answer(os.waitstatus_to_exitcode(status), Path("output").read_bytes(), Path("error").read_bytes())


def wrong_with(case, answer):
    """What is wrong with an answer, if anything."""
    if answer.status not in (0, 1):
        return f"status {answer.status}"
    fault = FAULT.fullmatch(answer.error)
    if (answer.status == 1) != bool(fault) or (answer.status == 0 and answer.error):
        return "standard error"
    if fault:
        lines = case.files[case.file_of(fault["name"].decode())].split(b"\n")
        is_there = int(fault["line"]) <= len(lines) - (lines[-1] == b"")
        if fault["command"].decode() != case.command.command or not is_there:
            return "the place of the fault"
    if answer.output and not answer.output.endswith(b"\n") and case.command.command != "maskfasta":
        return "a part of a line"
    return differs(case, answer)


def differs(case, answer):
    """How an answer differs from what the rules of the pages give, if it does."""
    output, is_all, fault = answer_of(case.command.command, case.files, case.options)
    if output is None:
        return None
    error = fault.line(case.command.command, case.stream) if fault else b""
    if answer.error != error:
        return f"standard error isn't {error!r}"
    is_right = answer.output == output if is_all else output.startswith(answer.output)
    return None if is_right else f"the output isn't {shortened(output)}"


def random_case(command, at):
    """The case of a command with this number, the kind of its bytes, and the numbers that it was made by."""
    numbers = random.Random(f"{SEED} {command.command} {at}")
    kind = KINDS[at % len(KINDS)]
    names = [name for _, name, _ in command.inputs]
    # The genome file is rarely hostile: behind a fault there nothing else is looked at.
    others = [name for name in names if name != "g.txt"]
    chosen = ["g.txt"] if "g.txt" in names and numbers.random() < 0.1 else others
    hostile = chosen if numbers.random() < 0.1 else [numbers.choice(chosen)]
    files = {name: (kind if name in hostile else good)(numbers, form) for _, name, form in command.inputs}
    stream = numbers.choice([None, None, *others])
    return Case(command, numbers.choice(command.options).split(), files, stream), kind.__name__, numbers


@dataclass
class Behind:
    """A case with a line ahead of one of its files, that file, and by how much the numbers of its lines grow."""

    case: Case
    file: str
    lines: int

    def is_as(self, answer, further):
        """Whether it was answered as the case without the line: but for the number of the line, and for the blank
        lines that are ahead of a FASTA file."""
        error = answer.error
        fault = FAULT.fullmatch(error)
        if fault and self.case.file_of(fault["name"].decode()) == self.file:
            error = error.replace(b":%s:" % fault["line"], b":%d:" % (int(fault["line"]) + self.lines))
        outputs = [it.output.lstrip(b"\n") if self.file == "a.fa" else it.output for it in (answer, further)]
        return (answer.status, error, outputs[0]) == (further.status, further.error, outputs[1])


def behind_a_line(case, name, form, length):
    """A case with a line of a length ahead of one of its files."""
    ahead = line_ahead(form, length)
    return Behind(replace(case, files={**case.files, name: ahead + case.files[name]}), name, ahead.count(b"\n"))


def behind_a_random_line(case, numbers):
    """A case with a line ahead of one of its files that ends near the end of a block."""
    name = numbers.choice(sorted(case.files))
    form = next(form for _, known, form in case.command.inputs if known == name)
    length = max(1, BLOCK * numbers.randrange(1, 3) - numbers.randrange(len(case.files[name]) + 3))
    return behind_a_line(case, name, form, length)


def by_hand(what, case, *answers):
    """What is wrong with a case, with the line that runs it by hand on its files, which are kept."""
    stream = f" < {case.stream}" if case.stream else ""
    files = "".join(f"\n  {name}: {shortened(text)}" for name, text in case.files.items())
    answered = "".join(f"\n  found: {shown(answer)}" for answer in answers)
    go = kept(f"{case.command.name} {what[:60]}", ".")
    return f"\n{what}\n  by hand: ({go} && {shlex.join(case.words())}{stream}){files}{answered}"


def random_bytes(command, chosen):
    """Runs the cases of a command with these numbers, and each tenth again behind a line. Returns how many of each kind
    there were, and what is wrong."""
    counts, wrong = collections.Counter(), []
    for at in chosen:
        case, kind, numbers = random_case(command, at)
        answer = run(case)
        counts[f"{kind} {'refused' if answer.status else 'taken'}"] += 1
        alone = f"SEED={SEED} NUMBER={at}"
        fault = wrong_with(case, answer)
        if fault:
            wrong.append(by_hand(f"{alone}: {fault}", case, answer))
        elif at % 10 == 0:
            behind = behind_a_random_line(case, numbers)
            further = run(behind.case)
            if not behind.is_as(answer, further):
                wrong.append(by_hand(f"{alone}: another answer behind a line", behind.case, answer, further))
    return counts, wrong


def cut_bytes(command, options):
    """Cuts each input of a command line at each byte. Returns how many runs there were, and what is wrong."""
    numbers = random.Random(f"{SEED} {command.command} {options}")
    files = {name: good(numbers, form) for _, name, form in command.inputs}
    counts, wrong = collections.Counter(), []
    for name, text in files.items():
        for at in range(len(text) + 1):
            case = Case(command, options.split(), {**files, name: text[:at]})
            answer = run(case)
            fault = wrong_with(case, answer)
            if fault:
                wrong.append(by_hand(f"{name} is cut at {at}: {fault}", case, answer))
            counts["cut"] += 1
    return counts, wrong


def borders(command, name, form):
    """Runs texts with a line of each kind as this input of a command, behind a line that ends so far before the end of
    a block that it ends at each of their bytes. Returns how many runs there were, and what is wrong."""
    numbers = random.Random(f"{command.command} {name}")
    others = {other: good(numbers, further) for _, other, further in command.inputs}
    if "g.txt" in others:
        others["g.txt"] = b"chr1\t999999999999\nchr2\t50\nchr10\t300\n"
    counts, wrong = collections.Counter(), []
    for text in border_texts(form):
        case = Case(command, command.options[0].split(), {**others, name: text})
        answer = run(case)
        for before in range(len(text) + 1):
            behind = behind_a_line(case, name, form, BLOCK - before)
            further = run(behind.case)
            fault = wrong_with(behind.case, further)
            if fault or not behind.is_as(answer, further):
                what = f"{name} at the end of a block: {fault or 'another answer than alone'}"
                wrong.append(by_hand(what, behind.case, answer, further))
            counts["bordered"] += 1
    return counts, wrong


def command_lines(chosen):
    """Runs the random command lines with these numbers. Returns how many can't be used, and what is wrong."""
    numbers = random.Random(f"{SEED} {chosen[0]}")
    counts, wrong = collections.Counter(), []
    for name, text in SMALL.items():
        Path(name).write_text(text, encoding="ascii")
    for at in chosen:
        words = random_words(numbers, OPTIONS)
        answer = run_words([PROGRAM, *words], None)
        usage = usage_of(words)
        if usage:
            is_right = answer == Answer(2, b"", f"bedtools: {usage}\n".encode())
        else:
            is_right = answer.status in (0, 1) and len(answer.error.splitlines()) == answer.status
        if not is_right:
            wrong.append(f"\nwords {at}: {words!r}\n  wanted: {usage}\n  found: {shown(answer)}")
        counts["unusable" if usage else "usable"] += 1
    return counts, wrong


def prepare(folder):
    """Prepares a process that runs cases: it gets a folder of its own, and as much memory as a run may take."""
    os.chdir(tempfile.mkdtemp(dir=folder))
    resource.setrlimit(resource.RLIMIT_AS, (MOST_MEMORY * 1024, MOST_MEMORY * 1024))


class OfShares(Counted):
    """Cases that several processes run, each in a folder of its own."""

    @classmethod
    def setUpClass(cls):
        super().setUpClass()
        folder = tempfile.TemporaryDirectory(dir=MEMORY if Path(MEMORY).is_dir() else None)
        cls.addClassCleanup(folder.cleanup)
        pool = ProcessPoolExecutor(JOBS, initializer=prepare, initargs=(folder.name,))
        cls.addClassCleanup(pool.shutdown)
        cls.pool = pool

    def expect_none_wrong(self, tried, *shares):
        """Has each share tried. Fails if an answer is wrong."""
        found = [share.result() for share in [self.pool.submit(tried, *share) for share in shares]]
        for counts, _ in found:
            self.counts.update(counts)
        wrong = [each_one for _, some in found for each_one in some]
        if wrong:
            self.fail(f"{len(wrong)} answers are wrong (seed {SEED}), as:{''.join(wrong[:MOST_SHOWN])}")


@each(COMMANDS)
class RandomBytes(OfShares):
    @classmethod
    def tearDownClass(cls):
        kinds = ", ".join(f"{count} {kind}" for kind, count in sorted(cls.counts.items())).replace("_", " ")
        print(f"RandomBytes: {sum(cls.counts.values())} inputs (seed {SEED}): {kinds}", flush=True)

    def case(self, command):
        chosen = range(-(-INPUTS // len(COMMANDS))) if NUMBER < 0 else [NUMBER]
        parts = [chosen[first:first + SHARE] for first in range(0, len(chosen), SHARE)]
        self.expect_none_wrong(random_bytes, *((command, part) for part in parts))


@each(COMMANDS)
class CutInputs(OfShares):
    said = "{cut} inputs that are cut at a byte"

    def case(self, command):
        self.expect_none_wrong(cut_bytes, *((command, options) for options in command.options))


@each(COMMANDS)
class BlockBorders(OfShares):
    said = "{bordered} inputs that lie over the end of a block"

    def case(self, command):
        inputs = [(name, form) for _, name, form in command.inputs if form != "genome"]
        self.expect_none_wrong(borders, *((command, name, form) for name, form in inputs))


class CommandLines(OfShares):
    said = "{usable} random command lines that can be used, and {unusable} that can't"

    def test_random_words(self):
        shares = [range(first, first + SHARE) for first in range(0, COMMAND_LINES, SHARE)]
        self.expect_none_wrong(command_lines, *((share,) for share in shares))
