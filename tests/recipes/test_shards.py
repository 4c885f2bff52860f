"""The recipes of SHARDS.md with the program in bin/: what they write is the output of the whole run.

The inputs have 25 chromosomes. Each of the seven commands is run whole, and in shards as the page's blocks do: by GNU
parallel over files of each kind, by Snakemake, on two machines, and by a job array of Slurm, for which a Slurm of one
node is started in a folder of its own, with nothing of a Slurm that is there already. Shards with a fault are run too.
What needs a tool that isn't on PATH is skipped. bench/shards.py measures times.
"""

import getpass
import os
import re
import shutil
import socket
import subprocess
import tempfile
import unittest
from contextlib import ExitStack
from pathlib import Path
from typing import NamedTuple

from tests.recipes.shard_runs import (ALIGNMENTS, CHROMOSOMES, FILES, KINDS, PAGE, SEQUENCES, WORDS, block, blocks,
                                      clean, exchanged, fill, folder_of, recipe, run, wait_until, whole)
from tests.support import Counted, each

# Tries names, cuts and links that may do harm.
SAFE = Path(__file__).with_name("safe.py")
# A recipe has so many lines at most.
LINES = 10
COMMANDS = [
    "merge -i a.bed -g genome.txt", "merge -i a.bed -g genome.txt -d 40", "merge -i a.bed -g genome.txt -s",
    "merge -i a.bed -g genome.txt -S - -d 5", "complement -i a.bed -g genome.txt",
    "complement -i a.bed -g genome.txt -L",
    WORDS, *(f"intersect -a a.bed -b b.bed -g genome.txt {shape}"
             for shape in ("", "-wa", "-wb", "-wa -wb", "-u", "-v", "-c", "-f 0.4", "-f 0.2 -r -wo", "-s -c")),
    "subtract -a a.bed -b b.bed -g genome.txt", "subtract -a a.bed -b b.bed -g genome.txt -A",
    "subtract -a a.bed -b b.bed -g genome.txt -f 0.3 -s", "genomecov -i a.bed -g genome.txt -bg",
    "genomecov -i a.bed -g genome.txt -bga", "genomecov -i a.bed -g genome.txt -bga -strand +",
    "maskfasta -fi sequences.fa -bed a.bed", "maskfasta -fi sequences.fa -bed a.bed -soft",
]
# Without a genome file, over files in the order of the names' bytes.
BY_NAME = ["merge -i a.bed", "merge -i a.bed -s -d 9", "intersect -a a.bed -b b.bed -c",
           "intersect -a a.bed -b b.bed -v", "intersect -b b.bed -a a.bed -v", "subtract -a a.bed -b b.bed"]
BAMTOBED = [ALIGNMENTS, f"{ALIGNMENTS} -split", f"{ALIGNMENTS} -cigar"]
EACH = ["merge -i a.bed -g genome.txt -d 40", "complement -i a.bed -g genome.txt", WORDS,
        "subtract -a a.bed -b b.bed -g genome.txt", "genomecov -i a.bed -g genome.txt -bga", f"{ALIGNMENTS} -split",
        SEQUENCES]
IN_ORDER, BY_BYTES = tuple(CHROMOSOMES), tuple(sorted(CHROMOSOMES))


class Shards(Counted):
    """Tests that need the tools of shards, in one folder for inputs."""

    tools = ("tabix", "bgzip", "parallel")

    @classmethod
    def setUpClass(cls):
        super().setUpClass()
        missing = [name for name in cls.tools if not shutil.which(name)]
        if missing:
            raise unittest.SkipTest(f"no {' and no '.join(missing)} on PATH")
        made = tempfile.TemporaryDirectory()
        cls.addClassCleanup(made.cleanup)
        cls.top = Path(made.name)

    def expect_same(self, words, script, folder):
        """Runs a recipe. It ends well, and the bytes of its output are those of the whole run."""
        name = re.findall(r"(?:^mv \S+ |output=)(\S+)$", script, re.MULTILINE)[-1]
        clean(folder, name)
        done, wanted = run(script, folder), whole(words, folder)
        output = Path(folder, name)
        found = output.read_bytes() if output.exists() else None
        if (done.returncode, wanted.returncode, found) != (0, 0, wanted.stdout):
            self.fail(f"{words}: status {done.returncode}, {len(wanted.stdout)} bytes of the whole, "
                      f"{'none' if found is None else len(found)} of the shards\n{script}\n"
                      f"{wanted.stderr.decode()}{done.stderr[-1200:]}")
        self.counts["runs"] += 1

    def expect_fault(self, script, folder, *wanted):
        """Runs a script that has to end with a fault, and to report these texts."""
        done = run(script, folder)
        self.assertNotEqual(done.returncode, 0, script)
        for text in wanted:
            self.assertIn(text, done.stderr + done.stdout, script)
        self.counts["faults"] += 1


class Line(NamedTuple):
    """A command line over files of a kind, whose chromosomes are in an order."""

    name: str
    words: str
    kind: str
    order: tuple = IN_ORDER


@each([*(Line(f"{words}, {kind}", words, kind) for kind in KINDS for words in COMMANDS),
       *(Line(f"{words}, {kind}", words, kind, BY_BYTES) for kind in KINDS for words in BY_NAME),
       *(Line(f"{words}, {KINDS[0]}", words, KINDS[0]) for words in BAMTOBED)])
class Parallel(Shards):
    """By GNU parallel, in shards of 25 chromosomes or of 8 parts."""

    said = "{runs} runs by GNU parallel"

    def case(self, line):
        self.expect_same(line.words, recipe(line.words), folder_of(self.top, line.kind, line.order))

    def test_few_alignments(self):
        """Three in eight parts, of which some are empty; the last line is the longest, and has no line feed."""
        few = folder_of(self.top, "few alignments")
        text = "".join(f"r{number}\t0\tchr1\t{number + 1}\t9\t4M\t*\t0\t0\tACGT\t*\n" for number in range(2))
        last = f"{'r' * 300}\t0\tchr1\t9\t9\t4M\t*\t0\t0\tACGT\t*"
        Path(few, "reads.sam").write_text(text + last, encoding="utf-8")
        self.expect_same(ALIGNMENTS, recipe(ALIGNMENTS), few)


class Name(NamedTuple):
    """What the names of files begin with."""

    name: str


@each([Name("two words"), Name("$(touch hit)"), Name("a=1"), Name("-x"), Name("*")])
class OddNames(Shards):
    """GNU parallel's recipe over files with odd names."""

    said = "{runs} runs over files with odd names"

    def case(self, odd):
        folder = self.top / self._testMethodName
        fill(folder, KINDS[1])
        for file in ("a.bed", "b.bed", "genome.txt"):
            shutil.copy(folder / file, folder / f"{odd.name}.{file}")
        names = r"\b(?:[ab]\.bed|genome\.txt)"
        script = re.sub(names, lambda found: f"'{odd.name}.'{found[0]}", recipe(WORDS))
        self.expect_same(WORDS, script, folder)
        self.assertFalse((folder / "hit").exists())

    def test_names_and_chromosomes(self):
        """What safe.py tries of these scripts."""
        ran = subprocess.run([SAFE, "shards", FILES], capture_output=True, text=True, check=False)
        self.assertEqual(ran.returncode, 0, ran.stdout + ran.stderr)


class Input(NamedTuple):
    """An a.bed at fault, and what is reported of it."""

    name: str
    text: str


@each([Input("Unsorted positions", "chr1\t5\t9\nchr1\t1\t2\n"), Input("Invalid record", "chr1\t9\t5\n"),
       Input("a.bed:1: end is 0", "chr1\t1\tx\n"), Input("a.bed:2: end is 0", "chr1\t1\t2\nchr1\t0\t0\n"),
       Input("Failed to parse", "chr1\t1\t2\nchr2\tx\t4\nchr2\t1\t4\n"),
       Input("not continuous", "chr1\t1\t5\nchr2\t1\t2\nchr1\t6\t9\n"),
       Input("a.bed:1: empty chromosome name", "\t1\t5\nchr1\t1\t5\n"),
       Input("shards/chrU/a.bed:1: chromosome is not in the genome file", "chrU\t1\t2\n")])
class Faults(Shards):
    """Inputs at fault: what tabix finds first, what the page shows, and what a shard would lose."""

    said = "{faults} inputs at fault"

    def setUp(self):
        self.folder = self.top / self._testMethodName
        fill(self.folder, KINDS[0])

    def case(self, given):
        (self.folder / "a.bed").write_text(given.text, encoding="utf-8")
        self.expect_fault(block("One machine"), self.folder, given.name)
        self.assertFalse((self.folder / "hits.bed").exists())

    def test_shard_of_the_page(self):
        """The page's shard at fault, with the lines that it reports, and where the fault is in the whole."""
        following = PAGE.read_text(encoding="utf-8").partition("# An error in the part of")[2]
        said = re.findall(r"^    (bedtools .*|parallel: .*|\./shard.sh chr2 .*)$", following, re.MULTILINE)
        self.expect_fault(block("An error in the part of"), self.folder, *said)
        place = run(block("The line of that record in the whole file"), self.folder).stdout
        self.assertTrue(place)
        self.assertIn(f"    {place}", following)
        self.assertFalse((self.folder / "merged.bed").exists())

    def test_part_of_alignments(self):
        """The second of eight parts, by the lines of the first."""
        sam = [f"r{number}\t0\tchr1\t{number + 1}\t9\t4M\t*\t0\t0\tACGT\t*\n" for number in range(80)]
        sam[49] = sam[49].replace("4M", "M4")
        (self.folder / "reads.sam").write_text("".join(sam), encoding="utf-8")
        done = run(block("Alignments"), self.folder)
        shard, line = re.search(r"shards/(\d)/8/reads.sam:(\d+): CIGAR is malformed", done.stderr).groups()
        parts = f"for k in $(seq {int(shard) - 1}); do split -n l/$k/8 reads.sam; done | wc -l"
        self.assertEqual(int(run(parts, self.folder).stdout) + int(line), 50)
        self.counts["faults"] += 1

    def test_two_sequences_of_one_name(self):
        """A shard would lose the first."""
        text = ">one\nACGT\n>two\nAC\n>one x\nTTTTTT\n"
        (self.folder / "sequences.fa").write_text(text, encoding="utf-8")
        self.expect_fault("./index.sh sequences.fa\n", self.folder, "sequences.fa:5: name comes back: one")

    def test_no_input(self):
        self.expect_fault("./shard.sh chr1 merge -d 5\n", self.folder, "no input is named")


def put_fault(folder):
    """Puts a fault into the part of chr3 of a folder's a.bed. Returns the line that is reported of it."""
    lines = Path(folder, "a.bed").read_text(encoding="utf-8").splitlines(keepends=True)
    ours = [number for number, line in enumerate(lines) if line.startswith("chr3\t")]
    lines[ours[-1]] = "chr3\t99999\t100000k\n"
    Path(folder, "a.bed").write_text("".join(lines), encoding="utf-8")
    return f"bedtools intersect: shards/chr3/a.bed:{len(ours)}: end is not a number"


@each([*(Line(words, words, KINDS[-1]) for words in EACH), Line(BY_NAME[2], BY_NAME[2], KINDS[-1], BY_BYTES)])
class Snakemake(Shards):
    """Each command over files with header lines, and once without a genome file."""

    said = "{runs} runs by Snakemake"
    tools = (*Shards.tools, "snakemake")

    def case(self, line):
        folder = folder_of(self.top, line.kind, line.order)
        self.expect_same(line.words, exchanged(block("On this machine"), WORDS, line.words), folder)

    def test_shard_at_fault(self):
        """Its line and status are in its log, and there is no output."""
        folder = self.top / "fault"
        fill(folder, KINDS[1])
        line = put_fault(folder)
        self.expect_fault(block("On this machine"), folder, "logs/chr3.txt")
        self.assertEqual((folder / "logs" / "chr3.txt").read_text(encoding="utf-8"), f"{line}\nstatus 1\n")
        self.assertFalse((folder / "hits.bed").exists())


def free_port():
    """A port of this machine that is free."""
    with socket.socket() as one:
        one.bind(("127.0.0.1", 0))
        return one.getsockname()[1]


def put_sshd(own, port):
    """Writes keys and configurations of an sshd of this user, and of an ssh for which this machine has two names."""
    own.mkdir(mode=0o700)
    if os.getuid() == 0:
        Path("/run/sshd").mkdir(exist_ok=True)
    for key in ("host", "user"):
        subprocess.run(["ssh-keygen", "-q", "-t", "ed25519", "-N", "", "-f", own / key], check=True)
    (own / "sshd").write_text(
        f"Port {port}\nListenAddress 127.0.0.1\nHostKey {own}/host\nAuthorizedKeysFile {own}/user.pub\n"
        f"PidFile none\nStrictModes no\nPasswordAuthentication no\nAllowUsers {getpass.getuser()}\n")
    (own / "ssh").write_text(
        f"Host one two\n  HostName 127.0.0.1\n  Port {port}\n  IdentityFile {own}/user\n  IdentitiesOnly yes\n"
        "  StrictHostKeyChecking no\n  UserKnownHostsFile /dev/null\n  LogLevel ERROR\n")


class TwoMachines(Shards):
    """The recipe of two machines, which are this one under two names, by an sshd of its own."""

    said = "{runs} run on two machines"
    tools = (*Shards.tools, "ssh")

    def test_two_machines(self):
        sshd = shutil.which("sshd") or shutil.which("sshd", path="/usr/sbin")
        if not sshd:
            self.skipTest("no sshd on PATH")
        folder, own = folder_of(self.top, KINDS[2]), self.top / "ssh"
        put_sshd(own, free_port())
        with subprocess.Popen([sshd, "-D", "-e", "-f", own / "sshd"], stderr=subprocess.DEVNULL) as server:
            self.addCleanup(server.terminate)
            wait_until(lambda: run(f"ssh -F {own}/ssh one true", folder).returncode == 0)
            script = f"export PARALLEL_SSH='ssh -F {own}/ssh'\n" + block("Two machines")
            self.expect_same(WORDS, script, folder)
            server.terminate()
        jobs = (folder / "jobs.txt").read_text(encoding="utf-8")
        self.assertEqual(len(set(re.findall(r"(?m)^\d+\t(\S+)", jobs))), 2)


def slurm_conf(own):
    """The configuration of a Slurm of one node, this machine, for this user alone."""
    user = getpass.getuser()
    return f"""ClusterName=trial
SlurmctldHost=localhost
SlurmUser={user}
SlurmdUser={user}
AuthType=auth/none
CredType=cred/none
MpiDefault=none
ProctrackType=proctrack/pgid
TaskPlugin=task/none
JobAcctGatherType=jobacct_gather/none
AccountingStorageType=accounting_storage/none
SelectType=select/cons_tres
SelectTypeParameters=CR_CPU
SlurmctldPort={free_port()}
SlurmdPort={free_port()}
StateSaveLocation={own}/state
SlurmdSpoolDir={own}/spool
SlurmctldPidFile={own}/slurmctld.pid
SlurmdPidFile={own}/slurmd.pid
SlurmctldLogFile={own}/slurmctld.log
SlurmdLogFile={own}/slurmd.log
NodeName=localhost CPUs={os.cpu_count()} State=UNKNOWN
PartitionName=all Nodes=localhost Default=YES MaxTime=INFINITE State=UP
"""


def tail(path):
    """The last lines of a log."""
    return "".join(path.read_text(encoding="utf-8").splitlines(keepends=True)[-5:]) if path.exists() else ""


class Slurm(Shards):
    """The job array and Snakemake's profile, by a Slurm of one node that is started here and ended again."""

    said = "{runs} runs by Slurm"
    array = "cat > array.sh << 'END'\n#!/bin/bash\n{}END\n{}"

    @classmethod
    def setUpClass(cls):
        super().setUpClass()
        path = f"{os.environ['PATH']}:/usr/sbin"
        programs = {name: shutil.which(name, path=path) for name in ("slurmctld", "slurmd", "sbatch", "sinfo")}
        if not all(programs.values()):
            missing = " and no ".join(name for name, place in programs.items() if not place)
            raise unittest.SkipTest(f"no {missing} on PATH")
        own = cls.top / "slurm"
        for name in ("state", "spool"):
            (own / name).mkdir(parents=True)
        conf = own / "slurm.conf"
        conf.write_text(slurm_conf(own))
        quiet = {"stdout": subprocess.DEVNULL, "stderr": subprocess.DEVNULL}
        servers = ExitStack()
        cls.addClassCleanup(servers.close)
        for words in ([programs["slurmctld"], "-D", "-i"], [programs["slurmd"], "-D", "-N", "localhost"]):
            server = servers.enter_context(subprocess.Popen([*words, "-f", conf], **quiet))
            servers.callback(server.terminate)
        os.environ["SLURM_CONF"] = str(conf)
        cls.addClassCleanup(os.environ.pop, "SLURM_CONF")
        if not wait_until(lambda: run("sinfo -h -o %T", own).stdout.strip() == "idle"):
            raise unittest.SkipTest(f"no Slurm of one node can be started here:\n{tail(own / 'slurmctld.log')}"
                                    f"{tail(own / 'slurmd.log')}")

    def setUp(self):
        self.folder = folder_of(self.top, KINDS[3], tuple(CHROMOSOMES[:9]))
        clean(self.folder, "hits.bed")
        self.array = self.array.format(block("array.sh"), block("The array"))

    def test_array(self):
        self.expect_same(WORDS, self.array, self.folder)

    def test_snakemake_on_a_cluster(self):
        if not shutil.which("snakemake"):
            self.skipTest("no snakemake on PATH")
        self.expect_same(WORDS, block("On a cluster"), self.folder)

    def test_with_a_fault(self):
        folder = self.top / "fault"
        fill(folder, KINDS[3], tuple(CHROMOSOMES[:9]))
        line = put_fault(folder)
        self.expect_fault(self.array, folder)
        names = (folder / "names.txt").read_text(encoding="utf-8").splitlines()
        log = folder / "logs" / f"{names.index('chr3') + 1}.txt"
        self.assertIn(line, log.read_text(encoding="utf-8"))
        self.assertFalse((folder / "hits.bed").exists())


class Page(unittest.TestCase):
    def test_recipes_are_short(self):
        self.assertEqual([name for name, script in blocks().items() if len(script.splitlines()) > LINES], [])
