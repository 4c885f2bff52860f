"""The program where real files, pipes and streams misbehave: each case is a line of sh, in a folder with FILES."""

from typing import NamedTuple

from tests.support import Answer, InFolder, each

FILES = {
    "genome.txt": "chr1\t20\nchr2\t8\n",
    "a.bed": "chr1\t2\t6\nchr1\t14\t17\n",
    "unsorted.bed": "chr1\t10\t12\nchr1\t2\t6\n",
    "a.fa": ">chr1\nACGTACGT\n",
    "alignments.sam": "r1\t0\tchr1\t3\t60\t4M\t*\t0\t0\tACGT\t*\n",
}

MERGED = "chr1\t2\t6\nchr1\t14\t17\n"
STDIN_FAILS = "bedtools {}: stdin:1: reading failed\n"
WRITING_FAILS = "bedtools {}: writing failed\n"
UNSORTED = "bedtools merge: unsorted.bed:2: record is out of order\n"


class Edge(NamedTuple):
    """A line of sh, and what it has to write, to report and to end with."""

    name: str
    line: str
    output: str = ""
    error: str = ""
    status: int = 0


def fails(name, line, error, output=""):
    """A line that ends with status 1."""
    return Edge(name, line, output, error, 1)


FULL_DISK = [
    "bedtools merge -i a.bed -g genome.txt >/dev/full",
    "bedtools complement -i a.bed -g genome.txt >/dev/full",
    "bedtools intersect -a a.bed -b a.bed -g genome.txt >/dev/full",
    "bedtools subtract -a a.bed -b /dev/null -g genome.txt >/dev/full",
    "bedtools genomecov -i a.bed -g genome.txt -bg >/dev/full",
    "bedtools bamtobed -i alignments.sam >/dev/full",
    "bedtools maskfasta -fi a.fa -bed a.bed >/dev/full",
    "bedtools maskfasta -fi a.fa -bed a.bed -fo /dev/full",
]

# How an input is named, the line, the name that can't be opened, and which input it is: b.fa or b.bed.
OVER_INPUT = [
    ("another spelling", "bedtools maskfasta -fi b.fa -bed a.bed -fo ./b.fa", "./b.fa", "fa"),
    ("a symbolic link", "ln -s b.fa soft.fa; bedtools maskfasta -fi b.fa -bed a.bed -fo soft.fa", "soft.fa", "fa"),
    ("read by a link", "ln -s b.fa soft.fa; bedtools maskfasta -fi soft.fa -bed a.bed -fo b.fa", "b.fa", "fa"),
    ("a hard link", "ln b.fa hard.fa; bedtools maskfasta -fi b.fa -bed a.bed -fo hard.fa", "hard.fa", "fa"),
    ("standard input", "bedtools maskfasta -fi - -bed a.bed -fo b.fa < b.fa", "b.fa", "fa"),
    ("another spelling of -bed", "bedtools maskfasta -fi a.fa -bed b.bed -fo ./b.bed", "./b.bed", "bed"),
    ("a symbolic link to -bed", "ln -s b.bed s.bed; bedtools maskfasta -fi a.fa -bed b.bed -fo s.bed", "s.bed", "bed"),
    ("a hard link to -bed", "ln b.bed h.bed; bedtools maskfasta -fi a.fa -bed b.bed -fo h.bed", "h.bed", "bed"),
    ("its descriptor", "bedtools maskfasta -fi /dev/fd/5 -bed a.bed -fo b.fa 5< b.fa", "b.fa", "fa"),
    ("a descriptor of -fo", "bedtools maskfasta -fi b.fa -bed a.bed -fo /dev/fd/5 5<> b.fa", "/dev/fd/5", "fa"),
    ("standard output", "bedtools maskfasta -fi b.fa -bed a.bed -fo /dev/stdout >> b.fa", "/dev/stdout", "fa"),
]

EDGES = [
    # Standard input is closed: reading it fails, and it is never the genome file or another input.
    fails("closed input merge", "bedtools merge -g genome.txt <&-", STDIN_FAILS.format("merge")),
    fails("closed input complement", "bedtools complement -g genome.txt <&-", STDIN_FAILS.format("complement")),
    fails("closed input first",
          "bedtools intersect -a - -b a.bed -g genome.txt <&-", "bedtools intersect: -:1: reading failed\n"),
    fails("closed input second",
          "bedtools intersect -a a.bed -b stdin -g genome.txt <&-", "bedtools intersect: stdin:1: reading failed\n"),
    fails("closed input bamtobed", "bedtools bamtobed <&-", STDIN_FAILS.format("bamtobed")),
    Edge("closed input that isn't read", "bedtools merge -i a.bed -g genome.txt <&-", MERGED),
    # Standard output is closed: writing fails, and no input is written to.
    fails("closed output merge", "bedtools merge -i a.bed -g genome.txt >&-", WRITING_FAILS.format("merge")),
    fails("closed output bamtobed", "bedtools bamtobed -i alignments.sam >&-", WRITING_FAILS.format("bamtobed")),
    fails("closed input and output", "bedtools merge -g genome.txt <&- >&-", STDIN_FAILS.format("merge")),
    Edge("closed output and error, inputs stay",
         "bedtools merge -i a.bed -g genome.txt >&- 2>&-; cat a.bed genome.txt", FILES["a.bed"] + FILES["genome.txt"]),
    Edge("closed output, nothing to write", "bedtools merge -i /dev/null -g genome.txt >&-", ""),
    # Standard error is closed: the line is lost, the status stays, and the line is in no other file.
    fails("closed error, a fault", "bedtools merge -i unsorted.bed -g genome.txt 2>&-", ""),
    fails("closed input and error, a fault", "bedtools merge -i unsorted.bed -g genome.txt <&- 2>&-", ""),
    Edge("closed error, usage", "bedtools merge -q 2>&-; echo $?", "2\n"),
    Edge("closed error, no fault", "bedtools merge -i a.bed -g genome.txt 2>&-", MERGED),
    # All are closed.
    fails("all closed", "bedtools complement -g genome.txt <&- >&- 2>&-", ""),
    # A full disk.
    *(fails(f"full disk {line.split()[1]}", line, WRITING_FAILS.format(line.split()[1])) for line in FULL_DISK),
    # A file size limit ends it by a signal, or where that is ignored by a failed write.
    Edge("limit of a file's size, by signal",
         "yes \"$(printf 'chr1\\t2\\t6')\" | head -n 1000 > many.bed; ulimit -f 1;"
         " sh -c 'bedtools intersect -a many.bed -b a.bed -g genome.txt -u > hits.bed; echo $?' 2> line.txt", "153\n"),
    fails("limit of a file's size, by failed write",
          "yes \"$(printf 'chr1\\t2\\t6')\" | head -n 1000 > many.bed; trap '' XFSZ; ulimit -f 1;"
          " bedtools intersect -a many.bed -b a.bed -g genome.txt -u > hits.bed", WRITING_FAILS.format("intersect")),
    # The file of -fo gets no fault line, and is no standard stream.
    Edge("-fo gets no fault line",
         "bedtools maskfasta -fi a.fa -bed unsorted.bed -fo masked.fa 2>&-; echo $?; cat masked.fa",
         "1\n>chr1\nACGTACGT\n"),
    Edge("-fo isn't standard input",
         "bedtools maskfasta -fi a.fa -bed - -fo masked.fa <&-; cat masked.fa",
         "", "bedtools maskfasta: -:1: reading failed\n"),
    Edge("-fo isn't standard output",
         "bedtools maskfasta -fi a.fa -bed a.bed -fo masked.fa >&- && cat masked.fa", ">chr1\nACNNNNGT\n"),
    # A longer file that is there is emptied first, and stays as it was where an input is missing.
    Edge("-fo over a longer file",
         "yes | head -n 1000 > masked.fa; bedtools maskfasta -fi a.fa -bed a.bed -fo masked.fa && cat masked.fa",
         ">chr1\nACNNNNGT\n"),
    Edge("-fo stays where an input is missing",
         "echo old > masked.fa; bedtools maskfasta -fi a.fa -bed none.bed -fo masked.fa; echo $?; cat masked.fa",
         "1\nold\n", "bedtools maskfasta: none.bed: cannot be opened\n"),
    # An input under another name isn't emptied.
    *(Edge(f"-fo over an input, {how}", f"cp a.fa b.fa; cp a.bed b.bed; {line}; echo $?; cat b.{kind}",
           f"1\n{FILES[f'a.{kind}']}", f"bedtools maskfasta: {name}: cannot be opened\n")
      for how, line, name, kind in OVER_INPUT),
    Edge("-fo over an input, by the folder above", "cp a.fa b.fa; bedtools maskfasta -fi b.fa -bed a.bed"
         " -fo ../\"$(basename \"$PWD\")\"//b.fa 2> line.txt; echo $?; cat b.fa", f"1\n{FILES['a.fa']}"),
    # Standard input that isn't read is no input.
    Edge("-fo over standard input that isn't read",
         "cp a.fa b.fa; bedtools maskfasta -fi a.fa -bed a.bed -fo b.fa < b.fa && cat b.fa", ">chr1\nACNNNNGT\n"),
    # A link to another file is written through, also where that isn't there yet.
    Edge("-fo through a link",
         "cp a.fa other.fa; ln -sf other.fa soft.fa; bedtools maskfasta -fi a.fa -bed a.bed -fo soft.fa; cat other.fa",
         ">chr1\nACNNNNGT\n"),
    Edge("-fo through a link to nothing",
         "ln -s new.fa soft.fa; bedtools maskfasta -fi a.fa -bed a.bed -fo soft.fa && cat new.fa", ">chr1\nACNNNNGT\n"),
    # A pipe by its name, and a folder.
    Edge("-fo into a pipe",
         "mkfifo pipe; cat pipe > read.fa & bedtools maskfasta -fi a.fa -bed a.bed -fo pipe && wait && cat read.fa",
         ">chr1\nACNNNNGT\n"),
    fails("-fo into a folder",
          "bedtools maskfasta -fi a.fa -bed a.bed -fo .", "bedtools maskfasta: .: cannot be opened\n"),
    # A masked base that looks like the begin of a header.
    Edge("a masked base that begins a header", "bedtools maskfasta -fi a.fa -bed a.bed -mc '>'", ">chr1\nAC>>>>GT\n"),
    # The reader of the pipe goes away.
    Edge("reader of the pipe goes away",
         "yes \"$(printf 'chr1\\t2\\t6')\" | head -n 100000 |"
         " bedtools intersect -a - -b a.bed -g genome.txt -u | head -n 1",
         "chr1\t2\t6\n", WRITING_FAILS.format("intersect")),
    # A directory, a missing file, one without rights.
    fails("a folder as an input", "bedtools merge -i . -g genome.txt", "bedtools merge: .:1: reading failed\n"),
    fails("a folder as a genome file", "bedtools merge -i a.bed -g .", "bedtools merge: .:1: reading failed\n"),
    fails("a folder as the second input",
          "bedtools intersect -a a.bed -b . -g genome.txt", "bedtools intersect: .:1: reading failed\n"),
    fails("a missing input",
          "bedtools merge -i missing.bed -g genome.txt", "bedtools merge: missing.bed: cannot be opened\n"),
    # A line that never ends takes the memory that there is, which is bounded here.
    fails("a line without an end",
          "ulimit -v 100000; bedtools merge -i /dev/zero -g genome.txt", "bedtools merge: no memory\n"),
    fails("a genome file without an end",
          "ulimit -v 100000; bedtools merge -i a.bed -g /dev/zero", "bedtools merge: no memory\n"),
    fails("a line without an end after others",
          "ulimit -v 100000; (cat a.bed; cat /dev/zero) | bedtools merge -g genome.txt",
          "bedtools merge: no memory\n", "chr1\t2\t6\n"),
    fails("a sequence without an end",
          "ulimit -v 100000; (cat a.fa; cat /dev/zero) | bedtools maskfasta -fi - -bed a.bed",
          "bedtools maskfasta: no memory\n", ">chr1\nACNNNNGT\n"),
    # Few files may be open.
    fails("few open files",
          "ulimit -n 4; bedtools merge -i a.bed -g genome.txt", "bedtools merge: a.bed: cannot be opened\n"),
    # The fault comes behind what was settled before it.
    fails("a fault after nothing", "bedtools merge -i unsorted.bed -g genome.txt", UNSORTED),
    fails("a fault after what was settled",
          "(cat a.bed; printf 'chr2\\t0\\t3\\nchr2\\t1\\tx\\n') | bedtools merge -g genome.txt",
          "bedtools merge: stdin:4: end is not a number\n", MERGED),
]


@each(EDGES)
class Edges(InFolder):
    said = "{edges} cases"
    files = FILES

    def case(self, edge):
        self.counts["edges"] += 1
        self.expect(edge.line, Answer(edge.status, edge.output.encode("ascii"), edge.error.encode("ascii")))
