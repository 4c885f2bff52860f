"""The hints, the help and the check of files of `dunekettle`, and its files. front_hostile.py tries this."""

import json
import os
import pty
import re
import shutil
import subprocess

from front_tools import TOP, call, drop_in, fake, install, looking, shell
from migrating import options

MERGED = b"chr1\t2\t9\n"
# What follows a message of Dunekettle through the drop-in.
WHOSE = "dunekettle: the message is from Dunekettle, which ran this call instead of bedtools\n"
FILES = {
    "f.bed": b"chr1\t2\t6\ta\t0\t+\nchr1\t4\t9\tb\t0\t-\n", "unsorted.bed": b"chr1\t9\t12\nchr1\t2\t6\n",
    "g.txt": b"chr1\t20\nchr2\t8\n",
    "vcf.vcf": b"##fileformat=VCFv4.2\n#CHROM\tPOS\tID\nchr1\t5\trs1\tA\tG\n",
    "numbers.vcf": b"##fileformat=VCFv4.2\nchr1\t5\t120\tA\tG\n",
    "gff.gff": b"chr1\tx\texon\t3\t6\t.\t+\t.\tid\n",
    "sam.sam": b"@SQ\tSN:chr1\tLN:20\nr\t0\tchr1\t3\t9\t4M\t*\t0\t0\t*\t*\n",
    "utf16.bed": "\ufeffchr1\t2\t6\n".encode("utf-16-le"), "little.bed": "chr1\t2\t6\n".encode("utf-16-le"),
    "big.bed": "chr1\t2\t6\n".encode("utf-16-be"),
    "marked.bed": "\ufeffchr1\t2\t6\nchr1\t4\t9\n".encode(), "commas.bed": b"chr1\t1,000\t2,000\nchr1\t4,000\t5,000\n",
    "mark.bed": "\ufeff#chrom\tstart\tend\nchr1\t2\t6\n".encode(),
    "cr.bed": b"chr1\t2\t6\rchr1\t4\t9\r", "spaces.bed": b"chr1 2 6\n", "names.bed": b"name\tstart\tend\nchr1\t2\t6\n",
    "bare.bed": b"1\t2\t6\n", "natural.bed": b"chr2\t2\t6\nchr10\t2\t6\n", "cram.cram": b"CRAM\3\0",
    "a\nb.bed": b"chr1\t2\t6\n",
    "dot.bed": b"chr1\t2\t6\ta\t0\t.\n", "short.bed": b"chr1\t2\t6\nchr1\t5\n", "no_base.bed": b"chr1\t5\t5\n",
    "crlf.bed": b"chr1\t2\t6\r\n\r\n", "s.fa": b">chr1\nACGT\n", "past_end.bed": b"chr1\t25\t30\n",
    "turned.bed": b"chr1\t9\t5\n",
    "described.fa": b">chr1 a description\nACGT\n", "two.fa": b">chr1\nACGTACGT\n>chr2\nACGTACGT\n",
    "back.bed": b"chr2\t2\t6\nchr1\t2\t6\n",
    "f2.bed": b"chr7\t2\t6\n",
    "cut.fa": b">chr1\nACGT", "cut.bed": b"chr1\t1\t2\n",
    "zero_pos.sam": b"@SQ\tSN:chr1\tLN:20\nr\t0\tchr1\t0\t9\t4M\t*\t0\t0\t*\t*\n", "s.fa.fai": b"chr1\t4\t6\t4\t5\n",
    "stdin": b"chr1\t2\t6\n", "-x": b"chr1\t2\t6\n",
}
# The words after `dunekettle`, the fault that the program reports, and a part of the hint.
HINTS = [
    ("merge -i unsorted.bed", "unsorted.bed:2: record is out of order",
     "chr1 2 6 comes after chr1 9 12; the order in use is that of the names' bytes: LC_ALL=C sort -k1,1 -k2,2n "
     "unsorted.bed"),
    ("merge -i natural.bed", "natural.bed:2: record is out of order", "or give the chromosomes in their order by -g"),
    ("merge -g g.txt -i unsorted.bed", "unsorted.bed:2: record is out of order", "is that of g.txt: awk"),
    ("merge -i zip.gz", "zip.gz:1: too few columns", "it is compressed by gzip: zcat zip.gz | dunekettle merge -i -"),
    ("merge -i bam.bam", "bam.bam:1: too few columns",
     "it is BAM: samtools view bam.bam | dunekettle bamtobed | dunekettle merge -i -"),
    ("bamtobed -i bam.bam", "bam.bam:1: too few columns",
     "it is BAM: samtools view bam.bam | dunekettle bamtobed -i -"),
    ("merge -i cram.cram", "cram.cram:1: too few columns", "it is CRAM: samtools view"),
    ("merge -i vcf.vcf", "vcf.vcf:3: end is not a number", "it is VCF: awk"),
    ("merge -i gff.gff", "gff.gff:1: start is not a number", "it is GFF: awk"),
    ("merge -i sam.sam", "sam.sam:1: start is not a number",
     "it is SAM: dunekettle bamtobed -i sam.sam | dunekettle merge"),
    ("merge -i utf16.bed", "utf16.bed:1: start is not a number", "it is UTF-16: iconv"),
    ("merge -i mark.bed", "mark.bed:1: start is not a number", "it begins with a byte order mark: tail -c +4 mark.bed"),
    ("merge -i marked.bed", "marked.bed:2: record is out of order",
     "it begins with a byte order mark: tail -c +4 marked.bed | dunekettle merge -i -"),
    ("merge -i marked.bed -g g.txt", "marked.bed:1: chromosome is not in the genome file",
     "it begins with a byte order mark: tail -c +4 marked.bed | dunekettle merge"),
    ("maskfasta -fi s.fa -bed marked.bed", "marked.bed:1: no such sequence from here on",
     "it begins with a byte order mark: tail -c +4 marked.bed | dunekettle maskfasta"),
    ("merge -i commas.bed", "commas.bed:1: start is not a number", "line 1 is: chr1 1,000 2,000"),
    ("merge -i little.bed", "little.bed:1: start is not a number", "it is UTF-16LE: iconv"),
    ("merge -i big.bed", "big.bed:1: start is not a number", "it is UTF-16BE: iconv"),
    ("intersect -a f.bed -b zip.gz", "zip.gz:1: too few columns", "zcat zip.gz | dunekettle intersect -a f.bed -b -"),
    ("merge -i cr.bed", "cr.bed:1: end is not a number", "its lines end with CR alone: tr"),
    ("merge -i spaces.bed", "spaces.bed:1: too few columns", "its columns are separated by spaces: tr"),
    ("merge -i short.bed", "short.bed:2: too few columns", "line 2 is: chr1 5"),
    ("merge -i no_base.bed", "no_base.bed:1: start is not below end",
     "left out by awk -F'\\t' '$2 + 0 != $3 + 0' no_base.bed"),
    ("maskfasta -fi s.fa -bed unsorted.bed", "unsorted.bed:2: record is out of order",
     "is that of the sequences: samtools faidx s.fa; awk"),
    ("bamtobed -i f.bed", "f.bed:1: too few columns", "f.bed is BED, not SAM text"),
    ("merge -i names.bed", "names.bed:1: start is not a number", "its first line names the columns: tail -n +2"),
    ("merge -i bare.bed -g g.txt", "bare.bed:1: chromosome is not in the genome file", "in g.txt 1 is there as chr1"),
    ("merge -i none.bed", "none.bed: cannot be opened", "none.bed isn't there"),
    ("merge -i .", ".:1: reading failed", ". is a directory"),
    ("merge -i turned.bed", "turned.bed:1: start is not below end",
     "line 1 is chr1 9 5, and has its start after its end"),
    ("maskfasta -fi s.fa -bed bare.bed", "bare.bed:1: no such sequence from here on", "in s.fa 1 is there as chr1"),
    ("maskfasta -fi s.fa -bed f2.bed", "f2.bed:1: no such sequence from here on",
     "in s.fa chr7 is not there, but chr1 .."),
    ("maskfasta -fi described.fa -bed bare.bed", "bare.bed:1: no such sequence from here on",
     "in described.fa 1 is there as chr1"),
    ("maskfasta -fi two.fa -bed back.bed", "back.bed:2: no such sequence from here on",
     "chr1 2 6 comes after chr2 2 6; the order in use is that of the sequences"),
    ("complement -i bare.bed -g g.txt", "bare.bed:1: chromosome is not in the genome file",
     "in g.txt 1 is there as chr1"),
    ("complement -i f.bed -g f.bed", "f.bed:2: chromosome is repeated", "f.bed is BED. -g takes names and lengths"),
    ("genomecov -bg -i f2.bed -g bare.bed", "f2.bed:1: chromosome is not in the genome file",
     "bare.bed is BED. -g takes names and lengths"),
    ("complement -i f.bed -g s.fa", "s.fa:1: too few columns",
     "s.fa is FASTA. -g takes names and lengths: a genome file or a .fai index, as samtools faidx s.fa makes it"),
    ("intersect -a f.bed", None, "intersect needs -b FILE"),
    ("subtract", None, "subtract needs -a FILE, and -b FILE"),
    ("complement -i f.bed", None, "complement needs -g GENOME"),
    ("genomecov -i f.bed -g g.txt", None,
     "genomecov needs -bg or -bga (for the histogram there is histogram.sh: docs/RECIPES.md)"),
    ("genomecov", None, "genomecov needs -g GENOME, and -bg or -bga"),
    ("maskfasta -fi s.fa", None, "maskfasta needs -bed BED"),
    ("intersect -a f.bed -b f.bed -u -v", None, "leave out one of -u, -v"),
    ("intersect -a f.bed -b f.bed -wa -wo", None, "leave out one of -wo, -wa"),
    ("merge -i f.bed -s -S +", None, "leave out one of -s, -S"),
    ("maskfasta -fi s.fa -bed f.bed -soft -mc x", None, "leave out one of -soft, -mc"),
    ("maskfasta -fi s.fa -bed f.bed -fo s.fa", None, "-fo may not be the name of an input"),
    ("intersect -a - -b -", None, "write one of them to a file first"),
    ("merge f.bed", None, "write -i f.bed"),
    ("merge -d 5 f.bed", None, "write -i f.bed"),
    ("bamtobed sam.sam", None, "write -i sam.sam"),
    ("intersect f.bed f2.bed", None, "write -a f.bed"),
    ("intersect -a f.bed f2.bed", None, "write -b f2.bed"),
    ("maskfasta s.fa f.bed", None, "write -fi s.fa"),
    ("merge -i f.bed f2.bed", None, "-i takes one file"),
    ("merge none.bed", None, "usage: dunekettle merge"),
    ("intersect -a f.bed -b f.bed f2.bed", None,
     "-b takes one file: intersect-files.sh (docs/RECIPES.md) takes several with -u, -v, -c, -C or -wa -wb; or "
     "bedtools"),
    ("merge -i f.bed -c 5 -o first", None, "merge has no -c, and no script does this: bedtools has it"),
    ("merge -s -i f.bed -c 4 -o collapse", None, "merge has no -c, and no script does this: bedtools has it"),
    ("subtract -N -a f.bed -b f.bed", None, "subtract-N.sh (docs/RECIPES.md) does it"),
    ("subtract -a f.bed -b f.bed f2.bed", None, "-b takes one file"),
    ("merge -i f.bed -d x", None, "-d takes 0 to 999999999999"),
    ("merge -i f.bed -d -3", None, "for features that share at least 3 bases write: recipes/merge-overlap.sh 3 f.bed"),
    ("merge -i f.bed -d 5kb", None, "-d takes 0 to 999999999999, a number of bases in digits"),
    ("intersect -a f.bed -b f.bed -f 1.5", None, "-f takes a fraction from 0 to 1, with nine decimals at most, as 0.5"),
    ("subtract -a f.bed -b f.bed -held x", None, "-held takes 0 to 999999999999"),
    ("genomecov -strand x -bg -i f.bed -g g.txt", None, "-strand takes + or -"),
    ("maskfasta -fi s.fa -bed f.bed -mc xy", None, "-mc takes one printable ASCII character"),
    ("merge -i", None, "usage: dunekettle merge"),
    ("merge -x", None, "usage: dunekettle merge"),
    ("marge", None, "marge is no command: did you mean merge? For all of them see dunekettle --help"),
    ("intersetc -a f.bed", None, "did you mean intersect?"),
    ("intersect -a f.bed -b f.bed -f 0.5 -e", None, "intersect-F.sh (docs/RECIPES.md) does it with -F; or bedtools"),
    ("intersect -a f.bed -b f.bed -split -wo", None,
     "intersect-split.sh (docs/RECIPES.md) does it with -u or -v; or bedtools"),
    ("intersect -a f.bed -b f.bed -S", None,
     "opposite-strand.sh or intersect-opposite.sh (docs/RECIPES.md) does it; or bedtools"),
    ("version", None, "the commands: see dunekettle --help"),
    ("sort -i f.bed", None, "LC_ALL=C sort -k1,1 -k2,2n FILE"),
    ("closest -a f.bed -b f.bed", None, "only bedtools has closest; the drop-in"),
]
# Calls whose hint is a line of a script that is installed, and what that line writes.
PASTED = [
    ("merge -i f.bed -c 5,4 -o sum,collapse", b"chr1\t2\t9\t0\ta,b\n"),
    ("merge -s -i f.bed -c 6,4 -o distinct,count", b"chr1\t2\t6\t+\t1\nchr1\t4\t9\t-\t1\n"),
    ("merge -i f.bed -d -1", b"chr1\t2\t9\n"),
    ("intersect -a bare.bed -b f.bed -wao", b"1\t2\t6\t.\t-1\t-1\t.\t-1\t.\t0\n"),
    ("intersect -u -a bare.bed -b f.bed bare.bed", b"1\t2\t6\n"),
    ("subtract -N -f 0.5 -a bare.bed -b f.bed", b"1\t2\t6\n"),
]
# What a hint says to run.
ADVICE = re.compile(r"(?:bytes|g\.txt|[a-zA-Z\d]|mark|alone|spaces|columns): "
                    r"((?:zcat|awk|dunekettle bamtobed|iconv|tail|tr|LC_ALL).*?)(?:, or .*)?$")
# Calls at a terminal, their statuses, and whether they say that they wait.
AT_TERMINAL = [
    ("merge", 0, True), ("bamtobed", 0, True), ("intersect -a - -b f.bed", 0, True), ("merge -i stdin", 0, True),
    ("merge -i f.bed", 0, False), ("complement", 2, False), ("merge -c", 2, False), ("marge", 2, False),
    ("help", 0, False),
]
# Calls, and whether they say that names of chromosomes are others.
WARNINGS = {
    "intersect -a f.bed -b bare.bed": True, "intersect -a bare.bed -b f.bed -v": True,
    "subtract -a f.bed -b bare.bed": True, "intersect -sorted -a f.bed -b heads.bed": True,
    "intersect -u -a f.bed -b red.bed": True, "intersect -a f.bed -b f2.bed": False,
    "intersect -a f.bed -b none.txt": False, "intersect -a f.bed -b upper.bed": False,
    "intersect -a bare.bed -b other.bed": False, "intersect -a f.bed -b -": False,
    "intersect -a f.bed -b f.bed -g g.txt": False,
}
# What `check` says of files: their kind and their order.
CHECKED = [
    ("f.bed", "BED", "bytes"), ("unsorted.bed", "BED", "none"), ("natural.bed", "BED", "numbers"),
    ("vcf.vcf", "VCF", None), ("numbers.vcf", "VCF", None), ("gff.gff", "GFF", None), ("sam.sam", "SAM", None),
    ("utf16.bed", "UTF-16", None), ("mark.bed", "byte order mark", None), ("cr.bed", "CR", None),
    ("s.fa", "FASTA", None), ("g.txt", "genome file", None), ("s.fa.fai", "genome file", None),
    ("./stdin", "BED", "bytes"),
]
# The files of which it says that they are taken.
TAKEN = [
    "./stdin", "a\nb.bed", "bare.bed", "crlf.bed", "cut.bed", "cut.fa", "described.fa", "dot.bed", "f.bed", "f2.bed",
    "g.txt", "past_end.bed", "s.fa", "s.fa.fai", "sam.sam", "two.fa", "zero_pos.sam",
]
# Names that a shell would run or take apart, and what `check --json` says of names that are no text.
HOSTILE = (
    "x;touch PWNED;", "$(touch PWNED)", "`touch PWNED`", "a b", "it's", "-x", "x=1", "a&touch PWNED&", "a|touch PWNED",
    "*", "\\", '"', "~", "#", "\u00e9",
)
IN_JSON = {
    b"\xff.bed": "\xff.bed", b"a\xe9\xc3\xa9\xed\xa0\x80": "a\xe9\xe9\xed\xa0\x80",
    b"\x01\x7f\"\\": "\x01\x7f\"\\", "\u20ac\U0001f600.bed".encode(): "\u20ac\U0001f600.bed",
}


def fill(folder):
    """Writes the files."""
    for name, text in FILES.items():
        (folder / name).write_bytes(text)
    # A BAM file begins so, unpacked.
    for name, text in (("zip.gz", FILES["f.bed"]), ("bam.bam", b"BAM\1rest")):
        packed = subprocess.run(["gzip", "-c"], input=text, stdout=subprocess.PIPE, check=True).stdout
        (folder / name).write_bytes(packed)


def try_hints(place, folder, count):
    """Each fault has its hint behind it, on one line, and none where they are left out."""
    front = place / "bin" / "dunekettle"
    for line, fault, part in HINTS:
        output, said, status = call([front, *line.split()], folder, looking())
        plain = call([place / "bin" / "dunekettle-bedtools", *line.split()], folder, looking())
        lines = said.splitlines()
        count.expect(f"the fault of {line}", plain, (output, lines[0] + "\n", status))
        if fault:
            count.expect(f"the line of {line}", f"bedtools {line.split()[0]}: {fault}", lines[0])
        count.expect(f"the hint of {line}", (2, True),
                     (len(lines), lines[-1].startswith("dunekettle: ") and part in lines[-1]))
        # What a hint says to run is run, if it is for a file that is more than its first bytes.
        advice = ADVICE.search(lines[-1])
        if advice and line.startswith("merge"):
            again = " -g g.txt" if "-g" in line else ""
            script = advice[1] if "| dunekettle merge" in advice[1] else f"{advice[1]} | dunekettle merge -i -{again}"
            run = shell(script, folder, looking(place / "bin"))
            count.expect(f"the advice for {line}: {script}", (True, "", 0),
                         (run[0].startswith(b"chr1"), run[1], run[2]))
        quiet = call([front, *line.split()], folder, looking(DUNEKETTLE_HINTS="0"))
        count.expect(f"no hint of {line}", plain, quiet)
    try_options(front, folder, count)
    output, said, status = call([front, "merge"], folder, looking(), input=FILES["unsorted.bed"])
    count.expect("the hint of a stream", (1, True), (status, "LC_ALL=C sort -k1,1 -k2,2n" in said))
    if os.getuid():
        (folder / "closed.bed").touch(0o200)
        count.expect("no permission", True,
                     "may not read" in call([front, "merge", "-i", "closed.bed"], folder, looking())[1])


def try_options(front, folder, count):
    """The hint of an option that options.tsv has as not taken: the script of its row, to leave it out, or bedtools."""
    rows = [(command, option, text) for command, words, taken, text in options() if taken == "no" for option in words
            if option.startswith("-")]
    for command, option, text in rows:
        wanted = ("leave it out" if text.startswith("leave")
                  else "(docs/RECIPES.md) does it" if re.match(r"(?!none).*\.sh`", text)
                  else f"has no {option}: bedtools")
        said = call([front, command, option], folder, looking())[1].splitlines()[-1]
        count.expect(f"the hint of {command} {option}", True, said.startswith("dunekettle: ") and wanted in said)
    count.expect("options of options.tsv", True, len(rows) > 50)


def try_pasted(_, folder, count):
    """A line to paste does what the call was to do, also if the program isn't on PATH."""
    place = install(folder.parent / "with recipes")
    shutil.copytree(TOP / "recipes", place / "share" / "dunekettle" / "recipes")
    for line, wanted in PASTED:
        said = call([place / "bin" / "dunekettle", *line.split()], folder, looking())[1].splitlines()[-1]
        script = re.split(r"[Ww]rite: ", said)[-1]
        count.expect(f"the line for {line}: {script}", (wanted, "", 0), shell(script, folder, looking()))


def at_terminal(words, folder, *first):
    """What a command says on a terminal that is its standard input too, at whose end it is at once."""
    ours, theirs = pty.openpty()
    os.write(ours, b"\x04")
    with subprocess.Popen(words, cwd=folder, env=looking(*first), stdin=theirs, stdout=subprocess.DEVNULL,
                          stderr=theirs) as child:
        os.close(theirs)
        said = b""
        try:
            while piece := os.read(ours, 1000):
                said += piece
        except OSError:  # Nobody has the terminal open.
            pass
    os.close(ours)
    return said.decode(), child.returncode


def try_terminal(place, folder, count):
    """A command that waits for lines from the terminal says so, unless it can't be used, or reads nothing there."""
    for line, status, waits in AT_TERMINAL:
        said, found = at_terminal([place / "bin" / "dunekettle", *line.split()], folder)
        count.expect(f"at a terminal: {line}", (status, waits), (found, "waits for lines from the terminal" in said))
    # bedtools shows its help there, and so it does through the drop-in.
    helps = fake(folder.parent / "helps", "bedtools", "echo help >&2\n# bedtools v2.30.0")
    for line, shows in (("merge", True), ("merge -d 5", True), ("merge -i -", False), ("merge -i f.bed", False)):
        said, found = at_terminal([drop_in(place) / "bedtools", *line.split()], folder, helps)
        count.expect(f"the drop-in at a terminal: {line}", ("help\r\n" if shows else "", 0), (said, found))


def try_warnings(place, folder, count):
    """One line says that names begin with chr in one of two files alone; it changes neither output nor status."""
    front = place / "bin" / "dunekettle"
    odd = {"none.txt": b"", "heads.bed": b"#chr\n\r\ntrack x\nbrowser\n1\t2\t6", "upper.bed": b"CHR1\t2\t6\n",
           "other.bed": b"X\t2\t6\n", "red.bed": b"\x1b[31m\t2\t6\n"}
    for name, text in odd.items():
        (folder / name).write_bytes(text)
    for line, warns in WARNINGS.items():
        output, said, status = call([front, *line.split()], folder, looking(), input=FILES["bare.bed"])
        lines = said.splitlines()
        count.expect(f"a warning of {line}", (1 if warns else 0, 0), (len(lines), status))
        is_said = any(text.startswith("dunekettle: warning: ") and "names are compared byte for byte" in text
                      and text.isprintable() for text in lines)
        count.expect(f"its words of {line}", warns, is_said)
        plain = call([front, *line.split()], folder, looking(DUNEKETTLE_HINTS="0"), input=FILES["bare.bed"])
        count.expect(f"no warning of {line}", (output, "", 0), plain)


def try_help(place, folder, count):
    """Help and versions."""
    front, program = place / "bin" / "dunekettle", place / "bin" / "dunekettle-bedtools"
    for command in ("merge", "complement", "intersect", "subtract", "genomecov", "bamtobed", "maskfasta", "check",
                    "report"):
        first, *others = [call([front, *words], folder, looking())
                          for words in (["help", command], [command, "--help"], [command, "-h"])]
        output, _, status = first
        count.expect(f"help of {command}", (True, True, 0),
                     (others == [first, first], output.startswith(f"dunekettle {command} ".encode()), status))
        # Each option that the help names is one of the program.
        for line in output.decode().splitlines():
            if line.startswith("  -") and command not in ("check", "report"):
                said = call([program, command, line.split()[0]], folder, looking())[1]
                count.expect(f"an option of {command}", (line, False), (line, "unknown option" in said))
    count.expect("version", True, call([front, "--version"], folder, looking())[0].startswith(b"Dunekettle "))
    count.expect("help of nothing", 2, call([front, "help", "nothing"], folder, looking())[2])
    try_check(front, folder, count)


def try_check(front, folder, count):
    """The check of files."""
    names = [name for name in FILES if name != "-x"]
    output, _, status = call([front, "check", "--json", *names, "none.bed"], folder, looking())
    reports = {report["file"]: report for report in json.loads(output)}
    count.expect("check: status", 1, status)
    for name, kind, order in CHECKED:
        count.expect(f"check: {name}", (kind, order), (reports[name]["kind"], reports[name]["order"]))
    count.expect("check: what is taken", TAKEN, sorted(name for name, report in reports.items() if report["taken"]))
    count.expect("check: strands and lines", (1, 1, 2),
                 (reports["dot.bed"]["without_strand"], reports["crlf.bed"]["blank_lines"],
                  reports["crlf.bed"]["cr_lf"]))
    output, _, status = call([front, "check", "natural.bed", "-g", "g.txt"], folder, looking())
    count.expect("check -g", (1, True), (status, b"chromosome is not in the genome file" in output))
    output, _, status = call([front, "check", "f.bed", "bare.bed"], folder, looking())
    count.expect("check of two", (0, True), (status, b"chr1: in 1 of 2 files" in output))


def try_name(file, words, front, env, count):
    """A file with a hostile name and a fault: what its hint and its check say to run is safe."""
    odd = file.parent
    _, said, status = call([front, "merge", "-i", file.name, *words], odd, env)
    lines = said.splitlines()
    count.expect(f"a hint of {file.name}", (1, 2), (status, len(lines)))
    advice = re.search(r"((?:zcat|awk|LC_ALL).*?)(?:, or .*)?$", lines[-1])[1]
    script = advice if "| dunekettle" in advice else f"{advice} | dunekettle merge -i - {' '.join(words)}"
    output, said, status = shell(script, odd, env)
    count.expect(f"what it says to run: {script}", (True, "", 0, False),
                 (output.startswith(b"chr1"), said, status, (odd / "PWNED").exists()))
    output, _, _ = call([front, "check", *(words if "-g" in words else []), "--", file.name], odd, env)
    lines = output.decode().splitlines()
    if len(lines) > 2:
        output, said, status = shell(f"{lines[2]} > /dev/null", odd, env)
        count.expect(f"what check says to run: {lines[2]}", ("", 0, False), (said, status, (odd / "PWNED").exists()))


def try_unprintable(odd, front, env, count):
    """Names of files, and names in files, that a terminal would obey."""
    for name in ("a\nb", "a\x1b[31m", "a\x07"):
        (odd / name).write_bytes(FILES["unsorted.bed"])
        said = call([front, "merge", "-i", name], odd, env)[1].rpartition("dunekettle: ")[2]
        count.expect(f"unprintable: {name!r}", ("\n", [], True),
                     (said[-1], [letter for letter in said[:-1] if letter < " "], said.endswith(" FILE\n")))
        output = call([front, "check", name], odd, env)[0].decode()
        count.expect(f"check, unprintable: {name!r}", [],
                     [letter for letter in output if letter < " " and letter != "\n"])
    for name, text in {"escape.bed": b"c\x1b[31m\t9\t12\nc\x1b[31m\t2\t6\n", "escape.txt": b"\x1b[31m\t9\n",
                       "g.bed": b"chr1\t9\t12\n", "b.bed": b"chr1\t2\t6\n"}.items():
        (odd / name).write_bytes(text)
    for line in ("merge -i escape.bed", "merge -i g.bed -g escape.txt", "merge -i escape.bed -g g.txt"):
        said = call([front, *line.split()], odd, env)[1]
        count.expect(f"names in a file: {line}", False, "\x1b" in said.splitlines()[-1])
    output = call([front, "check", "escape.bed", "b.bed"], odd, env)[0]
    count.expect("check: names in a file", False, b"\x1b" in output)


def try_json(odd, front, env, count):
    """Names in the report of `check` that are no text, an option, or a folder."""
    for name, wanted in IN_JSON.items():
        (odd / os.fsdecode(name)).write_bytes(b"chr1\t2\t6\n")
        output = call([front, "check", "--json", os.fsdecode(name)], odd, env)[0]
        try:
            found = json.loads(output.decode())[0]["file"]
        except ValueError as fault:
            found = str(fault)
        count.expect(f"check --json of {name}", wanted, found)
    (odd / "-x").write_bytes(b"chr1\t2\t6\n")
    output, _, status = call([front, "check", "--", "-x"], odd, env)
    count.expect("check -- -x", (0, True), (status, output.startswith(b"-x: BED")))
    report = json.loads(call([front, "check", "--json", "."], odd, env)[0])[0]
    count.expect("check of a folder", (None, "it is a directory"), (report["kind"], report["fault"]))


def try_names(place, folder, count):
    """Names that a shell would run, or a terminal obey: a hint is one line, and what it says to run is safe."""
    odd = folder.parent / "odd names"
    odd.mkdir()
    (odd / "g.txt").write_bytes(FILES["g.txt"])
    front, env = place / "bin" / "dunekettle", looking(place / "bin")
    packed = (folder / "zip.gz").read_bytes()
    for name in HOSTILE:
        for text, end, words in ((FILES["unsorted.bed"], ".bed", []), (FILES["unsorted.bed"], ".bed", ["-g", "g.txt"]),
                                 (packed, ".gz", ["-d", "5"]), (FILES["no_base.bed"] + b"chr1\t7\t9\n", ".bed", [])):
            file = odd / (name + end)
            file.write_bytes(text)
            try_name(file, words, front, env, count)
            file.unlink()
    try_unprintable(odd, front, env, count)
    (odd / "zip.gz").write_bytes(packed)
    said = call([front, "intersect", "-a", "-", "-b", "zip.gz"], odd, env, input=b"chr1\t2\t6\n")[1].splitlines()[-1]
    count.expect("a pipe beside another", "dunekettle: it is compressed by gzip: zcat zip.gz", said)
    try_json(odd, front, env, count)
    for file in sorted((TOP / "front").glob("*")):
        if file.suffix != ".txt":
            wide = [number for number, text in enumerate(file.read_text(encoding="utf-8").splitlines(), 1)
                    if len(text) > 120]
            count.expect(f"lines of {file.name} over 120 columns", [], wide)
