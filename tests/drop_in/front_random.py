#!/usr/bin/env python3
"""Gives the drop-in and bedtools 2.30.0 the same random command lines over small files of many kinds.

    tests/drop_in/front_random.py [SEED [CASES]]

The files are sorted in several ways or not at all, with blank lines, header lines, lines that only look like them,
long lines, CR LF, no strand, no base, columns that vary. Where bedtools ends with status 0 the drop-in has to write the
same bytes with status 0. Where bedtools ends with another one, the drop-in may do so too or write what Dunekettle
writes. Then fractions of -f that a pair reaches by a base, or misses by one, in records of any length that the drop-in
gives to Dunekettle. Then streams: VCF, GFF, gzip, BAM, SAM, and BED with odd lines. Shows how many went to which
program. Ends with 1 where one differs, and with 0 and a word where there is no bedtools 2.30.0.
"""

import gzip
import random
import shutil
import subprocess
import sys
import tempfile
from pathlib import Path

from front_tools import TOLD, Count, call, drop_in, install, looking, original

CHROMOSOMES = ["chr1", "chr2", "chr10", "chrX"]
ODD = ["", "#c", "# c d", "track x", "TRACK\t5\t9", ">x\t1\t2", "browser", "visibility\t1\t2", "chr 1\t2\t6", " ", "\r",
       "!\t1\t2", "chr1\t0\t9\t" + 1100 * "n", "chr1\t007\t0010"]
FIRST = ["#c", "track name=x", "browser position", "chrom\tstart\tend", "##fileformat=VCFv4.2", "Track1\t2\t6", "#",
         "\ufeff#c", "\ufeffchr1\t0\t1", "chrom\t5\t7"]
KINDS = ["plain"] * 8 + ["no base", "varying", "first", "odd", "odd", "crlf", "no end", "no strand", "scores"]
FRACTIONS = ("0.1", "0.2", "0.25", "0.3", "0.5", "0.7", "0.9", "0.99", "0.33", "0.333", "0.001", "0.999", "1.0")
# The strands of some kinds; the others have + and -.
STRANDS = {"scores": ["0.5", "7", "+", "-", "."], "no strand": "+-."}
# What htslib reads otherwise than Dunekettle, or refuses: a column of an alignment, and what is in it.
SAM_ODD = [(0, "q" * 255), (0, "q" * 250), (0, ""), (1, "016"), (1, "0x10"), (2, "other"), (2, "*"), (3, "05"),
           (4, "256"), (5, "010M"), (5, "5M268435456N5M"), (5, "5M268435455N5M"), (5, "10m"), (6, "other"), (6, "="),
           (7, "x"), (7, "-1"), (8, "1.5"), (8, "-7"), (8, ""), (9, "ACGT"), (9, "ACGTACGTAC"), (9, "AC GTACGTA"),
           (10, "IIII"), (10, "IIIIIIIIII"), (10, "*\tNM"), (10, "*\tNM:i:x"), (10, "*\tNM:i:3"), (10, "*\tXX:Z:"),
           (10, "*\tXX:Z:a b"), (10, "*\tX:Z:a"), (10, "*\tXX:B:c"), (10, "*\tXX:B:c,1"), (10, "*\tXX:H:1"),
           (10, "*\tXX:f:1.5"), (10, "*\tXX:f:x"), (10, "*\t"), (10, "")]


def features(draw):
    """A BED file."""
    kind, columns = draw.choice(KINDS), draw.choice([3, 4, 5, 6, 6, 6, 12])
    rows = []
    for _ in range(draw.choice([0, 1, 3, 8, 20])):
        start = draw.choice([draw.randrange(60), draw.randrange(60), draw.randrange(200_000)])
        end = start + (0 if kind == "no base" and draw.random() < 0.2 else draw.choice([1, 2, 5, 10, 30, 3000, 40_000]))
        strand = draw.choice(STRANDS.get(kind, "+-"))
        row = [draw.choice(CHROMOSOMES[: draw.choice([1, 2, 4])]), start, end, f"n{draw.randrange(9)}",
               draw.randrange(100), strand]
        row += [start, end, "0", 1, f"{end - start},", "0,"]
        rows.append(row[: 3 if kind == "varying" and draw.random() < 0.2 else columns])
    order = draw.choice(["bytes"] * 6 + ["numbers", "none"])
    if order != "none":
        rows.sort(key=lambda row: (CHROMOSOMES.index(row[0]) if order == "numbers" else row[0], row[1]))
    lines = ["\t".join(map(str, row)) for row in rows]
    if kind == "first":
        lines.insert(0, draw.choice(FIRST))
    if kind == "odd":
        lines.insert(draw.randrange(len(lines) + 1), draw.choice(ODD))
    end = "\r\n" if kind == "crlf" else "\n"
    return "".join(line + end for line in lines)[: -1 if kind == "no end" else None]


def genome(draw):
    """A genome file, mostly in the order of the bytes."""
    names = [name for name in CHROMOSOMES if draw.random() < 0.9]
    if draw.random() < 0.7:
        names.sort()
    return "".join(f"{name}\t{draw.choice([100, 250_000, 1_000_000])}\n" for name in names)


def sequences(draw):
    """A FASTA file."""
    width, text = draw.choice([5, 10]), ""
    for name in sorted(CHROMOSOMES[:3]):
        bases = "".join(draw.choices("ACGTacgt", k=draw.choice([3, 10, 25, 60])))
        text += (f">{name}{draw.choice(['', '', '', ' d'])}\n"
                 + "".join(bases[at : at + width] + "\n" for at in range(0, len(bases), width)))
    return text


def masks(draw):
    """A BED file for the sequences."""
    rows = sorted((draw.choice(sorted(CHROMOSOMES[:3])), draw.randrange(30)) for _ in range(draw.choice([0, 1, 4])))
    return "".join(f"{name}\t{start}\t{start + draw.choice([1, 4, 9])}\n" for name, start in rows)


def alignments(draw):
    """A SAM file."""
    header = ["@HD\tVN:1.6", *(f"@SQ\tSN:{name}\tLN:1000000" for name in CHROMOSOMES)]
    lines = header if draw.random() < 0.9 else []
    for _ in range(draw.randrange(6)):
        cigar = draw.choice(["10M", "10M", "5M3N5M", "4M2D4M", "3S7M", "5M2I3M",
                             draw.choice(["*", "4S", "2M3N2N3M", "3N5M", "5M0N5M"])])
        columns = ["r", draw.choice([0, 16, 99, 147, 4, 256, 65]), draw.choice(CHROMOSOMES),
                   draw.choice([1, 5, 900, draw.choice([0, 7])]), draw.randrange(61), cigar, "*", 0, 0, "*", "*"]
        if draw.random() < 0.1:
            at, text = draw.choice(SAM_ODD)
            columns[at] = text
        lines.append("\t".join(map(str, columns)))
        if draw.random() < 0.02:
            lines.append(draw.choice(["@CO\tlater", "@SQ\tSN:other\tLN:9", ""]))
    return "".join(line + "\n" for line in lines)


def words(draw):
    """A command line."""
    def some(chance, *given):
        return list(given) if draw.random() < chance else []

    command = draw.choice(["merge", "merge", "complement", *["intersect"] * 4, "subtract", "subtract", "genomecov",
                           "genomecov", "maskfasta", "bamtobed"])
    if command == "merge":
        return [command, "-i", "a.bed", *some(0.4, "-d", draw.choice(["0", "1", "5", "100", "3000000000"])),
                *draw.choice([[], [], [], ["-s"], ["-S", "+"], ["-S", "-"], ["-c", "2", "-o", "count"]])]
    if command == "complement":
        return [command, "-i", "a.bed", "-g", "g.txt", *some(0.5, "-L")]
    if command == "genomecov":
        return [command, "-i", "a.bed", "-g", "g.txt", *draw.choice([["-bg"], ["-bga"], ["-bg", "-bga"]]),
                *some(0.3, "-strand", draw.choice("+-"))]
    if command == "maskfasta":
        return [command, "-fi", "s.fa", "-bed", "m.bed", "-fo", "out.fa",
                *draw.choice([[], [], ["-soft"], ["-mc", "X"], ["-fullHeader"]])]
    if command == "bamtobed":
        return [command, "-i", "r.sam", *some(0.4, "-split"), *some(0.4, "-cigar")]
    given = [command, "-a", "a.bed", "-b", "b.bed",
             *some(0.3, "-f", draw.choice(["0.5", "0.1", "0.333", "1.0", "1", "0.25", "0", "0.9", "1e-9"])),
             *some(0.3, "-s"), *some(0.2, "-g", "g.txt")]
    if command == "subtract":
        return given + some(0.3, "-A")
    shape = draw.choice([[], ["-wa"], ["-wb"], ["-wa", "-wb"], ["-wo"], ["-u"], ["-v"], ["-c"], ["-u", "-wa"],
                         ["-c", "-v"]])
    return given + shape + some(0.4, "-sorted") + some(0.2, "-r")


def ran(program, line, folder, env, **how):
    """What a program answers: its output with the file of -fo, its status, and what it said."""
    # genomecov asks for memory without end where a chromosome isn't in the genome file.
    limited = ["sh", "-c", 'ulimit -v 4000000; exec "$@"', "sh", program, *line]
    output, said, status = call(limited, folder, env, **how)
    file = folder / "out.fa"
    if file.exists():
        output += file.read_bytes()
        file.unlink()
    return output, status, said


def streams(draw, folder):
    """Streams of many kinds, by their names."""
    rows = sorted((draw.choice(sorted(CHROMOSOMES)), draw.randrange(500), draw.randrange(1, 90)) for _ in range(8))
    bed = "".join(f"{name}\t{start}\t{start + length}\n" for name, start, length in rows)
    gff = "".join(f"{name}\tx\texon\t{start + 1}\t{start + length}\t.\t+\t.\tid\n" for name, start, length in rows)
    vcf = "".join(f"{name}\t{start + 1}\t{start + 400}\tA\tG\t.\t.\t.\n" for name, start, _ in rows)
    sam = "@HD\tVN:1.6\n" + "".join(f"@SQ\tSN:{name}\tLN:1000000\n" for name in sorted(CHROMOSOMES))
    sam += "".join(f"r\t0\t{name}\t{start + 1}\t9\t{length}M\t*\t0\t0\t*\t*\n" for name, start, length in rows)
    made = {
        "BED": bed, "VCF": "##fileformat=VCFv4.2\n" + vcf, "VCF, no header": vcf, "GFF": gff,
        "GFF, header": "##gff-version 3\n" + gff,
        "no base": bed.replace("\n", "\nchr1\t0\t0\n", 1) if draw.random() < 0.5 else "chr1\t0\t0\n" + bed,
        "Track": "Track1\t2\t6\n" + bed,
        "chrom": "chrom\tstart\tend\n" + bed, "browser": "browserX\t2\t6\n" + bed,
        "blank": bed.replace("\n", "\n\n", 1), "unsorted": "chrX\t5\t9\n" + bed,
        "past the end": bed + "chrX\t900000\t2000000\n", "long": f"chr1\t0\t9\t{1100 * 'n'}\n" + bed, "nothing": "",
        "SAM": sam,
    }
    made = {name: text.encode() for name, text in made.items()}
    made["gzip"], made["gzip of VCF"] = gzip.compress(made["BED"]), gzip.compress(made["VCF"])
    if shutil.which("samtools"):
        made["BAM"] = subprocess.run(["samtools", "view", "-b", "-"], input=made["SAM"], cwd=folder,
                                     stdout=subprocess.PIPE, stderr=subprocess.DEVNULL, check=True).stdout
    return made


def try_streams(draw, theirs, ours, folder, count):
    """Streams of many kinds: the same bytes and the same status, unless Dunekettle takes what bedtools refuses."""
    (folder / "g.txt").write_text("".join(f"{name}\t1000000\n" for name in sorted(CHROMOSOMES)), encoding="utf-8")
    (folder / "b.bed").write_text("".join(f"{name}\t{100 * n}\t{100 * n + 60}\n" for name in sorted(CHROMOSOMES)
                                          for n in range(5)),
                                  encoding="utf-8")
    for kind, text in streams(draw, folder).items():
        for line in ("complement -i stdin -g g.txt", "complement -i - -g g.txt -L",
                     "intersect -sorted -g g.txt -a b.bed -b - -c", "intersect -sorted -g g.txt -u -a - -b b.bed",
                     "intersect -sorted -g g.txt -v -a /dev/stdin -b b.bed", "merge -i -", "merge",
                     "subtract -a b.bed -b stdin", "genomecov -bg -i - -g g.txt", "bamtobed -i -"):
            wanted = ran(theirs, line.split(), folder, looking(), input=text)
            found = ran(ours / "bedtools", line.split(), folder, looking(ours, DUNEKETTLE_TELL="1"), input=text)
            if wanted[1] == 0 or TOLD.findall(found[2])[0][0] != "Dunekettle":
                count.expect(f"{kind} | bedtools {line}", wanted[:2], found[:2])


def try_fractions(draw, theirs, ours, folder, count):
    """Pairs that are a base from the fraction, in records up to the length at which 32-bit numbers stay exact."""
    for fraction in FRACTIONS:
        decimals = len(fraction.split(".")[1].rstrip("0"))
        limit, pairs = 16_777 // 10**decimals * 1000, []
        for _ in range(400):
            length = draw.choice([draw.randrange(1, limit), limit - 1 - draw.randrange(50), draw.randrange(1, 200)])
            least = -(-int(fraction.replace(".", "")) * length // 10 ** len(fraction.split(".")[1]))
            pairs.append((length, max(1, min(length, least + draw.choice([-1, -1, 0, 0, 1])))))
        for file, ends in zip(("a.bed", "b.bed"), zip(*pairs)):
            lines = (f"c{n:03}\t0\t{end}\n" for n, end in enumerate(ends))
            (folder / file).write_text("".join(lines), encoding="utf-8")
        for line in (["intersect", "-u"], ["intersect", "-u", "-r"], ["subtract"]):
            line = [*line, "-f", fraction, "-a", "a.bed", "-b", "b.bed"]
            wanted, found = (ran(theirs, line, folder, looking()),
                             ran(ours / "bedtools", line, folder, looking(ours, DUNEKETTLE_TELL="1")))
            count.expect(" ".join(line), (wanted[:2], "Dunekettle"), (found[:2], TOLD.findall(found[2])[0][0]))


def main():
    theirs = original()
    if not theirs:
        return 0
    seed, cases = (int(word) for word in (sys.argv[1:] + ["1", "400"][len(sys.argv) - 1 :])[:2])
    draw, count, takers = random.Random(seed), Count("random command lines"), {}
    with tempfile.TemporaryDirectory() as made:
        folder = Path(made)
        ours = drop_in(install(folder / "there"))
        env = looking(ours, DUNEKETTLE_TELL="1")
        for number in range(cases):
            for name, make in (("a.bed", features), ("b.bed", features), ("g.txt", genome), ("s.fa", sequences),
                               ("m.bed", masks), ("r.sam", alignments)):
                (folder / name).write_bytes(make(draw).encode())
            line = words(draw)
            wanted, found = ran(theirs, line, folder, looking()), ran(ours / "bedtools", line, folder, env)
            taker = TOLD.findall(found[2])[0][0]
            takers[taker] = takers.get(taker, 0) + 1
            if wanted[1] == 0 or taker != "Dunekettle":
                before = count.wrong
                count.expect(f"case {number} of seed {seed}: bedtools {' '.join(line)}, taken by {taker}", wanted[:2],
                             found[:2])
                if count.wrong > before:
                    print("".join(f"  {name}: {(folder / name).read_bytes()!r:.500}\n"
                                  for name in ("a.bed", "b.bed", "g.txt")),
                          end="")
        try_fractions(draw, theirs, ours, folder, count)
        try_streams(draw, theirs, ours, folder, count)
    print(f"seed {seed}: " + ", ".join(f"{taker} took {n}" for taker, n in sorted(takers.items())))
    return 1 if count.close() else 0


if __name__ == "__main__":
    sys.exit(main())
