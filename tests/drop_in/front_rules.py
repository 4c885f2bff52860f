#!/usr/bin/env python3
"""Gives the drop-in and bedtools 2.30.0 the same random command lines, for each rule by which the drop-in takes more
than files of sorted BED.

    tests/drop_in/front_rules.py [SEED [CASES [JOBS [RULE]]]]

The rules: files in an order of chromosomes of their own; genomecov in any order of them, its forms, its blocks of BED12
and of BAM; bamtobed through samtools; the order of hits, and bins of all levels; streams that are short, long, or two
of one producer; gzip files; bytes that bedtools reads otherwise. By several kinds of awk and shells. Each command line
has to write the same bytes with the same status, and leave no file in TMPDIR; if bedtools ends with another status than
0, Dunekettle may take it. Shows how many of each rule Dunekettle took. Ends with 1 where one differs, and with 0 and a
word where there is no bedtools 2.30.0.
"""

import concurrent.futures
import gzip
import random
import shutil
import subprocess
import sys
import tempfile
from pathlib import Path
from typing import NamedTuple

from front_tools import TOLD, call, drop_in, fake, install, looking, original

NAMES = ["chr1", "chr10", "chr2", "chrX", "M", "c.1", "1", "01", "1e1"]
ODD_GENOMES = ["#c\t9\n", "# c\n", "\n", "chr1\t0\n", "chr1\t5\n", "new\t7\r\n", "new 7\n", "new\t07\n", "new\t-3\n",
               "new\t2147483648\n", "new\n", "new\t7\tmore\n"]
ODD_LINES = [b"chr1\t1\t5\tn\0\t0\t+\n", b"chr1\t1\t5\tn\t0\t+\r\r\n", b"chr1\t1\t2147483648\tn\t0\t+\n",
             b"chr1\t1\t2147483647\tn\t0\t+\n", b"\x1f\x8b\t1\t5\tn\t0\t+\n", b"chr\x0b\t1\t5\tn\t0\t+\n",
             b"chr\x0c\t1\t5\tn\t0\t+\n", b"chr\r\t1\t5\tn\t0\t+\n", b"chrom\x0b\t1\t5\tn\t0\t+\n",
             b"chrom\x0c\t1\t5\tn\t0\t+\n", b"chrom\r\t1\t5\tn\t0\t+\n", b"chromosome\t1\t5\tn\t0\t+\n",
             b"chr \t1\t5\tn\t0\t+\n", b"track x\n", b"browser x\n", b"\n", b"chr1\tx\texon\t2\t6\t.\t+\t.\tid\n",
             b"chr1\t1e1\t2e1\tn\t0\t+\n", b"chr1\t5\t5\tn\t0\t+\n", b"chr1\t1\t5\tn\t0\t.\n", b"#c\n",
             b"##fileformat=VCFv4.2\n", b"\xef\xbb\xbfchr1\t1\t5\tn\t0\t+\n"]
SCALES = ["0.1", "0.37", "1", "1.0", "3", "1000000", "123456.789", "0.000001", "333333.3"]

# Calls of sorted files, and of files in orders of their own.
PLAIN = (
    "merge -i a.bed", "merge -i a.bed -S +", "merge -i a.bed -g g.txt", "complement -i a.bed -g g.txt",
    "intersect -u -a a.bed -b b.bed", "intersect -sorted -c -a a.bed -b b.bed -g g.txt",
    "intersect -s -v -a a.bed -b b.bed", "intersect -wo -a a.bed -b b.bed", "subtract -a a.bed -b b.bed",
    "intersect -f 0.5 -r -u -a a.bed -b b.bed", "genomecov -i a.bed -g g.txt",
)
UNORDERED = (
    "merge -i a.bed", "merge -i a.bed", "merge -d 50 -i a.bed", "subtract -a a.bed -b b.bed",
    "subtract -A -a a.bed -b b.bed", "subtract -s -a a.bed -b b.bed", "subtract -f 0.5 -a a.bed -b b.bed",
    "intersect -sorted -u -a a.bed -b b.bed",
)
FORMS = ("-u", "-v", "-c", "-c -s", "-u -f 0.3", "-v -f 0.5 -r", "", "-wa", "-wb", "-wo", "-wa -wb")
# Lines that are no records, and one of another chromosome. The first four come more often.
SEEN = [b"#c\n", b"#c\td\n", b"track x\n", b"browser x\n", b"track\t1\t5\n", b"trackx\t1\t5\n", b"\n", b"\t1\t5\n",
        b"# 1\t1\t5\n", b"chr9\t7\t9\n"]


class Trial(NamedTuple):
    """Files by their names, a call as words or as a script, and the file that is standard input."""

    files: dict
    line: list | str
    source: str = ""


class Ways(NamedTuple):
    """What runs a call: bedtools, and the drop-in with an awk and a shell."""

    theirs: str
    place: Path
    awk: list
    shell: str


class Outcome(NamedTuple):
    """Who took a call, and what differs."""

    rule: str
    taker: str
    difference: str


def some(draw, chance, *given):
    """What is given, by chance, or nothing."""
    return list(given) if draw.random() < chance else []


def genome(draw):
    """Chromosomes with their sizes, in some order, and the text of a genome file, which may have an odd line."""
    names = draw.sample(NAMES, draw.randint(1, 6))
    sizes = {name: draw.choice([1, 7, 50, 400, 3000, 40_000]) for name in names}
    lines = [f"{name}\t{size}\n" for name, size in sizes.items()]
    if draw.random() < 0.1:
        lines.insert(draw.randrange(len(lines) + 1), draw.choice(ODD_GENOMES))
    return sizes, "".join(lines)


def intervals(draw, sizes, most=30):
    """Sorted intervals on some of the chromosomes, whose order is another one; a few are odd."""
    used = draw.sample(list(sizes), draw.randint(0, len(sizes)))
    rows = []
    for name in used:
        starts = sorted(draw.randrange(sizes[name] + (draw.random() < 0.02) * 3)
                        for _ in range(draw.choice([1, 2, 8, most])))
        for n, start in enumerate(starts):
            end = min(start + draw.choice([1, 1, 2, 5, 30, sizes[name]]), sizes[name] + (draw.random() < 0.02))
            rows.append([name, start, max(start + 1, end), f"r{n}", n % 61, draw.choice("+-")])
    if rows and draw.random() < 0.05:
        rows.append(rows[0])
    return rows


def bed12(draw, row):
    """A row with blocks, mostly as they have to be."""
    name, start, end, read, score, strand = row
    length = end - start
    count = draw.randint(1, 3) if length >= 6 else 1
    cuts = [0, *sorted(draw.sample(range(1, length), 2 * count - 2)), length]
    lengths, starts = [cuts[2 * n + 1] - cuts[2 * n] for n in range(count)], cuts[::2]
    tail = draw.choice(["", ","])
    if draw.random() < 0.01:
        lengths = draw.choice([lengths[:-1], [0, *lengths[1:]], [1000, *lengths[1:]], ["x"]])
    return [name, start, end, read, score, strand, start, end, 0, count, ",".join(map(str, lengths)) + tail,
            ",".join(map(str, starts)) + tail]


def text_of(rows, end="\n"):
    """The text of a file."""
    return "".join("\t".join(map(str, row)) + end for row in rows).encode()


def a_form(draw):
    """The options of a form of genomecov."""
    form = draw.choice([[], ["-bg"], ["-bga"], ["-d"], ["-dz"]])
    if not form:
        return some(draw, 0.4, "-max", draw.choice(["1", "2", "3", "4", "100"]))
    if form[0] not in ("-bg", "-bga"):
        return form
    return form + some(draw, 0.4, "-scale", draw.choice(SCALES))


def coverage(draw):
    """genomecov of BED."""
    sizes, genome_text = genome(draw)
    rows, kind = intervals(draw, sizes), draw.choice(["3", "6", "6", "12"])
    rows = [row[:3] for row in rows] if kind == "3" else [bed12(draw, row) for row in rows] if kind == "12" else rows
    text = (b"#head\n" if draw.random() < 0.2 else b"") + text_of(rows, draw.choice(["\n", "\n", "\n", "\r\n"]))
    line = ["genomecov", "-i", "a.bed", "-g", "g.txt", *a_form(draw)]
    line += some(draw, 0.4, "-strand", draw.choice("+-")) if kind != "3" else []
    line += some(draw, 0.7, "-split") if kind == "12" else []
    return Trial({"a.bed": text, "g.txt": genome_text.encode()}, line)


def reads(draw, sizes):
    """SAM text whose reads are sorted."""
    lines = ["@HD\tVN:1.6\tSO:coordinate"] + [f"@SQ\tSN:{name}\tLN:{size}" for name, size in sizes.items()]
    for name in list(sizes)[: draw.randint(0, len(sizes))]:
        for place in sorted(draw.randrange(1, min(sizes[name], 40_000) + 1)
                            for _ in range(draw.choice([1, 3, 10, 40]))):
            operations, bases = [], 0
            for _ in range(draw.choice([1, 1, 2, 3, 5])):
                letter, count = draw.choice("MMMMM=XIDN"), draw.randint(1, 6)
                operations.append(f"{count}{letter}")
                bases += count if letter in "M=XI" else 0
            if draw.random() < 0.2:
                operations.insert(0, "2S")
                bases += 2
            flag = draw.choice([0, 0, 16, 16, 4, 256, 272, 1024, 512, 2048, 99, 147])
            lines.append(f"r{len(lines)}\t{flag}\t{name}\t{place}\t9\t{''.join(operations)}\t*\t0\t0\t"
                         f"{'A' * bases or '*'}\t*")
    return "".join(line + "\n" for line in lines).encode()


def packed(text):
    """BAM of SAM text."""
    return subprocess.run(["samtools", "view", "-b", "-"], input=text, stdout=subprocess.PIPE,
                          stderr=subprocess.DEVNULL, check=False).stdout


def alignments(draw):
    """genomecov of BAM, and bamtobed of BAM and SAM."""
    sizes = genome(draw)[0]
    command = draw.choice(["genomecov", "genomecov", "bamtobed"])
    if command == "genomecov" and draw.random() < 0.9:
        sizes["huge"] = 21_000_000
    text = reads(draw, sizes)
    files = {"r.sam": text, "r.bam": packed(text)}
    if draw.random() < 0.03:
        files["r.bam"] = files["r.bam"][: draw.randrange(len(files["r.bam"]))]
    if command == "bamtobed":
        return Trial(files, ["bamtobed", "-i", draw.choice(["r.sam", "r.bam"]), *some(draw, 0.6, "-split"),
                             *some(draw, 0.1, "-cigar")])
    form = [word for word in a_form(draw) if word not in ("-d", "-dz")]
    line = ["genomecov", "-ibam", draw.choice(["r.bam"] * 4 + ["-"]), *form, *some(draw, 0.5, "-split")]
    return Trial(files, line + some(draw, 0.4, "-strand", draw.choice("+-")), "r.bam")


def hits(draw):
    """intersect that lists hits, on both sides of the borders of bins."""
    def rows(columns):
        made = []
        for name in draw.sample(sorted(NAMES[:4]), draw.randint(1, 3)):
            for _ in range(draw.choice([1, 4, 10])):
                start = draw.choice([draw.randrange(200_000), 16_384 * draw.randrange(20),
                                     max(0, 16_384 * draw.randrange(40) - draw.choice([0, 1, 2, 5]))])
                length = draw.choice([1, 2, 5, 100, 16_384, 131_072, 300_000, 2_000_000, 16_384 - start % 16_384])
                made.append([name, start, start + length, "x", 0, draw.choice("+-")][:columns])
        made.sort(key=lambda row: (row[0], row[1]))
        return [row for row in made for _ in range(draw.choice([1, 1, 1, 2]))]
    files = {"a.bed": text_of(rows(draw.choice([3, 6]))), "b.bed": text_of(rows(draw.choice([3, 4, 6])))}
    line = ["intersect", "-a", "a.bed", "-b", draw.choice(["b.bed", "a.bed"])]
    line += draw.choice([[], ["-wa", "-wb"], ["-wb"], ["-wo"], ["-wa"], ["-wa", "-wo"]])
    return Trial(files, line + some(draw, 0.2, "-f", draw.choice(["0.5", "0.1", "1"])) + some(draw, 0.1, "-r"))


def near_bin(draw):
    """A start or an end at the border of a bin, of some level, or a base or two from it, or anywhere."""
    size = 16_384 * 8 ** draw.choice([0, 0, 0, 1, 1, 2, 3, 4])
    border = size * draw.randint(0, min(40, 300_000_000 // size))
    place = draw.choice([border, draw.randrange(2_000_000), draw.randrange(60_000)])
    return max(0, place + draw.choice([0, 0, 0, -2, -1, 1, 2]))


def end_near_bin(draw, start, places):
    """An end for a start: after some length, at the border of the start's bin, or at a place of its own."""
    length = draw.choice([1, 2, 60, 300, 16_383, 16_384, 16_385, 131_072, 300_000_000 - start])
    return draw.choice([start + length, start + 16_384 - start % 16_384, draw.choice(places), near_bin(draw)])


def features_in_bins(draw, names, places, few):
    """The text of a file, with lines twice, lines that are no records, and a column too many."""
    columns, rows = draw.randint(3, 8), []
    for name in names:
        made = []
        for n in range(draw.choice([0, 1, 3, few, few])):
            start = draw.choice([draw.choice(places), near_bin(draw)])
            end = max(start + 1, end_near_bin(draw, start, places))
            made.append([name, start, end, f"r{n % 4}", n % 3, draw.choice("+-"), "more", n % 5][:columns])
        made.sort(key=lambda row: row[1])
        rows += [row for row in made for _ in range(draw.choice([1, 1, 1, 2]))]
    if rows and draw.random() < 0.02:
        rows[-1] = rows[-1] + ["x"]
    lines = text_of(rows, draw.choice(["\n"] * 5 + ["\r\n"])).splitlines(keepends=True)
    for _ in range(draw.choice([0, 0, 0, 1])):
        lines.insert(draw.choice([0, draw.randint(0, len(lines))]), draw.choice([b"#c\n", b"#c\td\n", b"track x\n"]))
    return b"".join(lines)


def piped(draw, line):
    """A script whose files are streams of the shell, by chance."""
    return "PROGRAM " + " ".join(f"<(cat {word})" if word.endswith(".bed") and draw.random() < 0.6 else word
                                 for word in line)


def bins(draw):
    """intersect that lists several hits of records: of all levels of bins, with ties, in small and large groups."""
    names = draw.sample(NAMES, draw.randint(1, 3))
    places = [near_bin(draw) for _ in range(draw.choice([3, 6, 12]))]
    files = {"a.bed": features_in_bins(draw, names, places, 8),
             "b.bed": features_in_bins(draw, names, places, draw.choice([8, 30]))}
    line = ["intersect", "-a", "a.bed", "-b", draw.choice(["b.bed"] * 6 + ["a.bed"]),
            *draw.choice([[], ["-wa", "-wb"], ["-wa", "-wb"], ["-wb"], ["-wb"], ["-wo"], ["-wo"]])]
    line += (some(draw, 0.2, "-f", draw.choice(["0.5", "0.1", "1", "0.000001"])) + some(draw, 0.1, "-r")
             + some(draw, 0.1, "-s"))
    if draw.random() < 0.1:
        return Trial(files, piped(draw, line))
    return Trial(files, line)


def plain(draw):
    """A command of sorted files, for the rules that go by how they are given."""
    sizes = {name: 40_000 for name in sorted(draw.sample(NAMES[:6], 3))}
    def text():
        return text_of(sorted(intervals(draw, sizes), key=lambda row: (row[0], row[1])))
    files = {"a.bed": text(), "b.bed": text(), "g.txt": text_of(sizes.items())}
    return files, draw.choice(PLAIN).split()


def streams(draw):
    """One or two inputs as streams; a small room makes them long."""
    files, line = plain(draw)
    room = draw.choice(["", "", "", "DUNEKETTLE_ROOM=60 ", "DUNEKETTLE_ROOM=500 ", "DUNEKETTLE_ROOM=0 "])
    script, source = [], ""
    for before, word in zip(["", *line], line):
        if before == "-i" and draw.random() < 0.6:
            source, word = word, draw.choice(["-", "stdin", "/dev/stdin", "/dev/fd/0"])
        elif before in ("-i", "-a", "-b", "-g") and draw.random() < 0.6:
            word = f"<({draw.choice(['cat', 'cat', 'sleep 0.05; cat'])} {word})"
        script.append(word)
    script = " ".join(script)
    if source:
        script = draw.choice([f"{script} < {source}", f"cat {source} | PROGRAM {script}",
                              f"(sleep 0.03; cat {source}) | PROGRAM {script}"])
    return Trial(files, room + (script if "PROGRAM" in script else "PROGRAM " + script))


def zipped(draw):
    """gzip files: whole, of two parts, cut, and with something behind them."""
    files, line = plain(draw)
    for name in ("a.bed", "b.bed"):
        text = files.pop(name)
        if draw.random() < 0.3:
            files[name] = text
            continue
        made = draw.choice([gzip.compress(text)] * 4
                           + [gzip.compress(text[:50]) + gzip.compress(text[50:]), gzip.compress(text)[:-5],
                              gzip.compress(text) + b"junk"])
        files[name + ".gz"] = made
        line = [name + ".gz" if word == name else word for word in line]
    room = "DUNEKETTLE_ROOM=60 " if draw.random() < 0.1 else ""
    return Trial(files, f"{room}PROGRAM {' '.join(line)}")


def odd_bytes(draw):
    """A line that bedtools reads otherwise, refuses or passes over."""
    files, line = plain(draw)
    name = draw.choice(["a.bed", "b.bed"])
    odd = draw.choice(ODD_LINES)
    lines = files[name].splitlines(keepends=True)
    at = draw.choice([0, 0, len(lines)])
    lines.insert(at, odd)
    if draw.random() < 0.3:
        lines = [b"\t".join(row.split(b"\t")[:4]).rstrip(b"\r\n") + row[len(row.rstrip(b"\r\n")):] for row in lines]
    files[name] = b"".join(lines)
    return Trial(files, line)


def features_in_order(draw, order, few):
    """The text of a file: most chromosomes in this order; one may come back, and starts may go back."""
    names = [name for name in order if draw.random() < 0.8]
    if draw.random() < 0.15:
        draw.shuffle(names)
    if names and draw.random() < 0.06:
        names.append(draw.choice(names))
    rows, columns = [], draw.choice([3, 4, 6, 6])
    for name in names:
        made = [[name, start, start + draw.choice([1, 2, 10, 60]), "x", 0, draw.choice("+-")][:columns]
                for start in (draw.randrange(300) * draw.choice([1, 1, 100])
                              for _ in range(draw.choice([1, 2, few])))]
        rows += made if draw.random() < 0.03 else sorted(made, key=lambda row: row[1])
    lines = text_of(rows, draw.choice(["\n"] * 5 + ["\r\n"])).splitlines(keepends=True)
    if draw.random() < 0.3:
        lines.insert(draw.choice([0, 0, draw.randint(0, len(lines))]), draw.choice(SEEN[:4] * 3 + SEEN))
    return b"".join(lines)


def own_orders(draw):
    """merge, intersect and subtract of files in orders of their own: one for both, or others."""
    order = draw.sample(NAMES, draw.randint(2, 7))
    files = {"a.bed": features_in_order(draw, order, 9),
             "b.bed": features_in_order(draw, order, draw.choice([2, 9]))}
    lists = [f"intersect {form} -a a.bed -b {draw.choice(['b.bed'] * 8 + ['a.bed'])}" for form in FORMS]
    line = draw.choice([*UNORDERED, *lists]).split()
    if draw.random() < 0.1:
        files["g.txt"] = text_of([name, 40_000] for name in order)
        line = [*line, "-g", "g.txt"]
    if draw.random() < 0.2:
        return Trial(files, piped(draw, line))
    return Trial(files, line)


RULES = {"own orders": own_orders, "coverage": coverage, "alignments": alignments, "hits": hits, "bins": bins,
         "streams": streams, "gzip": zipped, "odd bytes": odd_bytes}


def ran(line, program, folder, env, source):
    """What a program answers. genomecov takes memory without end where a chromosome isn't in the genome file."""
    script = line.replace("PROGRAM", str(program)) if isinstance(line, str) else " ".join([str(program), *line])
    how = {"stdin": Path(folder, source).open("rb")} if source else {}
    output, said, status = call(["bash", "-c", f"ulimit -v 4000000; {script}"], folder, env, **how)
    return output, status, said


def try_seed(rule, seed, ways):
    """A random command line of a rule."""
    files, line, source = RULES[rule](random.Random(f"{rule} {seed}"))
    ours = drop_in(ways.place)
    with tempfile.TemporaryDirectory() as made:
        folder, temporary = Path(made, "data"), Path(made, "temporary")
        folder.mkdir()
        temporary.mkdir()
        for name, text in files.items():
            (folder / name).write_bytes(text)
        wanted = ran(line, ways.theirs, folder, looking(), source)
        env = looking(ours, *ways.awk, DUNEKETTLE_TELL="1", TMPDIR=str(temporary))
        found = ran(line, f"{ways.shell} {ours / 'bedtools'}", folder, env, source)
        left = [file.name for file in temporary.iterdir()]
    taker = (TOLD.findall(found[2]) or [("nobody", "")])[0][0]
    is_refused = wanted[1] != 0 and taker == "Dunekettle"
    is_right = (wanted[:2] == found[:2] or is_refused) and not left
    difference = "" if is_right else (f"{rule} {seed}: {line}, {ways.shell}, taken by {taker}, left {left}\n"
                                      f"  wanted {wanted!r:.700}\n  found  {found!r:.700}\n  files  {files!r:.1500}")
    return Outcome(rule, "Dunekettle" if taker == "Dunekettle" else "bedtools", difference)


def awks_in(folder):
    """Folders with each awk that is installed."""
    for name in ("mawk", "gawk", "busybox awk"):
        made = fake(folder / name, "awk", f'exec {name} "$@"')
        words = [made / "awk", "BEGIN { exit }"]
        if subprocess.run(words, stdin=subprocess.DEVNULL, stderr=subprocess.DEVNULL, check=False).returncode == 0:
            yield made


def main():
    theirs = original()
    if not theirs:
        return 0
    seed, cases, jobs = (int(word) for word in (sys.argv[1:4] + ["1", "400", "2"][len(sys.argv[:4]) - 1 :])[:3])
    taken, wrong = {}, 0
    with tempfile.TemporaryDirectory() as made, concurrent.futures.ThreadPoolExecutor(jobs) as pool:
        place, awks = install(Path(made, "there")), list(awks_in(Path(made)))
        shells = ["", *(shell for shell in ("dash", "bash --posix", "busybox sh") if shutil.which(shell.split()[0]))]
        rules, futures = sys.argv[4:] or list(RULES), []
        for n in range(cases):
            ways = Ways(theirs, place, awks[n % 7 % len(awks) :][:1], shells[n % 11 % len(shells)])
            futures.append(pool.submit(try_seed, rules[n % len(rules)], seed * 1_000_000 + n, ways))
        for done, future in enumerate(concurrent.futures.as_completed(futures), 1):
            rule, taker, difference = future.result()
            if done % 1000 == 0:
                print(f"{done} of {cases}", file=sys.stderr, flush=True)
            taken.setdefault(rule, {}).setdefault(taker, 0)
            taken[rule][taker] += 1
            if difference:
                wrong += 1
                print(difference, flush=True)
    for rule, takers in sorted(taken.items()):
        print(f"{rule}: " + ", ".join(f"{taker} took {count}" for taker, count in sorted(takers.items())))
    print(f"rules of the drop-in: {cases} random command lines of seed {seed}, {wrong} of them differ")
    return 1 if wrong else 0


if __name__ == "__main__":
    sys.exit(main())
