"""The laws of docs/PIPES.md on random small inputs. Each chromosome of a run is a case of its own.

The environment may say LAW_SECONDS=N, how long all laws together are tried, and SEED=N.
"""

import itertools
import random
import subprocess
import tempfile
import time
from pathlib import Path
from typing import Callable, NamedTuple

from tests.support import PROGRAM, Counted, each, number

SECONDS = number("LAW_SECONDS", 20)
SEED = number("SEED", random.randrange(10**9))
NAMES = [f"c{at:03}" for at in range(250)]


class Counterexample(Exception):
    """Two texts that differ, with the records of their chromosome."""


class World:
    """Random records of two inputs and random sequences, on chromosomes of one genome file."""

    def __init__(self, folder, rng, apart=False, within=False):
        self.folder, self.rng, self.files = folder, rng, itertools.count()
        self.length = {name: rng.randint(1, 40) for name in NAMES}
        self.a = {name: self.records(name, apart, within) for name in NAMES}
        self.b = {name: self.records(name, False, within) for name in NAMES}
        self.genome = self.file("".join(f"{name}\t{length}\n" for name, length in self.length.items()))
        self.fa, self.fb = self.bed(self.a), self.bed(self.b)
        # records over all of a chromosome: one on the strand +, two on the strand -
        self.strands = self.bed({name: [(0, 100, "all", "0", strand) for strand in "+--"] for name in NAMES})

    def records(self, name, apart, within):
        end = self.length[name] if within else 50
        found = []
        for _ in range(self.rng.choice((0, 1, 1, 2, 3, 5))):
            start = self.rng.randrange(end)
            stop = min(start + self.rng.randint(1, 15), end if within else 70)
            found.append((start, stop, f"n{self.rng.randrange(9)}", "0", self.rng.choice("+-.")))
        found.sort(key=lambda record: record[0])
        if apart:
            found = [r for i, r in enumerate(found) if all(q[1] <= r[0] for q in found[:i])]
        return found

    def file(self, text):
        path = self.folder / f"f{next(self.files)}"
        path.write_text(text)
        return str(path)

    def bed(self, records):
        lines = ("\t".join([name, *map(str, record)]) for name in NAMES for record in records[name])
        return self.file("".join(f"{line}\n" for line in lines))

    def run(self, *words):
        done = subprocess.run([PROGRAM, *words], stdin=subprocess.DEVNULL, capture_output=True, text=True, check=False)
        if done.returncode:
            raise Counterexample(f"{' '.join(words)}: {done.stderr}")
        return done.stdout

    def one(self, command, path, *words):
        return self.run(command, "-i", path, "-g", self.genome, *words)

    def two(self, command, a, b, *words):
        return self.run(command, "-a", a, "-b", b, "-g", self.genome, *words)

    def rule(self, strand=True, fraction=True, each=True):
        """Random words for -f, -r and -s."""
        words = ["-s"] if strand and self.rng.random() < 0.3 else []
        if fraction and self.rng.random() < 0.5:
            words += ["-f", self.rng.choice(("0.2", "0.5", "1"))]
            words += ["-r"] if each and self.rng.random() < 0.5 else []
        return words


def by_chromosome(text):
    parts = {}
    for line in text.splitlines():
        parts.setdefault(line.split("\t")[0], []).append(line)
    return parts


def same(world, left, right, what=""):
    """Both texts are the same; each chromosome is a case."""
    left, right = (by_chromosome(t) if isinstance(t, str) else t for t in (left, right))
    for name in NAMES:
        if left.get(name, []) != right.get(name, []):
            raise Counterexample(f"{what} {name} of length {world.length[name]}\nA: {world.a[name]}\n"
                                 f"B: {world.b[name]}\nleft: {left.get(name)}\nright: {right.get(name)}")
    return len(NAMES)


def bases(text):
    return {name: sorted(p for line in lines for p in range(*map(int, line.split("\t")[1:3])))
            for name, lines in by_chromosome(text).items()}


def strand_of(columns):
    return columns[5] if len(columns) > 5 and columns[5] in "+-" else "."


def columns_of(text, count=None):
    return {name: [line.split("\t")[:count] for line in lines] for name, lines in by_chromosome(text).items()}


def is_input(world, text):
    """Taken as the first or the second input the text is without a fault. All columns and strands are read again."""
    path, said = world.file(text), columns_of(text)
    read = columns_of(world.two("intersect", path, world.strands, "-c", "-s"))
    world.two("intersect", world.fa, path, "-u")
    times = {"+": "1", "-": "2", ".": "0"}
    wanted = {n: [row + [times[strand_of(row)]] for row in rows] for n, rows in said.items()}
    return same(world, read, wanted, "as an input")


def are_kept(world, text, rule, times):
    """Each line begins with a record of A, with its columns and strand, as often as the number of its hits says."""
    counted = columns_of(world.two("intersect", world.fa, world.fb, "-c", *rule))
    kept = {n: [row[:-1] for row in rows for _ in range(times(int(row[-1])))] for n, rows in counted.items()}
    return same(world, columns_of(text, 6), {n: rows for n, rows in kept.items() if rows}, "records kept")


def are_cut(world, text, rule, times):
    """Each line is cut of a record of A and has its name and strand."""
    counted = columns_of(world.two("intersect", world.fa, world.fb, "-c", *rule))
    kept = {n: [row[3:-1] for row in rows for _ in range(times(int(row[-1])))] for n, rows in counted.items()}
    return same(world, {n: [row[3:] for row in rows] for n, rows in columns_of(text, 6).items()}, kept, "records cut")


def none_overlap(world, text, apart):
    """No two records overlap, or even touch."""
    found = {n: [(int(r[1]), int(r[2])) for r in rows] for n, rows in columns_of(text).items()}
    overlaps = {n: [p for p, q in zip(rows, rows[1:]) if p[1] > q[0] or apart and p[1] == q[0]]
                for n, rows in found.items()}
    return same(world, overlaps, {}, "overlapping")


def depths(world, option):
    return world.one("genomecov", world.fa, option)


def pipe_merge(w):
    strand = w.rng.choice(([], ["-s"], ["-S", "+"]))
    text = w.one("merge", w.fa, "-d", str(w.rng.randrange(4)), *strand)
    return is_input(w, text) + (0 if strand == ["-s"] else none_overlap(w, text, True))


def pipe_gaps(w):
    gaps, found = w.one("complement", w.fa, *w.rng.choice(([], ["-L"]))), depths(w, w.rng.choice(("-bg", "-bga")))
    return is_input(w, gaps) + none_overlap(w, gaps, True) + is_input(w, found) + none_overlap(w, found, False)


def pipe_intersect(w):
    shape = w.rng.choice((["-wa"], ["-u"], ["-v"], ["-c"], ["-wa", "-wb"], ["-wo"]))
    times = {"-u": lambda n: n > 0, "-v": lambda n: n == 0, "-c": lambda n: 1}.get(shape[0], lambda n: n)
    rule = w.rule()
    text = w.two("intersect", w.fa, w.fb, *shape, *rule)
    return is_input(w, text) + are_kept(w, text, rule, times)


def pipe_cut(w):
    rule = w.rule()
    text = w.two("intersect", w.fa, w.fb, *w.rng.choice(([], ["-wb"])), *rule)
    return is_input(w, text) + are_cut(w, text, rule, lambda n: n)


def pipe_whole(w):
    rule = w.rule(each=False)
    text = w.two("subtract", w.fa, w.fb, "-A", *rule)
    return is_input(w, text) + are_kept(w, text, rule, lambda n: n == 0)


def pipe_subtract(w):
    text = w.two("subtract", w.fa, w.fb, *w.rule(each=False))
    return is_input(w, text) + none_overlap(w, text, False)


def pipe_bamtobed(w):
    lengths = {"5M": 5, "2M3N2M": 7, "1S4M": 4, "3M1D2M": 6}
    found = [(n, r[0], w.rng.choice((0, 16)), w.rng.choice(tuple(lengths))) for n in NAMES for r in w.a[n]]
    sam = "".join(f"r\t{flag}\t{n}\t{start + 1}\t9\t{cigar}\t*\t0\t0\t*\t*\n" for n, start, flag, cigar in found)
    bed = "".join(f"{n}\t{start}\t{start + lengths[cigar]}\tr\t9\t{'-' if flag else '+'}\n"
                  for n, start, flag, cigar in found)
    text = w.run("bamtobed", "-i", w.file(sam))
    return is_input(w, text) + same(w, text, bed)


def fasta(w):
    def lines():
        return ("".join(w.rng.choice("acgtACGTN") for _ in range(7)) + "\n" for _ in range(w.rng.randint(1, 6)))
    return "".join(f">{n}\n{''.join(lines())}" for n in NAMES)


def sequences(text):
    return {part.split("\n")[0]: part.split("\n")[1:] for part in text.split(">")[1:]}


def mask(w, text, bed, words):
    out = w.folder / "masked"
    w.run("maskfasta", "-fi", w.file(text), "-bed", bed, "-fo", str(out), *words)
    return out.read_text()


def pipe_mask(w):
    text = fasta(w)
    done = mask(w, text, w.fa, ())
    return same(w, *({name: list(map(len, lines)) for name, lines in sequences(it).items()} for it in (text, done)))


def merge_merge(w):
    d = ["-d", str(w.rng.randrange(5))]
    once = w.one("merge", w.fa, *d, *w.rng.choice(([], ["-S", "-"])))
    return same(w, once, w.one("merge", w.file(once), *d))


def complement_merge(w):
    limit = w.rng.choice(([], ["-L"]))
    return same(w, w.one("complement", w.fa, *limit), w.one("complement", w.file(w.one("merge", w.fa)), *limit))


def complement_twice(w):
    cut = []
    for line in w.one("merge", w.fa).splitlines():
        name, start, stop = line.split("\t")
        if int(start) < w.length[name]:
            cut.append(f"{name}\t{start}\t{min(int(stop), w.length[name])}\n")
    return same(w, w.one("complement", w.file(w.one("complement", w.fa))), "".join(cut))


def depth_0(w):
    lines = depths(w, "-bga").splitlines(keepends=True)
    bare = "".join(line for line in lines if line.endswith("\t0\n"))
    gaps = "".join(line + "\t0\n" for line in w.one("complement", w.fa).splitlines())
    deep = "".join(line for line in lines if not line.endswith("\t0\n"))
    return same(w, bare, gaps) + same(w, deep, depths(w, "-bg"))


def merge_depths(w):
    d = ["-d", str(w.rng.randrange(4))]
    return same(w, w.one("merge", w.file(depths(w, "-bg")), *d), w.one("merge", w.fa, *d))


def depth_sum(w):
    found = by_chromosome(depths(w, "-bg"))
    rows = {n: [line.split("\t") for line in found.get(n, [])] for n in NAMES}
    total = {n: sum((int(stop) - int(start)) * int(depth) for _, start, stop, depth in rows[n]) for n in NAMES}
    return same(w, total, {n: sum(max(0, min(r[1], w.length[n]) - r[0]) for r in w.a[n]) for n in NAMES})


def counts(w):
    rule = w.rule()
    lines = [line.rsplit("\t", 1) for line in w.two("intersect", w.fa, w.fb, "-c", *rule).splitlines()]

    def write(times):
        return "".join((text + "\n") * times(int(n)) for text, n in lines)
    u, v, wa = (w.two("intersect", w.fa, w.fb, shape, *rule) for shape in ("-u", "-v", "-wa"))
    return same(w, u, write(lambda n: n > 0)) + same(w, v, write(lambda n: n == 0)) + same(w, wa, write(lambda n: n))


def v_is_whole(w):
    rule = w.rule(each=False)
    return same(w, w.two("intersect", w.fa, w.fb, "-v", *rule), w.two("subtract", w.fa, w.fb, "-A", *rule))


def subtract_gaps(w):
    return same(w, w.two("subtract", w.fa, w.fb), w.two("intersect", w.fa, w.file(w.one("complement", w.fb))))


def merged_second(w):
    merged = w.file(w.one("merge", w.fb))
    return sum(same(w, w.two(*words[:1], w.fa, w.fb, *words[1:]), w.two(*words[:1], w.fa, merged, *words[1:]))
               for words in (("intersect", "-u"), ("intersect", "-v"), ("subtract",)))


def sides(w):
    rule = w.rng.choice(([], ["-s"], ["-f", "0.3", "-r"], ["-f", "1", "-r", "-s"]))
    first = columns_of(w.two("intersect", w.fa, w.fb, "-wa", "-wb", *rule))
    second = columns_of(w.two("intersect", w.fb, w.fa, "-wa", "-wb", *rule))
    swapped = {n: [row[6:] + row[:6] for row in rows] for n, rows in second.items()}
    return same(w, *({n: sorted(rows) for n, rows in pairs.items()} for pairs in (first, swapped)))


def parts_of_a(w):
    cut, left = bases(w.two("intersect", w.fa, w.fb)), bases(w.two("subtract", w.fa, w.fb))
    whole = bases(w.two("intersect", w.fa, w.fa, "-u"))
    both = {n: (set(cut.get(n, [])), set(left.get(n, []))) for n in NAMES}
    return same(w, {n: sorted(one | other) for n, (one, other) in both.items()}, {n: whole.get(n, []) for n in NAMES}) \
        + same(w, {n: sorted(one & other) for n, (one, other) in both.items()}, {n: [] for n in NAMES})


def masks(w):
    text, how = fasta(w), w.rng.choice(([], ["-soft"], ["-mc", "x"]))
    once = mask(w, text, w.fa, how)
    both = {n: sorted(w.a[n] + w.b[n], key=lambda r: r[0]) for n in NAMES}
    return same(w, sequences(once), sequences(mask(w, once, w.fa, how))) + \
        same(w, sequences(once), sequences(mask(w, text, w.file(w.one("merge", w.fa)), how))) + \
        same(w, sequences(mask(w, once, w.fb, how)), sequences(mask(w, text, w.bed(both), how)))


def exchanged(w):
    other = w.bed({n: sorted(w.rng.sample(w.a[n], len(w.a[n])), key=lambda r: r[0]) for n in NAMES})
    again = {n: w.a[n] + w.rng.sample(w.a[n], min(1, len(w.a[n]))) for n in NAMES}
    double = w.bed({n: sorted(w.rng.sample(again[n], len(again[n])), key=lambda r: r[0]) for n in NAMES})
    d = ["-d", str(w.rng.randrange(3))]
    merged, gaps = w.one("merge", w.fa, *d), w.one("complement", w.fa)
    return same(w, merged, w.one("merge", other, *d)) + same(w, gaps, w.one("complement", other)) + \
        same(w, depths(w, "-bga"), w.one("genomecov", other, "-bga")) + \
        same(w, merged, w.one("merge", double, *d)) + same(w, gaps, w.one("complement", double))


class Law(NamedTuple):
    """A law, how it is tried, and what is asked of A: that its records don't overlap; and of both inputs: that no
    record reaches past its chromosome."""

    name: str
    tried: Callable
    apart: bool = False
    within: bool = False


LAWS = (
    Law("merge goes on", pipe_merge),
    Law("complement and genomecov go on", pipe_gaps),
    Law("intersect by records of A goes on", pipe_intersect),
    Law("intersect by cuts goes on", pipe_cut, apart=True),
    Law("subtract -A goes on", pipe_whole),
    Law("subtract goes on", pipe_subtract, apart=True),
    Law("bamtobed goes on", pipe_bamtobed),
    Law("maskfasta keeps the layout", pipe_mask),
    Law("merge of merge", merge_merge),
    Law("complement of merge", complement_merge),
    Law("complement of complement", complement_twice),
    Law("depth 0 is complement", depth_0),
    Law("merge of genomecov", merge_depths, within=True),
    Law("sum of depths", depth_sum),
    Law("-u, -v and -wa by -c", counts),
    Law("-v is subtract -A", v_is_whole),
    Law("subtract by complement", subtract_gaps, within=True),
    Law("merge of B", merged_second),
    Law("both sides", sides),
    Law("intersect and subtract part A", parts_of_a, apart=True),
    Law("maskfasta twice, merged, both", masks),
    Law("equal starts, given twice", exchanged),
)


@each(LAWS)
class Laws(Counted):
    said = "{laws} laws, {cases} cases"

    def case(self, law):
        cases, end, rng = 0, time.monotonic() + SECONDS / len(LAWS), random.Random(SEED)
        while not cases or time.monotonic() < end:
            with tempfile.TemporaryDirectory() as folder:
                try:
                    cases += law.tried(World(Path(folder), rng, law.apart, law.within))
                except Counterexample as found:
                    self.fail(f"SEED={SEED} python3 -m unittest {self.id()}\n{found}")
        self.counts.update(laws=1, cases=cases)
