"""No size is one at which the program runs out of memory of its own accord.

What a call needs memory for is given to it in sizes past each power of two that a body could stop at: names and lines
of up to five million bytes, and a million records and two that are kept at once. The contracts say what is kept, and
some of them when memory may run out; the standard library's don't say when a growth fails, so this does.
"""

from typing import Callable, NamedTuple

from tests.program.runs import Run
from tests.support import Answer, InFolder, each, write_files

SIZES = (255, 256, 1000, 1001, 65_536, 70_000, 1_048_577, 5_000_000)
MANY = 1_000_002
END = 5_000_000


class Case(NamedTuple):
    """A command line with its files, and what it writes."""

    words: str
    files: dict
    output: str


def long_names(size):
    """A record whose name is that long, merged, masked and held."""
    name = "n" * size
    record = f"{name}\t0\t1\n"
    yield Case("merge -i a", {"a": record}, record)
    yield Case("merge -s -i a", {"a": record}, record)
    yield Case("complement -i a -g g", {"a": record, "g": f"{name}\t2\n"}, f"{name}\t1\t2\n")
    yield Case("genomecov -bg -i a -g g", {"a": record, "g": f"{name}\t2\n"}, f"{name}\t0\t1\t1\n")
    yield Case("intersect -wa -wb -a a -b b", {"a": record, "b": record}, record[:-1] + "\t" + record)
    yield Case("maskfasta -fi a -bed b", {"a": f">{name}\nACG\n", "b": record}, f">{name}\nNCG\n")


def long_lines(size):
    """A record with that many bytes after its end, and a line of that many bases."""
    record, other = f"c\t0\t1\t{'x' * size}\n", "c\t0\t1\n"
    yield Case("intersect -wa -a a -b b", {"a": record, "b": other}, record)
    yield Case("intersect -wb -a b -b a", {"a": record, "b": other}, "c\t0\t1\t" + record)
    yield Case("maskfasta -soft -fi a -bed b", {"a": f">c\n{'A' * size}\n", "b": other}, f">c\na{'A' * (size - 1)}\n")


def kept_records(size):
    """So many records that are kept at once, by each engine that keeps a list."""
    nested = "".join(f"c\t{at}\t{END}\t{at}\n" for at in range(size))
    yield Case("intersect -c -a a -b b", {"a": f"c\t0\t{END}\n", "b": nested}, f"c\t0\t{END}\t{size}\n")
    depths = "".join(f"c\t{at}\t{at + 1}\t{at + 1}\n" for at in range(size - 1)) + f"c\t{size - 1}\t{END}\t{size}\n"
    yield Case("genomecov -bg -i b -g g", {"b": nested, "g": f"c\t{END}\n"}, depths)
    apart = "".join(f"c\t{2 * at + 1}\t{2 * at + 2}\t.\t0\t-\n" for at in range(size))
    runs = f"c\t0\t{END}\n" + "".join(f"c\t{2 * at + 1}\t{2 * at + 2}\n" for at in range(size))
    yield Case("merge -s -i a", {"a": f"c\t0\t{END}\t.\t0\t+\n{apart}"}, runs)
    bases, masked = "A" * (2 * size + 1), "A" + "NA" * size
    yield Case("maskfasta -fi a -bed b", {"a": f">c\n{bases}\n", "b": apart}, f">c\n{masked}\n")


class Size(NamedTuple):
    """A size, and what makes the cases of it."""

    name: str
    cases: Callable
    size: int


@each([*(Size(f"names of {size} bytes", long_names, size) for size in SIZES),
       *(Size(f"lines of {size} bytes", long_lines, size) for size in SIZES),
       Size(f"{MANY} records kept", kept_records, MANY)])
class Sizes(InFolder):
    said = "{cases} cases of many bytes or records"

    def case(self, row):
        for case in row.cases(row.size):
            with self.subTest(case.words):
                write_files(self.folder, case.files)
                self.expect(Run(case.words).line(), Answer(0, case.output.encode("ascii"), b""))
                self.counts["cases"] += 1
