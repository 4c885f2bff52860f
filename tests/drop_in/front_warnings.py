#!/usr/bin/env python3
"""Tries the lines on which bedtools loses or changes output silently, through the drop-in and with bedtools alone.

    tests/drop_in/front_warnings.py

Bytes and status have to be those of bedtools, and standard error one warning more. It ends with 1 where one differs, and
with 0 and a word where there is no bedtools 2.30.0.
"""

import sys
import tempfile
from pathlib import Path
from typing import NamedTuple

from front_tools import Count, call, drop_in, environment, install, original

LONG = b"x" * 1100
FILES = {
    "ok.bed": b"chr1\t1\t5\tp\t0\t+\nchr1\t8\t30\tq\t0\t-\n",
    "blank.bed": b"chr1\t2\t4\tp\n\nchr1\t3\t9\tq\nchr1\t20\t25\tr\n",
    "cr.bed": b"chr1\t2\t4\tp\r\r\nchr1\t3\t9\tq\n",
    "nul.bed": b"chr1\t2\t4\tp\nchr1\t3\t9\tq\0r\n",
    "long.bed": b"chr1\t2\t4\tp\nchr1\t3\t9\t" + LONG + b"\n",
    "header.bed": b"chr1\t2\t4\tp\nTrack1\t3\t9\tq\nchr2\t5\t9\tr\n",
    "track.bed": b"chr1\t2\t4\tp\ntrack1\t3\t9\tq\nchr2\t5\t9\tr\n",
    "back.bed": b"chr1\t2\t4\tp\nchr1\t40\t50\tq\nchr1\t3\t5\tr\n",
    "again.bed": b"chr1\t2\t4\tp\nchr2\t40\t50\tq\nchr1\t3\t5\tr\n",
    "columns.bed": b"chr1\t2\t4\tp\nchr1\t6\n",
    "g.txt": b"chr1\t100\nchr2\t100\n",
    "track.txt": b"chr1\t100\nTrack1\t100\ntrack1\t100\nchr2\t100\n",
}
BLANK = "{}:2 is a blank line: bedtools merges nothing across it"
IGNORED = "{}:2 is a blank line: bedtools ignores what follows"
RETURNS = "{}:1 has CR CR: bedtools leaves out both at the end of a line"
NUL = "{}:2 has a NUL: bedtools leaves out the rest of the column or line"
LONG_LINE = "{}:2 is a long line: bedtools cuts some lines after 1,023 bytes"
HEADER = "{}:2 begins as a header line: bedtools may leave it out"
ORDER = "{}:3 is out of order: bedtools may lose hits"


class Row(NamedTuple):
    """A call, what is said of which input, and the file that goes to its standard input."""

    line: str
    said: str
    name: str
    source: str = ""


ROWS = [
    Row("merge -i blank.bed", BLANK, "blank.bed"),
    Row("merge -i -", BLANK, "-", "blank.bed"),
    Row("merge -i /dev/stdin", BLANK, "/dev/stdin", "blank.bed"),
    Row("complement -i blank.bed -g g.txt", BLANK, "blank.bed"),
    Row("intersect -sorted -u -a blank.bed -b ok.bed", IGNORED, "blank.bed"),
    Row("intersect -sorted -c -a ok.bed -b blank.bed", IGNORED, "blank.bed"),
    Row("intersect -sorted -c -a ok.bed -b stdin", IGNORED, "stdin", "blank.bed"),
    Row("intersect -u -a blank.bed -b ok.bed", "", ""),
    Row("subtract -a blank.bed -b ok.bed", "", ""),
    Row("genomecov -bg -i blank.bed -g g.txt", "", ""),
    Row("intersect -u -a cr.bed -b ok.bed", RETURNS, "cr.bed"),
    Row("intersect -sorted -wb -a ok.bed -b cr.bed", RETURNS, "cr.bed"),
    Row("subtract -a cr.bed -b ok.bed", RETURNS, "cr.bed"),
    Row("intersect -c -a ok.bed -b cr.bed", "", ""),
    Row("merge -i cr.bed", "", ""),
    Row("intersect -v -a nul.bed -b ok.bed", NUL, "nul.bed"),
    Row("subtract -A -a nul.bed -b back.bed", NUL, "nul.bed"),
    Row("intersect -u -a long.bed -b ok.bed", LONG_LINE, "long.bed"),
    Row("intersect -sorted -wo -a ok.bed -b long.bed", LONG_LINE, "long.bed"),
    Row("complement -i long.bed -g g.txt", "", ""),
    Row("merge -i header.bed", HEADER, "header.bed"),
    Row("subtract -a header.bed -b ok.bed", HEADER, "header.bed"),
    Row("genomecov -bga -i header.bed -g track.txt", HEADER, "header.bed"),
    Row("genomecov -bg -i track.bed -g track.txt", HEADER, "track.bed"),
    Row("intersect -sorted -c -a ok.bed -b back.bed -g g.txt", ORDER, "back.bed"),
    Row("intersect -sorted -c -a ok.bed -b again.bed -g g.txt", ORDER, "again.bed"),
    Row("intersect -sorted -c -a ok.bed -b back.bed", "", ""),
    Row("merge -i back.bed", "", ""),
    Row("merge -i columns.bed", "", ""),
    Row("merge -i ok.bed", "", ""),
]


def ran(folder, row, env):
    """What a call answers."""
    how = {"input": (folder / row.source).read_bytes()} if row.source else {}
    return call(["bedtools", *row.line.split()], folder, env, **how)


def main():
    if not original():
        return 0
    count = Count("warnings")
    with tempfile.TemporaryDirectory() as made:
        place, folder = install(Path(made, "there")), Path(made, "data")
        folder.mkdir()
        for name, text in FILES.items():
            (folder / name).write_bytes(text)
        for row in ROWS:
            output, said, status = ran(folder, row, environment())
            warning = f"dunekettle: {row.said.format(row.name)}\n" if row.said else ""
            count.expect(row.line, (output, warning + said, status), ran(folder, row, environment(drop_in(place))))
            count.expect(f"{row.line}, without", (output, said, status),
                         ran(folder, row, environment(drop_in(place), DUNEKETTLE_WARN="0")))
    return 1 if count.close() else 0


if __name__ == "__main__":
    sys.exit(main())
