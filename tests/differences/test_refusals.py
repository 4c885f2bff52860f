"""Each row of differences.tsv that the drop-in leaves to bedtools is refused by name in a table of bt_front, or no text
shows it. The table is src/differences_tests.rt of that crate, which runs each row; here its names are compared."""

import re
import unittest

from tests.support import TOP

from migrating import differences

TABLE = TOP / "crates" / "bt_front" / "src" / "differences_tests.rt"
# A row of the table, or a comment with the name of one that has a test of its own.
NAMED = re.compile(r'^(?:    \("|// The row ")((?:[^"\\]|\\.)*)"', re.MULTILINE)
# All command lines of these are left to bedtools, as `Reason::NoSurvey` says.
UNSEEN = ("bamtobed", "maskfasta")
# What shows the other rows: files and streams, the words before any text, or a genome file, which has no survey.
ELSEWHERE = {
    "directory as input": "file",
    "closed standard input": "file",
    "standard input named twice": "words",
    "standard input under a second name, as `-a - -b /dev/stdin`": "file",
    "exit statuses": "words",
    "name of a file that isn't UTF-8": "words",
    "help": "words",
    "`-s` with `-S`": "words",
    "negative `-d`": "words",
    "fraction with an exponent": "words",
    "two kinds of output at once": "words",
    "chromosome repeated in the genome file": "genome",
    "comment with a tab in the genome file": "genome",
    "comment in the genome file that looks like a chromosome": "genome",
}


class Refusals(unittest.TestCase):
    def setUp(self):
        self.named = set(NAMED.findall(TABLE.read_text(encoding="utf-8")))
        self.rows = {row.name: row for row in differences()}

    def test_each_name_is_a_row(self):
        self.assertEqual(self.named - set(self.rows), set())
        self.assertEqual(set(ELSEWHERE) - set(self.rows), set())

    def test_each_row_is_refused(self):
        left = {name for name, row in self.rows.items()
                if row.taker in ("bedtools", "either") and row.command not in UNSEEN}
        self.assertEqual(left - self.named - set(ELSEWHERE), set())


if __name__ == "__main__":
    unittest.main()
