"""The changes of definitions.edits fit the definitions, and definitions.txt has a row for each.

`make definitions` tries them, which takes half an hour of processor, and writes the rows.
"""

import tempfile
from pathlib import Path
from typing import NamedTuple

from tests.definitions import definitions
from tests.support import TOP, Counted, each


class Edit(NamedTuple):
    """A change by its name: its files with the old and the new texts."""

    name: str
    changes: list


@each([Edit(name, changes) for name, changes in definitions.edits().items()])
class Edits(Counted):
    said = "{edits} changes of definitions"

    def case(self, edit):
        self.counts["edits"] += 1
        texts = {}
        for file, old, new in edit.changes:
            text = texts.get(file) or (TOP / file).read_text(encoding="utf-8")
            self.assertEqual(text.count(old), 1, old)
            self.assertNotEqual(old, new)
            texts[file] = text.replace(old, new)


class Rows(Counted):
    said = "{rows} rows"

    def test_rows_are_those_of_the_edits(self):
        lines = definitions.TABLE.read_text(encoding="utf-8").splitlines()[1:]
        self.counts["rows"] = len(lines)
        self.assertEqual([line.split(" | ")[2] for line in lines], list(definitions.edits()))

    def test_each_wrong_one_breaks_a_value(self):
        lines = definitions.TABLE.read_text(encoding="utf-8").splitlines()[1:]
        none = [line for line in lines if line.endswith("| none") and "| control: " not in line]
        self.assertEqual(none, [])

    def test_the_small_crate_is_made(self):
        with tempfile.TemporaryDirectory() as folder:
            crate = definitions.make(Path(folder))
            self.assertTrue((crate / "src/worked.rt").exists())
