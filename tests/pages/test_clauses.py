"""tests.tsv and public.tsv are those of the sources, as tools/clauses.py reads them.

tests.tsv has the crate, the call, and its tests with ample memory, those of another crate after its name: each call
that can run out of memory has a row, and each row is one of such a call, with tests that are there. public.tsv says why
something is public that other crates alone use.
"""

import re

from tests.support import TOP, Counted

from clauses import PUBLIC, calls, exported, is_program
from files import rows

TESTS = "tests/pages/tests.tsv"
# What a call returns that may have run out of memory.
MEMORY = {"Fault", "AllocError", "Refusal"}
# What tests.tsv says of a call that only writes, or passes a fault on.
NEVER = "takes none"


class Clauses(Counted):
    said = "{calls} calls with {clauses} clauses"

    @classmethod
    def setUpClass(cls):
        super().setUpClass()
        cls.calls = list(calls())
        cls.counts.update(calls=len(cls.calls), clauses=sum(len(call.clauses) for call in cls.calls))
        cls.may_fail = {(call.crate, call.name) for call in cls.calls
                        if call.refusal in MEMORY and not is_program(call.crate)}

    def test_calls_that_take_memory_have_rows(self):
        self.assertEqual(sorted({(crate, call) for crate, call, _ in rows(TESTS)}), sorted(self.may_fail))

    def test_rows_name_tests(self):
        for crate, call, tests in rows(TESTS):
            home, _, names = tests.rpartition(": ")
            files = sorted((TOP / "crates" / (home or crate) / "src").rglob("*.rt"))
            text = "".join(file.read_text(encoding="utf-8") for file in files)
            for name in () if names == NEVER else names.split(", "):
                with self.subTest(f"{crate}'s {call}"):
                    self.assertRegex(text, re.compile(rf"\bfn {name}\b"), f"{home or crate} has no test {name}")

    def test_public_items_are_exported(self):
        every = {(call.crate, call.name) for call in self.calls}
        for crate, items, _ in rows(PUBLIC):
            for item in items.split(", "):
                is_public = (crate, item) in every or "::" not in item and item in exported(crate)
                self.assertTrue(is_public, f"public.tsv: {crate} has no public {item}")
