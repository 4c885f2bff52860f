"""Each growth of memory is refused in turn in tests of the crates: of calls that take a list or keep something.

The tests are those whose names begin with `refused_growth`, in the test programs that `rt ci` builds, and `rt test` in
a crate's folder. A test checks what is left when its call was refused, and then ends with the error of the refused
growth: so each refused run has to end with that error and no other, until a run meets no refusal and passes.

TEST_PROGRAMS=FOLDER names another folder with these programs. Where one isn't built, its tests are left out, but not in
the gate, which sets EVERY_TEST=1.
"""

import os
from pathlib import Path
from typing import NamedTuple

from tests.program.runs import Run, build_library
from tests.support import TOP, InFolder, each, shown

# A test that grows its memory so many times doesn't end.
MOST = 2000
REFUSED = b"error: AllocError\n"


class Crate(NamedTuple):
    """A crate, and the calls that its tests refuse memory to."""

    name: str
    calls: str

    def program(self):
        """Its test program."""
        folder = os.environ.get("TEST_PROGRAMS", TOP / "crates" / self.name / "out")
        return Path(folder, f"{self.name}_tests").resolve()


CRATES = [
    Crate("bt_lines", "push: a sink that keeps what it takes"),
    Crate("bt_bed", "write_bed, write_cut, to_rec, Genome::read"),
    Crate("bt_runs", "Merge, Complement"),
    Crate("bt_sweep", "Held"),
    Crate("bt_seq", "Mask"),
]


@each(CRATES)
class Growths(InFolder):
    said = "{growths} refused growths in {tests} tests of crates"

    @classmethod
    def setUpClass(cls):
        super().setUpClass()
        build_library()

    def case(self, crate):
        if not crate.program().exists():
            name, calls = crate
            self.leave_out(f"no tests of {calls}: `rt test` in crates/{name} builds {name}_tests")
        listed = self.shell(Run("--list", program=str(crate.program())).line()).output.decode()
        names = [line.partition(": test")[0] for line in listed.splitlines() if "::refused_growth" in line]
        self.assertTrue(names, f"{crate.name}: no test of a refused growth")
        for name in names:
            with self.subTest(name):
                self.counts.update(tests=1, growths=self.refuse_each(crate, name))

    def leave_out(self, why):
        """Leaves a test out, unless nothing may be."""
        if os.environ.get("EVERY_TEST"):
            self.fail(why)
        self.skipTest(why)

    def refuse_each(self, crate, name):
        """Refuses each growth of a test in turn. Returns how many were refused."""
        for at in range(1, MOST):
            line = Run(name, said={"REFUSE_AT": str(at)}, program=str(crate.program())).line()
            answer = self.shell(line)
            if answer.status == 0:
                self.assertIn(b"test result: ok", answer.output, line)
                self.assertGreater(at, 1, "nothing was refused")
                return at - 1
            is_refusal = answer.error.startswith(REFUSED) and answer.error.count(b"error: ") == 1
            if not is_refusal or answer.status not in range(1, 128):
                self.fail_by_hand(line, REFUSED, shown(answer))
        return self.fail(f"{name}: more than {MOST} growths")
