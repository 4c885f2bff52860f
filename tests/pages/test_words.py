"""No page has a word of words.tsv, and none is spelled wrong.

words.tsv has the word as a regular expression, plainer ones, and the pages that may have it. Code in a sentence, blocks
of code and headings aren't read. codespell looks for wrong spelling, where it is installed.
"""

import re
import shutil
import subprocess
import unittest
from typing import NamedTuple

from tests.support import TOP, Counted, each

from files import rows

WORDS = "tests/pages/words.tsv"
PATTERNS = ("*.md", "docs/*.md", "bench/*.md", "generated/*.md", "packaging/*.md", "crates/*/README.md",
            "man/bedtools.1", "man/dunekettle.1")
# Words that codespell takes for wrong ones: Rust's crates, the letters of an example, a macro of manual pages.
RIGHT = "crate,te,nd"


class Page(NamedTuple):
    """A page, by its name."""

    name: str


def pages():
    """The pages that are written by hand."""
    return [Page(str(file.relative_to(TOP))) for pattern in PATTERNS for file in sorted(TOP.glob(pattern))]


def prose(text):
    """The lines of a page's text that aren't code or headings, with their numbers, each without code and targets."""
    is_code = False
    for number, line in enumerate(text.splitlines(), 1):
        is_fence = line.startswith("```")
        is_code ^= is_fence
        if not (is_code or is_fence or line.startswith(("    ", "#", ".", "'"))):
            yield number, re.sub(r"`[^`]*`|\]\([^)]*\)|<!--.*?-->", "X", line)


@each(pages())
class Words(Counted):
    said = "{pages} pages without words of the list"

    def case(self, page):
        found = []
        for number, line in prose((TOP / page.name).read_text(encoding="utf-8")):
            for word, better, but_on in rows(WORDS):
                if page.name not in but_on.split(", "):
                    found += [f"{page.name}:{number}: {match[0]!r}: {better}" for match in re.finditer(word, line)]
        self.counts["pages"] += 1
        if found:
            self.fail("\n".join(["", *found]))


@unittest.skipUnless(shutil.which("codespell"), "no codespell on PATH")
class Spelling(unittest.TestCase):
    def test_pages_and_scripts(self):
        files = [page.name for page in pages()] + ["tests", "tools"]
        # What is tried of the drop-in has words that are wrong on purpose.
        words = ["codespell", "-L", RIGHT, "--skip", "tests/drop_in", *files]
        ran = subprocess.run(words, cwd=TOP, capture_output=True, text=True, check=False)
        self.assertEqual(ran.stdout, "", " ".join(words))
