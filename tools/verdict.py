#!/usr/bin/env python3
"""Writes MIGRATING.md's table of what leaves a call to bedtools.

Its rows are the reasons of bt_front, with the sentence that stands above each in the code.
"""

import re
import sys
from typing import NamedTuple

from files import read, write

PAGE, CRATE = "docs/MIGRATING.md", "crates/bt_front"
# The table, between two marks.
MARKS = re.compile(r"(<!-- tools/verdict.py writes this table -->\n).*?(<!-- it ends here -->)", re.DOTALL)
HEAD = "| where | what leaves a call to bedtools |\n|---|---|\n"


class Reasons(NamedTuple):
    """Reasons of one kind: where they show, and the file of the type that lists them."""

    where: str
    file: str


KINDS = (
    Reasons("arguments", "words/word_reason.rt"),
    Reasons("a line", "survey/oddity.rt"),
    Reasons("a text", "survey/trouble.rt"),
    Reasons("all inputs", "verdict/reason.rt"),
)
# A variant, and the lines above it. What `Odd` has is one of the lines above.
VARIANT = re.compile(r"((?:    ///.*\n)+)    (?!Odd\b)\w+")


def sentences(kind):
    """What is said of each variant of a type, in the words of pages, where a fault is an error."""
    code = read(f"{CRATE}/src/{kind.file}").split("pub enum ", 1)[1].split("\n}\n", 1)[0]
    return [" ".join(re.findall(r"/// (.*)", said)).replace("fault", "error") for said in VARIANT.findall(code)]


def table():
    """The rows of all kinds."""
    return HEAD + "".join(f"| {kind.where} | {said} |\n" for kind in KINDS for said in sentences(kind))


def made():
    """The page and its text."""
    return {PAGE: MARKS.sub(lambda found: found[1] + table() + found[2], read(PAGE))}


if __name__ == "__main__":
    sys.exit(write(made()))
