"""Each file that a tool writes is what it would write today, and what the tools read is whole."""

import re
from typing import NamedTuple

from tests.support import Counted, each

import completions
import manuals
import migrating
import model
import options
import pictures
import recipe_table
import verdict
from files import TOP, read

TOOLS = (completions, manuals, migrating, model, options, pictures, recipe_table, verdict)
# Where the kit is named.
NAMING_KIT = ("README.md", "Makefile", "docs/PROVED.md", "packaging/copyright", "packaging/sbom.spdx.json")


class Made(NamedTuple):
    """A file, what it should have, and the tool that writes it."""

    name: str
    text: str
    tool: str


@each([Made(name, text, tool.__name__) for tool in TOOLS for name, text in tool.made().items()])
class Generated(Counted):
    said = "{files} files"

    def case(self, made):
        self.counts["files"] += 1
        text = read(made.name) if (TOP / made.name).exists() else ""
        self.assertEqual(text, made.text, f"{made.name} isn't what tools/{made.tool}.py writes: run it")


class Tables(Counted):
    said = "{differences} differences and {options} options"

    def test_rows_of_migrating(self):
        self.counts["differences"] = len(migrating.differences())
        self.counts["options"] = sum(len(row.words) for row in migrating.options())
        self.assertEqual(list(migrating.amiss()), [])

    def test_each_option_has_an_example(self):
        lost = {command.name: manuals.without_example(command) for command in options.commands().values()}
        self.assertEqual(lost, dict.fromkeys(lost, []))

    def test_kit_is_the_same_everywhere(self):
        named = {name: set(re.findall(r"rattle-kit-\w+", read(name))) for name in NAMING_KIT}
        self.assertEqual(named, dict.fromkeys(NAMING_KIT, {completions.kit()}))
