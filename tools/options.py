#!/usr/bin/env python3
"""The options of all commands, each described once, in options.tsv. Writes how a command is called, and its table of
options, into COMMANDS.md, and the options with values into words.sh.

A row of options.tsv is a command with what it does, or an option of one: its value, its default, the options above it
that it excludes, what it does, and what MIGRATING.md says of it to those who come from bedtools. An option that only
bedtools has doesn't say what it does, and one that only Dunekettle has says nothing to them. A default may also be
`required`, or `this or -x` if one of several is required.

Others get the table from here: completions.py for help and completions, manuals.py for manual pages, migrating.py for
MIGRATING.md, and plain.py of tests/program/. The program's own tables aren't made of it, so that what is proved stands
by itself: tests/pages/test_options.py compares them.
"""

import re
import sys
from typing import NamedTuple

from files import read, rows, write

OPTIONS, COMMANDS, WORDS = "tools/options.tsv", "docs/COMMANDS.md", "front/words.sh"
FRONT = "dunekettle"
# The values that are names of files, and what takes one of two values.
FILES, STRAND = ("FILE", "GENOME", "FASTA", "BED"), "+ or -"
# A part of COMMANDS.md: what it is, its command, and what is between the two marks.
MARKS = re.compile(r"(<!-- tools/options.py: (call|table) of (\w+) -->\n).*?(<!-- it ends here -->)", re.DOTALL)
# The same of words.sh.
LINES = re.compile(r"(    # tools/options.py writes these lines\n).*?(    # they end here\n)", re.DOTALL)
# What COMMANDS.md says once, above all tables.
SAID = ("; - or stdin is standard input", ": a genome file or a .fai index")
# How wide a call is in COMMANDS.md.
WIDTH = 72


class Option(NamedTuple):
    """An option of a command. `does` is empty if only bedtools has it, `advice` if only Dunekettle has it."""

    word: str
    value: str
    default: str
    excludes: list
    does: str
    advice: str

    def ways(self):
        """The ways to write it: one for each strand."""
        return [f"{self.word} {sign}" for sign in "+-"] if self.value == STRAND else [self.shown()]

    def shown(self):
        """The option with its value."""
        return f"{self.word} {self.value}".rstrip()

    def one_of(self):
        """The other options of which one is required."""
        return re.findall(r"-\w+", self.default) if self.default.startswith("this or ") else []

    def text(self):
        """What it does, and beside which options it can't be given."""
        *most, last = self.excludes or [""]
        beside = f"{', '.join(most)} or {last}" if most else last
        return self.does + (f"; not together with {beside}" if beside else "")


class Command(NamedTuple):
    """A command, with the options that it has, and those that bedtools has besides."""

    name: str
    does: str
    options: list
    others: list


def commands():
    """The commands by their names."""
    found, excluded = {}, {}
    for command, word, _, _, above, *_ in rows(OPTIONS):
        for other in above.split():
            excluded.setdefault((command, word), []).append(other)
            excluded.setdefault((command, other), []).append(word)
    for name, word, value, default, _, does, advice in rows(OPTIONS):
        if not word:
            found[name] = Command(name, does, [], [])
            continue
        option = Option(word, value, default, excluded.get((name, word), []), does, advice)
        (found[name].options if does else found[name].others).append(option)
    return found


def call(command):
    """How a command is called, in pieces that a line isn't broken in. Options of which one may or must be given are one
    piece, if they follow one another."""
    groups = []
    for option in command.options:
        if groups and all(other.word in (*option.excludes, *option.one_of()) for other in groups[-1]):
            groups[-1].append(option)
        else:
            groups.append([option])
    pieces = [command.name]
    for group in groups:
        shown = " | ".join(way for option in group for way in option.ways())
        is_one_of = len(group) > 1 and group[0].one_of()
        pieces.append(shown if group[0].default == "required" else f"({shown})" if is_one_of else f"[{shown}]")
    return pieces


def wrapped(lead, pieces, indent=None, width=80):
    """Pieces of text in lines of at most some width, the first behind a lead, the others as far in."""
    lines, indent = [lead], " " * len(lead) if indent is None else indent
    for piece in pieces:
        if len(lines[-1]) + 1 + len(piece) > width and lines[-1].strip() and lines[-1] != lead:
            lines.append(indent + piece)
        else:
            lines[-1] += piece if lines[-1] == lead else " " + piece
    return lines


def default_in_words(default):
    """The sentence on what holds without an option."""
    if default == "required":
        return "Required."
    return f"Required: {default}." if default.startswith("this or ") else f"Default: {default}."


def as_code(text, value):
    """A line of help for a page: options, files and the letter of a value as code, without what the page says once."""
    for said in SAID:
        text = text.replace(said, "")
    letter = rf"|\b{value}\b" if len(value) == 1 else ""
    return re.sub(rf"(?<![\w-])-[A-Za-z]\w*{letter}", r"`\g<0>`", text)


def table(command):
    """The table of a command's options in COMMANDS.md. A strand's option has each of its values."""
    lines = ["| option | what it does |", "|---|---|"]
    for option in command.options:
        words = default_in_words(option.default).rstrip(".")
        ends = "" if option.default in ("off", "on") else f"; {words[0].lower()}{words[1:]}"
        names = ", ".join(f"`{way}`" for way in option.ways())
        lines.append(f"| {names} | {as_code(option.text() + ends, option.value)} |")
    return "".join(f"{line}\n" for line in lines)


def call_on_page(command):
    """How a command is called, in COMMANDS.md."""
    lines = wrapped("", [f"    {FRONT}", *call(command)], " " * 8, WIDTH)
    return "".join(f"{line}\n" for line in lines)


def page():
    """COMMANDS.md."""
    known, writers = commands(), {"call": call_on_page, "table": table}
    return MARKS.sub(lambda found: found[1] + writers[found[2]](known[found[3]]) + found[4], read(COMMANDS))


def words():
    """words.sh: the options of each command that have a value, also those that bedtools alone has."""
    lines = []
    for command in commands().values():
        valued = [f"{command.name}{option.word}" for option in (*command.options, *command.others) if option.value]
        lines += wrapped("    ", [f"{word} |" for word in valued], width=118)
    listed = "".join(f"{line.removesuffix(' |')}) ;;\n" for line in lines)
    return LINES.sub(lambda found: found[1] + listed + found[2], read(WORDS))


def made():
    """Each file and its text."""
    return {COMMANDS: page(), WORDS: words()}


if __name__ == "__main__":
    sys.exit(write(made()))
