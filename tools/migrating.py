#!/usr/bin/env python3
"""Writes the options of bedtools and the rows of differences.tsv into MIGRATING.md, by command, and instead.txt, the
hints on options that aren't taken.

    tools/migrating.py           writes them
    tools/migrating.py merge     prints all that the tables have of a command, or of `every`

The page has the options, and a table for each kind of difference. Columns are separated by tabs.
differences.tsv has the command (`every` for all), the difference, what bedtools 2.30.0 and Dunekettle do, the kind, who
takes such a command line of the drop-in, and what to do. The options are those of options.py, with what it says to
those who come from bedtools: that begins with `same` if Dunekettle takes the option, and else with something else. Each
script that a row names is in recipes/.
"""

import re
import sys
from typing import NamedTuple

from files import TOP, read, rows, write
from options import commands

PAGE = "docs/MIGRATING.md"
DIFFERENCES = "tests/differences/differences.tsv"
SCRIPTS = TOP / "recipes"
# The hints of `dunekettle` on options that aren't taken.
INSTEAD = "generated/instead.txt"
# The kinds of differences, each with the head of its table.
HEADS = {"silent": "silent difference", "error": "difference with an error", "cosmetic": "cosmetic difference"}
TAKERS = ("bedtools", "Dunekettle", "either")
# A list of the page: its command, and what is between the two marks.
MARKS = re.compile(r"(<!-- tools/migrating.py: (\w+) -->\n).*?(<!-- it ends here -->)", re.DOTALL)


class Difference(NamedTuple):
    """A row of differences.tsv."""

    command: str
    name: str
    theirs: str
    ours: str
    kind: str
    taker: str
    advice: str


class Options(NamedTuple):
    """Options of a command of which the same is said, or the lack of some."""

    command: str
    words: list
    taken: str
    advice: str


def differences():
    """The rows of differences.tsv."""
    return [Difference(*row) for row in rows(DIFFERENCES)]


def options():
    """The options of bedtools, those of a command together of which the same is said."""
    found = {}
    for command in commands().values():
        for option in (*command.options, *command.others):
            same = (command.name, option.word.startswith("-"), option.advice)
            found.setdefault(same, Options(command.name, [], "yes" if option.does else "no", option.advice))
            found[same].words.append(option.word)
    return [row for row in found.values() if row.advice]


def options_of(command):
    """The list of a command's options."""
    lines = []
    for name, words, _, advice in options():
        shown = re.sub(r"(?<![\w-])-\w+", r"`\g<0>`", ", ".join(words))
        lines += [f"- {shown}: {advice}\n"] if name == command else []
    return "".join(lines)


def differences_of(command):
    """The tables of a command's differences, one for each kind."""
    tables = []
    for kind, head in HEADS.items():
        found = [row for row in differences() if (row.command, row.kind) == (command, kind)]
        lines = [f"| {head} | bedtools 2.30.0 | Dunekettle | drop-in | what to do |\n|---|---|---|---|---|\n"]
        for row in found:
            cells = (row.name, row.theirs, row.ours, "by file" if row.taker == "either" else row.taker, row.advice)
            lines.append(f"| {' | '.join(cells)} |\n".replace("|  |", "| |"))
        tables += ["".join(lines)] if found else []
    return "\n".join(tables)


def print_all(command):
    """Prints the options of a command and each of its differences with all columns. Returns the exit status."""
    shown = "".join(f"{', '.join(row.words)}: {row.advice}\n" for row in options() if row.command == command)
    for row in differences():
        if row.command == command:
            shown += (f"\n{row.kind}: {row.name}\n    bedtools 2.30.0: {row.theirs}\n    Dunekettle: {row.ours}\n"
                      f"    with the drop-in: {row.taker}\n")
            shown += f"    what to do: {row.advice}\n" if row.advice else ""
    print(shown.lstrip("\n"), end="")
    return 0 if shown else 1


def hint_of(advice):
    """What a hint says instead of an option: the scripts that replace it, or to leave it out, or nothing; and the
    options of which the scripts need one."""
    scripts = [] if advice.startswith("none") else re.findall(r"`([\w-]+\.sh)`", advice)
    needed = re.search(r"(?:for|with) (.*); otherwise none$", advice)
    words = " ".join(re.findall(r"`(-\w+)`", needed[1])) if needed else ""
    return f"{' '.join(dict.fromkeys(scripts)) or (advice if advice.startswith('leave') else '')}\t{words}"


def instead():
    """What a hint names instead of each option that isn't taken."""
    for row in options():
        for word in row.words if row.taken == "no" else ():
            if word.startswith("-"):
                yield f"{row.command}\t{word}\t{hint_of(row.advice)}\n"
    yield "intersect\tseveral -b\tintersect-files.sh\t-u -v -c -C -wb\n"


def listed(command):
    """What the page has between the marks of a command."""
    own = differences_of(command)
    return own if command == "every" else f"{options_of(command)}\n{own}"


def amiss():
    """What is wrong with the rows themselves, or lacks on the page."""
    for row in differences():
        if row.kind not in HEADS or row.taker not in TAKERS:
            yield f"differences.tsv: {row.name}: there is no such kind, or no such program"
    for row in options():
        if (row.taken == "yes") != row.advice.startswith("same"):
            yield f"options.tsv: {row.command} {', '.join(row.words)}: is taken, or it isn't"
    texts = [row.advice for row in (*differences(), *options())]
    for name in sorted({name for text in texts for name in re.findall(r"`([\w-]+\.sh)`", text)}):
        if not (SCRIPTS / name).exists():
            yield f"no recipes/{name}"
    commands = {row.command for row in (*differences(), *options())}
    for command in sorted(commands - {found[1] for found in MARKS.findall(read(PAGE))}):
        yield f"MIGRATING.md: nothing of {command}"


def made():
    """Each file and its text."""
    page = MARKS.sub(lambda found: found[1] + listed(found[2]) + found[3], read(PAGE))
    return {PAGE: page, INSTEAD: "".join(instead())}


def main():
    return print_all(sys.argv[1]) if len(sys.argv) > 1 else write(made())


if __name__ == "__main__":
    sys.exit(main())
