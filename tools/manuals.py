#!/usr/bin/env python3
"""Writes a manual page of each command: generated/man/dunekettle-COMMAND.1, by its part of COMMANDS.md and its options.

Text, lists and examples are those of COMMANDS.md, without pictures and tables; the options are those of options.py. An
example that reads a file of an earlier command begins with the lines that make it. The date is that of man/bedtools.1.
"""

import re
import sys

from completions import NAME, version
from files import read, write
from options import COMMANDS, FRONT, call, commands, default_in_words

# Pieces of a paragraph: code, and a link, of which the text is left.
LINK = re.compile(r"\[([^\]]*)\]\([^)]*\)")
CODE = re.compile(r"`([^`]*)`")
# A line of an example that makes a file, or adds to it.
MAKES = re.compile(r"^    \$ printf .* (>>?) (\S+)$", re.MULTILINE)
# What begins the table of options.
TABLE = "<!-- tools/options.py: table of "


def section_of(command):
    """The part of COMMANDS.md on a command."""
    return read(COMMANDS).split(f"\n## {command.name}\n", 1)[1].split("\n## ", 1)[0]


def without_example(command):
    """The options that no example of COMMANDS.md has."""
    examples = re.findall(rf"^    [$>] .*\b{command.name}\b(.*)", section_of(command), re.MULTILINE)
    given = {word for words in examples for word in words.split()}
    return [option.word for option in command.options if option.word not in given]


def escaped(text):
    """Text as roff reads it."""
    text = text.replace("\\|", "|").replace("\\", "\\e").replace("-", "\\-")
    return f"\\&{text}" if text.startswith((".", "'")) else text


def words(text):
    """A paragraph as roff: links as their text, code and what is strong in bold."""
    parts = re.split(r"(`[^`]*`|\*\*)", LINK.sub(r"\1", text))
    made, is_bold = "", False
    for part in parts:
        if part == "**":
            is_bold = not is_bold
            made += "\\fB" if is_bold else "\\fP"
        elif part.startswith("`"):
            made += escaped(part.strip("`")) if is_bold else f"\\fB{escaped(part.strip('`'))}\\fP"
        else:
            made += part.replace("\\", "\\e")
    return f"\\&{made}" if made.startswith((".", "'")) else made


def files_before(section):
    """The files that the examples of COMMANDS.md before a section make, each with the lines that do."""
    text, made = read(COMMANDS), {}
    for match in MAKES.finditer(text[:text.index(section)]):
        made[match[2]] = [*(made.get(match[2], []) if match[1] == ">>" else []), match[0]]
    return made


def missing(block, made):
    """The lines that make the files which a block reads, if none before it has. What it makes itself isn't missing."""
    lines = []
    for name in list(made):
        if re.search(rf"(?<![\w./]){re.escape(name)}(?![\w.])", "\n".join(block)):
            makers = made.pop(name)
            lines += [] if any(match[2] == name for match in MAKES.finditer("\n".join(block))) else makers
    return lines


def example(block):
    """A block of commands and what they write."""
    return [".Bd -literal -offset indent", *(escaped(line[4:]) for line in block), ".Ed"]


def blocks_of(section):
    """A section in blocks of contiguous lines, without its link to other pages."""
    section = re.sub(r"^\[Options of bedtools, differences\]\([^)]*\)\. ?", "", section, flags=re.MULTILINE)
    return [block.split("\n") for block in re.split(r"\n\n+", section.strip("\n"))]


def body(section, made):
    """The text of a section: paragraphs, lists and examples. `made` has the files that come from before it."""
    lines = []
    for block in blocks_of(section):
        if block[0].startswith(("|", "<!--")) or block[0].startswith("    ") and not block[0].startswith("    $ "):
            continue
        if block[0].startswith("    "):
            lines += example([*missing(block, made), *block])
        elif block[0].startswith("### "):
            lines.append(f".Ss \\&{block[0][4:]}")
        elif block[0].startswith("- "):
            lines += [".Pp", ".Bl -bullet -compact"]
            for item in block:
                lines += [".It", words(item[2:])]
            lines.append(".El")
        else:
            lines += [".Pp" if lines and not lines[-1].startswith(".Ss") else "", words(" ".join(block))]
    return [line for line in lines if line]


# What ends a command with status 1.
ERROR = "An error of an input, of reading or writing, or of memory"
# What ends each page: its parts after the examples, and what the installation has besides.
SEE_ALSO = [".Sh SEE ALSO", f".Xr {NAME} 1 ,", ".Xr dunekettle 1", ".Pp"]
PAGES = [".Pa docs/COMMANDS.md", "has pictures too,", ".Pa docs/ERRORS.md", "each message,", ".Pa docs/MIGRATING.md",
         "what differs from bedtools 2.30.0."]


def statuses(has_limit):
    """The part on the exit status: with what the limit of kept records does, if there is one."""
    error = f"{ERROR}, or more records than -held allows." if has_limit else f"{ERROR}."
    return [".Sh EXIT STATUS", ".Bl -tag -width Ds", ".It 0", "All output was written.", ".It 1", error, ".It 2",
            "The command line can't be used.", ".El"]


def option_lines(options):
    """The part on the options."""
    lines = [".Sh OPTIONS", ".Bl -tag -width Ds"]
    for option in options:
        text = option.text()
        lines += [f".It \\fB{escaped(option.word)}\\fP {option.value}".rstrip(), f"{text[0].upper()}{text[1:]}."]
        lines += [default_in_words(option.default)] if option.default not in ("off", "on") else []
    return [*lines, ".El"]


def manual(command, date):
    """The text of a command's page."""
    section = section_of(command)
    made, before, after = files_before(section), section.split(TABLE)[0], section.split(TABLE)[1].split("\n\n", 1)
    lines = [f".Dd {date}", f".Dt DUNEKETTLE-{command.name.upper()} 1", ".Os", ".Sh NAME",
             f".Nm dunekettle-{command.name}", f".Nd {command.does}",
             ".Sh SYNOPSIS", escaped(" ".join([FRONT, *call(command)])),
             ".Sh DESCRIPTION", *body(before, made), *option_lines(command.options),
             ".Sh EXAMPLES", *body("\n".join(after[1:]), made)]
    has_limit = any(option.word == "-held" for option in command.options)
    lines += [*statuses(has_limit), *SEE_ALSO, f"This page is that of Dunekettle {version()}.", *PAGES]
    return "".join(f"{line}\n" for line in lines)


def made():
    """Each page and its text."""
    date = re.search(r"^\.Dd (.*)", read("man/bedtools.1"))[1]
    return {f"generated/man/dunekettle-{command.name}.1": manual(command, date) for command in commands().values()}


if __name__ == "__main__":
    sys.exit(write(made()))
