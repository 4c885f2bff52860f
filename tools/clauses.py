#!/usr/bin/env python3
"""Prints the index of the contracts, from the sources: each public call, its clauses, the words of specs/ that they
name, and what it can return instead of success.

    tools/clauses.py [CRATE..]    prints the index of these crates, or of all

A call is public if src/lib.rt of its crate exports it or its type; of bt_laws all laws are, of a program what has a
contract. public.tsv says why something is public that other crates alone use.
"""

import re
import sys
from pathlib import Path
from typing import NamedTuple

from files import TOP, read, rows

PUBLIC = "tests/pages/public.tsv"
USED = re.compile(r"^pub use ([\w:]+?)(?:::\{([^}]*)\})?;", re.MULTILINE | re.DOTALL)
OWNER = re.compile(r"^(?:pub(?:\([^)]*\))? )?(?:unsafe )?(impl|trait)\b(?:<[^{]*?>)? *(.*?)(?: where .*)?\{?$")
CALL = re.compile(r"^( *)(pub(?:\([^)]*\))? )?(?:const )?fn (\w+)")
CLAUSE = re.compile(r"\bensures\*? (\w+ )?\{")
PART = re.compile(r"\s*(?:ensures|requires|measure|decreases)\b\*?[^{;]*\{")
IMPORT = re.compile(r"^\s*ghost use Rattle\.(\w+)\.specs\.([\w.]+)\.\{([^}]*)\}", re.MULTILINE)
# Of a call with more clauses only their number is said, and of a law, which has a sentence.
MANY, MANY_OF_LAW = 12, 4
# So many words of a sentence are shown.
LONG = 16
# Laws that a page has in words, with their conditions: PIPES.md those of pipes and of the same bytes, SHARDS.md those
# of parts.
IN_WORDS = {"pipes", "same", "counts", "parts"}


def crates():
    """The crates in their order."""
    return [line.partition(":")[0].strip() for line in read("crates.txt").splitlines() if ":" in line]


def is_program(crate):
    """Whether a crate is a program, which exports nothing."""
    return (TOP / "crates" / crate / "src" / "main.rt").exists()


def exported(crate):
    """The names that a library exports."""
    text = (TOP / "crates" / crate / "src" / "lib.rt").read_text(encoding="utf-8")
    names = set(re.findall(r"^pub mod (\w+);", text, re.MULTILINE))
    for path, several in USED.findall(text):
        names.update(re.findall(r"\w+", several) if several else [path.split("::")[-1]])
    return names


def closing(text, at):
    """Where the brace that opens at a place is closed."""
    depth = 0
    for place in range(at, len(text)):
        depth += {"{": 1, "}": -1}.get(text[place], 0)
        if depth == 0:
            return place
    return len(text)


def head_of(text, at):
    """Where the head of a function ends: at its body, or at the semicolon of one without."""
    within = 0
    while at < len(text):
        clause = PART.match(text, at)
        within += {"(": 1, "[": 1, ")": -1, "]": -1}.get(text[at], 0)
        if clause:
            at = closing(text, clause.end() - 1) + 1
        elif text[at] in "{;" and not within:
            return at
        else:
            at += 1
    return at


def calls_of(file):
    """The calls of a file: the type or trait, the name, the head, and whether each is public or of a trait."""
    text = file.read_text(encoding="utf-8")
    owner, kind, place = "", "", 0
    for line in text.split("\n"):
        found = OWNER.match(line)
        if found and not line.startswith((" ", "//")):
            kind = found[1] if " for " not in found[2] else "impl of a trait"
            owner = re.match(r"\w+", found[2].split(" for ")[-1].strip())[0]
        call = CALL.match(line)
        if call:
            owned = owner if call[1] else ""
            head = text[place:head_of(text, place + len(call[0]))]
            is_public = bool(call[2]) and "(" not in call[2] or (bool(call[1]) and kind == "trait")
            yield owned, call[3], head, is_public
        place += len(line) + 1


def clauses_of(head):
    """The clauses of a head: the name of each, and what it says."""
    return [((found[1] or "").strip(), head[found.end():closing(head, found.end() - 1)])
            for found in CLAUSE.finditer(head)]


def refusal_of(head):
    """What a call may return instead of success, by its type."""
    found = re.search(r"\)\s*->\s*(.*?)(?=\s+(?:ensures|requires|where)\b|$)", head.replace("\n", " "))
    kinds = re.findall(r"Result<.*,\s*([\w:]+)>", found[1]) if found else []
    return kinds[0].split("::")[-1] if kinds else ""


def order_of(file):
    """The first page of a folder before the others."""
    return (str(file.parent), file.name != "mod.rt", file.name)


def words_in(file):
    """The words of specs/ that a file imports: for each the name and the file of its definition."""
    words = {}
    for crate, module, items in IMPORT.findall(file.read_text(encoding="utf-8")):
        path = (TOP / "crates" / crate / "specs").joinpath(*module.split(".")).with_suffix(".antt")
        for item in items.split(",") if path.exists() else ():
            name, _, here = item.strip().partition(" as ")
            words[here or name] = (name, path)
    return words


def named_in(text, words, is_law):
    """The words of a clause that the index shows: relations, what one has to believe, and of a law all."""
    found = (words[word] for word in dict.fromkeys(re.findall(r"\w+", text)) if word in words)
    return [(name, path) for name, path in found if is_law or name[0].isupper() or "model" in path.parts]


class Call(NamedTuple):
    """A row of the index: the clauses with the words that each names, and what may be returned instead of success."""

    crate: str
    file: Path
    name: str
    clauses: list
    refusal: str


def code_of(crate):
    """The files of a crate's code, without those of tests."""
    for file in sorted((TOP / "crates" / crate / "src").rglob("*.rt"), key=order_of):
        if "tests" not in file.stem and "tests" not in file.parts and file.stem not in ("example", "testing"):
            yield file


def calls():
    """The rows of the index."""
    for crate in crates():
        is_library = crate != "bt_laws" and not is_program(crate)
        shown = exported(crate) if is_library else set()
        for file in code_of(crate):
            words = words_in(file)
            for owner, name, head, is_public in calls_of(file):
                clauses = clauses_of(head)
                is_shown = bool(clauses) and (is_public or is_program(crate))
                if is_public and (owner or name) in shown if is_library else is_shown:
                    said = [(clause, named_in(text, words, crate == "bt_laws")) for clause, text in clauses]
                    yield Call(crate, file, f"{owner}::{name}" if owner else name, said, refusal_of(head))


def shown_clauses(clauses, many=MANY):
    """The clauses of a call: their names, and the words that they name, each once."""
    parts, seen = [], set()
    if len(clauses) > many:
        words = dict.fromkeys(word for _, named in clauses for word in named)
        on = ", ".join(f"{word} ({path.relative_to(TOP / 'crates')})" for word, path in words)
        return f"{len(clauses)} clauses, on {on}"
    for name, words in clauses:
        new = [word for word in words if word not in seen]
        seen.update(new)
        named = [f"{word} ({path.relative_to(TOP / 'crates')})" for word, path in new]
        parts.append(" ".join([f"`{name}`"] * bool(name) + named))
    return ", ".join(part for part in parts if part)


def sentence_of(file, name):
    """The first sentence of the comment above a law, or its first part if that is long."""
    law = rf"((?:^ *///.*\n)+)(?:^ *#.*\n)*^ *pub fn {name}\b"
    found = re.search(law, file.read_text(encoding="utf-8"), re.MULTILINE)
    text = " ".join(line.strip().removeprefix("///").strip() for line in found[1].splitlines()) if found else ""
    sentence = re.split(r"(?<=\.)\s", text)[0]
    while len(sentence.split()) > LONG and re.search(r"[:;,] ", sentence):
        sentence = re.split(r"[:;,] (?!.*[:;,] )", sentence)[0] + " .."
        sentence = sentence.replace(" .. ..", " ..")
    return sentence


HEAD = """\
Each public call, what it may return instead of success, its clauses, and the words of specs/ that they name. The
comment above a call says it in words; two dots: there it goes on. Every call returns, whatever it is given. Without an
arrow it has no answer for a failure: `None` is an answer, and the fault of `run` is in its outcome. Only after a
`Fault`, an `AllocError` or a `Refusal` can memory have run out. That it had cause is shown by clauses `quiet` and
`memory`, and by the tests of tests/pages/tests.tsv.
"""


def line_of(call):
    """The line of a call, or nothing if it has one clause without a name, or none."""
    text = shown_clauses(call.clauses, MANY_OF_LAW if call.crate == "bt_laws" else MANY)
    if call.crate == "bt_laws" and not IN_WORDS & {call.file.stem, call.file.parent.name}:
        text = f"{sentence_of(call.file, call.name)} {text}".strip()
    arrow = f" -> {call.refusal}" if call.refusal else ""
    return f"  {call.name}{arrow}: {text or 'one clause'}\n" if text or call.refusal else ""


def index_of(crate, found):
    """The index of a crate."""
    lines, plain, shown = [], [], None
    for call in found:
        line = line_of(call)
        if not line:
            plain.append(call.name)
            continue
        if call.file != shown:
            shown = call.file
            lines.append(f"{shown.relative_to(TOP)}\n")
        lines.append(line)
    rest = f"One clause each, or none: {', '.join(plain)}\n" if plain and crate != "bt_laws" else ""
    others = [f"For other crates: {items}: {why}\n" for name, items, why in rows(PUBLIC) if name == crate]
    return f"\n{crate}\n\n{''.join(lines)}{rest}{''.join(others)}"


def main():
    chosen = sys.argv[1:] or crates()
    unknown = [f"no crate {name}" for name in chosen if name not in crates()]
    if unknown:
        print(*unknown, sep="\n")
        return 1
    found = list(calls())
    print(HEAD, *(index_of(crate, [call for call in found if call.crate == crate]) for crate in chosen), sep="", end="")
    return 0


if __name__ == "__main__":
    sys.exit(main())
