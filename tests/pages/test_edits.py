"""The refused edits of must-fail/ and mutants/ fit the code.

An edit has lines 'file: NAME', and after each of them pairs of lines 'old: TEXT' and 'new: TEXT'. The file exists in
the edit's crate, each old TEXT occurs exactly once in what the edit's earlier pairs made of it, the new TEXT is
another, and no two edits of a crate make the same change.
"""

from typing import NamedTuple

from tests.support import TOP, Counted, each

CRATES = TOP / "crates"


def changes_of(path):
    """The changes of an edit: file, old text, new text."""
    changes, name, old = [], None, None
    for line in path.read_text().splitlines():
        word, _, text = line.partition(": ")
        if word == "file":
            name = text.strip()
        elif word == "old":
            old = text
        elif word == "new" and old is not None:
            changes.append((name, old, text))
            old = None
    return changes


def problems_of(crate, path, seen):
    """What is wrong with one edit. `seen` has the changes of the crate's other edits."""
    changes = changes_of(path)
    found = [] if changes else ["no change"]
    # The files as the earlier pairs made them.
    made = {}
    for name, old, new in changes:
        source = crate / name if name else None
        if source is None or not source.is_file():
            found.append(f"no file {name}")
        else:
            text = made.get(name) or source.read_text()
            if (count := text.count(old)) != 1:
                found.append(f"{name} has {count} times, after the pairs before: {old.strip()}")
            made[name] = text.replace(old, new)
        if old == new:
            found.append(f"changes nothing: {old.strip()}")
    key = tuple((name, old.strip(), new.strip()) for name, old, new in changes)
    if key in seen:
        found.append(f"the same change as {seen[key]}")
    seen.setdefault(key, path.relative_to(crate))
    return found


class Crate(NamedTuple):
    """A crate, by its name."""

    name: str


@each([Crate(folder.name) for folder in sorted(CRATES.iterdir())])
class Edits(Counted):
    said = "{edits} refused edits"

    def case(self, crate):
        folder, seen, found = CRATES / crate.name, {}, []
        for path in sorted(folder.glob("must-fail/*.edit")) + sorted(folder.glob("mutants/*.edit")):
            self.counts["edits"] += 1
            problems = problems_of(folder, path, seen)
            found += [f"{path.relative_to(CRATES.parent)}: {problem}" for problem in problems]
        if found:
            self.fail("\n".join(["", *found]))
