#!/usr/bin/env python3
"""Tries wrong definitions: each has to break a worked value.

    tests/definitions/definitions.py [--write] [--jobs N] [WORD ..]
    tests/definitions/definitions.py --make FOLDER

A small crate gets the definitions of crates/*/specs/model, the types that they name, and the worked values of bt_laws.
It is proved. Then each change of definitions.edits is made in a copy, of those whose names have one of the words, and
`rt check` says which values aren't what they were. A row has the file, the definition, the change and the values. With
--write the rows go to definitions.txt.

A change whose name begins with `control: ` means the same as before and has to break no value: what breaks one isn't
that a changed definition can't be computed. Ends with 1 where a change can't be made or read, or the wrong ones break
no value.
"""

import argparse
import re
import shutil
import subprocess
import sys
import tempfile
from concurrent.futures import ThreadPoolExecutor
from pathlib import Path

HERE = Path(__file__).resolve().parent
CRATES = HERE.parents[1] / "crates"
EDITS = HERE / "definitions.edits"
TABLE = HERE / "definitions.txt"
# The crates with definitions.
MODELS = ("bt_lines", "bt_bed", "bt_runs", "bt_sweep", "bt_seq", "bt_tool")
# The definitions of those crates, of the worked values, and of the scans for stretches and for intervals of equal
# depth.
SPECS = (*(f"{crate}/specs/model/*.antt" for crate in MODELS), "bt_laws/specs/WholeRuns.antt",
         "bt_laws/specs/Worked.antt", "bt_bed/specs/calls/LevelScan.antt", "bt_bed/specs/calls/Stretches.antt")
LEMMAS = ("bt_lines/proofs/Std.antt", "bt_bed/proofs/lemmas/LevelScans.antt", "bt_bed/proofs/lemmas/StretchScans.antt")
HEAD = "# What definitions.py writes: file | definition | wrong variant | the worked values that it breaks\n"

# What a check says of a value that isn't what it was.
BROKEN = re.compile(r"^\./proofs/(?:\w+/)*(\w+)/Answers\.antt:\d+:\d+: error: `returns-clause-(\w+)`: [^\n]*\btypes?\b",
                    re.MULTILINE)

# The root of the small crate. A definition may not name a proof of its own crate, as those of depths and stretches do:
# it names the scan, of which these functions say that it finds the one list.
ROOT = """//! Definitions and worked values.
#![tactic(auto)]

pub mod options;
pub mod types;
pub mod worked;

ghost use Rattle.std.specs.Prelude.{ℕ, Bool, List, Option, ◌≡◌};
ghost use Rattle.definitions.specs.bt_bed.Feature.{Span};
ghost use Rattle.definitions.specs.bt_bed.LevelScan.{scanned};
ghost use Rattle.definitions.specs.bt_bed.Levels.{AreLevelsOf, Level};
ghost use Rattle.definitions.specs.bt_bed.Positions.{AreStretchesOf, PassesBelow};
ghost use Rattle.definitions.specs.bt_bed.Stretches.{stretches_from};

pub fn levels()
    ensures are { (value : ℕ → Option ℕ) (size : ℕ) → AreLevelsOf value size (scanned value size) }
    ensures only {
        (value : ℕ → Option ℕ) (size : ℕ) (levels : List Level)
        → AreLevelsOf value size levels → levels ≡ scanned value size
    }
{}

pub fn stretches()
    ensures are { (test : ℕ → Bool) (size : ℕ) → AreStretchesOf (PassesBelow test size) (stretches_from test 0 size) }
    ensures only {
        (test : ℕ → Bool) (size : ℕ) (spans : List Span)
        → AreStretchesOf (PassesBelow test size) spans → spans ≡ stretches_from test 0 size
    }
{}
"""
LEVELS_ANSWERS = """use Rattle.definitions.proofs.LevelScans.{are_scanned, only_scanned}
use Rattle.definitions.proofs.levels.Goals as goal

pub returns-clause-are : goal.returns-clause-are
returns-clause-are c = are_scanned

pub returns-clause-only : goal.returns-clause-only
returns-clause-only c = only_scanned
"""
STRETCHES_ANSWERS = """use Rattle.definitions.proofs.StretchScans.{scan_finds, only_scan}
use Rattle.definitions.proofs.stretches.Goals as goal

pub returns-clause-are : goal.returns-clause-are
returns-clause-are c = scan_finds

pub returns-clause-only : goal.returns-clause-only
returns-clause-only c = only_scan
"""


def renamed(text):
    """The text of a file, with the paths of the small crate: all types are in `types`, definitions by their crates."""
    declared = r"Rattle\.bt_\w+\.specs\.declared\.[a-z_.]+\.([A-Z])"
    text = re.sub(declared, r"Rattle.definitions.specs.declared.types.\1", text)
    text = re.sub(r"Rattle\.(bt_\w+)\.specs\.(?:model\.|calls\.)?", r"Rattle.definitions.specs.\1.", text)
    text = re.sub(r"Rattle\.bt_\w+\.proofs\.(?:lemmas\.)?", "Rattle.definitions.proofs.", text)
    text = re.sub(r"\b(bt_\w+)::specs::(?:model|calls)::", r"crate::specs::\1::", text)
    return re.sub(r"^use bt_\w+::", "use crate::types::", text, flags=re.M)


def put(path, text):
    """Writes a file of the small crate."""
    path.parent.mkdir(parents=True, exist_ok=True)
    path.write_text(renamed(text))


def type_text(crate, name):
    """The text of a type."""
    for path in sorted((CRATES / crate / "src").rglob("*.rt")):
        found = re.search(rf"^pub(?:\(crate\))? (?:enum|struct) {name} \{{\n.*?^\}}\n", path.read_text(), re.S | re.M)
        if found:
            return found[0].replace("pub(crate) ", "pub ")
    sys.exit(f"no type {name} in {crate}")


def put_types(crate, texts):
    """Writes the types that these texts name."""
    declared = re.compile(r"Rattle\.(bt_\w+)\.specs\.declared\.[a-z_.]+\.([A-Z]\w*)")
    types = sorted({found for text in texts for found in declared.findall(text)})
    put(crate / "src/types.rt", "//! The types.\n\n" + "\n".join(type_text(*each) for each in types))


def put_specs(crate):
    """Writes the definitions. Answers their texts."""
    texts, modules = [], {}
    for path in sorted(path for pattern in SPECS for path in CRATES.glob(pattern)):
        owner = path.relative_to(CRATES).parts[0]
        texts.append(path.read_text())
        put(crate / f"specs/{owner}/{path.name}", texts[-1])
        modules.setdefault(owner, []).append(path.stem)
    for owner, names in modules.items():
        put(crate / f"specs/{owner}.antt", "".join(f"pub mod {name}\n" for name in sorted(names)))
    put(crate / "specs/Lib.antt", "".join(f"pub mod {owner}\n" for owner in sorted(modules)))
    put_level_scan(crate / "specs/bt_runs/Depth.antt")
    put_scan(crate / "specs/bt_runs/Merged.antt")
    put_scan(crate / "specs/bt_sweep/Lines.antt")
    return texts


def put_level_scan(path):
    """Has the definition of depths name the scan for the one list that there is."""
    text = path.read_text()
    text = re.sub(r"^abbrev pub the_levels .*?\n\n", "", text, flags=re.S | re.M)
    text = text.replace("(the_levels value size).levels", "scanned value size")
    text = text.replace("proofs.LevelScans.{one_list}", "specs.bt_bed.LevelScan.{scanned}")
    path.write_text(text.replace("Levels.{Level, OneList}", "Levels.{Level}"))


def put_scan(path):
    """Has a definition by stretches name the scan for the one list that there is."""
    text = path.read_text()
    text = re.sub(r"^use [^\n]*\{OneSpanList\}\n", "", text, flags=re.M)
    text = re.sub(r"let one : [^\n]*= one_span_list (\w+|\([^()]*\)) ([\w.]+) in\n    one\.spans",
                  r"stretches_from \1 0 \2", text)
    path.write_text(text.replace("proofs.StretchScans.{one_span_list}", "specs.bt_bed.Stretches.{stretches_from}"))


def put_worked(crate):
    """Writes the worked values and their proofs."""
    laws = CRATES / "bt_laws"
    options = (laws / "src/reports/options.rt").read_text()
    options = re.sub(r"^(?:///[^\n]*\n)+pub fn division.*?^\{\}\n\n", "", options, flags=re.S | re.M)
    put(crate / "src/options.rt", re.sub(r"^ghost use [^\n]*\.Reports\.[^\n]*\n", "", options, flags=re.M))
    put(crate / "src/worked.rt", (laws / "src/worked.rt").read_text())
    put(crate / "src/lib.rt", ROOT)
    for path in (laws / "proofs/worked").glob("*/*.antt"):
        put(crate / "proofs" / path.relative_to(laws / "proofs"), path.read_text())
    for path in (CRATES / name for name in LEMMAS):
        put(crate / "proofs" / path.name, path.read_text())
    put(crate / "proofs/Lib.antt", "pub mod LevelScans\npub mod Std\npub mod StretchScans\n")
    put(crate / "proofs/levels/Answers.antt", LEVELS_ANSWERS)
    put(crate / "proofs/stretches/Answers.antt", STRETCHES_ANSWERS)


def make(folder):
    """Makes the small crate."""
    crate = folder / "crates/definitions"
    put(folder / "crates.txt", "definitions:\n")
    put_types(crate, put_specs(crate))
    put_worked(crate)
    return crate


def check(crate):
    """Proves the crate. Answers its status and what it says."""
    ran = subprocess.run(["rt", "check", "--jobs", "1"], cwd=crate, capture_output=True, text=True, check=False)
    return ran.returncode, ran.stdout + ran.stderr


def edits():
    """The changes by their names: file, old text and new text."""
    found, name, file, old = {}, None, None, None
    for line in EDITS.read_text().splitlines():
        word, _, text = line.partition(": ")
        if word == "edit":
            name, file = text, None
            if name in found:
                sys.exit(f"two changes have the name: {name}")
        elif word == "file":
            file = text
        elif word == "old":
            old = text
        elif word == "new":
            found.setdefault(name, []).append((file, old, text))
    return found


def definition_at(text, at):
    """The definition in which a place of a file lies."""
    names = re.findall(r"^ *(?:abbrev pub|unfoldable pub|pub record) (\S+)", text[: text.index("\n", at) + 1], re.M)
    return names[-1] if names else "?"


def make_changes(crate, changes):
    """Makes the changes. Answers the definition that they are of, and what is wrong with them."""
    definition = "?"
    for file, old, new in changes:
        owner, _, rest = file.removeprefix("crates/").partition("/specs/model/")
        path = crate / "specs" / owner / rest
        text, old = path.read_text(), renamed(old)
        if text.count(old) != 1:
            return definition, f"{text.count(old)} times there: {old}"
        definition = definition_at(text, text.index(old))
        path.write_text(text.replace(old, renamed(new)))
    return definition, None


def broken_values(said):
    """The worked values that aren't what they were, by what a check says."""
    found = BROKEN.findall(said)
    # Values that have no answer of their own are in notes, before the line of their function.
    for notes, function in re.findall(r"((?:^note: [^\n]*\n)+)fn definitions::(?:\w+::)*(\w+): ", said, re.M):
        found += [(function, goal) for goal in re.findall(r"it is not proved [^\n]*\(`returns-clause-(\w+)`\)", notes)]
    for function, file in (("levels", "LevelScans"), ("stretches", "StretchScans")):
        lemmas = re.findall(rf"^\./proofs/{file}\.antt:\d+:\d+: error: `([\w-]+)`", said, re.M)
        found += [(function, lemma) for lemma in lemmas]
    return sorted(f"{function}: {goal}" for function, goal in set(found))


def cant_be_read(said):
    """What a check says of a change that is no definition, or nothing."""
    found = re.search(r"^\./(?:specs|src)/\S+ error: [^\n]*|^[^\n]*did not admit[^\n]*", said, re.M)
    return f"it can't be read: {found[0]}" if found else None


def outcome(name, status, said):
    """What a check of a copy with this change shows: the values that it breaks, and what is wrong."""
    values = broken_values(said)
    if name.startswith("control: "):
        return values, f"it isn't proved: {', '.join(values) or said[-300:]}" if status else None
    if wrong := cant_be_read(said):
        return values, wrong
    return values, None if values else "it breaks no worked value"


def attempt(base, folder, name, changes):
    """Tries a change in a copy. Answers its row, and whether it is as it has to be."""
    copy = Path(tempfile.mkdtemp(dir=folder)) / "copy"
    shutil.copytree(base, copy, symlinks=True)
    definition, wrong = make_changes(copy / "crates/definitions", changes)
    values = []
    if wrong is None:
        values, wrong = outcome(name, *check(copy / "crates/definitions"))
    shutil.rmtree(copy.parent)
    file = changes[0][0].removeprefix("crates/").replace("/specs/model", "")
    shown = ", ".join(values[:3]) + (f", and {len(values) - 3} more" if len(values) > 3 else "")
    return f"{file} | {definition} | {name} | {wrong or shown or 'none'}", wrong is None


def try_all(found, jobs):
    """Tries changes. Answers their rows, or nothing if the worked values themselves aren't proved."""
    with tempfile.TemporaryDirectory() as folder:
        base = Path(folder) / "base"
        status, said = check(make(base))
        if status:
            print(said[-3000:])
            return None
        with ThreadPoolExecutor(jobs) as pool:
            return list(pool.map(lambda item: attempt(base, folder, *item), found.items()))


def main():
    parser = argparse.ArgumentParser(description="Tries wrong definitions.")
    parser.add_argument("--write", action="store_true")
    parser.add_argument("--make", metavar="FOLDER", help="only makes the small crate there")
    parser.add_argument("--jobs", type=int, default=3)
    parser.add_argument("words", nargs="*")
    said = parser.parse_args()
    if said.make:
        make(Path(said.make))
        return 0
    found = {name: changes for name, changes in edits().items()
             if not said.words or any(word in name for word in said.words)}
    rows = try_all(found, said.jobs)
    if rows is None:
        print("the worked values themselves aren't proved")
        return 1
    lines = "".join(f"{row}\n" for row, _ in rows)
    if said.write:
        TABLE.write_text(HEAD + lines)
    else:
        print(lines, end="")
    wrong = sum(not is_right for _, is_right in rows)
    controls = sum(name.startswith("control: ") for name in found)
    print(f"{len(rows) - controls} wrong definitions, {controls} controls, {wrong} problems")
    return 1 if wrong or not rows else 0


if __name__ == "__main__":
    sys.exit(main())
