"""The drop-in with empty entries of PATH, without tools, and in installations that were copied in part or are broken.
front_hostile.py tries this."""

import os
import shutil
from pathlib import Path

from front_hints import MERGED
from front_tools import call, drop_in, install, looking, with_path

# Calls that need a tool.
NEEDY = (
    "sort", "merge -i unsorted.bed", "intersect -s -u -a f.bed -b dot.bed",
    "complement -i past_end.bed -g g.txt", "maskfasta -fi cut.fa -bed cut.bed -fo masked.fa",
    "bamtobed -i zero_pos.sam",
)
# The script that takes what the program leaves to it.
SCRIPT = "lib/dunekettle/script/bedtools"
PARTS = (
    *(f"lib/dunekettle/{name}.sh"
      for name in ("words", "files", "judge", "through", "genomecov", "forms", "gzip", "hints")),
    "bin/dunekettle-bedtools", "lib/dunekettle/help.txt", "lib/dunekettle/drop-in", SCRIPT,
)
# A call of which awk makes what the program writes, and one that the script takes, with the parts that each needs.
FORM, STRAND = "genomecov -i f.bed -g g.txt", "genomecov -bga -strand + -i f.bed -g g.txt"
NEEDED = {
    FORM: ("whole.awk", "float.awk", "histogram.awk"),
    STRAND: ("words.sh", "files.sh", "judge.sh", "through.sh", "genomecov.sh", "whole.awk", "order_genome.awk",
             "float.awk", "histogram.awk"),
}


def given(line):
    """What the original of these trials writes: each word that it got, with a NUL behind it."""
    return "".join(f"{word}\0" for word in line.split()).encode()


def try_empty_entries(place, folder, count):
    """The original is in the folder in which it is called."""
    says, tools, nowhere = folder.parent / "says", folder.parent / "tools", folder.parent / "nowhere"
    for entry in ("", ":", "::", f":{nowhere}", f"{nowhere}:", f"{nowhere}::{nowhere}"):
        env = with_path(drop_in(place), tools, entry)
        count.expect(f"PATH with {entry!r}", 7, call(["bedtools", "sort"], says, env)[2])
    for name, *more in (["dash"], ["bash", "--posix"], ["busybox", "sh"], ["mksh"], ["yash"]):
        if shutil.which(name):
            words = [shutil.which(name), *more, drop_in(place) / "bedtools", "sort"]
            count.expect(f"PATH with an empty end, {name}", 7, call(words, says, with_path(tools, ""))[2])


def try_missing_tools(place, folder, count):
    """Without a tool the original takes the call."""
    top = folder.parent
    for missing in ("grep", "awk", "cat", "tail", "readlink"):
        few = top / f"no {missing}"
        few.mkdir()
        for tool in (top / "tools").iterdir():
            if tool.name != missing:
                (few / tool.name).symlink_to(os.readlink(tool))
        for line in NEEDY:
            env = with_path(drop_in(place), few, top / "says")
            count.expect(f"no {missing}: {line}", 7, call(["bedtools", *line.split()], folder, env)[2])


def broken_place(top, part, how):
    """An installation in which a part is missing, empty, half as long, or a folder."""
    broken = install(top / f"{Path(part).name} {how}")
    text = (broken / part).read_bytes()
    (broken / part).unlink()
    if how == "a folder":
        (broken / part).mkdir()
    elif how != "missing":
        (broken / part).write_bytes(text[: len(text) // 2 if how == "half" else 0])
        (broken / part).chmod(0o755)
    return broken


def try_broken_part(part, how, wanted, folder, count):
    """What works answers as ever, and the original takes the other calls."""
    top, name = folder.parent, Path(part).name
    broken = broken_place(top, part, how)
    env = with_path(drop_in(broken), top / "tools", top / "says")
    output, _, status = call(["bedtools", "merge", "-i", "f.bed"], folder, env)
    is_lost = part == SCRIPT and how == "missing" or name == "drop-in"
    count.expect(f"{part} {how}", (given("merge -i f.bed"), 7) if is_lost else (MERGED, 0), (output, status))
    if part == SCRIPT:
        return
    for line, answer in wanted.items():
        output, _, status = call(["bedtools", *line.split()], folder, env)
        is_needed = line == STRAND and (name in NEEDED[STRAND] or name == "dunekettle-bedtools")
        count.expect(f"{part} {how}: {line}", (given(line), 7) if is_needed else answer, (output, status))
    count.expect(f"{part} {how}: --version", (b"bedtools v2.30.0\n", "", 0),
                 call(["bedtools", "--version"], folder, env))
    if "bedtools" not in part and how != "half":
        status = call([broken / "bin" / "dunekettle", "merge", "-i", "unsorted.bed"], folder, env)[2]
        count.expect(f"{part} {how}: a fault", 1, status)


def try_broken_parts(place, folder, count):
    """A call answers as ever, or the original takes it."""
    top, wanted = folder.parent, {}
    for line in NEEDED:
        output, _, status = call([drop_in(place) / "bedtools", *line.split()], folder, looking())
        wanted[line] = output, status
    for part in PARTS:
        for how in ("missing", "empty", "half", "a folder"):
            try_broken_part(part, how, wanted, folder, count)
    for part in dict.fromkeys(part for part in sum(NEEDED.values(), ()) if part.endswith(".awk")):
        for how in ("missing", "empty"):
            broken = install(top / f"{part} {how}")
            (broken / "lib" / "dunekettle" / part).unlink()
            if how == "empty":
                (broken / "lib" / "dunekettle" / part).touch()
            env = with_path(drop_in(broken), top / "tools", top / "says")
            for line, names in NEEDED.items():
                count.expect(f"{part} {how}: {line}", 7 if part in names else 0,
                             call(["bedtools", *line.split()], folder, env)[2])


def try_bare_copies(place, folder, count):
    """A copy finds the installation by the program on PATH, or says why not."""
    says, tools, bare = (folder.parent / name for name in ("says", "tools", "bare"))
    bare.mkdir()
    shutil.copy(place / "bin" / "dunekettle", bare / "bedtools")
    (bare / "mergeBed").symlink_to("bedtools")
    env = with_path(bare, tools, says)
    count.expect("the script alone", (given("merge -i f.bed"), "", 7),
                 call(["bedtools", "merge", "-i", "f.bed"], folder, env))
    count.expect("the script alone, mergeBed", (given("merge -i f.bed"), "", 7),
                 call(["mergeBed", "-i", "f.bed"], folder, env))
    shutil.copy(place / "bin" / "dunekettle", bare / "dk")
    with_it = with_path(bare, place / "bin", tools, says)
    count.expect("a copy, and the program on PATH", (MERGED, "", 0),
                 call(["bedtools", "merge", "-i", "f.bed"], folder, with_it))
    count.expect("a copy of the front", (MERGED, "", 0), call(["dk", "merge", "-i", "f.bed"], folder, with_it))
    count.expect("its help", True, call(["dk", "help", "merge"], folder, with_it)[0].startswith(b"dunekettle merge "))
    for words, more in ((["dk", "merge", "-i", "f.bed"], [says]), (["dk", "--version"], [says]),
                        (["dk", "check", "f.bed"], [says]), (["bedtools", "merge", "-i", "f.bed"], []),
                        (["mergeBed", "-h"], []), (["bedtools", "sort"], [])):
        output, said, status = call(words, folder, with_path(bare, tools, *more))
        is_told = f"{words[0]} is a copy, and there is no dunekettle-bedtools on PATH" in said
        count.expect(f"a copy alone: {words}", (b"", 127, 1, True), (output, status, len(said.splitlines()), is_told))


def try_version(place, folder, count):
    """The environment of an original that is asked for its version."""
    shown = with_path(drop_in(place), folder.parent / "shows", folder.parent / "tools", line="mine", version="mine")
    lines = call(["bedtools", "--version"], folder, shown)[0].splitlines()
    count.expect("the environment of --version", (True, True), (b"line=mine" in lines, b"version=mine" in lines))


def try_paths(place, folder, count):
    """All of these, after those of front_originals.py."""
    for trial in (try_empty_entries, try_missing_tools, try_broken_parts, try_bare_copies, try_version):
        trial(place, folder, count)
