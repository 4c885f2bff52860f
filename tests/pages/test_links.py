"""What the pages say of the repository is so: links, names, paths, modules, versions, numbers that several pages say.

The pages are the Markdown files of this repository. Links to other hosts aren't followed.
"""

import itertools
import re

from tests.support import TOP, Counted

from files import read, rows
from model import REPORT, definitions, model

ARCHITECTURE = "docs/ARCHITECTURE.md"
PATTERNS = ("*.md", "docs/*.md", "bench/*.md", "generated/*.md", "packaging/*.md", "crates/*/README.md")
PAGES = [page for pattern in PATTERNS for page in sorted(TOP.glob(pattern))]
LINK = re.compile(r"\[[^\]]*\]\(([^)\s]+)\)")
CODE = re.compile(r"`[^`]*`")
# Definitions that stand in a file: their names, and the link to it.
CITED = re.compile(r"((?:`\w+`(?:, | and ))*`\w+`) (?:in|of) \[[\w/]+\.antt\]\(([^)\s#]+)\)")
# Functions that are in a file of code: the name, before the link to the file or as its text.
CALLED = re.compile(r"`(\w+)` in \[[\w/.]+\]\(([^)\s#]+\.rt)\)|\[`(\w+)`\]\(([^)\s#]+\.rt)\)")
# Names of several words in code spans, and those that are of a library.
SOURCES = ("crates/*/src/**/*.rt", "crates/*/specs/**/*.antt", "front/*")
TESTS = [*TOP.glob("tests/**/*.py"), *TOP.glob("tools/*.py")]
NAMES, THEIRS = re.compile(r"`([a-z][a-z0-9]*(?:_[a-z0-9]+)+)`"), {"find_byte", "get_mut"}

# Files of definitions that are named by their crate, as those of a question are in ARCHITECTURE.md.
FILES = re.compile(r"(?:`(bt_\w+)/specs/|\[(bt_\w+)/specs/[\w/]+\.antt\]\([^)]*\), `)"
                   r"([A-Z]\w*`(?:,(?: [a-z ]+)? `[A-Z]\w*`)*)")

# Paths in code spans: below a crate that is named, or that has the page, and else below any.
PATHS = re.compile(r"`(?:(bt_\w+|bedtools)/)?((?:src|specs|proofs|laws)/[\w./]*)`")
WITH_PATHS = [TOP / "docs" / "ARCHITECTURE.md", TOP / "docs" / "PROVED.md", *sorted(TOP.glob("crates/*/README.md"))]

# A row of ARCHITECTURE.md on the modules of a folder: the crate, or none for that of the row above, the folder and its
# modules.
MODULES = re.compile(r"^\| (?:`(\w+)`)? ?\| (?:`(\w+)`)? ?\| ((?:`\w+`(?:, )?)+)( and others)? \|", re.MULTILINE)

# Comments at the head of a script that don't say what it does.
OTHER_HEADS = re.compile(r"# (?:shellcheck|SPDX)")

# Where the version stands: the first match of each is it.
VERSIONS = {
    "README.md": r"version (\d+\.\d+\.\d+)",
    "CHANGELOG.md": r"^## (\d+\.\d+\.\d+)",
    "man/bedtools.1": r"Dunekettle (\d+\.\d+\.\d+)",
    "man/dunekettle.1": r"Dunekettle (\d+\.\d+\.\d+)",
    "CITATION.cff": r"^version: (\d+\.\d+\.\d+)",
    "packaging/bioconda/meta.yaml": r"set version = \"(\d+\.\d+\.\d+)\"",
}

# What was said once beside something else that is true, each with that.
UNTRUE = {
    r"samtools view -h [^|\n]*\|\s*(?:dunekettle|bedtools)": "bamtobed needs no header lines",
    r"writes? each line as soon as": "ready lines are written 8,192 bytes at a time",
    r"Default: both": "without -S and -strand features without a strand count too",
    r"tail -f`?, is used line by line": "its output comes 8,192 bytes at a time",
    r"merge -g`?[^.\n]*since bedtools refuses": "bedtools 2.30.0 takes merge -g",
    r"commented-out chromosome[^.|\n]*refused": "bedtools takes such a line for a chromosome",
    r"[Ee]ach (?:claim )?is proved": "the tenth of the eleven claims is tested",
    r"dunekettle-bedtools (?:merge|complement|intersect|subtract|genomecov|bamtobed|maskfasta)\b":
        "what people type is dunekettle, with the command",
    r"(?<=\| )`no memory`[^\n]*none \|": "memory may run out in the middle",
}
OTHERS = ("man/*.1", "generated/**/*.*", "front/*", "packaging/control")
WHERE = [*PAGES, *(file for pattern in OTHERS for file in sorted(TOP.glob(pattern)) if file not in PAGES)]
# Numbers that several files say, each with what it is. Each of them may be said only once in a file.
SAME = {
    "how much text is kept": {
        "crates/drop_in/src/system.rt": r"const ROOM: usize = ([\d_]+);",
        "front/*.sh": r"DUNEKETTLE_ROOM:-(\d+)", "docs/MIGRATING.md": r"DUNEKETTLE_ROOM=BYTES`[^\n]*?: ([\d,]+)",
        "man/dunekettle.1": r"keeps in memory: (\d+)"},
    "which inputs are small": {
        "front/*.sh": r"DUNEKETTLE_SMALL:-(\d+)", "docs/MIGRATING.md": r"DUNEKETTLE_SMALL=BYTES`[^\n]*?: ([\d,]+)",
        "man/dunekettle.1": r"\.Cm genomecov :\n(\d+) by default"},
    "how long many reads that overlap took": {
        "CHANGELOG.md": r"on 30,000 bases took (\S+ s), and take (\S+ s)",
        "bench/HISTORY.md": r"on 30,000 bases\* (\S+ s) to (\S+ s)"},
    "how many scripts are slower than bedtools": {
        "README.md": r"(\d+) of (\d+) are slower than bedtools",
        "docs/RECIPES.md": r"(\d+) of (\d+) scripts are slower"},
    "how many bytes wait to be written": {
        "docs/COMMANDS.md": r"Ready lines are written ([\d,]+) bytes",
        "docs/PROVED.md": r"At most ([\d,]+) bytes of settled",
        "man/bedtools.1": r"([\d,]+) bytes at a time", "crates/bt_lines/src/device/mod.rt": r"BLOCK: usize = (\d+)"},
}
# In a file of the model: where a definition begins, with its name, also within a module, if it isn't a field; a word
# that isn't a field; what is imported from the model, and all that may be imported.
BEGINS = re.compile(r"^(?:(?:(?:abbrev|unfoldable|pub|record|data) )+|(?=\S+ : )|"
                    r"  (?:(?:abbrev|unfoldable)(?: pub)?|(?:pub )?(?:record|data)) )(?!--|record |data )(\S+)",
                    re.MULTILINE)
WORD = re.compile(r"(?<![.\w])\w+")
OF_DROP_IN = re.compile(r"use Rattle\.(bt_front|bt_hits)\.specs\.model\.(\w+)\.\{(.*)\}")
FROM_MODEL = re.compile(r"^use Rattle\.(bt_\w+)\.specs\.model\.(\w+)\.\{(.*)\}", re.MULTILINE)
MAY_IMPORT = re.compile(r"use Rattle\.(?:std\.specs|bt_\w+\.specs\.(?:model|declared))\.")

# What the model takes from proofs: values whose types are definitions of the model that say which values they are.
FOUND = (
    "use Rattle.bt_bed.proofs.lemmas.LevelScans.{one_list}",
    "use Rattle.bt_bed.proofs.lemmas.StretchScans.{one_span_list}",
)

def anchor(heading):
    """The name by which a heading is linked to: its letters, digits and hyphens in lower case."""
    return re.sub(r"[^\w\- ]", "", heading.replace("`", "").strip().lower()).replace(" ", "-")


def anchors_of(page):
    """The names of a page's headings."""
    lines = page.read_text(encoding="utf-8").splitlines()
    return {anchor(line.lstrip("#")) for line in lines if re.match(r"#{1,6} ", line)}


def lines():
    """The lines of all pages, each with its page, and its place for people."""
    for page in PAGES:
        for number, line in enumerate(page.read_text(encoding="utf-8").splitlines(), 1):
            yield page, f"{page.relative_to(TOP)}:{number}", line


def links():
    """The links of all pages, each with its page and its place. Indented blocks and code have none."""
    for page, place, line in lines():
        for target in () if line.startswith("    ") else LINK.findall(CODE.sub("", line)):
            yield page, place, target


def leads_nowhere(page, target):
    """Whether a link leads to no file, or to no heading of it."""
    if "://" in target:
        return False
    name, _, heading = target.partition("#")
    to = (page.parent / name).resolve() if name else page
    if not to.exists():
        return True
    return bool(heading) and to.suffix == ".md" and heading not in anchors_of(to)


def stands_in(name, file):
    """Whether a file of definitions has the one of this name."""
    defined = rf"^\s*(?:abbrev |unfoldable )?pub (?:record )?{name}\b"
    return bool(re.search(defined, file.read_text(encoding="utf-8"), re.MULTILINE))


def misplaced():
    """The definitions and functions that a page says to be in a file that lacks them."""
    for page, place, line in lines():
        for names, target in CITED.findall(line):
            file = (page.parent / target).resolve()
            for name in re.findall(r"`(\w+)`", names):
                if file.exists() and not stands_in(name, file):
                    yield f"{place}: {name} isn't in {file.relative_to(TOP)}"
        for found in CALLED.findall(line):
            name, target = found[:2] if found[0] else found[2:]
            file = (page.parent / target).resolve()
            if file.exists() and not re.search(rf"\bfn {name}\b", file.read_text(encoding="utf-8")):
                yield f"{place}: {name} isn't in {file.relative_to(TOP)}"


def unknown_names():
    """The names that a page says and nothing in code, definitions or the drop-in has, and no script."""
    files = [file for pattern in SOURCES for file in TOP.glob(pattern)]
    known = set(WORD.findall("".join(file.read_text(encoding="utf-8") for file in files)))
    known |= {file.stem for file in (*files, *TESTS)} | {file.relative_to(TOP).parts[1] for file in files} | THEIRS
    for _, place, line in lines():
        yield from (f"{place}: there is no {name}" for name in NAMES.findall(line) if name not in known)


def missing():
    """The files of definitions that a page names and that aren't there."""
    for _, place, line in lines():
        for alone, linked, names in FILES.findall(line):
            folder = TOP / "crates" / (alone or linked) / "specs"
            for name in re.findall(r"(\w+)`", names):
                if not any(folder.rglob(f"{name}.antt")):
                    yield f"{place}: there is no {folder.relative_to(TOP)}/{name}"


def is_path(crates, path):
    """Whether one of the crates has a file or a folder at a path, which may lack its `src` or the end of a name."""
    names = (path, f"src/{path}", f"{path}.antt")
    return any((TOP / "crates" / crate / name).exists() for crate in crates for name in names)


def lost_paths():
    """The paths in code spans that lead nowhere."""
    every = [folder.name for folder in (TOP / "crates").iterdir()]
    for page, place, line in lines():
        own = [page.parent.name] if page.name == "README.md" else every
        for crate, path in PATHS.findall(line) if page in WITH_PATHS else ():
            if not is_path([crate] if crate else own, path):
                yield f"{place}: there is no {crate}/{path}"


def modules_in(folder):
    """The modules of a folder of code, with its own, and without tests and those that only list others."""
    files = {file.stem for file in folder.glob("*.rt")} - {"mod", "lib", "example"}
    files = {name for name in files if not name.endswith("tests") and not name.endswith("testing")}
    has_own = folder.name != "src" and "fn " in (folder / "mod.rt").read_text(encoding="utf-8")
    return files | ({folder.name} if has_own else set())


def other_modules():
    """The folders of code whose modules aren't those of ARCHITECTURE.md."""
    crate = ""
    for own, name, modules, others in MODULES.findall(read(ARCHITECTURE)):
        crate = own or crate
        folder = TOP / "crates" / crate / "src" / name
        there = modules_in(folder) if folder.is_dir() else set()
        differ = (set(re.findall(r"`(\w+)`", modules)) ^ there) - {name}
        if name and not others and differ:
            yield f"{ARCHITECTURE}: {crate}/src/{name} has other modules: {', '.join(sorted(differ))}"


def without_a_head():
    """The files of front/ whose first lines have no comment that says what they do: before any code, and besides the
    shell's line, the licence and what shellcheck reads."""
    for file in sorted((TOP / "front").iterdir()):
        lines = file.read_text(encoding="utf-8").splitlines()
        head = itertools.takewhile(lambda line: line.startswith(("#", "{ #")), lines)
        if not any(line.startswith("# ") and not OTHER_HEADS.match(line) for line in head):
            yield f"front/{file.name} doesn't say at its head what it does"


def said_by_drop_in():
    """The definitions of the model that contracts of bt_front and bt_hits name: the file and the name of each."""
    for crate in (TOP / "crates" / "bt_front", TOP / "crates" / "bt_hits"):
        for file in (*crate.glob("src/**/*.rt"), *crate.glob("specs/calls/*.antt")):
            for named, module, items in OF_DROP_IN.findall(file.read_text(encoding="utf-8")):
                place = TOP / "crates" / named / "specs" / "model" / f"{module}.antt"
                yield from ((place, name) for name in re.findall(r"\w+", items))


def strays():
    """What files of `model` import that isn't of it, of std or made of code; and files that nothing names: neither the
    report nor a contract of bt_front or bt_hits."""
    for file in sorted(model()):
        for line in re.findall(r"^\s*((?:pub )?use .*)", file.read_text(encoding="utf-8"), re.MULTILINE):
            if not MAY_IMPORT.match(line) and line not in FOUND:
                yield f"{file.relative_to(TOP)} has an import that isn't of the model: {line}"
    for file in sorted(model() - definitions() - {file for file, _ in said_by_drop_in()}):
        yield f"{file.relative_to(TOP)} is of the model, and nothing names it"


def words_of(file):
    """The words of each definition of a file of the model, without comments, texts and imports."""
    text = re.sub(r'--.*|"[^"\n]*"|^use .*', "", file.read_text(encoding="utf-8"), flags=re.MULTILINE)
    begins = list(BEGINS.finditer(text))
    ends = [begin.start() for begin in begins[1:]] + [len(text)]
    return {begin[1]: set(WORD.findall(text[begin.end():end])) for begin, end in zip(begins, ends)}


def imports_of(file):
    """The names that a file imports from the model: the file and the name that each has there."""
    found = {}
    for crate, module, items in FROM_MODEL.findall(file.read_text(encoding="utf-8")):
        for item in items.split(", "):
            name, _, here = item.partition(" as ")
            found[here or name] = (TOP / "crates" / crate / "specs" / "model" / f"{module}.antt", name)
    return found


def unnamed():
    """The definitions of the model that neither the report nor a contract of bt_front or bt_hits names, directly or
    through others. A variable counts as the definition of its name, and an operator as a name that nothing has."""
    words = {file: words_of(file) for file in sorted(model())}
    places = {file: {**{name: (file, name) for name in words[file]}, **imports_of(file)} for file in words}
    found, open_ones = set(), [(REPORT, "report"), *said_by_drop_in()]
    while open_ones:
        file, name = open_ones.pop()
        if (file, name) not in found:
            found.add((file, name))
            open_ones += [places[file][word] for word in words[file][name] if word in places[file]]
    for file in words:
        for name in words[file]:
            if (file, name) not in found:
                yield f"{file.relative_to(TOP)}: {name} is of the model, and nothing names it"


def said_in(pattern, name):
    """What the files of a name say of a number, each number without commas or underscores."""
    text = "".join(file.read_text(encoding="utf-8") for file in sorted(TOP.glob(name)))
    return [tuple(re.sub("[,_]", "", part).rstrip(".") for part in found.groups()) for found in re.finditer(pattern, text)]


def unequal():
    """The numbers that one file says otherwise than another, or not at all."""
    for what, places in SAME.items():
        said = {name: said_in(pattern, name) for name, pattern in places.items()}
        if len({tuple(numbers) for numbers in said.values()}) > 1 or not all(said.values()):
            yield f"{what}: " + ", ".join(f"{name} says {numbers}" for name, numbers in said.items())


def untrue():
    """The phrases that contradict what another page says."""
    for file in WHERE:
        for words, better in UNTRUE.items():
            for found in re.findall(words, file.read_text(encoding="utf-8")):
                yield f"{file.relative_to(TOP)}: {found!r}: {better}"


class Links(Counted):
    said = "{links} links, {pages} pages"

    def expect_none(self, problems):
        """Fails with these problems, if there are any."""
        found = list(problems)
        if found:
            self.fail("\n".join(["", *found]))

    def test_links_lead_somewhere(self):
        every = list(links())
        self.counts.update(links=len(every), pages=len(PAGES))
        self.assertGreater(len(every), 100)
        self.expect_none(f"{place}: {target} leads nowhere" for page, place, target in every
                         if leads_nowhere(page, target))

    def test_definitions_and_functions_are_where_pages_say(self):
        self.expect_none(misplaced())

    def test_names_are_known(self):
        self.expect_none(unknown_names())

    def test_files_of_definitions_are_there(self):
        self.expect_none(missing())

    def test_paths_are_there(self):
        self.expect_none(lost_paths())

    def test_modules_are_listed(self):
        self.expect_none(other_modules())

    def test_files_of_the_front_say_what_they_do(self):
        self.expect_none(without_a_head())

    def test_model_imports_nothing_else(self):
        self.expect_none(strays())

    def test_report_names_all_of_the_model(self):
        self.expect_none(unnamed())

    def test_nothing_that_another_page_contradicts(self):
        self.expect_none(untrue())

    def test_numbers_are_the_same_on_all_pages(self):
        self.expect_none(unequal())

    def test_version_is_the_same_everywhere(self):
        found = {name: re.search(pattern, read(name), re.MULTILINE) for name, pattern in VERSIONS.items()}
        self.assertEqual({name: match and match[1] for name, match in found.items()},
                         dict.fromkeys(found, found["CHANGELOG.md"][1]))

    def test_front_page_answers_questions(self):
        page = read("README.md")
        self.expect_none(f"README.md: no answer to: {question}: {answer}"
                         for question, answer in rows("tests/pages/questions.tsv") if answer not in page)
