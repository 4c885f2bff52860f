"""The drop-in with no bedtools behind it, with one that is ourselves, and with others. front_hostile.py tries this."""

import shutil

from front_hints import MERGED, WHOSE
from front_tools import PROGRAM, call, drop_in, fake, install, looking, shell, tools_alone, with_path

# What follows a message where there is no other bedtools.
ALONE = WHOSE.replace(", which ran this call instead of bedtools", ": there is no other bedtools on PATH")
DOUBT = ("dunekettle: there is no other bedtools on PATH, and Dunekettle may write something else: crlf.bed: "
         "a blank line\n")
# Words that an original gets as they are.
GIVEN = (
    ["sort", "a b", "", "line\nfeed", "*", "-i", "\\", "'\"$(x)"], ["merge", "-i", "a\nnone.bed"],
    ["merge", "--", "-i", "f.bed"], ["--", "merge"], ["", "merge"], [], ["merge", "-i", "f.bed", ""], ["merge", "-i"],
    ["merge", "-i", "f.bed", "-i", "f.bed"], ["merge", "-"], ["intersect", "-a", "f.bed", "-b", "f.bed", "f.bed"],
    ["merge", "-i", "numbers.vcf"], ["merge", "-i", "."], ["merge", "-i", ""],
)
# Names that the scripts use, as variables of the caller.
VARIABLES = (
    "a", "b", "i", "g", "f", "d", "fi", "fo", "bed", "why", "words", "word", "file", "files", "folder", "line",
    "count", "program", "command", "spans", "lines", "original", "version", "status", "streams", "sequences", "fault",
    "target", "self", "NL", "TAB", "OURS", "FAR", "MARK", "ZIPPED", "CR", "KILOBYTE",
)
# Calls that all versions answer the same, and others.
SAME = (
    "merge -i f.bed", "merge -d 3 -i f.bed", "complement -i f.bed -g g.txt", "subtract -a f.bed -b f2.bed",
    "genomecov -bg -i f.bed -g g.txt", "intersect -u -a f.bed -b f.bed", "intersect -v -a f.bed -b f.bed",
    "intersect -c -a f.bed -b f.bed", "intersect -sorted -a f.bed -b f.bed",
)
OTHERS = (
    "intersect -a f.bed -b f2.bed", "intersect -wa -wb -a f.bed -b f2.bed", "intersect -u -f 0.5 -a f.bed -b f2.bed",
    "intersect -u -r -f 0.5 -a f.bed -b f2.bed", "subtract -f 0.5 -a f.bed -b f2.bed",
    "genomecov -bga -i f.bed -g g.txt", "genomecov -i f.bed -g g.txt", "genomecov -d -i f.bed -g g.txt",
    "genomecov -bg -scale 2 -i f.bed -g g.txt",
)


def ourselves(place, top):
    """The folders behind the drop-in, by a name: none, or some in which a bedtools is ourselves."""
    links, copies, programs, other = (top / name for name in ("links", "copies", "programs", "other place"))
    for made in (links, copies, programs):
        made.mkdir()
    (links / "bedtools").symlink_to(drop_in(place) / "bedtools")
    shutil.copy(place / "bin" / "dunekettle", copies / "bedtools")
    shutil.copy(PROGRAM, programs / "bedtools")
    install(other)
    return {"none": [], "links": [links], "copies": [copies], "programs": [programs],
            "another place": [drop_in(other)], "all": [drop_in(place), links, copies, programs, drop_in(other), links]}


def try_ourselves(place, folder, count):
    """No original, or what looks like one and is ourselves: the program takes the words, and nothing loops."""
    top = folder.parent
    tools = tools_alone(top / "tools")
    for name, folders in ourselves(place, top).items():
        env = with_path(drop_in(place), *folders, tools)
        count.expect(f"original {name}: merge", (MERGED, "", 0),
                     call(["bedtools", "merge", "-i", "f.bed"], folder, env))
        count.expect(f"original {name}: sort", (b"", "bedtools: no or unknown command\n" + ALONE, 2),
                     call(["bedtools", "sort", "-i", "f.bed"], folder, env))
        count.expect(f"original {name}: -c", (b"", "bedtools: unknown option: -c\n" + ALONE, 2),
                     call(["mergeBed", "-i", "f.bed", "-c", "1"], folder, env))
        # What may be another answer than that of bedtools isn't taken silently, and a fault tells whose it is.
        count.expect(f"original {name}: a blank line", (b"chr1\t2\t6\n", DOUBT, 0),
                     call(["bedtools", "merge", "-i", "crlf.bed"], folder, env))
        count.expect(f"original {name}: a blank line, to a pipe", (b"chr1\t2\t6\n", DOUBT, 0),
                     shell("bedtools merge -i crlf.bed | cat", folder, env))
        count.expect(f"original {name}: a fault",
                     (b"", "bedtools merge: no_base.bed:1: start is not below end\n" + ALONE, 1),
                     call(["bedtools", "merge", "-i", "no_base.bed"], folder, env))
        output, _, status = call(["bedtools", "--version"], folder, env)
        count.expect(f"original {name}: --version", (True, 0),
                     (output.startswith(b"bedtools v2.30.0 (Dunekettle ") and b"without bedtools" in output, status))
        for words in (["--help"], ["merge", "-h"], []):
            output, _, status = call(["bedtools", *words], folder, env)
            count.expect(f"original {name}: {words}", (True, 0), (output.startswith(b"dunekettle "), status))


def try_wrappers(place, folder, count):
    """An original that says what it was given, and two that call bedtools again: in its place, and as a child."""
    top, tools = folder.parent, folder.parent / "tools"
    says = fake(top / "says", "bedtools",
                "case $* in --version) echo bedtools v2.30.0; exit ;; esac\nprintf '%s\\0' \"$@\"\nexit 7")
    again = fake(top / "again", "bedtools", 'exec bedtools "$@"')
    child = fake(top / "child", "bedtools", 'bedtools "$@"')
    for name, folders in (("again", [again]), ("child", [child]), ("both", [again, child]),
                          ("both, changed", [child, again])):
        count.expect(f"wrapper {name}", (b"", "bedtools: no or unknown command\n" + ALONE, 2),
                     call(["bedtools", "sort"], folder, with_path(drop_in(place), *folders, tools)))
        count.expect(f"wrapper {name}, then an original", (b"sort\0", "", 7),
                     call(["bedtools", "sort"], folder, with_path(drop_in(place), *folders, tools, says)))


def try_words(place, folder, count):
    """What an original gets, and what the program gets."""
    top = folder.parent
    env = with_path(drop_in(place), top / "says", top / "tools")
    for words in GIVEN:
        wanted = "".join(f"{word}\0" for word in words or [""]).encode()
        count.expect(f"words {words}", (wanted, "", 7), call(["bedtools", *words], folder, env))
    count.expect("a name with a line feed", (b"chr1\t2\t6\n", "", 0),
                 call(["bedtools", "merge", "-i", "a\nb.bed"], folder, env))
    count.expect("a name with a hyphen", (b"chr1\t2\t6\n", "", 0), call(["bedtools", "merge", "-i", "-x"], folder, env))
    count.expect("ALWAYS", (b"", "bedtools: unknown option: -c\n", 2),
                 call(["bedtools", "merge", "-c", "1"], folder, {**env, "DUNEKETTLE_ALWAYS": "1"}))
    told = call(["bedtools", "merge", "-i", "f.bed"], folder, {**env, "DUNEKETTLE_TELL": "1"})
    count.expect("TELL", (MERGED, True, 0),
                 (told[0], told[1].startswith("dunekettle: Dunekettle takes merge: "), told[2]))
    for line in ("merge -h", "intersect -a f.bed -b f.bed --help"):
        said = call(["bedtools", *line.split()], folder, {**env, "DUNEKETTLE_TELL": "1"})[1]
        count.expect(f"TELL of {line}",
                     f"dunekettle: {top / 'says' / 'bedtools'} takes {line.split()[0]}: it asks for help\n", said)
    call(["bedtools", "merge", "-c"], folder, {**env, "DUNEKETTLE_TELL": str(top / "told.txt")})
    count.expect("TELL in a file", True, " takes merge: " in (top / "told.txt").read_text(encoding="utf-8"))
    long = "x" * 100_000
    count.expect("a long word", 2, call([place / "bin" / "dunekettle", "merge", long], folder, looking())[2])
    count.expect("a long name", (7, f"merge\0-i\0{long}\0".encode()),
                 call(["bedtools", "merge", "-i", long], folder, env)[2::-2])


def try_variables(place, folder, count):
    """What the caller exports goes through as it is, whatever names the scripts use."""
    top = folder.parent
    shows = fake(top / "shows", "bedtools", "env | grep -v -e '^PWD=' -e '^OLDPWD=' -e '^_=' -e '^SHLVL='")
    shown = {**with_path(drop_in(place), shows, top / "tools"), **dict.fromkeys(VARIABLES, "mine")}
    for line in ("sort", "intersect -a f.bed -b f.bed", "merge -i none.bed"):
        output = call(["bedtools", *line.split()], folder, shown)[0].decode()
        count.expect(f"the environment of {line}", [], [name for name in VARIABLES if f"{name}=mine\n" not in output])


def try_versions(place, folder, count):
    """Of a version that nothing was compared with, Dunekettle takes only what all versions write the same."""
    top = folder.parent
    for version, is_known in (("2.29.2", False), ("2.30.0", True), ("2.31.1", True), ("2.32.0", False)):
        made = fake(top / f"version {version}", "bedtools",
                    f"case $* in --version) echo bedtools v{version}; exit ;; esac\nexit 7")
        env = with_path(drop_in(place), made, top / "tools")
        for line in (*SAME, *OTHERS):
            count.expect(f"version {version}: {line}", 0 if is_known or line in SAME else 7,
                         call(["bedtools", *line.split()], folder, env)[2])


def try_originals(place, folder, count):
    """All of these. The folders `tools`, `says` and `shows` stay for other trials."""
    for trial in (try_ourselves, try_wrappers, try_words, try_variables, try_versions):
        trial(place, folder, count)
