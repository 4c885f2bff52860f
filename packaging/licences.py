#!/usr/bin/env python3
"""Writes what the program is linked of, with its licences: packaging/copyright and packaging/sbom.spdx.json.

    packaging/licences.py --write     writes both files anew
    packaging/licences.py             ends with 1 if they aren't what this would write

Which crates are linked stands in crates.txt. Their licences, whose they are, and which Rust crate each follows are read
in the folder of the kit, which `rt doc` names, and the kit's name in its file KIT-ID. Without the kit nothing is
compared but the names and the version, and a word says so. The program has no date and no name of a machine from here.
"""

import json
import re
import shutil
import subprocess
import sys
from pathlib import Path
from typing import NamedTuple

HERE = Path(__file__).resolve().parent
TOP = HERE.parent
COPYRIGHT, SBOM = HERE / "copyright", HERE / "sbom.spdx.json"


class Licence(NamedTuple):
    """The licences of a Rust crate, as SPDX has them, and in the kit's folder the file with the text that is taken."""

    terms: str
    file: str


class Fact(NamedTuple):
    """What is known of a linked crate: the version of the Rust crate that it follows, and the text of its licence."""

    version: str
    licence: str


class Package(NamedTuple):
    """A package of the SBOM."""

    name: str
    version: str
    declared: str
    concluded: str
    owner: str
    comment: str

    def entry(self):
        """What the file has of it."""
        return {"SPDXID": f"SPDXRef-{self.name}", "name": self.name, "versionInfo": self.version,
                "downloadLocation": "NOASSERTION", "filesAnalyzed": False, "licenseDeclared": self.declared,
                "licenseConcluded": self.concluded, "copyrightText": self.owner, "comment": self.comment}


LICENCES = {"memchr": Licence("Unlicense OR MIT", "LICENSE-MIT"),
            "bstr": Licence("(MIT OR Apache-2.0) AND Unicode-3.0", "LICENSE-MIT"),
            "itoa": Licence("MIT OR Apache-2.0", "LICENSE"),
            "indexmap": Licence("Apache-2.0 OR MIT", "LICENSE-MIT")}
# Copyright lines, for texts without one.
OWNERS = {"itoa": "the authors of itoa", "indexmap": "2016-2017 the authors of indexmap"}
STANDARD = "core, std, std_alloc, std_collections and std_io"


def kit():
    """The folder of the kit, or None."""
    if not shutil.which("rt"):
        return None
    said = subprocess.run(["rt", "doc"], stdout=subprocess.PIPE, text=True, check=False).stdout.strip()
    return Path(said).parent if said and Path(said).parent.joinpath("KIT-ID").exists() else None


def linked():
    """The crates that crates.txt names and doesn't have itself."""
    lines = [line.split(":") for line in (TOP / "crates.txt").read_text(encoding="utf-8").splitlines() if line]
    own = {name for name, _ in lines}
    return sorted({word for _, words in lines for word in words.split()} - own), sorted(own)


def facts(folder):
    """What is known of each linked crate."""
    found = {}
    for name in linked()[0]:
        page = (folder / "rattle" / name / "README.md").read_text(encoding="utf-8")
        version = re.search(rf"Rust crate `{name}` ([\d.]+\d)", page)[1]
        text = (folder / "rattle" / name / LICENCES[name].file).read_text(encoding="utf-8").strip()
        found[name] = Fact(version, text)
    return found


def field(text):
    """A text as Debian's files have it: behind a space, and empty lines as dots."""
    return "".join(f" {line}".rstrip() + "\n" if line.strip() else " .\n" for line in text.splitlines())


def copyright_of(known, kit_name):
    """The file for Debian, which says the same to others."""
    own = (TOP / "LICENSE").read_text(encoding="utf-8").partition("Permission is")
    text = (
        "Format: https://www.debian.org/doc/packaging-manuals/copyright-format/1.0/\n"
        "Upstream-Name: Dunekettle\n"
        "Upstream-Contact: The Dunekettle authors\n"
        "Comment: The program is made of the crates of Dunekettle and of the crates below, which are ports in Rattle\n"
        f" of the Rust crates of these names, of {kit_name}. Each is taken under the MIT licence.\n"
        " bstr has tables of Unicode in the kit, under Unicode-3.0; none of them is in the program. Of the kit's own\n"
        f" {STANDARD}, which follow Rust's standard library (MIT or\n"
        " Apache-2.0), and of its C glue the kit has no licence file. The C library is linked dynamically.\n\n"
        f"Files: *\nCopyright: {re.search(r'Copyright .c. (.*)', own[0])[1]}\nLicense: MIT\n\n"
    )
    for name, (version, licence) in known.items():
        owner = re.search(r"Copyright \(c\) (.*\w.*[A-Za-z].*)", licence)
        text += (f"Files: {name}\nCopyright: {owner[1] if owner else OWNERS[name]}\nLicense: MIT\n"
                 f"Comment: after the Rust crate {name} {version}, {LICENCES[name].terms}\n\n")
    return text + "License: MIT\n" + field(own[1] + own[2])


def packages_of(known, kit_name, version):
    """The program, the Rust crates that its crates follow, and the kit."""
    yield Package("dunekettle-bedtools", version, "MIT", "MIT", "The Dunekettle authors",
                  f"the crates {', '.join(linked()[1])}")
    for name, (follows, _) in known.items():
        yield Package(name, follows, LICENCES[name].terms, "MIT", OWNERS.get(name, "Andrew Gallant"),
                      f"a port in Rattle, of {kit_name}, of the Rust crate {name} {follows}")
    yield Package("rattle-kit", kit_name.split()[0], "NOASSERTION", "NOASSERTION", "NOASSERTION",
                  f"{STANDARD}, and C glue to the C library, which is linked dynamically; {kit_name}")


def sbom_of(known, kit_name):
    """The list of what the program is made of, as SPDX 2.3."""
    version = re.search(r"^## (.*)", (TOP / "CHANGELOG.md").read_text(encoding="utf-8"), re.MULTILINE)[1]
    day = re.search(r"^date-released: (.*)", (TOP / "CITATION.cff").read_text(encoding="utf-8"), re.MULTILINE)[1]
    packages = [package.entry() for package in packages_of(known, kit_name, version)]
    links = [{"spdxElementId": "SPDXRef-DOCUMENT", "relationshipType": "DESCRIBES",
              "relatedSpdxElement": "SPDXRef-dunekettle-bedtools"}]
    links += [{"spdxElementId": "SPDXRef-dunekettle-bedtools", "relationshipType": "STATIC_LINK",
               "relatedSpdxElement": each["SPDXID"]} for each in packages[1:]]
    made = {"spdxVersion": "SPDX-2.3", "dataLicense": "CC0-1.0", "SPDXID": "SPDXRef-DOCUMENT",
            "name": f"dunekettle-bedtools-{version}",
            "documentNamespace": f"https://dunekettle.invalid/sbom/{version}",
            "creationInfo": {"created": f"{day}T00:00:00Z", "creators": ["Tool: packaging/licences.py"]},
            "packages": packages, "relationships": links}
    return json.dumps(made, indent=1) + "\n"


def differs():
    """What of the SBOM is wrong without the kit: the version, and the names."""
    made = json.loads(SBOM.read_text(encoding="utf-8"))
    version = re.search(r"^## (.*)", (TOP / "CHANGELOG.md").read_text(encoding="utf-8"), re.MULTILINE)[1]
    wanted = [version, *linked()[0], "rattle-kit"]
    return [made["packages"][0]["versionInfo"], *(each["name"] for each in made["packages"][1:])] != wanted


def main():
    folder = kit()
    if not folder:
        print("no kit: of the licences and the SBOM only names and the version were compared")
        return int(differs())
    kit_name = (folder / "KIT-ID").read_text(encoding="utf-8").strip()
    known, wrong = facts(folder), 0
    for path, text in ((COPYRIGHT, copyright_of(known, kit_name)), (SBOM, sbom_of(known, kit_name))):
        if sys.argv[1:] == ["--write"]:
            path.write_text(text, encoding="utf-8")
        elif not path.exists() or path.read_text(encoding="utf-8") != text:
            wrong += 1
            print(f"{path.name} is another: packaging/licences.py --write")
    return int(bool(wrong))


if __name__ == "__main__":
    sys.exit(main())
