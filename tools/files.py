"""What all tools share.

A tool makes files of the repository of other files: `made` gives their texts by their names, and a run of the tool
writes them. tests/pages/test_generated.py sees that each file has what would be written.
"""

from pathlib import Path

TOP = Path(__file__).resolve().parent.parent


def read(name):
    """The text of a file of the repository."""
    return (TOP / name).read_text(encoding="utf-8")


def write(made):
    """Writes files, and says which ones are other than before."""
    for name, text in made.items():
        file = TOP / name
        if not file.exists() or file.read_text(encoding="utf-8") != text:
            file.parent.mkdir(parents=True, exist_ok=True)
            file.write_text(text, encoding="utf-8")
            print(f"{name} is written anew")


def rows(name):
    """The rows of a table below its head, each as the texts of its columns."""
    return [line.split("\t") for line in read(name).splitlines()[1:]]
