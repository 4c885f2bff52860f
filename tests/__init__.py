"""The tests of the product from outside, a folder for each theme. From the top of the repository:

    python3 -m unittest discover -s tests/program -t .          all tests of a folder
    python3 -m unittest tests.program.test_edges -k full_disk   those of a file whose names have a word

A test that fails leaves its files in bin/failed, and says which line to type there.
"""

import sys
from pathlib import Path

# Tests read the tables that the tools read, and try the tools by comparing files with what they would write.
sys.path.append(str(Path(__file__).resolve().parent.parent / "tools"))
