"""compare.py LIBRARY: the library's answers, through its C entries, beside what the source documents print and what other authors'
air gives. A printed figure that differs has its reason in the data file, and the reason is checked too."""

import sys
from pathlib import Path

sys.dont_write_bytecode = True
sys.path.insert(0, str(Path(__file__).resolve().parent))
import differences
import junctures
import pictures
import runs
from library import Library

DOCS = Path(__file__).resolve().parents[3] / "docs"


class Tally:
    """counts checks and failures, and tells what was found"""

    def __init__(self):
        self.checks = self.failures = 0

    def check(self, holds, what):
        self.checks += 1
        if not holds:
            self.failures += 1
            print(f"failed: {what}")

    def tell(self, what):
        print(what)


def main(path):
    tally, library = Tally(), Library(path)
    for part in (runs, junctures, differences):
        part.compare(tally, library)
    for name, text in pictures.pictures(library).items():
        tally.check(text == (DOCS / name).read_text(), f"docs/{name} is not what pictures.py draws")
    print(f"printed: {tally.checks} checks, {tally.failures} failures")
    return tally.failures > 0


if __name__ == "__main__":
    sys.exit(main(sys.argv[1]))
