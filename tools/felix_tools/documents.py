"""tools/documents: the pages and pictures that are made from others."""
import os

from felix_tools import crates_picture, man_pages, update_picture
from felix_tools.crates import read_crates
from felix_tools.options import tool_parser
from felix_tools.program import TOP
from felix_tools.start import answered

DESCRIPTION = """\
Writes each page and picture of docs/ that is made from others and isn't as it would be made, and tells which.

  tools/documents
  tools/documents --check

docs/crates.svg and docs/update.svg are made from crates.txt; docs/man/*.1 from docs/man/source.txt, the launchers'
usage lines, and the tables of faults and statuses in docs/INPUT.md and docs/OUTPUT.md. `tools/test` refuses a tree
where --check would tell one.

Status: 0 all are as they would be made, or were written, 1 with --check some isn't, 5 the output can't be written."""


def made():
    """Each page and picture that is made, by its path, with its text."""
    crates = read_crates()
    return {
        "docs/crates.svg": crates_picture.picture(crates),
        "docs/update.svg": update_picture.picture(crates),
        **man_pages.pages(),
    }


def main(words):
    parser = tool_parser("documents", DESCRIPTION)
    parser.add_argument("--check", action="store_true", help="writes nothing")
    return answered("documents", write_changed, parser.parse_args(words))


def write_changed(options):
    changed = [(path, text) for path, text in made().items() if text != stored(path)]
    for path, text in changed:
        print(path)
        if not options.check:
            with open(os.path.join(TOP, path), "w", encoding="utf-8") as file:
                file.write(text)
    return 1 if changed and options.check else 0


def stored(path):
    whole = os.path.join(TOP, path)
    if not os.path.exists(whole):
        return None
    with open(whole, encoding="utf-8") as file:
        return file.read()
