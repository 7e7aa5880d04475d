#!/usr/bin/env python3
"""Copies headings, tables and the form of a watch from docs/FORMATS*.md into the package, which `explain` reads.

    planning/formats_tables.py [--write]

Without --write it only says whether the copy is up to date, and the status is 1 if it is not.
"""
import os
import re
import sys

HERE = os.path.dirname(os.path.abspath(__file__))
DOCS = os.path.join(HERE, "..", "docs")
PAGES = ["FORMATS.md", "FORMATS_MODEL.md", "FORMATS_SCRIPT.md", "FORMATS_OUTPUT.md", "FORMATS_SNAPSHOT.md"]
COPY = os.path.join(HERE, "src", "cloner_planning", "formats.md")
HEAD = "<!-- Made by planning/formats_tables.py from docs/FORMATS*.md: change those pages, then run it with --write. -->\n"
KEPT = re.compile(r"#|\||watch [A-Z]")


def text_of(page: str) -> str:
    """Returns the text of a page, in which each link names a page."""
    with open(os.path.join(DOCS, page), encoding="utf-8") as file:
        return file.read().replace("](#", f"]({page}#")


def tables_of(text: str) -> str:
    """Returns the lines of a text that the package needs, one empty line between blocks."""
    lines = [line if KEPT.match(line) else "" for line in text.split("\n")]
    return HEAD + re.sub(r"\n{2,}", "\n\n", "\n".join(lines)).strip("\n") + "\n"


def main() -> int:
    """Writes the copy if it is asked for; returns 1 if it is not up to date."""
    wanted = tables_of("\n".join(text_of(page) for page in PAGES))
    if sys.argv[1:] == ["--write"]:
        with open(COPY, "w", encoding="utf-8") as file:
            file.write(wanted)
        return 0
    with open(COPY, encoding="utf-8") as file:
        if file.read() == wanted:
            return 0
    print("the package's formats.md is older than docs/FORMATS*.md: run planning/formats_tables.py --write")
    return 1


if __name__ == "__main__":
    sys.exit(main())
