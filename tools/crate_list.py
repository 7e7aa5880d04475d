#!/usr/bin/env python3
"""Makes the table of crates in docs/ARCHITECTURE.md, from crates.txt and the heads of the crates.

    tools/crate_list.py            # prints the table
    tools/crate_list.py --write    # puts it into the page

crates.txt has the order. What a crate is comes from the first sentence of its `lib.rt`, or of its `main.rt`.
"""
import argparse
import os
import re

TOP = os.path.dirname(os.path.dirname(os.path.abspath(__file__)))
PAGE = "docs/ARCHITECTURE.md"
BEGIN, END = "<!-- made by tools/{} -->\n", "<!-- end -->\n"


def read(file):
    """The text of a file of the checkout."""
    with open(os.path.join(TOP, file), encoding="utf-8") as opened:
        return opened.read()


def names():
    """All crates, lowest first."""
    lines = read("crates.txt").splitlines()
    return [re.split(r"[ :]", line)[0] for line in lines if line and not line.startswith("#")]


def root_of(crate):
    """The file that a crate begins with."""
    library = f"crates/{crate}/src/lib.rt"
    return library if os.path.exists(os.path.join(TOP, library)) else f"crates/{crate}/src/main.rt"


def head_of(crate):
    """What a crate is: the first sentence of its head."""
    paragraph = re.match(r"(?:^//! .*\n)+", read(root_of(crate)), re.M).group()
    return re.split(r"(?<=\.) ", " ".join(line[4:].strip() for line in paragraph.splitlines()))[0]


def table():
    """The table of crates."""
    rows = [f"| `{crate}` | {head_of(crate)} |\n" for crate in names()]
    return "| Crate | What it is |\n|---|---|\n" + "".join(rows)


def with_made(page, script, made):
    """A page with what a script makes now, between the script's marks."""
    begin = BEGIN.format(script)
    before, _, rest = page.partition(begin)
    return before + begin + made + END + rest.partition(END)[2]


def write_or_print(description, script, page, made):
    """Prints what a script makes, or puts it into its page."""
    parser = argparse.ArgumentParser(description=description, formatter_class=argparse.RawDescriptionHelpFormatter)
    parser.add_argument("--write", action="store_true")
    if not parser.parse_args().write:
        print(made, end="")
        return
    changed = with_made(read(page), script, made)
    with open(os.path.join(TOP, page), "w", encoding="utf-8") as file:
        file.write(changed)


if __name__ == "__main__":
    write_or_print(__doc__, "crate_list.py", PAGE, table())
