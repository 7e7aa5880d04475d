#!/usr/bin/env python3
"""Checks that the pages are true of the checkout.

    tools/check_docs.py [--bin FILE] [PAGE ..]
    tools/check_docs.py --facts

First it compares the facts that scripts can make with the pages that state them. `--facts` stops there, and
needs no built program. Then it runs each command of the pages at the top of the checkout, and compares what it
prints with the page. A command is a block ```sh; what it prints is the block ```text right after it. `cloner`
is the built program, crates/cloner_cli/out/cloner_cli if no other is named; `cloner-planning` is the planners' tools
of the checkout. The status is 1 if anything differs.
"""
import argparse
import os
import re
import shutil
import subprocess
import sys
import tempfile

import contracts
import crate_list
import definitions
from crate_list import TOP, read

PROGRAM = os.path.join(TOP, "crates", "cloner_cli", "out", "cloner_cli")
PLANNING = os.path.join(TOP, "planning", "src")
PAGES = ["README.md", "examples/README.md", "docs/PLANNING.md"]
NAMING_PAGES = ["docs/ARCHITECTURE.md", "docs/DECISIONS.md", "docs/EXTENDING.md", "docs/PROVED.md", "docs/THEORY.md",
                "docs/TOUR.md"]


def words_of_sources():
    """All words of the sources, and the names of their files and folders."""
    words = set(re.findall(r"\w+", read("crates.txt")))
    for top in ["bench", "crates", "planning", "tools", "wrong-bodies"]:
        for path, _, files in os.walk(os.path.join(TOP, top)):
            for file in files:
                if file.endswith((".rt", ".antt", ".edit", ".py", ".c")):
                    name = os.path.join(path, file)
                    words.update(re.findall(r"\w+", read(name) + " " + name))
    return words


def unknown_names(page, known):
    """The names of code in a page that no source has: words with a capital or `_`, but those with `KIND`."""
    quoted = re.findall(r"(?<!`)`([^`\n]+)`(?!`)", prose(page))
    words = {word for code in quoted for word in re.findall(r"\b[a-zA-Z]\w+", code)}
    return sorted(word for word in words if re.search("[A-Z_]", word) and "KIND" not in word and word not in known)


def prose(page):
    """The text of a page without its blocks of code."""
    return re.sub(r"^```.*?^```$", "", read(page), flags=re.S | re.M)


def anchors(page):
    """The names by which links reach the headings of a page."""
    headings = re.findall(r"^#+ (.*)$", prose(page), re.M)
    return {re.sub(r"[^\w\- ]", "", heading.strip().lower()).replace(" ", "-") for heading in headings}


def broken_links(page):
    """The links of a page to files or headings that do not exist."""
    for link in re.findall(r"\]\(([^)\s]+)\)", prose(page)):
        file, _, anchor = link.partition("#")
        target = os.path.normpath(os.path.join(os.path.dirname(page), file)) if file else page
        if link.startswith("http"):
            continue
        if not os.path.exists(os.path.join(TOP, target)):
            yield link
        elif anchor and target.endswith(".md") and anchor not in anchors(target):
            yield link


def pages():
    """All pages."""
    for folder in ["", "bench", "docs", "examples", "planning", "tools", "wrong-bodies"]:
        for file in sorted(os.listdir(os.path.join(TOP, folder))):
            if file.endswith(".md"):
                yield os.path.join(folder, file)


def facts():
    """What pages state otherwise than the checkout does, in words."""
    counted = definitions.counts(definitions.rested_on()[0])
    if counted not in read("docs/PROVED.md"):
        yield f"docs/PROVED.md: the contract of cloner rests on {counted}"
    for script, maker in [("crate_list.py", crate_list), ("contracts.py", contracts)]:
        page = read(maker.PAGE)
        if crate_list.with_made(page, script, maker.table()) != page:
            yield f"{maker.PAGE}: run tools/{script} --write"
    listed = ", ".join(f"`{crate}`" for crate in crate_list.names())
    if listed not in read("README.md"):
        yield f"README.md: the crates are {listed}"
    drawn = re.search(r"^```text\n(.*?)^```$", read("docs/ARCHITECTURE.md"), re.S | re.M).group(1)
    for word in sorted(set(re.findall(r"\w+_\w+", drawn)) - set(crate_list.names())):
        yield f"docs/ARCHITECTURE.md: {word} is no crate"
    known = words_of_sources()
    for page in NAMING_PAGES:
        for word in unknown_names(page, known):
            yield f"{page}: {word} is in no source"
    for page in pages():
        for link in broken_links(page):
            yield f"{page}: {link} leads nowhere"


def commands(page):
    """Each command of a page with what it is shown to print, None if nothing is shown."""
    text = read(page)
    blocks = re.findall(r"^```(\w*)\n(.*?)^```$", text, re.S | re.M)
    for (kind, command), (next_kind, shown) in zip(blocks, blocks[1:] + [("", "")]):
        if kind == "sh":
            yield command, shown if next_kind == "text" else None


def printed(command, path):
    """What a command prints, and whether it ends with status 0."""
    done = subprocess.run(
        ["bash", "-c", command], cwd=TOP, capture_output=True, text=True, check=False, env=dict(os.environ, PATH=path)
    )
    return done.stdout + done.stderr, done.returncode == 0


def check(pages, path):
    """The number of commands that print what is shown, and of those that don't, or fail if nothing is shown."""
    same, other = 0, 0
    for page in pages:
        for command, shown in commands(page):
            got, well = printed(command, path)
            as_shown = well if shown is None else shown.strip() == got.strip()
            if as_shown:
                same += 1
            else:
                other += 1
                print(f"{page}: {command.strip()}\n--- shown\n{shown or ''}--- printed\n{got}")
    return same, other


def put_planning(folder):
    """Puts the planners' tools of the checkout into a folder of the path."""
    path = os.path.join(folder, "cloner-planning")
    with open(path, "w", encoding="utf-8") as file:
        file.write(f'#!/bin/sh\nPYTHONPATH="{PLANNING}" exec "{sys.executable}" -m cloner_planning "$@"\n')
    os.chmod(path, 0o755)


def main():
    """Checks the facts, and then the pages that are asked for; returns 1 if anything differs."""
    parser = argparse.ArgumentParser(description=__doc__, formatter_class=argparse.RawDescriptionHelpFormatter)
    parser.add_argument("--bin", default=PROGRAM)
    parser.add_argument("--facts", action="store_true")
    parser.add_argument("pages", nargs="*", default=PAGES)
    told = parser.parse_args()
    wrong = list(facts())
    print("\n".join(wrong) or "the facts are as stated")
    if told.facts:
        return 1 if wrong else 0
    with tempfile.TemporaryDirectory() as folder:
        shutil.copy(told.bin, os.path.join(folder, "cloner"))
        put_planning(folder)
        same, other = check(told.pages, folder + os.pathsep + os.environ["PATH"])
    print(f"{same} as shown, {other} otherwise")
    return 1 if other or wrong else 0


if __name__ == "__main__":
    sys.exit(main())
