#!/usr/bin/env python3
"""Lists the public functions of the crates with the names of their clauses.

    tools/contracts.py CRATE ..    # all public functions of these crates
    tools/contracts.py             # prints the table of docs/PROVED.md: what the crates export, and their laws
    tools/contracts.py --write     # puts that table into the page

A clause without a name is shown as `-`. Clauses that a caller must meet come first, in brackets. In the table,
functions of a crate with the same clauses share a row. It leaves out worked examples.
"""
import argparse
import os
import re

import crate_list

PAGE = "docs/PROVED.md"
TRAIT = re.compile(r"^pub trait (\w+)")
FUNCTION = re.compile(r"^( *)(pub |pub\(crate\) )?(?:const )?fn (\w+)")
CLAUSE = re.compile(r"^ +(requires|ensures) (\w*)")
MODULE = re.compile(r"^pub mod (\w+);", re.M)
USE = re.compile(r"^pub use [\w:]+?::(?:\{([^}]*)\}|(\w+));", re.M)


def sources(crate):
    """The files of a crate's code."""
    folder = os.path.join("crates", crate, "src")
    for path, _, files in sorted(os.walk(os.path.join(crate_list.TOP, folder))):
        for file in sorted(files):
            yield os.path.relpath(os.path.join(path, file), crate_list.TOP)


def without_generics(line):
    """A line without what is between `<` and `>`."""
    shorter = re.sub(r"<[^<>]*>", "", line)
    return shorter if shorter == line else without_generics(shorter)


def owner_of(line):
    """The type or the public trait whose functions follow a line, None if the line begins neither."""
    if line.startswith("impl"):
        return re.match(r"impl (?:.* for )?(?:\w+::)*(\w+)", without_generics(line)).group(1)
    return TRAIT.match(line) and TRAIT.match(line).group(1)


def functions(text):
    """The public functions of a file, and those of its public traits: each with what it asks and promises."""
    owner, in_trait, found = "", False, []
    for line in text.splitlines():
        place, function, clause = owner_of(line), FUNCTION.match(line), CLAUSE.match(line)
        if place:
            owner, in_trait = place, not line.startswith("impl")
        elif function:
            indent, shown, name = function.groups()
            public = shown == "pub " or in_trait and indent
            found.append((public and (f"{owner}::{name}" if indent else name), [], []))
        elif clause and found:
            found[-1][1 if clause.group(1) == "requires" else 2].append(clause.group(2) or "-")
    return [each for each in found if each[0] and (each[1] or each[2])]


def exported(crate):
    """The names that a crate exports, and its modules that are public."""
    root = crate_list.read(crate_list.root_of(crate))
    uses = {name for listed, single in USE.findall(root) for name in re.findall(r"\w+", listed or single)}
    return uses, set(MODULE.findall(root))


def module_of(file):
    """The module that a file has the code of."""
    return os.path.splitext(os.path.basename(file))[0]


def is_shown(file, name, uses, modules):
    """Whether a function is in the table, if its crate exports these names and has these public modules."""
    module = module_of(file)
    if module.endswith("examples"):
        return False
    return name.split("::")[0] in uses or module in modules


def shown_name(file, name):
    """The name of a function in the table: that of a law begins with its module."""
    module = module_of(file)
    return f"{module}::{name}" if module.endswith("laws") else name


def joined(names):
    """Names of functions, those of one type or module in one."""
    by_owner = {}
    for name in names:
        owner, _, last = name.rpartition("::")
        by_owner.setdefault(owner, []).append(last)
    for owner, lasts in by_owner.items():
        if not owner:
            yield from (f"`{last}`" for last in lasts)
        else:
            yield f"`{owner}::{lasts[0]}`" if len(lasts) == 1 else f"`{owner}::{{{', '.join(lasts)}}}`"


def clauses_of(asked, promised):
    """What a function asks, in brackets, and promises."""
    return (f"({', '.join(asked)}) " if asked else "") + ", ".join(promised)


def shown_functions(crate):
    """The functions of a crate that are in the table: the name and the clauses of each."""
    uses, modules = exported(crate)
    for file in sources(crate):
        for name, asked, promised in functions(crate_list.read(file)):
            if is_shown(file, name, uses, modules):
                yield shown_name(file, name), clauses_of(asked, promised)


def rows_of(crate):
    """The rows of a crate: clauses with the functions that have them, each once."""
    rows = {}
    for name, clauses in shown_functions(crate):
        rows.setdefault(clauses, {})[name] = None
    return rows


def table():
    """The table of the clauses, crate by crate."""
    lines = ["| Crate | Functions | Clauses |\n|---|---|---|\n"]
    for crate in crate_list.names():
        for at, (clauses, names) in enumerate(rows_of(crate).items()):
            lines.append(f"| {'' if at else f'`{crate}`'} | {', '.join(joined(names))} | {clauses} |\n")
    return "".join(lines)


def write():
    """Puts the table into its page."""
    page = crate_list.with_made(crate_list.read(PAGE), "contracts.py", table())
    with open(os.path.join(crate_list.TOP, PAGE), "w", encoding="utf-8") as file:
        file.write(page)


def list_crates(crates):
    """Lists all public functions of crates."""
    for crate in crates:
        for file in sources(crate):
            for name, asked, promised in functions(crate_list.read(file)):
                print(f"{file} {name}: {clauses_of(asked, promised)}")


def main():
    """Lists the crates that are named, or makes the table."""
    parser = argparse.ArgumentParser(description=__doc__, formatter_class=argparse.RawDescriptionHelpFormatter)
    parser.add_argument("--write", action="store_true")
    parser.add_argument("crates", nargs="*", metavar="CRATE")
    told = parser.parse_args()
    if told.crates:
        list_crates(told.crates)
    elif told.write:
        write()
    else:
        print(table(), end="")


if __name__ == "__main__":
    main()
