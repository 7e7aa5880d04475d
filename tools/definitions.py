#!/usr/bin/env python3
"""Lists the definitions on which the contract of `cloner` rests, in reading order.

    tools/definitions.py            # one line a definition: place, name, number of lines
    tools/definitions.py --text     # the definitions themselves, under their comments
    tools/definitions.py --count    # the counts alone, in the words of docs/PROVED.md
    tools/definitions.py --of study_run/src/study.rt:run_study

Starts at the clauses of a function and follows each name through the `use` lines of `specs/`. The lowest crate
comes first, and in it the modules in the order of Lib.antt. Lines are counted without comments and blank lines.
Types and constants of the code that definitions cite are listed last. Definitions of libraries are not followed.
"""
import argparse
import os
import re

import crate_list

CRATES = os.path.join(crate_list.TOP, "crates")
TOP_CALL = "cloner_top/src/program.rt:cloner"

USE = re.compile(r"^\s*(pub )?(?:ghost )?use Rattle\.([\w.]+?)(?:\.\{([^}]*)\}| as (\w+))?;?$", re.M)
KEYWORD = re.compile(r"^( *)(?:(?:abbrev|unfoldable|pub|record|data) )+(?!use |mod )([^\s:({]+)")
PLAIN = re.compile(r"^( *)([^\s:({=]+) :( |$)")
OPENED = re.compile(r"^( *)module _ (.*)")
CONSTRUCTOR = re.compile(r"^ +(?:pub )?([^\s:({]+) :( |$)")
WORD = re.compile(r"(?<![\w.◌])([^\s(){}\[\],;.λ]+)(?:\.(\w+))?")


class Definition:
    """A definition of `specs/`: its lines, the comment above them, and the modules with parameters around it."""

    def __init__(self, module, name, line, indent, comment, around):
        self.module, self.name, self.line, self.indent = module, name, line, indent
        self.comment, self.around, self.lines = comment, around, []

    def text(self):
        """The words that may be names, with those of the modules around it."""
        return "\n".join(self.around + self.lines)

    def constructors(self):
        """The constructors, if it is a data type."""
        if " data " not in " " + self.lines[0]:
            return []
        found = (CONSTRUCTOR.match(line) for line in self.lines[1:])
        return [match.group(1) for match in found if match]


def imports_of(text):
    """What names a file takes from elsewhere: of a name its path and name there, of a module alias its path."""
    names, aliases, shared = {}, {}, {}
    for shown, path, listed, alias in USE.findall(text):
        if alias:
            aliases[alias] = path
        for item in filter(None, (part.strip() for part in listed.split(","))):
            there, _, here = item.partition(" as ")
            for word in words_of(here or there):
                names[word] = (path, there)
            if shown:
                shared[there] = (path, there)
    return names, aliases, shared


def words_of(name):
    """A name as it is written: of an operator each of its parts."""
    return [part for part in name.split("◌") if part] if "◌" in name else [name]


def blocks(module, text):
    """The definitions of a file, in order."""
    found, current, comment, opened = [], None, [], []
    for number, line in enumerate(text.splitlines(), 1):
        bare = line.strip()
        if not bare or bare.startswith("--"):
            comment = comment + [line] if bare else []
            continue
        indent = len(line) - len(line.lstrip())
        start = KEYWORD.match(line) or PLAIN.match(line)
        if current and (indent > current.indent or not start and not OPENED.match(line)):
            current.lines.append(line)
            continue
        opened = [each for each in opened if each[0] < indent]
        if OPENED.match(line):
            opened, current = opened + [(indent, bare)], None
        elif start:
            current = Definition(module, start.group(2), number, indent, comment, [each[1] for each in opened])
            current.lines.append(line)
            found.append(current)
        comment = []
    return found


class Module:
    """A file of `specs/`: its definitions by name, and what it takes from elsewhere."""

    def __init__(self, path):
        self.path = path
        crate, _, rest = path.partition(".specs.")
        self.file = os.path.join(crate, "specs", *rest.split(".")) + ".antt"
        text = crate_list.read(os.path.join("crates", self.file))
        self.names, self.aliases, self.shared = imports_of(text)
        self.definitions = {}
        for each in blocks(path, text):
            for name in [each.name] + each.constructors():
                for word in words_of(name):
                    self.definitions.setdefault(word, each)


class Library:
    """The modules that were read, and what is reached in them."""

    def __init__(self):
        self.modules, self.reached, self.types = {}, {}, set()

    def module(self, path):
        """A module by its path, None if it is no module of this project."""
        if path not in self.modules:
            file = os.path.join(CRATES, *path.split(".")) + ".antt"
            self.modules[path] = Module(path) if ".specs." in path and os.path.exists(file) else None
        return self.modules[path]

    def reach(self, path, name):
        """Reaches what a path has of this name, and all on which it rests."""
        waiting = [(path, name)]
        while waiting:
            path, name = waiting.pop()
            module = self.module(path)
            if module is None:
                self.reach_type(path, name)
                continue
            for word in words_of(name):
                if word in module.definitions:
                    waiting += self.first_reached(module, module.definitions[word])
                elif name in module.shared:
                    waiting.append(module.shared[name])

    def first_reached(self, module, definition):
        """What a definition names, if it is reached for the first time."""
        key = (module.path, definition.name)
        if key in self.reached:
            return []
        self.reached[key] = definition
        return names_in(definition.text(), module.names, module.aliases, module)

    def reach_type(self, path, name):
        """Notes a type or constant of the code. Its variants are named under `TheVariants`."""
        crate, _, rest = path.partition(".specs.declared.")
        if rest and os.path.isdir(os.path.join(CRATES, crate)):
            parts = rest.split(".")
            of_type = parts[-2] if parts[-1] == "TheVariants" else name
            files = parts[:-2] if parts[-1] == "TheVariants" else parts[:-1]
            self.types.add((crate, "/".join(files) + ".rt", of_type))


def names_in(text, names, aliases, module):
    """The paths and names that a text cites."""
    bare = re.sub(r"--.*", "", text)
    bare = re.sub(r"([{;(]\s*)[\w-]+ = ", r"\1", re.sub(r"\bpub ([\w-]+) :", ":", bare))
    cited = []
    for word, member in WORD.findall(bare):
        if word in aliases and member:
            cited.append((aliases[word], member))
        elif word in names:
            cited.append(names[word])
        elif module and word in module.definitions:
            cited.append((module.path, word))
    return cited


def clauses_of(place):
    """The names that a function's clauses cite."""
    file, _, function = place.partition(":")
    text = crate_list.read(os.path.join("crates", file))
    names, aliases, _ = imports_of(text)
    head = re.search(rf"^\s*pub fn {function}\b.*?^\s*\{{$", text, re.S | re.M).group()
    clauses = re.sub(r"//.*", "", head[head.index("ensures"):])
    return names_in(clauses, names, aliases, None)


def module_order(crate):
    """The modules of a crate's `specs/`, in the order of Lib.antt."""
    return re.findall(r"^pub mod (\w+)", crate_list.read(f"crates/{crate}/specs/Lib.antt"), re.M)


def rested_on(place=TOP_CALL):
    """The definitions on which a function's clauses rest, in reading order, and the types of the code."""
    library = Library()
    for path, name in clauses_of(place):
        library.reach(path, name)
    crates = crate_list.names()
    modules = {crate: module_order(crate) for crate in {path.split(".")[0] for path, _ in library.reached}}

    def order(definition):
        crate, _, *rest = definition.module.split(".")
        return crates.index(crate), modules[crate].index(rest[0]), rest, definition.line

    types = sorted(library.types, key=lambda each: (crates.index(each[0]), each[1:]))
    return sorted(library.reached.values(), key=order), types


def counts(definitions):
    """The counts in words."""
    lines = sum(len(each.lines) for each in definitions)
    files = len({each.module for each in definitions})
    crates = len({each.module.split(".")[0] for each in definitions})
    return f"{len(definitions):,} definitions, {lines:,} lines, in {files} files of {crates} crates"


def main():
    """Lists what is asked for."""
    parser = argparse.ArgumentParser(description=__doc__, formatter_class=argparse.RawDescriptionHelpFormatter)
    parser.add_argument("--of", default=TOP_CALL, metavar="FILE:FUNCTION")
    parser.add_argument("--text", action="store_true")
    parser.add_argument("--count", action="store_true")
    asked = parser.parse_args()
    definitions, types = rested_on(asked.of)
    for each in [] if asked.count else definitions:
        place = each.module.replace(".", "/") + f".antt:{each.line}"
        print(f"crates/{place} {each.name} {len(each.lines)}")
        if asked.text:
            print("\n".join(each.around + each.comment + each.lines), end="\n\n")
    for crate, file, name in [] if asked.count else types:
        print(f"crates/{crate}/src/{file} {name}")
    print(counts(definitions) + f"; {len(types)} types and constants of the code")


if __name__ == "__main__":
    main()
