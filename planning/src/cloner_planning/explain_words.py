"""Says which word of a command line of cloner is wrong. The forms are those of the table in docs/FORMATS_OUTPUT.md."""
from typing import Dict, List, NamedTuple, Optional, Tuple

from .explain_tables import Tables
from .limits import MAX_GENERATED, MAX_NUMBER, MAX_WORKERS
from .names import NAME, NAME_RULE, did_you_mean, why_no_name
from .places import printable
from .script_lines import fault_of_number

VALUES = {"N": (1, MAX_WORKERS), "T": (0, MAX_NUMBER), "NUMBER": (1, MAX_GENERATED)}
FILES = ("MODEL", "SCRIPT", "WATCHES", "SNAPSHOT")


class Form(NamedTuple):
    """The form of a mode: its words, and its options with their values and whether they are required."""

    text: str
    words: List[str]
    options: Dict[str, Tuple[str, bool]]


class Said(NamedTuple):
    """A command line: its words, its options with their values (None if it is missing), and the first fault so far."""

    words: List[str]
    options: Dict[str, Optional[str]]
    fault: List[str]


def forms_of(tables: Tables) -> Dict[str, Form]:
    """Returns the form of each mode."""
    forms = {}
    for text in tables.commands():
        parts = text.split()[1:]
        options = {part.strip("[]"): (parts[place + 1].strip("[]"), not part.startswith("["))
                   for place, part in enumerate(parts) if part.lstrip("[").startswith("--")}
        words = parts[1:next((place for place, part in enumerate(parts) if "--" in part), len(parts))]
        forms[parts[0]] = Form(text, words, options)
    return forms


def split_words(words: List[str], forms: Dict[str, Form]) -> Said:
    """Returns words and options of a command line."""
    known = sorted({option for form in forms.values() for option in form.options})
    plain: List[str] = []
    options: Dict[str, Optional[str]] = {}
    left = list(words)
    while left:
        word = left.pop(0)
        if word == "--":
            return Said(plain + left, options, [])
        if len(word) < 2 or not word.startswith("-"):
            plain.append(word)
            continue
        name, equals, value = word.partition("=")
        if name not in known:
            return Said(plain, options, [f"`{printable(word)}` is no option of cloner: they are {', '.join(known)}.",
                                         *did_you_mean(name, known)])
        if name in options:
            return Said(plain, options, [f"`{name}` is there twice."])
        options[name] = value if equals else (left.pop(0) if left else None)
    return Said(plain, options, [])


def mode_of(words: List[str], tables: Tables) -> Optional[str]:
    """Returns the mode of a command line, or None if it has none that is known."""
    forms = forms_of(tables)
    said = split_words(words, forms)
    return said.words[0] if said.words and said.words[0] in forms else None


def files_of(words: List[str], tables: Tables) -> Dict[str, str]:
    """Returns the files that a command line names, by MODEL, SCRIPT, WATCHES and SNAPSHOT."""
    forms = forms_of(tables)
    said = split_words(words, forms)
    form = forms.get(said.words[0]) if said.words else None
    return {part: word for part, word in zip(form.words, said.words[1:]) if part in FILES} if form else {}


def faults_of_words(words: List[str], tables: Tables) -> List[str]:
    """Returns which word of a command line is wrong, and its form; nothing if each is as it should be."""
    forms = forms_of(tables)
    said = split_words(words, forms)
    if not said.words:
        return said.fault or [f"There is no command: it is {', '.join(forms)}."]
    mode = said.words[0]
    if mode not in forms:
        return said.fault or [f"`{printable(mode)}` is no command of cloner: they are {', '.join(forms)}.",
                              *did_you_mean(mode, forms)]
    found = said.fault or fault_of_mode(said, forms[mode])
    return found + [f"The form: `{forms[mode].text}`."] if found else []


def fault_of_mode(said: Said, form: Form) -> List[str]:
    """Returns the first word that does not fit the form of its mode."""
    given = said.words[1:]
    if len(given) < len(form.words):
        before = printable(said.words[-1])
        return [f"After `{before}` {form.words[len(given)]} is missing."]
    if len(given) > len(form.words):
        return [f"`{printable(given[len(form.words)])}` is too much."]
    for part, word in [*zip(form.words, given)]:
        fault = fault_of_value(part, word)
        if fault:
            return fault
    for name, value in said.options.items():
        if name not in form.options:
            return [f"`{name}` is no option of `{said.words[0]}`."]
        fault = fault_of_value(form.options[name][0], value, name)
        if fault:
            return fault
    missing = [name for name, (_, required) in form.options.items() if required and name not in said.options]
    return [f"`{missing[0]} {form.options[missing[0]][0]}` is missing."] if missing else []


def fault_of_value(part: str, word: Optional[str], option: str = "") -> List[str]:
    """Returns why a word is not what its part of the form wants; nothing if it is."""
    if word is None:
        return [f"After `{option}` {part} is missing."]
    if part in FILES:
        return [] if word else [f"{part} is an empty word."]
    if part == "NAME":
        return [] if NAME.match(word) else [f"`{printable(word)}` is no name: {NAME_RULE}.", *why_no_name(word)]
    least, greatest = VALUES[part]
    fault = fault_of_number(word, greatest)
    if not fault and int(word) < least:
        fault = f"the least is {least}"
    where = f"`{option} {printable(word)}`" if option else f"`{printable(word)}`"
    return [f"{where} is wrong: {fault}."] if fault else []
