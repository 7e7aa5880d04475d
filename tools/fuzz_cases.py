"""The cases of fuzz.py: random small models and scripts, and mutations of their texts."""
import random
import re

KINDS = ["source", "server", "delay", "router", "sink"]
NUMBERS = ["0", "1", "2", "16", "17", "64", "255", "256", "4096", "4097", "65535", "65536", "65537", "1000000",
           "1000001", "1000000000", "1000000001", "2147483647", "4294967295", "4294967296", "9223372036854775807",
           "9223372036854775808", "-1", "08", "1.5", "0x10", "1_000", "true", '"1"', "[1, 2]", "1979-05-27"]
VALUES = [0, 1, 2, 5, -1, 16, 17, 4097, 65537, 1000001, 10**9 + 1, 2**63 - 1, "x", "", "analyst", "class", "turn",
          "source", "sink", [1, 2], [2, 1], [0, 0], [1, 2, 3], [], ["a", 1], [1, 1000001]]
WORDS = ["base", "analyst", "fork", "set", "end", "look", "from", "at", "service", "servers", "room", "every", "hold",
         "weight", "horizon", "lookahead", "station", "link", "class", "order", "format", "seed", "limit", "#", "="]


class Station:
    """One station of a made model: its keys in order, and its links."""

    def __init__(self, name, kind):
        self.name, self.kind, self.keys, self.links = name, kind, {}, []


class Model:
    """A made model: the keys at the top, and the stations."""

    def __init__(self, top, stations):
        self.top, self.stations = top, stations


def pair(rng, least, most):
    """A random range between the two bounds."""
    low = rng.randint(least, most)
    return [low, rng.randint(low, most)]


def station_keys(rng, kind, classes):
    """Random keys of a station of this kind; what is absent takes its default."""
    keys = {}
    if kind == "source":
        keys.update(every=pair(rng, 1, rng.choice([1, 3, 9])), jobs=rng.choice([0, 1, 2, 5, 20, 60]))
        if classes and rng.random() < 0.8:
            keys["class"] = rng.randint(1, 4)
    elif kind == "server":
        keys.update(servers=rng.choice([1, 1, 1, 2, 3, 16]), room=rng.choice([0, 1, 2, 5, 40, 4096]),
                    service=pair(rng, 1, rng.choice([1, 4, 12])))
        if classes and rng.random() < 0.8:
            keys["order"] = rng.choice(["arrival", "class", "class"])
    elif kind == "delay":
        keys["hold"] = pair(rng, 0, rng.choice([0, 1, 5, 30]))
    elif kind == "router":
        keys["by"] = rng.choice(["weights", "turn"])
    if rng.random() < 0.2:
        keys["stream"] = rng.choice([0, 1, 2, 54, 2**63 - 1])
    return keys


def made_links(rng, stations, lookahead):
    """Random links of a station to stations that are no sources."""
    targets = [other.name for other in stations if other.kind != "source"]
    links = []
    for _ in range(rng.choice([1, 1, 1, 2, 3, 5, 16])):
        link = {"to": rng.choice(targets), "delay": lookahead + rng.choice([0, 0, 0, 1, 2, 7])}
        if rng.random() < 0.4:
            link["weight"] = rng.choice([1, 2, 3, 10, 1000])
        links.append(link)
    return links


def made_model(rng):
    """A valid model of a few stations; job loops, streams that are shared, and short limits occur."""
    classes = rng.random() < 0.4
    lookahead = rng.choice([1, 1, 2, 3, 10])
    top = {"lookahead": lookahead, "horizon": rng.choice([1, 5, 20, 60, 60, 150, 400])}
    if classes or rng.random() < 0.2:
        top["format"] = 2 if classes else 1
    if rng.random() < 0.8:
        top["seed"] = rng.choice([0, 1, 42, rng.randrange(2**63)])
    if rng.random() < 0.15:
        top["limit"] = rng.choice([1, 2, 3, 8, 30])
    kinds = ["source", rng.choice(["server", "sink", "delay", "router"])]
    kinds += [rng.choice(KINDS) for _ in range(rng.randint(0, 5))]
    rng.shuffle(kinds)
    stations = [Station(f"{kind[:rng.randint(2, 6)]}{number}", kind) for number, kind in enumerate(kinds)]
    for station in stations:
        station.keys = station_keys(rng, station.kind, classes)
        if station.kind != "sink":
            station.links = made_links(rng, stations, lookahead)
    return Model(top, stations)


def value_text(rng, value):
    """A value as TOML, in one of its forms where `rng` is given."""
    if isinstance(value, str):
        return f"'{value}'" if rng and rng.random() < 0.1 else f'"{value}"'
    if isinstance(value, list):
        comma = rng.choice([", ", ",", " ,\n  ", ", # two\n"]) if rng else ", "
        return "[" + comma.join(value_text(rng, one) for one in value) + "]"
    form = rng.random() if rng else 1
    return hex(value) if form < 0.02 else f"+{value}" if form < 0.04 else f"{value:_}" if form < 0.06 else str(value)


def pairs_text(rng, keys, between, form=str):
    """Keys and values as TOML, in any order where `rng` is given."""
    items = list(keys.items())
    if rng and rng.random() < 0.3:
        rng.shuffle(items)
    return between.join(f"{form(key)} = {value_text(rng, value)}" for key, value in items)


def model_text(model, rng=None):
    """The model as TOML: in the plainest form, or with `rng` in one of many forms."""
    parts = [pairs_text(rng, model.top, "\n")]
    for station in model.stations:
        keys = {"name": station.name, "kind": station.kind, **station.keys}
        links = [pairs_text(rng, link, ", ") for link in station.links]
        text = "[[station]]\n" + pairs_text(rng, keys, "\n")
        if links and rng and rng.random() < 0.2:
            text += "".join("\n[[station.link]]\n" + pairs_text(rng, link, "\n") for link in station.links)
        elif links:
            text += "\nlink = [" + ", ".join("{ " + link + " }" for link in links) + "]"
        parts.append(text)
    if rng and rng.random() < 0.2:
        parts = [part + rng.choice(["", " # said", "\n\n", "\n# a comment"]) for part in parts]
    text = "\n".join(parts) + "\n"
    return text.replace("\n", "\r\n") if rng and rng.random() < 0.05 else text


def made_set(rng, station, horizon):
    """The end of a `set` line: time, station, parameter and values, valid but for rare cases."""
    when = rng.choice([0, 1, horizon // 3, horizon // 2, horizon - 1, horizon - 1 if rng.random() < 0.95 else horizon])
    choices = {"source": ["every"], "server": ["service", "servers", "room"], "delay": ["hold"],
               "router": ["weight"], "sink": ["room"]}[station.kind]
    parameter = rng.choice(choices) if rng.random() < 0.98 else rng.choice(["every", "room", "weight"])
    if parameter == "weight":
        values = [rng.randint(1, max(len(station.links), 1)), rng.choice([1, 2, 50, 1000])]
    elif parameter in ("servers", "room"):
        values = [rng.choice([1, 2, 3, 16] if parameter == "servers" else [0, 1, 3, 4096])]
    else:
        values = pair(rng, 0 if parameter == "hold" else 1, rng.choice([1, 4, 30]))
    return f"{max(when, 0)} {station.name} {parameter} " + " ".join(map(str, values))


def made_script(rng, model):
    """A script of forks, sets, ends and looks, most of which are accepted."""
    horizon = model.top["horizon"]
    settable = [s for s in model.stations if s.kind in ("source", "server", "delay") or s.keys.get("by") == "weights"]
    clones, ended, lines = ["base"], set(), []
    for _ in range(rng.choice([0, 1, 3, 6, 10, 16])):
        act, clone = rng.random(), rng.choice(clones)
        open_clones = [name for name in clones if name not in ended]
        clone = rng.choice(open_clones) if open_clones and rng.random() < 0.98 else clone
        if act < 0.35 and len(clones) < 8:
            clones.append(f"{rng.choice('abc')}{len(clones)}")
            lines.append(f"fork {clones[-1]} from {clone}")
        elif act < 0.8 and settable:
            lines.append(f"set {clone} at " + made_set(rng, rng.choice(settable), horizon))
        elif act < 0.87 and clone != "base":
            ended.add(clone)
            lines.append(f"end {clone} at {rng.randrange(horizon)}")
        elif act < 0.93:
            lines.append(f"look {clone} {rng.choice(model.stations).name}")
        else:
            lines.append(rng.choice(["", "# fork x from base", "analyst ada", "analyst ben", "analyst main", " \t"]))
    if rng.random() < 0.1:
        lines = [line.replace(" ", rng.choice(["  ", "\t", " \t "])) + rng.choice(["", "\r", " "]) for line in lines]
    return "\n".join(lines) + ("\n" if rng.random() < 0.9 else "")


def mutated_word(rng, text):
    """The text with one word or number in another's place."""
    words = list(re.finditer(r"[a-z0-9_]+", text))
    if not words:
        return text + rng.choice(WORDS)
    place = rng.choice(words)
    other = rng.choice([rng.choice(NUMBERS), rng.choice(WORDS), rng.choice(words).group()])
    return text[:place.start()] + other + text[place.end():]


def mutated_line(rng, text):
    """The text with a line dropped, doubled, moved or cut."""
    lines = text.split("\n")
    at, other = rng.randrange(len(lines)), rng.randrange(len(lines))
    way = rng.randrange(4)
    if way == 0:
        del lines[at]
    elif way == 1:
        lines.insert(other, lines[at])
    elif way == 2:
        lines[at], lines[other] = lines[other], lines[at]
    else:
        lines[at:] = [lines[at][:rng.randint(0, len(lines[at]))]]
    return "\n".join(lines)


def mutated(rng, text):
    """The text's bytes after one to three mutations."""
    for _ in range(rng.choice([1, 1, 2, 3])):
        text = rng.choice([mutated_word, mutated_word, mutated_line])(rng, text) if rng.random() < 0.75 else text
    data = bytearray(text.encode())
    if rng.random() < 0.3:
        for _ in range(rng.choice([1, 1, 4])):
            at = rng.randint(0, len(data))
            byte = rng.choice([rng.randrange(256), rng.choice(b'[]{}"=#,.\n\r\t 0_')])
            data[at:at + rng.randint(0, 1)] = bytes([byte]) * rng.choice([0, 1, 1])
    return bytes(data)


def spoiled(rng, model):
    """The model with one key dropped, added or changed somewhere; it may still be valid."""
    stations = [station.keys for station in model.stations]
    links = [link for station in model.stations for link in station.links]
    table = rng.choice([model.top, rng.choice(stations), rng.choice(stations), rng.choice(links or stations)])
    names = [station.name for station in model.stations]
    way = rng.randrange(6)
    if way == 0 and table:
        del table[rng.choice(list(table))]
    elif way == 1:
        table[rng.choice(["speed", "class", "order", "servers", "link", "to", "weight", "a-b"])] = rng.choice(VALUES)
    elif way == 2:
        rng.choice(stations)["name"] = rng.choice(names + ["Desk", "analyst"])
    elif way == 3 and links:
        rng.choice(links)["to"] = rng.choice(names + ["nobody", "analyst", "no name"])
    elif way == 4:
        place = rng.choice(model.stations)
        place.links = place.links * rng.choice([0, 2, 17])
    elif table:
        table[rng.choice(list(table))] = rng.choice(VALUES)
    return model


class Case:
    """The texts of model and script; the model itself where its text is valid, and its plainest text.

    The watches are those that were last made for the case, None if there are none; so is the snapshot that is tried.
    """

    def __init__(self, model, script, valid=None):
        self.model, self.script, self.valid, self.watches, self.snapshot = model, script, valid, None, None
        self.plainest = valid and model_text(valid).encode()


def made_case(seed, number):
    """Case `number` of a seed: valid, or with a mutated or spoiled model, a mutated script, or both."""
    rng = random.Random(f"{seed} {number}")
    model = made_model(rng)
    script = made_script(rng, model)
    which = rng.random()
    script = mutated(rng, script) if 0.4 < which < 0.7 else script.encode()
    if which > 0.8:
        return Case(model_text(spoiled(rng, model), rng).encode(), script)
    text = model_text(model, rng)
    return Case(mutated(rng, text), script) if which > 0.6 else Case(text.encode(), script, model)
