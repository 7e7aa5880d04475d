#!/usr/bin/env python3
"""Makes the models and scripts that bench.py measures with.

    bench/workloads.py FOLDER [NAME ..]

writes NAME.toml and NAME.txt for each name, by default for all.
"""
import sys
from pathlib import Path

EXAMPLES = Path(__file__).resolve().parent.parent / "examples"


def value(given):
    """A value as TOML."""
    if isinstance(given, str):
        return f'"{given}"'
    return str(list(given) if isinstance(given, tuple) else given)


def station(name, kind, links=(), **keys):
    """One station as TOML; a link is a receiver, a delay and perhaps a weight."""
    lines = ["[[station]]", f'name = "{name}"', f'kind = "{kind}"']
    lines += [f"{key} = {value(given)}" for key, given in keys.items()]
    if links:
        tables = (", ".join(f"{key} = {value(given)}" for key, given in zip(("to", "delay", "weight"), link))
                  for link in links)
        lines.append("link = [" + ", ".join("{ " + table + " }" for table in tables) + "]")
    return "\n".join(lines) + "\n"


def network(lookahead, horizon, seed, *stations, limit=65536):
    """A whole model as TOML."""
    top = f"lookahead = {lookahead}\nhorizon = {horizon}\nseed = {seed}\nlimit = {limit}\n"
    return top + "".join(stations)


def clinic_model():
    """The clinic of examples/."""
    return (EXAMPLES / "clinic.toml").read_text()


def clinic():
    """The clinic with the seven questions of examples/."""
    return clinic_model(), (EXAMPLES / "clinic.txt").read_text()


def gen():
    """What `cloner gen 7` makes: 8 wards, and 16 plans in a tree."""
    wards = [station(f"ward{i}", "server", [("walk", 3)], servers=1 + i % 3, room=20, service=(3, 3 + 2 * i))
             for i in range(1, 9)]
    model = network(2, 5000, 7, station("door", "source", [("triage", 2)], every=(1, 3), jobs=5000),
                    station("triage", "router", [(f"ward{i}", 2, i) for i in range(1, 9)], by="weights"), *wards,
                    station("walk", "delay", [("exit", 2)], hold=(0, 4)), station("exit", "sink"), limit=16384)
    script = [f"fork plan{j} from {'base' if j == 1 else f'plan{j // 2}'}\n"
              f"set plan{j} at {100 * j} ward1 service 1 {2 + j}\n" for j in range(1, 17)]
    return model, "".join(script)


def wards_model(lookahead, horizon=375000, jobs=65000):
    """64 stations: a tree of routers leads to 40 desks in 8 groups; two of three jobs go round again."""
    parts = [station("door", "source", [("root", lookahead)], every=(4, 8), jobs=jobs),
             station("root", "router", [(f"mid{i}", lookahead + i, i) for i in range(1, 5)], by="weights")]
    for i in range(1, 5):
        links = [(f"leaf{2 * i - 1}", lookahead), (f"leaf{2 * i}", lookahead + 3)]
        parts.append(station(f"mid{i}", "router", links, by="turn" if i == 1 else "weights"))
    for group in range(1, 9):
        desks = [(f"desk{group}_{k}", lookahead + k, 2 if k == 1 else 1) for k in range(1, 6)]
        parts.append(station(f"leaf{group}", "router", desks, by="weights"))
        parts += [station(desk[0], "server", [(f"walk{group}", lookahead)], servers=2, room=200,
                          service=(30, 70 + 5 * group)) for desk in desks]
        ways = [(f"leaf{group}", lookahead + 5, 2), (f"exit{1 + group % 2}", lookahead, 1)]
        parts.append(station(f"walk{group}", "delay", ways, hold=(5, 20)))
    return network(lookahead, horizon, 64, *parts, station("exit1", "sink"), station("exit2", "sink"))


def wide():
    """One clone of 64 stations with long links: few windows, each with much work."""
    return wards_model(1000), ""


def tight():
    """The same with short links: many windows, each with little work."""
    return wards_model(10), ""


def longer(events):
    """The network of `wide` up to the time at which it has handled about so many messages."""
    return wards_model(1000, 6000 + events * 37 // 100), ""


def wide4():
    """Three questions on single stations of `wide`: most stations stay shared."""
    return wards_model(1000), """fork a from base
set a at 93750 desk2_3 service 10 30
fork b from base
set b at 187500 desk5_1 servers 1
fork c from a
set c at 337500 walk7 hold 0 0
"""


def big():
    """25 clones of a shorter `wide` that part early; in each one desk differs. Each window has thousands of messages."""
    forked = [f"fork c{i} from base\n" for i in range(1, 25)]
    sets = [f"set c{i} at 3000 desk{1 + i % 8}_{1 + i // 8 % 5} service 10 {20 + i}\n" for i in range(1, 25)]
    return wards_model(1000, horizon=60000, jobs=9000), "".join(forked + sets)


def change(i):
    """The i-th of many different changes of the clinic, without its time."""
    step = i // 6
    return (f"doctor service {9 - step % 3} {18 + step}", f"xray service 6 {10 + step}",
            f"reception service 3 {6 + step % 40}", f"triage weight 2 {2 + step}", f"doctor room {step}",
            f"arrivals every 3 {8 + step}")[i % 6]


def branches(number, time):
    """So many clones of the clinic, each with a change of its own from about this time on."""
    lines = [f"fork c{i} from base\nset c{i} at {time + i} {change(i)}\n" for i in range(1, number)]
    return clinic_model(), "".join(lines)


def many():
    """256 clones that part late."""
    return branches(256, 8000)


def many64():
    """64 clones that part late."""
    return branches(64, 8000)


def early():
    """64 clones that part early: hardly anything is shared."""
    return branches(64, 500)


def equal_clones(number):
    """So many clones of the clinic, all but `base` with the same change."""
    forks = [f"fork c{i} from base\n" for i in range(1, number)]
    sets = [f"set c{i} at 2000 reception service 2 7\n" for i in range(1, number)]
    return clinic_model(), "".join(forks + sets)


def equal():
    """63 clones with the same change beside `base`."""
    return equal_clones(64)


def forked_tree(number):
    """A binary tree of forks of forks; the change of a clone comes the later the deeper it is."""
    lines = [f"fork c{i} from {'base' if i == 1 else f'c{i // 2}'}\n"
             f"set c{i} at {1200 * i.bit_length() + i} {change(i)}\n" for i in range(1, number)]
    return clinic_model(), "".join(lines)


def tree():
    """A tree of 128 clones."""
    return forked_tree(128)


def tree64():
    """A tree of 64 clones."""
    return forked_tree(64)


def heavy():
    """One clone of six stations, with logs of about 60,000 messages each."""
    return network(5, 95000, 8, station("door", "source", [("fan", 5)], every=(1, 2), jobs=61000),
                   station("fan", "router", [("left", 5), ("right", 7)], by="turn"),
                   station("left", "server", [("walk", 5)], servers=2, room=4096, service=(2, 8)),
                   station("right", "server", [("walk", 5)], servers=4, room=4096, service=(4, 16)),
                   station("walk", "delay", [("exit", 5)], hold=(0, 30)), station("exit", "sink")), ""


def wait60000():
    """60,000 jobs wait in the list of one station."""
    return network(1, 1200000, 3, station("door", "source", [("walk", 1)], every=(1, 1), jobs=60000),
                   station("walk", "delay", [("exit", 1)], hold=(0, 1000000)), station("exit", "sink")), ""


def hub():
    """31 sources and desks and one sink, for which hundreds of jobs wait."""
    parts = [station(f"s{i}", "source", [(f"d{i}", 100)], every=(2, 8), jobs=3000)
             + station(f"d{i}", "server", [("exit", 100)], servers=4, room=50, service=(4, 30)) for i in range(31)]
    return network(100, 10000, 5, *parts, station("exit", "sink")), ""


def forks(number):
    """The lines that make so many clones in which nothing is changed, `base` among them."""
    return "".join(f"fork c{i} from base\n" for i in range(1, number))


def one_station(clones):
    """One desk between a source and a sink; the limit ends the run near its end, before any text is made."""
    model = network(10, 60000, 9, station("door", "source", [("desk", 10)], every=(1, 3), jobs=30000),
                    station("desk", "server", [("exit", 10)], servers=2, room=100, service=(1, 5)),
                    station("exit", "sink"), limit=59000)
    return model, forks(clones)


def silent_clinic(clones):
    """Clones of the clinic with equal logs; the limit ends the run near its end, before any text is made."""
    return clinic_model().replace("seed = ", "limit = 3000\nseed = ", 1), forks(clones)


def chain(stations):
    """A line of desks between a source and a sink, with about 120,000 messages in all."""
    desks = stations - 2
    parts = [station(f"desk{i}", "server", [(f"desk{i + 1}" if i < desks else "exit", 100)], servers=2, room=100,
                     service=(1, 4)) for i in range(1, desks + 1)]
    jobs = 120000 // (2 * desks + 2)
    return network(100, 3 * jobs + 110 * stations, 11,
                   station("door", "source", [("desk1", 100)], every=(2, 4), jobs=jobs), *parts,
                   station("exit", "sink")), ""


NAMED = (clinic, gen, many, many64, equal, early, tree, tree64, wide, wide4, big, tight, heavy, hub, wait60000)
WORKLOADS = {make.__name__: make for make in NAMED}


def rows(prefix, make, numbers):
    """The workloads of one kind of growth: by name the number that grows, and what makes the texts."""
    return {f"{prefix}_{number}": (number, lambda number=number: make(number)) for number in numbers}


# The first two write whole traces. The last two are ended by their limit: status 7, and no text.
GROWTH = {"messages": rows("events", longer, (10000, 30000, 100000, 300000, 1000000)),
          "stations": rows("chain", chain, (3, 4, 8, 16, 32, 64)),
          "clones of the clinic": rows("silent", silent_clinic, (1, 2, 4, 8, 16, 32, 64, 128, 256)),
          "clones of one desk": rows("one_station", one_station, (1, 256))}
SILENT = ("clones of the clinic", "clones of one desk")


def made(name):
    """The texts of model and script of this name."""
    for grown in GROWTH.values():
        if name in grown:
            return grown[name][1]()
    return WORKLOADS[name]()


def write(folder, name):
    """Writes the two files of a workload, and gives their names."""
    files = folder / f"{name}.toml", folder / f"{name}.txt"
    for file, text in zip(files, made(name)):
        file.write_text(text)
    return files


def main():
    """Writes the workloads that are asked for."""
    if len(sys.argv) < 2:
        sys.exit(__doc__)
    folder = Path(sys.argv[1])
    folder.mkdir(parents=True, exist_ok=True)
    names = sys.argv[2:] or [*WORKLOADS, *(name for grown in GROWTH.values() for name in grown)]
    for name in names:
        write(folder, name)


if __name__ == "__main__":
    main()
