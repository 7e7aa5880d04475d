"""The rows of shared_texts.py: models and scripts by what the texts of their branches have in common."""
import json
import re
from collections import namedtuple
from pathlib import Path

TOP = Path(__file__).resolve().parent.parent
CLINIC = (TOP / "examples" / "clinic.toml").read_text(encoding="utf-8")
CLINIC_PARAMETERS = ("arrivals every 3 5", "reception service 2 4", "doctor service 4 9", "xray service 6 9")

Row = namedtuple("Row", "name model script")


def station(name, kind, links=(), **keys):
    """A station as TOML; a link is a receiver and a delay."""
    tables = ", ".join(f'{{ to = "{to}", delay = {delay} }}' for to, delay in links)
    return "\n".join(["[[station]]", f"name = {json.dumps(name)}", f"kind = {json.dumps(kind)}",
                      *(f"{key} = {json.dumps(value)}" for key, value in keys.items()),
                      f"link = [{tables}]\n" if links else ""])


def network(lookahead, horizon, stations, form=1):
    """A model of these stations."""
    top = f"format = {form}\nlookahead = {lookahead}\nhorizon = {horizon}\nseed = 5\nlimit = 65536\n"
    return top + "".join(stations)


def desk(horizon, every, jobs, lookahead=2, service=(4, 4)):
    """A source, a desk and a sink."""
    return network(lookahead, horizon, [
        station("gate", "source", [("desk", lookahead)], every=every, jobs=jobs),
        station("desk", "server", [("out", lookahead)], servers=1, room=5, service=service),
        station("out", "sink")])


def lanes(horizon):
    """21 lanes of a source, a desk and a sink. At each third time 84 messages are handled, at 63 stations."""
    return network(3, horizon, [
        station(f"gate{i}", "source", [(f"desk{i}", 3)], every=[3, 3], jobs=horizon) +
        station(f"desk{i}", "server", [(f"out{i}", 3)], servers=1, room=5, service=[3, 3]) +
        station(f"out{i}", "sink") for i in range(1, 22)])


def clinic(horizon):
    """The clinic of the examples until another time."""
    return re.sub(r"horizon = \d+", f"horizon = {horizon}", CLINIC)


def lines(script):
    """A script of these lines."""
    return "".join(f"{line}\n" for line in script)


def for_each(items, lines_of):
    """The script in which each item has the lines that a function gives for it."""
    return lines(line for item in items for line in lines_of(item))


def difference_rows():
    """Rows by where the logs of two branches differ."""
    small, slow = desk(400, (3, 3), 100), desk(20_000, (9, 15), 1500)
    yield Row("in nothing", CLINIC, for_each(range(1, 6), lambda i: [f"fork n{i} from base"]))
    yield Row("in the message of a change alone", small, for_each(range(1, 10), lambda i: [
        f"fork n{i} from base", f"set n{i} at {20 * i} desk service 4 4"]))
    yield Row("in all stations", CLINIC, for_each(range(1, 8), lambda i: [
        f"fork a{i} from base", *(f"set a{i} at {10 + i} {change}" for change in CLINIC_PARAMETERS)]))
    yield Row("from the first entry on", small, lines([
        "fork a from base", "set a at 0 gate every 2 2", "fork b from base", "set b at 0 gate every 5 5",
        "fork c from base"]))
    for time in range(396, 400):
        yield Row(f"from the last entries on, at {time}", small, lines([
            "fork a from base", f"set a at {time} gate every 2 2", "fork b from base",
            f"set b at {time} desk service 1 1", "fork c from base"]))
    yield Row("for a while, at the same time or later", slow, for_each(range(1, 20), lambda i: [
        f"fork a{i} from base", f"set a{i} at {900 * i} desk service 9 9",
        f"set a{i} at {900 * i + 60} desk service 4 4"]))
    yield Row("for a while, or earlier", slow, for_each(range(1, 20), lambda i: [
        f"fork a{i} from {'base' if i == 1 else f'a{i - 1}'}", f"set a{i} at {900 * (21 - i)} desk service 9 9",
        f"set a{i} at {900 * (21 - i) + 60} desk service 4 4"]))
    yield Row("among many lines of one time", desk(2000, (2, 2), 900), for_each(range(1, 9), lambda i: [
        f"fork a{i} from base", f"set a{i} at {100 * i} desk service {1 + i % 3} {1 + i % 3}",
        f"set a{i} at {100 * i} gate every 2 2"]))
    large = desk(10 ** 9, (10 ** 6, 10 ** 6), 300, 10 ** 6, (1000, 10 ** 6))
    yield Row("in numbers that need many bytes", large, for_each(range(1, 9), lambda i: [
        f"fork a{i} from base", f"set a{i} at {10 ** 8 * i} desk service 1000 {1000 + 100_000 * i}"]))


def beginning_rows():
    """Rows by what a text keeps of the one before it; long texts are made by a crew."""
    for size, horizon, last in (("short", 400, 387), ("long", 40_000, 36_027)):
        model, end = desk(horizon, (3, 3), horizon * 3 // 10), horizon - 1
        yield Row(f"all lines kept of {size} texts", model, lines([
            "fork a from base", "fork b from a", "fork c from base"]))
        yield Row(f"no line kept of {size} texts", model, lines([
            "fork a from base", "set a at 0 gate every 2 2", "fork b from base", "set b at 0 gate every 5 5",
            "fork c from base", "set c at 0 gate every 4 4"]))
        yield Row(f"all but the last line kept of {size} texts", model, lines([
            "fork a from base", f"end a at {last}", "fork b from base", "fork c from base",
            f"set c at {end} desk service 1 1", "fork d from base", f"set d at {end} desk room 1"]))
    for size, horizon in (("short", 360), ("long", 1200)):
        yield Row(f"up to a time with lines of many stations, in {size} texts", lanes(horizon), for_each(
            enumerate((94, 45, 70, 20, 81)), lambda item: [
                f"fork a{item[0]} from base",
                f"set a{item[0]} at {horizon * item[1] // 300 * 3} desk{3 + item[0]} service 2 2",
                f"fork b{item[0]} from a{item[0]}",
                f"set b{item[0]} at {horizon * item[1] // 300 * 3} desk{4 + item[0]} service 1 1"]))
    yield Row("up to times in no order, in long texts", desk(40_000, (3, 3), 12_000), for_each(
        range(1, 11), lambda i: [f"fork a{i} from {'base' if i % 3 else f'a{i // 2}'}",
                                 f"set a{i} at {i * 15_331 % 40_000} desk service 2 3"]))


def length_rows():
    """Rows by the lengths of texts and by how many there are."""
    long = desk(40_000, (3, 3), 12_000)
    yield Row("one end at 0, one at 1", desk(400, (3, 3), 100), lines([
        "fork a from base", "end a at 0", "fork b from base", "fork c from base", "end c at 1"]))
    yield Row("ends between others", CLINIC, lines([
        "fork a from base", "end a at 500", "fork b from base", "end b at 300", "fork c from base",
        "set c at 200 doctor service 2 3", "fork d from base", "set d at 400 doctor service 2 2", "fork e from d",
        "end d at 900", "fork f from c", "end f at 300"]))
    yield Row("no line", desk(2, (3, 3), 1), lines(["fork a from base", "fork b from base"]))
    yield Row("one line, and one that ends before it", desk(4, (3, 3), 1), lines([
        "fork a from base", "set a at 3 gate every 2 2", "fork b from base", "end b at 2"]))
    yield Row("one branch of 42,000 lines", long, "")
    yield Row("three branches of 42,000 lines", long, lines([
        "fork a from base", "set a at 10 desk service 1 3", "fork b from base", "set b at 20000 desk service 2 3"]))
    yield Row("65,536 lines of one of 64 stations", network(1, 70_000, [
        station("gate", "source", [("out", 1_000_000)], every=[1, 1], jobs=65_536), station("out", "sink"),
        *(station(f"desk{i}", "server", [("out", 1)], servers=1, room=0, service=[1, 1]) for i in range(62))]), lines([
            "fork a from base", "set a at 40000 desk9 room 1", "fork b from base", "end b at 65536", "fork c from base",
            "set c at 30000 desk61 servers 2"]))
    yield Row("256 equal branches", desk(120, (3, 3), 30), for_each(range(1, 256), lambda i: [f"fork c{i} from base"]))
    yield Row("256 branches of branches", clinic(1500), for_each(range(1, 256), lambda i: [
        f"fork c{i} from {'base' if i < 3 else f'c{i // 2}'}",
        f"set c{i} at {4 * i} doctor service {1 + i % 5} {6 + i % 9}"]))


def sizes(most):
    """The least and the greatest number of each length up to one, and that one."""
    ends = (end for size in range(10) for end in (10 ** size, 10 ** (size + 1) - 1))
    return [*(end for end in ends if end < most), most]


def changes():
    """Changes with numbers of all lengths, as in a line of a script after the time."""
    for most in sizes(1_000_000):
        yield from (f"none every {least} {most}" for least in (1, most))
        yield from (f"hall hold {least} {most}" for least in (0, most))
    yield from (f"desk servers {count}" for count in sizes(16))
    yield from (f"desk room {count}" for count in [0, *sizes(4096)])
    yield from (f"ways weight {link} {weight}" for link in sizes(16) for weight in sizes(1000))


def number_rows():
    """Rows of lines whose numbers are of all lengths, or the greatest that models reach."""
    every_length = network(1, 10 ** 9, [
        *(station(f"gate{i}", "source", [("desk", 1)], every=[1, 4], jobs=1250, **{"class": i}) for i in range(1, 5)),
        station("desk", "server", [("hall", 1)], servers=1, room=4096, service=[1, 1], order="class"),
        station("hall", "delay", [("ways", 1)], hold=[0, 0]),
        station("ways", "router", [("out", 1)] * 16, by="weights"),
        station("none", "source", [("out", 1)], every=[1, 1], jobs=0), station("out", "sink")], 2)
    times = sizes(10 ** 9 - 1)
    yield Row("numbers of each length", every_length, lines([
        *(f"set base at {20 * 2 ** i} desk service {10 ** i} {10 ** i}" for i in range(6)),
        "set base at 1000 desk service 240000 240000", "fork a from base",
        *(f"set a at {times[i % len(times)]} {change}" for i, change in enumerate(changes())),
        "fork b from base", *(f"set b at {3 * i} desk room 4096" for i in range(249))]))
    yield Row("the greatest times and numbers of a source, a delay and a sink", network(10 ** 6, 10 ** 9, [
        station("gate", "source", [("hall", 10 ** 6)], every=[1, 1], jobs=65_536),
        station("hall", "delay", [("out", 10 ** 6)], hold=[10 ** 6, 10 ** 6]),
        station("none", "source", [("out", 10 ** 6)], every=[1, 1], jobs=0), station("out", "sink")]), lines([
            "fork a from base", "set a at 999999999 none every 1000000 1000000"]))
    yield Row("the greatest numbers of servers", network(1, 10 ** 6, [
        *(station(f"gate{i}", "source", [(f"desk{i}", 1)], every=[2, 2] if i == 3 else [1, 1],
                  jobs=32_768 if i == 3 else 65_536) for i in range(1, 4)),
        station("desk1", "server", [("out", 1)], servers=1, room=0, service=[10 ** 6, 10 ** 6]),
        station("desk2", "server", [("out", 1)], servers=16, room=4096, service=[10 ** 6, 10 ** 6]),
        station("desk3", "server", [("out", 1)], servers=1, room=1, service=[1, 1]), station("out", "sink")]), lines([
            "fork a from base", "end a at 65000"]))


def rows():
    """All rows."""
    return [*difference_rows(), *beginning_rows(), *length_rows(), *number_rows()]
