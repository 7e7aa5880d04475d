#!/usr/bin/env python3
"""What docs/FORMATS_SNAPSHOT.md says of `save` and `resume`, and what fuzz.py compares of them.

    tools/fuzz_save.py [--cases N] [--seed N] [--first N]

Started alone it tests the slow simulator and the reader and writer of snapshots against each other, without the
program: a clone that is saved at any front and resumed has the trace of its unbroken run; each damaged snapshot gets
the fault of its row; what is read and written again has the same bytes. Status 1 if something differs.
"""
import argparse
import collections
import random
import sys

from fuzz_cases import made_case, mutated
from fuzz_damage import Cut, damaged
from fuzz_live import Difference
from fuzz_model import expected_model
from fuzz_run import LimitMet, Net, clones_of, opened
from fuzz_script import decided
from fuzz_snapshot import (
    Fault, limit_line, opened_again, read_lines, read_snapshot, resumed_end, saved_end, snapshot_of, snapshot_text)

WITHOUT_MODEL = b"snapshot base front 0 end -\npending 0\ntrace 0\n"
MAX_NUMBER = 2**32 - 1


def solo_end(net, who, changes, end):
    """Status, output and error line of `solo`."""
    world = opened(net, changes)
    try:
        world.run_to(net.horizon if end is None else end)
    except LimitMet as met:
        return 7, b"", limit_line(net, met, who)
    return 0, "".join(f"{line}\n" for line in [f"clone {who}", *world.trace]).encode(), b""


def made_until(rng, net, changes, end):
    """A time to save at: any, that of a change or the end, or one beyond the horizon."""
    marks = [time + more for time, *_ in changes for more in (0, 1)] + ([end, end + 1] if end is not None else [])
    ways = [rng.randint(0, net.horizon)] * 6 + [0, 1, net.horizon - 1, net.horizon, net.horizon + 1, MAX_NUMBER]
    return rng.choice(marks) if marks and rng.random() < 0.2 else rng.choice(ways)


def made_damages(rng, text, net):
    """Texts that are made of a snapshot, with the fault that each must get, or an Ellipsis if only the reader says."""
    cut = Cut(read_snapshot(text, net), net)
    texts = [damaged(rng, cut) for _ in range(4)]
    texts.append((mutated(rng, text.decode()), ..., "mutated"))
    return [made for made in texts if made]


def fault_of(text, net):
    """The fault of a text, None if it is a snapshot."""
    try:
        read_snapshot(text, net)
        return None
    except Fault as fault:
        return fault.args


# ---- with the program


def differs(said, got, wanted):
    """Raises a difference unless a run ended as it must."""
    if tuple(got) != tuple(wanted):
        raise Difference(f"{said}: status {got[0]} {got[2][:200]!r}, {len(got[1])} bytes; it must be {wanted[0]} "
                         f"{wanted[2][:200]!r}, {len(wanted[1])} bytes")


def check_resumed(runner, case, text, said, wanted):
    """`resume` of a text."""
    case.snapshot = text
    runner.write_snapshot(text)
    differs(f"`resume` of {said}", runner.resume(), wanted)
    case.snapshot = None


def check_damages(rng, runner, case, text, net):
    """`resume` of damaged snapshots."""
    for damage, fault, said in made_damages(rng, text, net):
        found = fault_of(damage, net)
        if fault is not ... and fault != found:
            raise Difference(f"fuzz itself: {said} is {fault}, the slow reader says {found}")
        check_resumed(runner, case, damage, said, resumed_end(damage, net))


def check_clone(rng, runner, case, net, who, changes, end):
    """`save` of a clone at some front, and `resume` of that, also damaged."""
    until = made_until(rng, net, changes, end)
    wanted = saved_end(opened(net, changes), net, who, until, end)
    differs(f"`save` of {who} until {until}", runner.save(who, until), wanted)
    if wanted[0]:
        return
    solo = runner.solo(who)
    differs(f"the slow simulator of {who}", solo_end(net, who, changes, end), solo)
    check_resumed(runner, case, wanted[1], f"{who} saved until {until}", solo)
    check_damages(rng, runner, case, wanted[1], net)


def check_refused_save(runner, ended):
    """`save` and `resume` of a case that `run` refuses before any message: they say the same, `resume` of the model."""
    differs("`save` of base", runner.save("base", 0), ended)
    runner.write_snapshot(WITHOUT_MODEL)
    if ended.status == 4:
        differs("`resume`", runner.resume(), ended)


def check_save(runner, case, ended):
    """`save` and `resume` of the present case; unsure models are left out."""
    if ended.status in (4, 5, 6):
        check_refused_save(runner, ended)
        return
    model = expected_model(case.model)[1]
    if not model:
        return
    net, clones, rng = Net(model), clones_of(case.script), random.Random(case.script + case.model)
    for who in rng.sample(sorted(clones), min(2, len(clones))):
        check_clone(rng, runner, case, net, who, *clones[who])
    if rng.random() < 0.02:
        differs("`save` of no clone", runner.save("ghost", 0), (6, b"", b"cloner: no clone ghost\n"))
        runner.write_snapshot(None)
        differs("`resume` of no file", runner.resume(), (3, b"", b"cloner: cannot read the snapshot\n"))


# ---- without the program


def test_clone(rng, net, who, changes, end):
    """A clone that is saved at some front and resumed, and damaged snapshots of it; what it ended with."""
    until = made_until(rng, net, changes, end)
    status, text, _ = saved_end(opened(net, changes), net, who, until, end)
    if status:
        return [f"save {status}"]
    solo = solo_end(net, who, changes, end)
    differs(f"{who} saved until {until}", resumed_end(text, net), solo)
    snapshot = read_snapshot(text, net)
    if snapshot_text(snapshot) != text or snapshot_text(snapshot_again(snapshot, net)) != text:
        raise Difference(f"{who} saved until {until} is not written as it was read")
    return [f"resumed {solo[0]}"] + [test_damage(net, *made) for made in made_damages(rng, text, net)]


def snapshot_again(snapshot, net):
    """The snapshot of the world that a snapshot opens, with its lines."""
    again = snapshot_of(snapshot.who, snapshot.front, snapshot.end, opened_again(snapshot, net))
    return again._replace(lines=snapshot.lines)


def test_damage(net, text, fault, said):
    """A damaged snapshot: its fault is that of its row, and what is read is written as it was; what it ended with."""
    found = fault_of(text, net)
    if fault is not ... and fault != found:
        raise Difference(f"{said} is {fault}, the reader says {found}: {text[:400]!r}")
    if found and found[0] < 3:
        return f"refusal {found[0]}"
    if snapshot_text(read_lines(text, net)) != text:
        raise Difference(f"{said} is not written as it was read")
    return f"refusal {found[0]}" if found else f"accepted {resumed_end(text, net)[0]}"


def test_case(seed, number):
    """All tests of a case; what they ended with."""
    case = made_case(seed, number)
    model = expected_model(case.model)[1]
    if not model or decided(case.script, model)[0]:
        return ["refused"]
    net, rng, ended = Net(model), random.Random(f"save {seed} {number}"), []
    for who, (changes, end) in clones_of(case.script).items():
        ended += test_clone(rng, net, who, changes, end)
    return ended


def main():
    """Tests without the program; the status is 1 if something differs."""
    parser = argparse.ArgumentParser(description="Tests the slow simulator's snapshots, without the program.")
    parser.add_argument("--cases", type=int, default=300, metavar="N", help="how many cases; by default 300")
    parser.add_argument("--seed", type=int, default=1, metavar="N", help="the cases' seed; by default 1")
    parser.add_argument("--first", type=int, default=0, metavar="N", help="the first case's number; by default 0")
    chosen = parser.parse_args()
    counts, failures = collections.Counter(), 0
    for number in range(chosen.first, chosen.first + chosen.cases):
        try:
            counts.update(test_case(chosen.seed, number))
        except Difference as why:
            failures += 1
            print(f"case {chosen.seed}-{number}: {why}")
    print(f"{chosen.cases} cases; {', '.join(f'{what}: {n}' for what, n in sorted(counts.items()))}; "
          f"{failures} differences")
    return 1 if failures else 0


if __name__ == "__main__":
    sys.exit(main())
