"""What docs/FORMATS_OUTPUT.md says of `links`: what `run` writes, and the rounds of the clocks, for fuzz.py."""
from fuzz_live import Difference
from fuzz_model import expected_model
from fuzz_watch import check_beyond

MAX_ROUNDS = 20000


def next_clocks(model, clocks):
    """The next clock of each station: the least of the horizon and of the other senders' clocks with their delays."""
    found = dict.fromkeys(clocks, model.top["horizon"])
    for station in model.stations:
        for link in station.links:
            if link["to"] != station.name:
                found[link["to"]] = min(found[link["to"]], clocks[station.name] + link["delay"])
    return found


def rounds_of(model):
    """The rounds after which all clocks are at the horizon; None if these are too many to count here."""
    clocks, rounds = {station.name: 0 for station in model.stations}, 0
    while any(clock < model.top["horizon"] for clock in clocks.values()):
        clocks, rounds = next_clocks(model, clocks), rounds + 1
        if rounds > MAX_ROUNDS:
            return None
    return rounds


def check_links(runner, split, case, ended):
    """`links` of the present case: refused as `run` is, or its output and the rounds; unsure models are left out."""
    model = expected_model(case.model)[1]
    rounds = model and rounds_of(model)
    if ended.status in (0, 7) and rounds is None:
        return
    wanted = ended if ended.status else ended._replace(out=ended.out + b"rounds %d\n" % rounds)
    for more in runner.options():
        got = runner.links(*more)
        if ended.status == 7:
            check_beyond(runner, split, f"`links` {' '.join(more)}", got, case.script, model)
        elif got != wanted:
            raise Difference(f"`links` {' '.join(more)}: status {got.status} {got.err[:200]!r}, {got.out[-100:]!r} "
                             f"at the end in place of {wanted.out[-100:]!r}")
