"""Says the decisions of a script and of watches in words."""
from typing import Dict, List, Optional

from .check_flow import initial, setting_of
from .models import Model
from .scripts import Decision, Script
from .units import Unit, by_clock
from .watches import Watch

CHANGES = {"servers": "has {} servers", "room": "has room for {} who wait", "service": "serves in {}",
           "every": "makes a job every {}", "hold": "holds each job for {}"}


def at_time(time: int, unit: Optional[Unit]) -> str:
    """Returns a time in the planner's unit, by the clock if that is known."""
    if unit is None:
        return str(time)
    return by_clock(time, unit) if unit.clock is not None else f"{time / unit.size:.4g} {unit.name}"


def span_of(values: List[int], unit: Optional[Unit]) -> str:
    """Returns a range of times in the planner's unit."""
    shown = [f"{value / unit.size:.3g}" if unit else str(value) for value in values]
    name = f" {unit.name}" if unit else ""
    return (shown[0] if shown[0] == shown[-1] else f"{shown[0]} to {shown[-1]}") + name


def changed(parameter: str, values: List[int], station: str, model: Model, unit: Optional[Unit]) -> str:
    """Returns what a change makes of a station."""
    if parameter == "weight":
        links = model.known(station).links
        to = links[values[0] - 1].to if 1 <= values[0] <= len(links) else f"link {values[0]}"
        return f"gives weight {values[1]} to the way to {to}"
    one_server = parameter == "servers" and values == [1]
    said = str(values[0]) if parameter in ("servers", "room") else span_of(values, unit)
    return "has 1 server" if one_server else CHANGES[parameter].format(said)


def said_set(one: Decision, model: Model, unit: Optional[Unit]) -> str:
    """Returns a set in words, with what the model says."""
    setting, _ = setting_of(one)
    own = list(initial(model).get(setting, ()))
    values = list(one.values)
    text = f"from {at_time(one.at, unit)} on {one.station} {changed(one.parameter, values, one.station, model, unit)}"
    if own and one.parameter != "weight" and own != values:
        old = str(own[0]) if one.parameter in ("servers", "room") else span_of(own, unit)
        text += f" (the model says {old})"
    return text


def said_watch(one: Watch, model: Model, unit: Optional[Unit]) -> str:
    """Returns a watch in words."""
    change = changed(one.parameter, list(one.values), one.target, model, unit)
    return (f"as soon as {one.least} wait at {one.station} in {one.clone}: {one.target} {change}, "
            f"{span_of([model.lookahead], unit)} later")


def said_branches(script: Script, watches: List[Watch], model: Model, unit: Optional[Unit]) -> Dict[str, List[str]]:
    """Returns for each branch its own decisions in words."""
    made = {watch.new: watch for watch in watches}
    found: Dict[str, List[str]] = {}
    for branch in script.branches():
        if branch in made:
            found[branch] = [said_watch(made[branch], model, unit)]
            continue
        own = [one for one in script.decisions if one.kind == "set" and one.clone == branch]
        found[branch] = [said_set(one, model, unit) for one in sorted(own, key=lambda one: one.at)]
        end = script.end(branch)
        if end is not None:
            found[branch].append(f"it ends at {at_time(end, unit)}")
    return found
