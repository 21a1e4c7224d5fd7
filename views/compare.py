"""`compare [--json] OBJ OBJ [TOPO]`: what two objects permit otherwise, by masters, units and paths.

For each master there is what is in its reach by one object alone, with each path that gives it: the masters from the first to the
last, and why the last step is there. Then there are the steps themselves: what each master may do by records of its own, by the
one and by the other, and at last what no rule can speak of. The view ends with FOUND if the two differ. Both are judged over one
topology.
"""

import os
from typing import Iterable, Iterator, NamedTuple, Sequence

import chip as chips
import faults
import findings
import names
import objects
import options
import permits
import program
from chip import Board
from forms import FOUND

USAGE = "usage: ./pmu compare [--json] OBJ OBJ [TOPO]"
OPTIONS = {"--json": False}

# Which object it is by, in lines and in JSON.
FIRST, SECOND = "-", "+"
BY = {FIRST: "first", SECOND: "second"}

# What is in a reach, or what a step leads to: the kind and the number.
Unit = tuple[str, int]

# Of a master, each unit to which it has a step, with the words of its reasons.
Steps = dict[Unit, tuple[str, ...]]


class Path(NamedTuple):
    """A path of masters to a unit."""

    masters: tuple[str, ...]
    why: tuple[str, ...]  # the words of the reasons for the last step

    def __str__(self) -> str:
        """The masters in their order, and the reasons."""
        return f"{' > '.join(self.masters)} ({', '.join(self.why)})"


# Of a master, each unit in its reach with its paths.
Reach = dict[Unit, tuple[Path, ...]]


def words_of(reasons: Sequence[permits.Reason]) -> tuple[str, ...]:
    """The words of reasons, each once."""
    return tuple(dict.fromkeys(reason.why for reason in reasons))


def steps_of(board: Board, start: int) -> Steps:
    """What a master may do by records of its own: to other masters, and to units."""
    found = {(permits.MASTER, node): words_of(permits.leads(board, start, node)) for node in permits.masters(board) if node != start}
    found |= {unit: words_of(permits.brings(board, start, *unit)) for unit in permits.units(board.chip)}
    return {unit: words for unit, words in found.items() if words}


def reach_of(board: Board, start: int, steps: dict[int, Steps]) -> Reach:
    """What is in the reach of a master, by all paths: shorter ones first."""
    found: dict[Unit, list[Path]] = {}
    for way in permits.paths(board, start):
        ends = {unit: words for unit, words in steps[way[-1]].items() if unit[0] != permits.MASTER}
        if len(way) > 1:
            ends[permits.MASTER, way[-1]] = steps[way[-2]][permits.MASTER, way[-1]]
        for unit, words in ends.items():
            found.setdefault(unit, []).append(Path(tuple(map(names.node_name, way)), words))
    return {unit: tuple(paths) for unit, paths in found.items()}


class Alone(NamedTuple):
    """What is in the reach of a master by one object alone."""

    mark: str  # - if that is the first object, + if it is the second
    units: Reach


class Master(NamedTuple):
    """What differs of a master that both objects have."""

    node: int
    reach: tuple[Alone, Alone]
    steps: dict[Unit, tuple[tuple[str, ...], tuple[str, ...]]]  # those with other reasons, by the one and by the other


class Act(NamedTuple):
    """What one object alone permits of what no rule can speak of."""

    mark: str
    masters: list[int]
    said: str


class Differences(NamedTuple):
    """All that two objects permit otherwise."""

    masters: list[tuple[str, int]]  # those that one of them alone has
    common: list[Master]  # those that both have, which may have no difference
    acts: list[Act]

    def is_empty(self) -> bool:
        """Whether both permit the same."""
        return not (self.masters or self.acts or any(it.steps or it.reach[0].units or it.reach[1].units for it in self.common))


def acts_of(board: Board) -> dict[str, list[int]]:
    """What no rule can speak of, in words, with the masters that may do it."""
    found: dict[str, list[int]] = {}
    for section in board.found.sections:
        for record in section.records:
            act = permits.unknown_act(board.chip, record)
            users = [node for node, master in permits.masters(board).items() if act and record.mask & master.mask]
            if users:
                number = record.words[0]
                name = names.line_name(number) if record.kind == "reset" else names.node_name(number)
                found[f"{act} {record.kind if record.kind != 'reset' else 'line'} {name}"] = users
    return found


def other_acts(first: Board, second: Board) -> Iterator[Act]:
    """What one object alone permits of what no rule can speak of."""
    acts = acts_of(first), acts_of(second)
    for act in dict.fromkeys([*acts[0], *acts[1]]):
        for mark, ours, theirs in ((FIRST, acts[0], acts[1]), (SECOND, acts[1], acts[0])):
            left = [node for node in ours.get(act, []) if node not in theirs.get(act, [])]
            if left:
                yield Act(mark, left, act)


def master_of(node: int, boards: Sequence[Board], steps: Sequence[dict[int, Steps]]) -> Master:
    """What differs of a master."""
    first, second = (reach_of(board, node, of) for board, of in zip(boards, steps))
    lost = Alone(FIRST, {unit: paths for unit, paths in first.items() if unit not in second})
    gained = Alone(SECOND, {unit: paths for unit, paths in second.items() if unit not in first})
    own = [of[node] for of in steps]
    pairs = {unit: (own[0].get(unit, ()), own[1].get(unit, ())) for unit in {**own[0], **own[1]}}
    return Master(node, (lost, gained), {unit: pair for unit, pair in pairs.items() if pair[0] != pair[1]})


def differences(first: Board, second: Board) -> Differences:
    """What two objects permit otherwise."""
    boards = first, second
    masters = [permits.masters(board) for board in boards]
    alone = [(FIRST, node) for node in masters[0] if node not in masters[1]]
    alone += [(SECOND, node) for node in masters[1] if node not in masters[0]]
    steps = [{node: steps_of(board, node) for node in permits.masters(board)} for board in boards]
    common = [master_of(node, boards, steps) for node in masters[0] if node in masters[1]]
    return Differences(alone, common, list(other_acts(first, second)))


# As lines.


def grouped(units: dict[Unit, str]) -> dict[tuple[str, str], str]:
    """Units with the same thing said of them, by their names: kinds in their order, and numbers rising."""
    found: dict[tuple[str, str], list[str]] = {}
    for unit in ordered(units):
        kind, number = unit
        name = names.line_name(number) if kind == permits.LINE else names.node_name(number)
        found.setdefault((kind, units[unit]), []).append(name)
    return {key: ", ".join(said) for key, said in found.items()}


def ordered(units: Iterable[Unit]) -> list[Unit]:
    """Units by their kinds in the order of a reach, and by their numbers."""
    kinds = (permits.MASTER, permits.SLAVE, permits.POWER, permits.LINE)
    return sorted(units, key=lambda unit: (kinds.index(unit[0]), unit[1]))


def reach_lines(alone: Alone) -> Iterator[str]:
    """What is in one reach alone, with its paths."""
    said = {unit: "; ".join(map(str, paths)) for unit, paths in alone.units.items()}
    for (kind, paths), units in grouped(said).items():
        yield f"  {alone.mark} {kind} {units}: {paths}"


def step_lines(master: Master) -> Iterator[str]:
    """The steps that have other reasons."""
    said = {unit: " | ".join(", ".join(words) or "nothing" for words in pair) for unit, pair in master.steps.items()}
    for (kind, pair), units in grouped(said).items():
        yield f"  {kind} {units}: {pair}"


def lines_of(found: Differences) -> Iterator[str]:
    """What differs, by masters."""
    yield from (f"{mark} master {names.node_name(node)}" for mark, node in found.masters)
    for master in found.common:
        said = [line for alone in master.reach for line in reach_lines(alone)]
        yield from [f"in the reach of {names.node_name(master.node)} by one object alone:", *said] if said else []
    for master in found.common:
        said = list(step_lines(master))
        yield from [f"what {names.node_name(master.node)} may do itself:", *said] if said else []
    said = [f"  {act.mark} {permits.listed(act.masters)} may {act.said}" for act in found.acts]
    yield from ["not judged:", *said] if said else []


# As JSON.


def in_reach(master: Master, alone: Alone) -> Iterator[dict[str, object]]:
    """What is in one reach alone, as keys and values."""
    for unit in ordered(alone.units):
        paths = [{"masters": list(path.masters), "why": list(path.why)} for path in alone.units[unit]]
        yield {"by": BY[alone.mark], "master": names.node_name(master.node), **findings.unit(*unit), "paths": paths}


def in_step(master: Master) -> Iterator[dict[str, object]]:
    """The steps that have other reasons, as keys and values."""
    for unit in ordered(master.steps):
        first, second = master.steps[unit]
        yield {"master": names.node_name(master.node), **findings.unit(*unit), "first": list(first), "second": list(second)}


def in_json(found: Differences, paths: Sequence[str]) -> dict[str, object]:
    """What differs as keys and values."""
    return {
        "objects": [faults.name_of(path) for path in paths],
        "masters": [{"by": BY[mark], "master": names.node_name(node)} for mark, node in found.masters],
        "reaches": [it for master in found.common for alone in master.reach for it in in_reach(master, alone)],
        "steps": [it for master in found.common for it in in_step(master)],
        "not_judged": [{"by": BY[act.mark], "masters": list(map(names.node_name, act.masters)), "may": act.said} for act in found.acts],
    }


def main(words: Sequence[str]) -> int:
    """Compares what two objects permit."""
    given, files = options.taken(words, OPTIONS, USAGE)
    if len(files) not in (2, 3):
        raise program.BadUse(USAGE)
    paths, topology = files[:2], files[2:]
    found = differences(*chips.chosen_for(paths, [objects.load(path) for path in paths], topology))
    status = os.EX_OK if found.is_empty() else FOUND
    if given:
        print(findings.whole("compare", status, **in_json(found, paths)), end="")
    else:
        print(f"- {faults.name_of(paths[0])}\n+ {faults.name_of(paths[1])}")
        print("".join(line + "\n" for line in list(lines_of(found)) or ["both permit the same"]), end="")
    return status
