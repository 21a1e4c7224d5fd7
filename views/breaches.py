"""What of a policy an object breaks: the rules with the paths and records that break them, and what no rule judges."""

import fnmatch
import os
from typing import Iterable, Iterator, NamedTuple, Sequence

import names
import objects
import permits
import repair
from chip import Board
from forms import BROKEN, NOT_JUDGED
from rules import Policy, Rule


def reaches_of(path: str, board: Board) -> dict[int, set[tuple[str, int]]]:
    """What is in the reach of each master: kinds with numbers."""
    found = {master: permits.checked_reach(path, board, master) for master in permits.masters(board)}
    return {master: {(member.kind, member.number) for member in members} for master, members in found.items()}


def asked_of(rule: Rule, masters: Iterable[int]) -> list[int]:
    """The masters in whose reach the unit of a rule must not be."""
    if rule.word == "never":
        return [rule.master]
    return [master for master in masters if master != rule.master and (rule.kind != "master" or master != rule.unit)]


def breached_by(rule: Rule, reaches: dict[int, set[tuple[str, int]]]) -> list[int]:
    """The masters in whose reach the unit is, and shouldn't be."""
    return [master for master in asked_of(rule, reaches) if (rule.kind, rule.unit) in reaches[master]]


def questions_of(policy: Policy, board: Board) -> list[repair.Question]:
    """What must not be in which reach, by all rules."""
    masters = permits.masters(board)
    found = [repair.Question(master, rule.kind, rule.unit) for rule in policy.rules for master in asked_of(rule, masters)]
    return list(dict.fromkeys(found))


def ways_to(board: Board, master: int, kind: str, unit: int) -> list[tuple[int, ...]]:
    """The paths of masters that give a unit, the shortest first."""
    ways = permits.paths(board, master)
    if kind == "master":
        return [way for way in ways if way[-1] == unit]
    return [way for way in ways if permits.brings(board, way[-1], kind, unit)]


def name_of(kind: str, number: int) -> str:
    """A unit by its name."""
    return names.line_name(number) if kind == "line" else names.node_name(number)


class Steps:
    """The steps of the paths of breaches: each once, with all records that give it."""

    def __init__(self, board: Board) -> None:
        """No steps yet, of a board."""
        self.board = board
        self.reasons: dict[tuple[int, str], list[permits.Reason]] = {}

    def add(self, way: Sequence[int], kind: str, unit: int) -> None:
        """Adds the steps of a path to a unit."""
        for a, b in zip(way, way[1:]):
            self.reasons.setdefault((a, names.node_name(b)), permits.leads(self.board, a, b))
        if kind != "master":
            end = f"{kind} {name_of(kind, unit)}"
            self.reasons.setdefault((way[-1], end), permits.brings(self.board, way[-1], kind, unit))

    def lines(self) -> Iterator[str]:
        """A line for each record of each step."""
        for (a, end), reasons in self.reasons.items():
            for reason in reasons:
                at = f"{reason.record} (word {reason.record.place})"
                yield f"  {names.node_name(a)} > {end}: {reason.why}: {at}: {reason.detail}"


class Breach(NamedTuple):
    """A rule that a master breaks."""

    rule: Rule
    master: int
    ways: list[tuple[int, ...]]  # the paths of masters, the shortest first

    def paths(self) -> list[list[str]]:
        """The paths by names, each to its end."""
        last = [] if self.rule.kind == "master" else [f"{self.rule.kind} {name_of(self.rule.kind, self.rule.unit)}"]
        return [[*map(names.node_name, way), *last] for way in self.ways]

    def lines(self) -> Iterator[str]:
        """The breach, with each path that gives it."""
        yield f"{self.rule.place}: {self.rule.text}: broken by {names.node_name(self.master)}"
        for path in self.paths():
            yield f"  {' > '.join(path)}"


# What isn't judged.


class Unjudged(NamedTuple):
    """A record that permits masters something of which the topology doesn't say what it is."""

    record: objects.Record
    act: str  # use, force or reset
    name: str
    masters: list[int]

    def __str__(self) -> str:
        """The line of the record, with the masters that may do it."""
        at = f"{self.record} (word {self.record.place})"
        return f"not judged: {at}: {permits.listed(self.masters)} may {self.act} {self.name}"


def unjudged(board: Board) -> list[Unjudged]:
    """What permits masters something that no rule can speak of, in the order of the object."""
    found = []
    for record in (record for section in board.found.sections for record in section.records):
        act = permits.unknown_act(board.chip, record)
        masters = [node for node, master in permits.masters(board).items() if act and record.mask & master.mask]
        if act and masters:
            name = name_of("line" if record.kind == "reset" else record.kind, record.words[0])
            found.append(Unjudged(record, act, name.replace(" ", "_"), masters))
    return found


def is_allowed(policy: Policy, one: Unjudged, master: int) -> bool:
    """Whether a line of the rules takes a record that isn't judged for a master."""
    named = [rule.what for rule in policy.allowances if rule.master in (None, master)]
    return any(fnmatch.fnmatchcase(word, what) for what in named for word in (one.name, str(one.record.words[0])))


def not_allowed(policy: Policy, found: Sequence[Unjudged]) -> list[Unjudged]:
    """Those that no line takes, each with the masters for whom it isn't taken."""
    left = [one._replace(masters=[node for node in one.masters if not is_allowed(policy, one, node)]) for one in found]
    return [one for one in left if one.masters]


# All of it.


class Judgement(NamedTuple):
    """What a policy finds of an object."""

    rules: list[Rule]
    breaches: list[Breach]
    steps: Steps  # of the paths of the breaches
    unjudged: list[Unjudged]
    left: list[Unjudged]  # those that no line of the policy takes, with the masters for whom it doesn't

    @property
    def status(self) -> int:
        """The exit."""
        return BROKEN if self.breaches else NOT_JUDGED if self.left else os.EX_OK

    def broken(self) -> list[Rule]:
        """The rules that are broken, each once."""
        return [rule for rule in self.rules if any(breach.rule == rule for breach in self.breaches)]

    def lines(self) -> Iterator[str]:
        """All of it in lines."""
        for breach in self.breaches:
            yield from breach.lines()
        yield from ["the records that give each step:", *self.steps.lines()] if self.breaches else []
        yield from map(str, self.left)
        yield f"{len(self.rules) - len(self.broken())} of {len(self.rules)} rules hold"
        if self.unjudged:
            yield f"records not judged: {len(self.left)}; allowed: {len(self.unjudged) - len(self.left)}"


def judged(path: str, board: Board, policy: Policy) -> Judgement:
    """Judges the object of a file by a policy."""
    reaches = reaches_of(path, board)
    found = [(rule, master) for rule in policy.rules for master in breached_by(rule, reaches)]
    breaches = [Breach(rule, master, ways_to(board, master, rule.kind, rule.unit)) for rule, master in found]
    steps, unknown = Steps(board), unjudged(board)
    for breach in breaches:
        for way in breach.ways:
            steps.add(way, breach.rule.kind, breach.rule.unit)
    return Judgement(policy.rules, breaches, steps, unknown, not_allowed(policy, unknown))
