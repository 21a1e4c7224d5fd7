"""The fewest records of an object to change so that all rules of a policy hold.

A record is changed by taking masters out of a word of it: what an object permits is only ever less then. Which records are the
fewest is found by search: of a path that breaks a rule one step has to be cut, by changing a record of each reason that it has,
and each way to do so is tried, those with fewer records first. At the end each of the records keeps all that it may.
"""

import heapq
import itertools
from dataclasses import replace
from typing import Iterator, NamedTuple, Optional, Sequence

import objects
import permits
from chip import Board

# The words of a record that permit something.
WORDS = {
    "master": ("suspend", "wake"),
    "slave": ("mask",),
    "power": ("mask",),
    "reset": ("mask",),
    "shutdown": ("mask",),
    "config": ("base",),
}

# A set of records by their bytes.
Records = frozenset[int]

# A reason for a step: sets of records, each of which ends it if all of them permit nothing more.
Reason = list[Records]


class Question(NamedTuple):
    """That a unit isn't in the reach of a master."""

    master: int
    kind: str
    unit: int


class Grounds(NamedTuple):
    """All reasons for the steps of paths."""

    leads: dict[tuple[int, int], list[Reason]]  # from a master to another
    brings: dict[tuple[int, str, int], list[Reason]]  # from a master to a unit


def slaves_below(board: Board, power: int, master: int) -> Records:
    """The records by which a master may use slaves below a power node."""
    bit = permits.masters(board)[master].mask
    found = [record for record in board.found.records("slave") if record.mask & bit and board.chip.is_kind(record.node, "slave")]
    return frozenset(record.offset for record in found if board.chip.is_above(power, record.node))


def reason_of(board: Board, given: permits.Reason, master: Optional[int]) -> Reason:
    """What ends a reason. A force of a node that is above slaves of a master alone ends too if it may use none of them."""
    if given.record.kind == "master" and given.why == "above":
        return []
    ends = [frozenset([given.record.offset])]
    if given.why == "force" and master is not None and not permits.falls(board.chip, given.record.node, master):
        ends.append(slaves_below(board, given.record.node, master))
    return ends


def grounds_of(board: Board, questions: Sequence[Question]) -> Grounds:
    """The reasons for all steps that a path to a unit in question may have."""
    masters = list(permits.masters(board))
    leads = {(a, b): [reason_of(board, it, b) for it in permits.leads(board, a, b)] for a, b in itertools.permutations(masters, 2)}
    ends = {(a, asked.kind, asked.unit) for a in masters for asked in questions if asked.kind != permits.MASTER}
    return Grounds(leads, {end: [reason_of(board, it, None) for it in permits.brings(board, *end)] for end in ends})


def left(reasons: Sequence[Reason], changed: Records) -> list[Reason]:
    """The reasons that are left if some records are changed."""
    return [reason for reason in reasons if not any(end <= changed for end in reason)]


def path_to(grounds: Grounds, asked: Question, changed: Records) -> Optional[list[list[Reason]]]:
    """The reasons of each step of a shortest path to a unit, or None if no path is left."""
    ahead: list[tuple[int, list[list[Reason]]]] = [(asked.master, [])]
    seen = {asked.master}
    for node, path in ahead:
        if asked.kind == permits.MASTER and node == asked.unit:
            return path
        last = left(grounds.brings.get((node, asked.kind, asked.unit), []), changed)
        if last:
            return [*path, last]
        for (a, b), reasons in grounds.leads.items():
            step = left(reasons, changed) if a == node and b not in seen else []
            if step:
                seen.add(b)
                ahead.append((b, [*path, step]))
    return None


def cuts_of(step: Sequence[Reason]) -> Iterator[Records]:
    """The sets of records that end all reasons of a step; none if one can't be ended."""
    for ends in itertools.product(*step):
        yield frozenset().union(*ends)


def fewest(board: Board, questions: Sequence[Question]) -> Optional[Records]:
    """The fewest records that have to be changed, of these the fewest of slaves; or None if no change of records is enough."""
    grounds = grounds_of(board, questions)
    slaves = frozenset(record.offset for record in board.found.records("slave"))
    count = itertools.count()
    ahead: list[tuple[int, int, int, Records]] = [(0, 0, next(count), frozenset())]
    seen: set[Records] = set()
    while ahead:
        *_, changed = heapq.heappop(ahead)
        broken = next(filter(None, (path_to(grounds, asked, changed) for asked in questions)), None)
        if broken is None:
            return changed
        for cut in (cut for step in broken for cut in cuts_of(step)):
            more = changed | cut
            if more not in seen:
                seen.add(more)
                heapq.heappush(ahead, (len(more), len(more & slaves), next(count), more))
    return None


# What becomes of the records.


def with_word(record: objects.Record, word: str, value: int) -> objects.Record:
    """A record with another value of a word."""
    place = objects.FIELDS[record.kind].index(word)
    return objects.Record(record.kind, record.offset, (*record.words[:place], value, *record.words[place + 1 :]))


def with_records(found: objects.Object, records: dict[int, objects.Record]) -> objects.Object:
    """An object with others in place of some records."""
    sections = [replace(it, records=tuple(records.get(record.offset, record) for record in it.records)) for it in found.sections]
    return replace(found, sections=tuple(sections))


def holds(board: Board, found: objects.Object, questions: Sequence[Question]) -> bool:
    """Whether no unit in question is in a reach of an object."""
    other = Board(found, board.chip)
    for asked in questions:
        ends = [way[-1] for way in permits.paths(other, asked.master)]
        if asked.kind == permits.MASTER and asked.unit in ends:
            return False
        if asked.kind != permits.MASTER and any(permits.brings(other, end, asked.kind, asked.unit) for end in ends):
            return False
    return True


def mended(board: Board, questions: Sequence[Question], changed: Records) -> dict[int, objects.Record]:
    """The records of a set by their bytes, each with all bits of masters that it may keep."""
    records = {record.offset: record for section in board.found.sections for record in section.records if record.offset in changed}
    bits = [master.mask for master in permits.masters(board).values()]
    cleared = dict(records)
    for offset, record in records.items():
        for word in WORDS[record.kind]:
            cleared[offset] = with_word(cleared[offset], word, getattr(record, word) & ~sum(bits))
    for offset, record in records.items():
        for word, bit in itertools.product(WORDS[record.kind], bits):
            if getattr(record, word) & bit:
                kept = with_word(cleared[offset], word, getattr(cleared[offset], word) | bit)
                if holds(board, with_records(board.found, {**cleared, offset: kept}), questions):
                    cleared[offset] = kept
    return cleared


def lost(board: Board, before: objects.Record, after: objects.Record) -> str:
    """Which masters a record no longer has, in words."""
    said = []
    for word in WORDS[before.kind]:
        gone = getattr(before, word) & ~getattr(after, word)
        masters = [node for node, record in permits.masters(board).items() if record.mask & gone]
        said += [f"{word} without {permits.listed(masters)}"] if masters else []
    return ", ".join(said)


class Change(NamedTuple):
    """A record to change."""

    before: objects.Record
    after: objects.Record
    lost: str  # which masters it no longer has


class Repair(NamedTuple):
    """The records to change, in the order of the object; or what no change of records makes hold."""

    changes: list[Change]
    unmet: list[Question]


def repair(board: Board, questions: Sequence[Question]) -> Repair:
    """The fewest records to change so that no unit in question is in a reach."""
    unmet = [asked for asked in questions if fewest(board, [asked]) is None]
    if unmet:
        return Repair([], unmet)
    records = mended(board, questions, fewest(board, questions) or frozenset())
    before = [record for section in board.found.sections for record in section.records if record.offset in records]
    return Repair([Change(it, records[it.offset], lost(board, it, records[it.offset])) for it in before], [])
