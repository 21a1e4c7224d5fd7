"""Which records of an object give which step of a reach.

The program says what is in a reach, and names one reason. Here are all of them, each with its record. What leads to
what is defined in docs/FORMATS.md, "The text of a reach"; a reset line resets what it does on the chip (`reached.py`), which
can be more than the program has.
"""

from typing import Iterator, NamedTuple, Optional, Sequence

import names
import objects
import program
import reached
from chip import Board, Chip

# The subtypes of a shutdown that want a permission: more than the master itself.
SHUTDOWNS = (1, 2)

# The kinds of members of a reach, in their order.
MASTER, SLAVE, POWER, LINE = "master", "slave", "power", "line"


class Reason(NamedTuple):
    """Why a step of a reach is there."""

    why: str  # the word that the text of a reach has for it
    record: objects.Record
    detail: str


class Member(NamedTuple):
    """A member of a reach, with its first reason and path."""

    kind: str
    number: int
    why: str
    path: tuple[int, ...]

    def __str__(self) -> str:
        """As the program writes it."""
        return " ".join(map(str, [self.kind, self.number, self.why, *self.path]))


def masters(board: Board) -> dict[int, objects.Record]:
    """The records of the masters by their nodes, in their order."""
    return {record.node: record for record in board.found.records("master")}


def listed(numbers: Sequence[int]) -> str:
    """The names of nodes in a row."""
    return ", ".join(map(names.node_name, numbers))


def owner(board: Board, proc: int) -> Optional[int]:
    """The master to which a processor belongs, or None. No two masters of an object have the same one."""
    return next((node for node in masters(board) if proc in board.chip.owners[node]), None)


def slaves_of(board: Board, mask: int) -> list[int]:
    """The slaves that the master with this bit may use."""
    records = board.found.records("slave")
    return [record.node for record in records if board.chip.is_kind(record.node, "slave") and record.mask & mask]


def _words(board: Board, a: int, b: int) -> Iterator[Reason]:
    """The suspend and the wake word of a master that has the bit of another."""
    record, bit = masters(board)[a], masters(board)[b].mask
    for why, word in (("suspend", record.suspend), ("wake", record.wake)):
        if word & bit:
            yield Reason(why, record, f"its {why} word has the bit of {names.node_name(b)}")


def falls(chip: Chip, number: int, master: int) -> list[int]:
    """The processors of a master that go off if this node is forced down: it, or those below it."""
    return [proc for proc in chip.owners[master] if proc == number or chip.is_above(number, proc)]


def _forced(board: Board, number: int, master: int) -> str:
    """What of a master goes down with a power node, in words; or nothing."""
    name, node = names.node_name(number), names.node_name(master)
    procs = falls(board.chip, number, master)
    slaves = [slave for slave in slaves_of(board, masters(board)[master].mask) if board.chip.is_above(number, slave)]
    if number in procs:
        return f"it is a processor of {node}"
    parts = [f"above processor {listed(procs)}"] if procs else []
    parts += [f"above {listed(slaves)}, which {node} may use"] if slaves else []
    return f"{name} is {' and '.join(parts)}" if parts else ""


def _forces(board: Board, a: int, b: int) -> Iterator[Reason]:
    """The power records by which a master forces something of another down."""
    bit = masters(board)[a].mask
    for record in board.found.records("power"):
        if record.mask & bit and record.node in board.chip.nodes:
            detail = _forced(board, record.node, b)
            if detail:
                yield Reason("force", record, detail)


def _line_detail(chip: Chip, line: int, wanted: Sequence[int]) -> str:
    """What a line resets of some units, in words, or nothing."""
    reset = [number for number in chip.resets.get(line, ()) if number in wanted]
    if not reset:
        return ""
    said = f"line {names.line_name(line) if line in names.RESETS else line} resets {listed(reset)}"
    return said if chip.lines[line] in reset else f"{said} on the chip ({reached.effect_of(line).bit})"


def resets(board: Board, a: int, wanted: Sequence[int]) -> Iterator[Reason]:
    """Why a master may reset one of some units."""
    bit = masters(board)[a].mask
    for record in board.found.records("reset"):
        detail = _line_detail(board.chip, record.line, wanted) if record.mask & bit else ""
        if detail:
            yield Reason("reset", record, detail)


def _everybody(board: Board, a: int) -> Iterator[Reason]:
    """What leads to all masters."""
    name, bit = names.node_name(a), masters(board)[a].mask
    for record in board.found.records("shutdown"):
        if record.subtype in SHUTDOWNS and record.mask & bit:
            yield Reason("shutdown", record, f"{name} may shut down more than itself")
    for record in board.found.records("config"):
        if record.base & bit:
            yield Reason("config", record, f"{name} may set the configuration")


def leads(board: Board, a: int, b: int) -> list[Reason]:
    """All reasons for which a master leads to another, in the order in which the program tries them."""
    return [*_words(board, a, b), *_forces(board, a, b), *resets(board, a, board.chip.owners[b]), *_everybody(board, a)]


def _brings_slave(board: Board, a: int, slave: int) -> Iterator[Reason]:
    """Why a slave is in the reach of a master: it may use it, force what is above it down, or reset it."""
    bit = masters(board)[a].mask
    for record in board.found.records("slave"):
        if record.node == slave and record.mask & bit:
            yield Reason("use", record, f"its mask has the bit of {names.node_name(a)}")
    for record in board.found.records("power"):
        if record.mask & bit and board.chip.is_above(record.node, slave):
            yield Reason("force", record, f"{names.node_name(record.node)} is above {names.node_name(slave)}")
    yield from resets(board, a, [slave])


def _brings_power(board: Board, a: int, power: int) -> Iterator[Reason]:
    """Why a power node is in the reach of a master: it is above a processor of it, or above a slave that is in the reach."""
    chip = board.chip
    for proc in chip.owners[a]:
        if chip.is_above(power, proc):
            record = masters(board)[a]
            yield Reason("above", record, f"{names.node_name(power)} is above its processor {names.node_name(proc)}")
    for slave in chip.of_kind("slave"):
        if chip.is_above(power, slave):
            for reason in _brings_slave(board, a, slave):
                above = f"{names.node_name(power)} is above {names.node_name(slave)}"
                yield Reason("above", reason.record, f"{above}: {reason.why}")


def _brings_line(board: Board, a: int, line: int) -> Iterator[Reason]:
    """The records by which a master may use a reset line of the chip."""
    for record in board.found.records("reset"):
        if record.line == line and line in board.chip.lines and record.mask & masters(board)[a].mask:
            yield Reason("reset", record, f"its mask has the bit of {names.node_name(a)}")


def brings(board: Board, a: int, kind: str, number: int) -> list[Reason]:
    """All reasons for which a master brings a slave, power node or reset line into a reach."""
    ways = {SLAVE: _brings_slave, POWER: _brings_power, LINE: _brings_line}
    return list(ways[kind](board, a, number))


def paths(board: Board, start: int) -> list[tuple[int, ...]]:
    """All paths of masters from one, none of them twice in a path: shorter ones first, then by their places."""
    order = list(masters(board))
    shown: list[tuple[int, ...]] = []
    ahead: list[tuple[int, ...]] = [(start,)]
    led = {(a, b) for a in order for b in order if a != b and leads(board, a, b)}
    while ahead:
        shown += ahead
        ahead = [(*path, b) for path in ahead for b in order if b not in path and (path[-1], b) in led]
    return shown


def unknown_act(chip: Chip, record: objects.Record) -> Optional[str]:
    """What a record lets a master do to something of which the chip doesn't say what it is, or None: `use` or `force` what is
    no node of that kind, `reset` by a line that isn't there or resets none of the nodes."""
    first = record.words[0]
    if record.kind == "slave":
        return None if chip.is_kind(first, "slave") else "use"
    if record.kind == "power":
        return None if chip.is_kind(first, "power") or chip.is_kind(first, "processor") else "force"
    return "reset" if record.kind == "reset" and not chip.resets.get(first) else None


def units(chip: Chip) -> list[tuple[str, int]]:
    """What may be in a reach beside masters, in the order of its text."""
    numbers = {SLAVE: chip.of_kind("slave"), POWER: chip.of_kind("power"), LINE: sorted(chip.lines)}
    return [(kind, number) for kind, found in numbers.items() for number in found]


def reach(board: Board, start: int) -> list[Member]:
    """The reach of a master on the chip, each member with its first path and first reason, in the order of its text."""
    first: dict[int, tuple[int, ...]] = {}
    for way in paths(board, start):
        first.setdefault(way[-1], way)
    found = []
    for master in masters(board):
        if master in first:
            way = first[master]
            why = leads(board, *way[-2:])[0].why if len(way) > 1 else "self"
            found.append(Member(MASTER, master, why, way))
    for kind, number in units(board.chip):
        for way in first.values():
            reasons = brings(board, way[-1], kind, number)
            if reasons:
                found.append(Member(kind, number, reasons[0].why, way))
                break
    return found


def checked_reach(path: str, board: Board, start: int) -> list[Member]:
    """The reach of a master of the object of a file, on the chip. What the program has in the reach has to be in it."""
    found = reach(board, start)
    have = {(member.kind, str(member.number)) for member in found}
    for line in program.run_text(["reach", path, str(start), *board.chip.words()]):
        kind, number, *_ = line.split()
        if (kind, number) not in have:
            node = names.node_name(start)
            raise program.BadUse(f"the program has {kind} {number} in the reach of {node}, and no record gives it")
    return found
