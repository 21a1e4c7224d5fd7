"""`lint OBJ [SCRIPT] [TOPO]`: what the program takes and then passes over, and what gives much away.

OBJ is an object, its text, or the C file of the vendor's tools. A line has the file, the place, the record or the line of
the script, what is said of it, and the name of the check: `FILE:LINE: TEXT: MESSAGE [CHECK]`, or in an object
`FILE: TEXT (word N): MESSAGE [CHECK]`. They come by place: the records as they stand in the object, and behind them the lines
of the script. What is said of one record comes in the order of the checks.
"""

import tempfile
from typing import Callable, Iterator, NamedTuple, Optional, Sequence

import chip as chips
import faults
import findings
import idle
import lines as texts
import names
import objects
import outages
import permits
import program
import reached
import sources
import to_numbers
from chip import Board, Chip
from findings import NOTE, WARNING, Finding
from forms import BAD_LINE, FOUND
from objects import Record

USAGE = "usage: ./pmu lint [--strict] [--ignore CHECK] [--json | --sarif] OBJ [SCRIPT] [TOPO]"

Said = Iterator[tuple[Record, str]]

# The words of a record that are sets of masters.
MASKS = {
    "master": ("suspend", "wake"),
    "slave": ("mask",),
    "group": ("mask",),
    "power": ("mask",),
    "reset": ("mask",),
    "shutdown": ("mask",),
    "config": ("base", "overlay"),
}

# The flags that a record may have.
FLAGS = {"slave": objects.SHAREABLE, "prefer": objects.IN_USE}

name = names.node_name


def may_use(board: Board, node: int, slave: int) -> bool:
    """Whether a master may use a slave."""
    return slave in permits.slaves_of(board, permits.masters(board)[node].mask)


def masters_of(board: Board, mask: int) -> list[int]:
    """The masters that have a bit of this mask."""
    return [node for node, record in permits.masters(board).items() if record.mask & mask]


def lacking(chip: Chip, record: Record) -> Optional[str]:
    """What is said of a record whose node, line or subtype the chip or the call hasn't, or None."""
    if record.kind == "shutdown" and record.subtype not in permits.SHUTDOWNS:
        return f"no call has the subtype {record.subtype}" if record.subtype else "a master may always shut itself down"
    if record.kind == "reset" and record.line not in chip.lines:
        return f"{names.line_name(record.line)} is no reset line of the table of the chip"
    if record.kind == "power" and permits.unknown_act(chip, record):
        return f"{name(record.node)} is no power node or processor of the table of the chip"
    if record.kind in ("slave", "prefer") and not chip.is_kind(record.node, "slave"):
        return f"{name(record.node)} is no slave of the table of the chip"
    return None


def not_in_table(board: Board) -> Said:
    """A record of what the chip or the call lacks."""
    for section in board.found.sections:
        for record in section.records:
            message = lacking(board.chip, record)
            if message:
                act = permits.unknown_act(board.chip, record)
                users = masters_of(board, record.mask) if act else []
                seen = f"; reach and isolate don't see that {permits.listed(users)} may {act} it" if users else ""
                yield record, message + seen


def users_of_lines(board: Board) -> Iterator[tuple[Record, str]]:
    """Each record of a reset line of the chip that a master may reset, with these masters."""
    for record in board.found.records("reset"):
        users = masters_of(board, record.mask)
        if users and record.line in board.chip.lines:
            yield record, permits.listed(users)


def no_unit(board: Board) -> Said:
    """A line of what is no unit, as a watchdog or a signal to the PL."""
    for record, users in users_of_lines(board):
        if permits.unknown_act(board.chip, record):
            line = names.line_name(record.line)
            yield record, f"{line} resets none of the chip's nodes; reach and isolate don't see that {users} may reset it"


def several_units(board: Board) -> Said:
    """A line that resets more on the chip than the program has."""
    for record, users in users_of_lines(board):
        more = reached.more_words(board.chip, record.line)
        if more:
            yield record, f"{users} may reset {more} by {names.line_name(record.line)}, and reach and isolate don't see it"


def no_master(board: Board) -> Said:
    """Bits of a mask that no master has."""
    bits = sum(record.mask for record in board.found.records("master"))
    for section in board.found.sections:
        for record in section.records:
            for word in MASKS.get(record.kind, ()):
                stray = getattr(record, word) & ~bits
                if stray:
                    yield record, f"{stray:#x} of its {word} word is of no master"


def no_flag(board: Board) -> Said:
    """Flags without a meaning."""
    for kind, known in FLAGS.items():
        for record in board.found.records(kind):
            if record.flags & ~known:
                yield record, f"{record.flags & ~known:#x} of its flags means nothing"


def no_user(board: Board) -> Said:
    """A slave that no master may use."""
    for record in board.found.records("slave"):
        if board.chip.is_kind(record.node, "slave") and not masters_of(board, record.mask):
            yield record, f"no master may use {name(record.node)}"


def preallocations(board: Board) -> Iterator[tuple[Record, int]]:
    """Each preallocation of a slave, with each master that it is for."""
    for group, records in board.found.groups():
        for record in records:
            for node, master in permits.masters(board).items():
                if board.chip.is_kind(record.node, "slave") and group.mask & master.mask:
                    yield record, node


def no_permission(board: Board) -> Said:
    """A preallocation of what the master may not use."""
    for record, node in preallocations(board):
        if not may_use(board, node, record.node):
            yield record, f"it is for {name(node)}, which may not use {name(record.node)}"


def no_capability(board: Board) -> Said:
    """A preallocation with what the slave lacks."""
    for record in board.found.records("prefer"):
        if board.chip.is_kind(record.node, "slave"):
            has = board.chip.has(record.node)
            for word in ("current", "preset"):
                more = getattr(record, word) & ~has
                if more:
                    yield record, f"{name(record.node)} lacks {names.capabilities(more)} of its {word} word"


def preallocated_twice(board: Board) -> Said:
    """A second preallocation of a slave for a master is passed over."""
    seen: set[tuple[int, int]] = set()
    for record, node in preallocations(board):
        if (node, record.node) in seen:
            yield record, f"an earlier one of {name(record.node)} for {name(node)} counts"
        seen.add((node, record.node))


def only_preset(board: Board) -> Said:
    """Of a preallocation for another master than the first, the flag and the current word are passed over."""
    first = next(iter(permits.masters(board)))
    for record, node in preallocations(board):
        if node != first and (record.flags & objects.IN_USE or record.current):
            yield record, f"for {name(node)}, which isn't the first master, its preset alone counts"


def not_shareable(board: Board) -> Said:
    """A slave that one master at a time may use, and that several have from the start."""
    shareable = {record.node for record in board.found.records("slave") if record.flags & objects.SHAREABLE}
    takers: dict[int, int] = {}
    for record, node in preallocations(board):
        is_taken = record.flags & objects.IN_USE or record.preset
        if is_taken and record.node not in shareable and may_use(board, node, record.node):
            first = takers.setdefault(record.node, node)
            if first != node:
                both = f"{name(first)} and {name(node)}"
                yield record, f"{name(record.node)} isn't shareable, and is preallocated for {both}"


def forces_a_master(board: Board) -> Said:
    """A power record by which a master puts the processors of another down."""
    for record in board.found.records("power"):
        fallen = [node for node in permits.masters(board) if permits.falls(board.chip, record.node, node)]
        forcing = [node for node in masters_of(board, record.mask) if set(fallen) - {node}]
        if forcing:
            down = f"{name(record.node)} down, and with it {permits.listed(fallen)}"
            yield record, f"{permits.listed(forcing)} may force {down}"


def leads_to_all(board: Board) -> Said:
    """What leads a master to all others at once."""
    masters = permits.masters(board)
    if len(masters) == 1:
        return
    for node, master in masters.items():
        others = sum(record.mask for record in masters.values()) & ~master.mask
        words = [word for word in ("suspend", "wake") if getattr(master, word) & others == others]
        if words:
            yield master, f"{name(node)} may {' and '.join(words)} all others"
    for record in board.found.records("shutdown"):
        users = masters_of(board, record.mask)
        if users and record.subtype in permits.SHUTDOWNS:
            yield record, f"{permits.listed(users)} may shut all others down"
    for record in board.found.records("config"):
        users = masters_of(board, record.base)
        if users:
            yield record, f"{permits.listed(users)} may set the configuration of all others"


class Check(NamedTuple):
    """A check of an object."""

    look: Callable[[Board], Said]
    level: str
    about: str


# The checks of an object in their order. A warning is of a record that doesn't do what it says. A note is harmless in itself:
# what each generated object has, and what gives much away, which is for a policy to judge.
CHECKS = {
    "not-in-table": Check(not_in_table, WARNING, "A record of what the chip lacks or has as another kind"),
    "no-unit": Check(no_unit, NOTE, "A reset line of what is no unit of the chip"),
    "no-master": Check(no_master, WARNING, "Bits of a mask that no master has"),
    "no-flag": Check(no_flag, WARNING, "Flags without a meaning"),
    "no-user": Check(no_user, NOTE, "A slave that no master may use"),
    "no-permission": Check(no_permission, WARNING, "A preallocation of what the master may not use"),
    "no-capability": Check(no_capability, WARNING, "A preallocation with what the slave lacks"),
    "preallocated-twice": Check(preallocated_twice, WARNING, "A second preallocation of a slave for a master"),
    "only-preset": Check(only_preset, NOTE, "A preallocation of which the preset alone counts"),
    "not-shareable": Check(not_shareable, WARNING, "A slave for one master at a time, preallocated for several"),
    "several-units": Check(several_units, NOTE, "A reset line that resets more than the program has"),
    "forces-a-master": Check(forces_a_master, NOTE, "A permission to put another master's processors down"),
    "leads-to-all": Check(leads_to_all, NOTE, "A permission over all other masters"),
}

# What is said of the lines of a script.
OF_SCRIPTS = {
    "no-effect": "A line that does nothing, whatever comes before it",
    "not-heard": "A message of no master of the object",
    "refused": "A call that is refused, whatever comes before it",
}

RULES = {**{name: check.about for name, check in CHECKS.items()}, **OF_SCRIPTS}


class BadLine(program.BadUse):
    """A line of a script has no meaning: the exit is the program's for that."""

    status = BAD_LINE


def of_object(board: Board, source: sources.Source) -> Iterator[Finding]:
    """What is said of the records of an object, as they stand in it."""
    said = [(check, *each) for check in CHECKS for each in CHECKS[check].look(board)]
    for check, record, message in sorted(said, key=lambda each: each[1].offset):
        yield Finding(check, CHECKS[check].level, source.place(record), str(record), message)


def script_in_numbers(path: str) -> tuple[list[str], list[str]]:
    """The lines of a script in numbers, and as they are written. Each has a meaning."""
    content = program.read_file(path)
    made = to_numbers.in_numbers(content, path)
    fault = outages.first_fault(made)
    if fault:
        raise BadLine(f"{faults.name_of(path)}:{fault[0]}: {fault[2]}")
    return made.decode("ascii").split("\n"), content.decode("latin-1").split("\n")


def of_script(board: Board, path: str) -> Iterator[Finding]:
    """What is said of the lines of a script over an object."""
    for each in idle.idle(board, *script_in_numbers(path)):
        yield Finding(each.check, WARNING, findings.Place(faults.name_of(path), line=each.line), each.text, each.message)


class Options(NamedTuple):
    """What the words of the view ask for."""

    is_strict: bool
    form: str  # --json, --sarif, or nothing
    ignored: set[str]
    files: list[str]


def options(words: Sequence[str]) -> Options:
    """What the words ask for."""
    ahead, flags, ignored, paths = list(words), [], set(), []
    while ahead:
        word = ahead.pop(0)
        if word == "--ignore" and ahead:
            ignored.update(ahead.pop(0).split(","))
        elif word in ("--strict", "--json", "--sarif"):
            flags.append(word)
        else:
            paths.append(word)
    if not 1 <= len(paths) <= 3 or len(set(flags)) < len(flags) or {"--json", "--sarif"} <= set(flags) or paths[0].startswith("--"):
        raise program.BadUse(USAGE)
    unknown = sorted(ignored - set(RULES))
    if unknown:
        raise program.BadUse(f"no check is named {unknown[0]!r}{texts.like(unknown[0], RULES)}: they are {', '.join(RULES)}")
    form = next((flag for flag in flags if flag != "--strict"), "")
    return Options("--strict" in flags, form, ignored, paths)


def script_and_topology(paths: Sequence[str]) -> tuple[Sequence[str], Sequence[str]]:
    """The script and the topology behind an object. Which one a file alone is shows in it."""
    kind = faults.kind_of(program.read_file(paths[0])) if paths else ""
    if kind in ("is an object", "is an ELF file", "is a C file", "is the text of an object"):
        raise program.BadUse(f"{faults.name_of(paths[0])} {kind}, and a script or the text of a topology is wanted")
    is_topology = len(paths) == 1 and kind == "is the text of a topology"
    return ([], paths) if is_topology else (paths[:1], paths[1:])


def found_in(asked: Options) -> list[Finding]:
    """All that is said of the files, but for what isn't asked for."""
    script, topology = script_and_topology(asked.files[1:])
    with tempfile.TemporaryDirectory() as room:
        source = sources.read(asked.files[0], room)
        board = chips.chosen(source.path, source.found, topology)
        found = [*of_object(board, source), *(each for path in script for each in of_script(board, path))]
    return [each for each in found if each.check not in asked.ignored]


def main(words: list[str]) -> int:
    """Writes what is to be said of an object and a script, and gives the exit."""
    asked = options(words)
    found = found_in(asked)
    status = FOUND if asked.is_strict and any(each.level == WARNING for each in found) else 0
    if asked.form == "--sarif":
        said = findings.in_sarif("pmu lint", RULES, found)
    elif asked.form == "--json":
        said = findings.whole("lint", status, findings=[each.as_json() for each in found])
    else:
        said = findings.in_lines(found)
    print(said, end="")
    return status
