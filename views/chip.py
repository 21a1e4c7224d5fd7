"""The chip: its units, reset lines and masters, as a topology has them.

The program writes its own topology (`table`), and takes that of a file in its place. Nothing of it is kept here. The
folder topologies/ has that of the program as a file, which is read if no program is at hand, and the same chip with the
published numbers of its reset lines. An object with records of such lines is judged over the latter, unless the caller
names another one; which one it was is told.
"""

import os
from typing import Iterable, NamedTuple, Optional, Sequence

import faults
import names
import objects
import program
import reached
from told import tell
from topology import FOLDER, OWN, PUBLISHED, Node, Topology, parsed


class Chip(NamedTuple):
    """The units of a chip by their numbers, in the order of the topology."""

    source: Optional[str]  # the file of the topology; None if it is the program's own
    nodes: dict[int, Node]
    lines: dict[int, Optional[int]]  # the reset lines, each with what the topology says that it resets
    owners: dict[int, tuple[int, ...]]  # the masters, each with its processors
    resets: dict[int, tuple[int, ...]]  # the reset lines, each with all that it resets on the chip

    def words(self) -> list[str]:
        """The words by which the program takes this topology."""
        return [self.source] if self.source else []

    def of_kind(self, kind: str) -> list[int]:
        """The numbers of the nodes of a kind, rising."""
        return sorted(node.number for node in self.nodes.values() if node.kind == kind)

    def is_kind(self, number: int, kind: str) -> bool:
        """Whether a number is that of a node of this kind."""
        return number in self.nodes and self.nodes[number].kind == kind

    def is_above(self, power: int, number: int) -> bool:
        """Whether a power node is above a node, at any height."""
        parent = self.nodes[number].parent
        return parent is not None and (parent == power or self.is_above(power, parent))

    def below(self, power: int) -> list[int]:
        """The nodes below a power node, at any height."""
        return [number for number in self.nodes if self.is_above(power, number)]

    def has(self, number: int) -> int:
        """The capabilities of a slave: those of its last state."""
        return self.nodes[number].states[-1]

    def value_name(self, number: int, value: int) -> str:
        """The value of a node in words: the state of a slave, the mode of a processor, whether a power node is up."""
        if self.is_kind(number, "processor"):
            return names.MODES.get(value, str(value))
        return self.kept_name(number, value)

    def kept_name(self, number: int, value: int) -> str:
        """A value that the device has in words; of a processor, whether it runs."""
        return Topology(self.nodes, self.lines, self.owners).kept_name(number, value)


class Board(NamedTuple):
    """A configuration object over a chip."""

    found: objects.Object
    chip: Chip


def chip_of(lines: Iterable[bytes], source: Optional[str]) -> Chip:
    """The chip of the lines of a topology in which nothing is wrong."""
    chip = Chip(source, *parsed(lines), {})
    chip.resets.update({line: reached.all_targets(chip, line) for line in chip.lines})
    return chip


def read(source: Optional[str] = None) -> Chip:
    """The chip of the file of a topology, or the program's own."""
    if source is None and os.environ.get("PMU_PROGRAM"):
        return chip_of(program.run(["table"]).split(b"\n"), None)
    content = program.read_file(source or OWN)
    try:
        return chip_of(content.split(b"\n"), source)
    except (ValueError, TypeError, KeyError, IndexError):
        raise program.BadUse(f"{faults.name_of(source or OWN)}: this is no topology; ./pmu table writes one") from None


def judged(path: str, found: objects.Object, source: str) -> None:
    """Has the program judge a topology over the object of a file. What it says of a fault is handed on."""
    if os.environ.get("PMU_PROGRAM"):
        first = found.records("master")[0].node
        program.run(["reach", path, str(first), source])


def published_lines(found: objects.Object, chip: Chip) -> list[int]:
    """The published reset lines that an object has records of, and a chip lacks."""
    return [record.line for record in found.records("reset") if record.line in names.RESETS and record.line not in chip.lines]


def shown(source: Optional[str]) -> str:
    """A topology as it is told."""
    if source is None:
        return "the program's own topology"
    return f"topologies/{os.path.basename(source)}" if os.path.dirname(source) == FOLDER else faults.name_of(source)


def chosen_for(paths: Sequence[str], found: Sequence[objects.Object], words: Sequence[str]) -> list[Board]:
    """The objects of some files over the topology that the last word of a view names. If none is named it is that of the
    published reset lines if an object has records of them, else the program's own."""
    own = read()
    lines = {line for each in found for line in published_lines(each, own)}
    source = words[0] if words else PUBLISHED if lines else None
    for path, each in zip(paths, found):
        if source is not None:
            judged(path, each, source)
    chip = own if source is None else read(source)
    if lines:
        tell(f"pmu: the object has records of {len(lines)} published reset lines; it is judged over {shown(source)}")
    return [Board(each, chip) for each in found]


def chosen(path: str, found: objects.Object, words: Sequence[str] = ()) -> Board:
    """The object of a file over the topology that the last word of a view names, or over the one that fits it."""
    return chosen_for([path], [found], words)[0]
