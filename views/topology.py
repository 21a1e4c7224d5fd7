"""The text of a topology: its units, reset lines and masters. docs/FORMATS.md has the format."""

import os
from typing import Iterable, NamedTuple, Optional

import lines as texts

FOLDER = os.path.join(os.path.dirname(os.path.dirname(os.path.abspath(__file__))), "topologies")
# That of the program, and the one with the published reset lines.
OWN, PUBLISHED = (os.path.join(FOLDER, name) for name in ("zynqmp.topology", "zynqmp-resets.topology"))

KINDS = {"power": "power", "proc": "processor", "slave": "slave"}

# What a state of a slave is called, by the first of these capabilities that it has.
ACCESS, CONTEXT, WAKEUP = 1, 2, 4
STATE_NAMES = {ACCESS: "on", CONTEXT: "retention", WAKEUP: "asleep"}


class Node(NamedTuple):
    """A unit of the chip."""

    number: int
    kind: str  # power, processor or slave
    parent: Optional[int]  # the power node directly above
    states: tuple[int, ...] = ()  # of a slave: the capabilities of each of its states


class Topology(NamedTuple):
    """The units by their numbers, in the order of the text."""

    nodes: dict[int, Node]
    lines: dict[int, Optional[int]]  # the reset lines, each with what it resets
    owners: dict[int, tuple[int, ...]]  # the masters, each with its processors

    def kept_name(self, number: int, value: int) -> str:
        """A value that the device has in words; of a processor, whether it runs."""
        states = self.nodes[number].states if number in self.nodes else ()
        said = [state_name(word) for word in states] or ["off", "on"]
        if value >= len(said):
            return str(value)
        return said[value] if said.count(said[value]) == 1 else f"{said[value]} ({value})"


def state_name(capabilities: int) -> str:
    """What a state of a slave with these capabilities is called."""
    return next((name for bit, name in STATE_NAMES.items() if capabilities & bit), "off")


def number_of(word: str) -> int:
    """A number of a topology."""
    number = texts.number_of(word)
    if number is None:
        raise ValueError(word)
    return number


def number_or_none(word: str) -> Optional[int]:
    """A number of a topology, or None for the word `none`."""
    return None if word == "none" else number_of(word)


def parsed(lines: Iterable[bytes]) -> Topology:
    """What the lines of a topology say, in which nothing is wrong; else an error of Python."""
    made, last = Topology({}, {}, {}), 0
    for line in lines:
        word, *rest = texts.words_of(line) or [""]
        if word in KINDS:
            last = number_of(rest[0])
            made.nodes[last] = Node(last, KINDS[word], number_or_none(rest[1]))
        elif word == "state":
            made.nodes[last] = made.nodes[last]._replace(states=(*made.nodes[last].states, number_of(rest[0])))
        elif word == "line":
            made.lines[number_of(rest[0])] = number_or_none(rest[1])
        elif word == "owner":
            master, *procs = map(number_of, rest)
            made.owners[master] = (*made.owners.get(master, ()), *procs)
        elif word:
            raise ValueError(word)
    return made


def read(path: str) -> Topology:
    """The topology of a file of the repository."""
    with open(path, "rb") as file:
        return parsed(file.read().split(b"\n"))
