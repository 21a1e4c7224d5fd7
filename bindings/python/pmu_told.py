"""What the library answers and tells, as exceptions and dataclasses; pmu.py hands all of it on."""

from __future__ import annotations

import enum
from dataclasses import dataclass
from typing import Optional, Protocol, Union

# ---- Answers that aren't PMU_DONE ----


class Status(enum.IntEnum):
    """What a call of the library answers, by its name in pmu.h."""

    DONE = 0
    BAD_OBJECT = 2
    BAD_LINE = 3
    READ_FAULT = 4
    NO_ROOM = 5
    NO_MEMORY = 6
    TOO_LARGE = 7
    COMMAND_LEFT = 16
    NO_COMMAND = 17
    NO_NODE = 18
    CLOSED = 19


class PmuError(Exception):
    """What this binding raises."""


class NotDone(PmuError):
    """A call that answered anything but PMU_DONE: its `status`. `text` is what it had written by then."""

    status: int = 1

    def __init__(self, sentence: str, text: str = "") -> None:
        super().__init__(sentence)
        self.text = text


class BadObject(NotDone):
    """The bytes are no configuration object."""

    status = Status.BAD_OBJECT


class BadLine(NotDone):
    """A line of the script has no meaning."""

    status = Status.BAD_LINE


class ReadFault(NotDone):
    """The input can't be read."""

    status = Status.READ_FAULT


class NoRoom(NotDone):
    """The text doesn't fit the buffer."""

    status = Status.NO_ROOM


class NoMemory(NotDone):
    """Memory is wanted."""

    status = Status.NO_MEMORY


class TooLarge(NotDone):
    """The script is too large."""

    status = Status.TOO_LARGE


class CommandLeft(NotDone):
    """A command of the last step waits for its answer."""

    status = Status.COMMAND_LEFT


class NoCommand(NotDone):
    """No command waits for its answer."""

    status = Status.NO_COMMAND


class NoNode(NotDone):
    """The chip has no such node, or the object no such master."""

    status = Status.NO_NODE


class Closed(NotDone):
    """The handle holds no controller."""

    status = Status.CLOSED


class NoLibrary(PmuError):
    """There is no shared object of the library, or it has another interface."""


class OutOfRange(PmuError, ValueError):
    """A number doesn't fit the word that it is to be."""


_ERRORS: dict[int, type[NotDone]] = {
    error.status: error
    for error in (BadObject, BadLine, ReadFault, NoRoom, NoMemory, TooLarge, CommandLeft, NoCommand, NoNode, Closed)
}


def error_of(answer: int, text: str = "") -> NotDone:
    """The exception of an answer that isn't PMU_DONE; a NotDone itself if pmu.h has no such answer."""
    kind = _ERRORS.get(answer)
    if kind is not None:
        return kind((kind.__doc__ or "").rstrip("."), text)
    error = NotDone(f"an unknown answer: {answer}", text)
    error.status = answer
    return error


# ---- What a device gets, and what a step tells ----


@dataclass(frozen=True)
class Command:
    """A command to the device: a unit goes to a value. `line` says that the unit is a reset line, and else it is a node."""

    line: bool
    number: int
    value: int


class Device(Protocol):
    """What a controller drives."""

    def carry_out(self, command: Command) -> bool:
        """Whether the device took the command. One that it didn't take is given again in each later step."""


class ModelDevice:
    """A device that keeps the value of each unit that it was given, and refuses the commands on the nodes in `broken`."""

    def __init__(self) -> None:
        self.nodes: dict[int, int] = {}
        self.lines: dict[int, int] = {}
        self.broken: set[int] = set()

    def carry_out(self, command: Command) -> bool:
        """Keeps the value, if the unit isn't a node in `broken`."""
        if not command.line and command.number in self.broken:
            return False
        (self.lines if command.line else self.nodes)[command.number] = command.value
        return True


@dataclass(frozen=True)
class Outcome:
    """What became of a command: `before` is the value that the device took last before it."""

    command: Command
    before: int
    taken: bool


@dataclass(frozen=True)
class Start:
    """A processor starts at an address. It runs once the device has also taken the command that sets it to 1."""

    processor: int
    address: int


@dataclass(frozen=True)
class Reply:
    """A reply to a master: a status and three words. A late one has words of 0, and comes before the callbacks."""

    master: int
    status: int
    words: tuple[int, ...]


@dataclass(frozen=True)
class Callback:
    """A callback to a master: its number (30 to 32) and four arguments."""

    master: int
    number: int
    words: tuple[int, ...]


@dataclass(frozen=True)
class Drop:
    """A message of this master was dropped: it has no answer."""

    master: int


Event = Union[Outcome, Start, Reply, Callback, Drop]
Answer = Union[Reply, Callback, Drop]

_ACKNOWLEDGE = 31


@dataclass(frozen=True)
class Step:
    """What a step tells. `text` has the same as lines, each after the step's number.

    `answer` is the answer to the message of the step: the last event, if it is a reply to its sender, its acknowledgement (a
    callback 31) or its drop. If a message asks for no acknowledgement, a late reply to its sender can stand there.
    """

    number: int
    text: str
    events: tuple[Event, ...]
    answer: Optional[Answer] = None


@dataclass(frozen=True)
class NodeStatus:
    """What GET_NODE_STATUS tells a master of a node."""

    state: int
    requirement: int
    usage: int


def event_of(line: str) -> Event:
    """The event that a line of a step's text tells; ValueError if none is told so."""
    _, kind, *words = line.split(" ")
    numbers = tuple(map(int, words))
    if kind in ("set", "fail", "line", "linefail") and len(numbers) == 3:
        number, before, value = numbers
        return Outcome(Command(kind.startswith("line"), number, value), before, not kind.endswith("fail"))
    if kind == "run" and len(numbers) == 2:
        return Start(*numbers)
    if kind == "reply" and len(numbers) == 5:
        return Reply(numbers[0], numbers[1], numbers[2:])
    if kind == "call" and len(numbers) == 6:
        return Callback(numbers[0], numbers[1], numbers[2:])
    if kind == "drop" and len(numbers) == 1:
        return Drop(*numbers)
    raise ValueError(f"no event is told so: {line!r}")


def answer_in(events: tuple[Event, ...], sender: int) -> Optional[Answer]:
    """The last event, if it answers a message of this sender."""
    last = events[-1] if events else None
    if isinstance(last, Callback) and last.number != _ACKNOWLEDGE:
        return None
    return last if isinstance(last, (Reply, Callback, Drop)) and last.master == sender else None
