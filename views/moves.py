"""What each unit goes through in a line of a script, in the book and at the device."""

import itertools
from typing import NamedTuple, Union

from chip import Chip
from modes import ACTIVE, SUSPENDING
from steps import Steps, Unit


class Refused(NamedTuple):
    """A value that the device refused."""

    value: int


class Moves(NamedTuple):
    """What a unit goes through: values from the one before to the last one; at the device with what it refused."""

    book: list[int]
    device: list[Union[int, Refused]]

    def is_followed(self, chip: Chip, unit: Unit) -> bool:
        """Whether the device went through what the book did. It has no clocks, and a processor runs in two of its modes."""
        runs = unit.kind == "node" and chip.is_kind(unit.number, "processor")
        book = [int(value in (ACTIVE, SUSPENDING)) for value in self.book] if runs else self.book
        return unit.kind == "clock" or [value for value, _ in itertools.groupby(book)][1:] == self.device[1:]

    def book_text(self, chip: Chip, unit: Unit) -> str:
        """What the unit goes through in the book, in words; or nothing."""
        return " -> ".join(value_name(chip, unit, value) for value in self.book) if len(self.book) > 1 else ""

    def device_text(self, chip: Chip, unit: Unit) -> str:
        """What the unit goes through at the device, in words."""
        if len(self.device) == 1:
            return f"stays {kept_name(chip, unit, self.device[0])}"
        return " -> ".join(kept_name(chip, unit, value) for value in self.device)


def value_name(chip: Chip, unit: Unit, value: int) -> str:
    """A value of a unit in the book, in words."""
    if unit.kind == "line":
        return "asserted" if value else "released"
    if unit.kind == "clock":
        return "runs" if value else "stopped"
    return chip.value_name(unit.number, value)


def kept_name(chip: Chip, unit: Unit, value: Union[int, Refused]) -> str:
    """A value of a unit at the device, in words."""
    if isinstance(value, Refused):
        return f"{kept_name(chip, unit, value.value)} refused"
    return chip.kept_name(unit.number, value) if unit.kind == "node" else value_name(chip, unit, value)


def of_lines(run: Steps, count: int) -> list[dict[Unit, Moves]]:
    """Of the load and of each line: what each unit that moves goes through."""
    now: dict[Unit, tuple[int, int]] = {}
    lines: list[dict[Unit, Moves]] = [{} for _ in range(count + 1)]
    for line, book, commands in run.moments:
        for unit, value in book:
            before = now.get(unit, (0, 0))
            lines[line].setdefault(unit, Moves([before[0]], [before[1]])).book.append(value)
            now[unit] = (value, before[1])
        for unit, value, is_taken in commands:
            before = now.get(unit, (0, 0))
            moves = lines[line].setdefault(unit, Moves([before[0]], [before[1]]))
            moves.device.append(value if is_taken else Refused(value))
            now[unit] = (before[0], value if is_taken else before[1])
    return lines
