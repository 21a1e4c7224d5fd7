"""The signals of a waveform: each unit of a chip as the book has it, and again as the device has it."""

from typing import Iterator, NamedTuple

import moves
import names
from chip import Chip
from steps import Unit

FIRST_CODE, CODES = 33, 94  # a signal's code is made of these characters

DEVICE = "device"

# How the names of units of a kind begin.
PREFIXES = {"node": "", "line": "reset_", "clock": "clock_"}


class Signal(NamedTuple):
    """A unit as the book or the device has it."""

    unit: Unit
    of_device: bool


def code_of(place: int) -> str:
    """The code of the signal at a place."""
    code = ""
    while place >= 0:
        code += chr(FIRST_CODE + place % CODES)
        place = place // CODES - 1
    return code


def is_processor(chip: Chip, unit: Unit) -> bool:
    """Whether a unit is a processor."""
    return unit.kind == "node" and chip.is_kind(unit.number, "processor")


def values_of(chip: Chip, signal: Signal) -> list[str]:
    """The values of a signal in words, from 0 on."""
    unit = signal.unit
    if unit.kind == "node" and chip.is_kind(unit.number, "slave"):
        count = len(chip.nodes[unit.number].states)
    else:
        count = 4 if is_processor(chip, unit) and not signal.of_device else 2
    name = moves.kept_name if signal.of_device else moves.value_name
    return [name(chip, unit, value) for value in range(count)]


def width_of(chip: Chip, signal: Signal) -> int:
    """How many bits the value of a signal has."""
    return max(1, (len(values_of(chip, signal)) - 1).bit_length())


def name_of(unit: Unit) -> str:
    """The name of the signal of a unit."""
    own = {"node": names.node_name, "line": names.line_name, "clock": names.clock_name}[unit.kind](unit.number)
    prefix = "" if own.startswith(names.PREFIXES["reset"][0]) else PREFIXES[unit.kind]
    return prefix + own.replace(" ", "_")


Scope = tuple[tuple[str, ...], list[Signal]]


def scopes_below(chip: Chip, power: int, above: tuple[str, ...], of_device: bool) -> Iterator[Scope]:
    """The scope of a power node: it and what is directly below it, and then the power nodes below."""
    below = [number for number in sorted(chip.nodes) if chip.nodes[number].parent == power]
    path = (*above, name_of(Unit("node", power)))
    yield path, [Signal(Unit("node", number), of_device) for number in (power, *below) if number == power or not chip.is_kind(number, "power")]
    for number in below:
        if chip.is_kind(number, "power"):
            yield from scopes_below(chip, number, path, of_device)


def half_of_scopes(chip: Chip, above: tuple[str, ...], of_device: bool) -> Iterator[Scope]:
    """The scopes of the book, or those of the device, which has no clocks."""
    for power in sorted(chip.nodes):
        if chip.is_kind(power, "power") and chip.nodes[power].parent is None:
            yield from scopes_below(chip, power, above, of_device)
    yield (*above, "reset_lines"), [Signal(Unit("line", line), of_device) for line in sorted(chip.lines)]
    if not of_device:
        yield (*above, "clocks"), [Signal(Unit("clock", clock), False) for clock in names.CLOCKS if not names.is_root(clock)]


def scopes(chip: Chip) -> Iterator[Scope]:
    """The scopes with their signals: each power domain without a parent, with its own, the reset lines and the clocks; and then
    the device with the same."""
    yield from half_of_scopes(chip, (), False)
    yield from half_of_scopes(chip, (DEVICE,), True)


def codes_of(chip: Chip) -> dict[Signal, str]:
    """The signals with their codes."""
    signals = [signal for _, members in scopes(chip) for signal in members]
    return {signal: code_of(place) for place, signal in enumerate(signals)}
