"""A saved view of GTKWave beside a dump: the signals that change, with their values by name.

The file has the texts of the script first, then each unit that changes in the book, with that of the device below it if the two
differ. Beside it lies a file of names for each list of values that they have, which GTKWave calls a translate filter.
"""

import math
import os
from typing import Iterator

import moves
from chip import Chip
from program import write_file
from steps import Steps, Unit
from wave_signals import Signal, codes_of, name_of, scopes, values_of, width_of

# The texts of the scope `script`.
TEXTS = ("line", "answer", "refused")

# Flags of a line of a saved view: values in binary or as texts, on the right, by the names of a file.
BINARY, TEXT, RIGHT, BY_FILE = 0x8, 0x800, 0x20, 0x2000

# How many marks of the time axis the whole dump has at first.
MARKS = 3


def path_of(chip: Chip) -> dict[Signal, str]:
    """The signals with their names in a saved view."""
    found = {}
    for path, signals in scopes(chip):
        for signal in signals:
            width = width_of(chip, signal)
            found[signal] = ".".join([*path, name_of(signal.unit)]) + (f"[{width - 1}:0]" if width > 1 else "")
    return found


def shown_of(chip: Chip, run: Steps) -> Iterator[Signal]:
    """The signals that change after the load: of the book, and of the device if it doesn't follow the book."""
    lines = moves.of_lines(run, max(moment.line for moment in run.moments))
    units: dict[Unit, bool] = {}
    for line in lines[1:]:
        for unit, each in line.items():
            units[unit] = units.get(unit, True) and each.is_followed(chip, unit)
    for signal in codes_of(chip):
        if not signal.of_device and signal.unit in units:
            yield signal
            if not units[signal.unit]:
                yield Signal(signal.unit, True)


def filter_text(words: tuple[str, ...]) -> str:
    """The names of values, as GTKWave reads them."""
    width = max(1, (len(words) - 1).bit_length())
    return "".join(f"{value:0{width}b} {word}\n" for value, word in enumerate(words))


def zoom_of(end: int) -> str:
    """The line by which a dump of this length fits into a window: from a mark to the next is as much as a power of 2 says."""
    return f"*{-math.log2(end / MARKS):.6f} 0" + " -1" * 26


def write(name: str, chip: Chip, run: Steps, end: int) -> None:
    """Writes a saved view of a dump with this last time, and the files of names beside it."""
    base = os.path.splitext(name)[0]
    names = path_of(chip)
    filters: dict[tuple[str, ...], str] = {}
    lines = [zoom_of(end), f"@{TEXT | RIGHT:x}", *(f"script.{text}" for text in TEXTS)]
    for signal in shown_of(chip, run):
        words = tuple(values_of(chip, signal))
        file = filters.setdefault(words, f"{os.path.abspath(base)}.{len(filters) + 1}.values")
        lines += [f"@{BY_FILE | BINARY | RIGHT:x}", f"^1 {file}"]
        lines.append(f"+{{device {name_of(signal.unit)}}} {names[signal]}" if signal.of_device else names[signal])
    for words, file in filters.items():
        write_file(file, filter_text(words).encode())
    write_file(name, "".join(line + "\n" for line in lines).encode())
