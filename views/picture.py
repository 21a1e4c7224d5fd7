"""`--svg [--json] replay OBJ SCRIPT [TOPO]`: the waveform of a replay as a picture (SVG).

It shows what changes after the load, by the dump that `--vcd` writes: a signal of two values as high or low, one of more as boxes
with the name of the state or mode. If the device didn't follow the book, or a line was pulsed, the unit has a second row with
what the device has, and a cross at each command that it refused. Above each line of the script is its text.
"""

import bisect
import sys
import tempfile
from html import escape
from typing import Iterator, NamedTuple, Optional, Sequence

import chip as chips
import findings
import objects
import options
import steps
import to_numbers
import wave_signals
import waveform
from program import BadUse, read_file
from steps import Unit

USAGE = "--svg is followed by replay OBJ SCRIPT [TOPO], with --json before it or not"
OPTIONS = {"--json": False}

LEFT, STEP, ROW = 140, 52, 26  # pixels: the names, a script line, a signal
HIGH, LOW = 5, 20  # of a signal, from the top of its row
KEY = 18  # a line of the legend
RISE, RUN = 5.8, 4.9  # how far a character of a slanted text goes up, and to the right, in the usual wide fonts

STYLE = """\
text { font-family: sans-serif; font-size: 11px; }
.name { text-anchor: end; }
.state { text-anchor: middle; font-size: 10px; }
.grid { stroke: #ddd; }
.wave { stroke: #06c; fill: none; stroke-width: 1.5; }
.box { stroke: #06c; fill: #eef4ff; stroke-width: 1.5; }
.zero { stroke: #06c; fill: white; stroke-width: 1.5; }
.device { stroke: #a50; }
.refused { stroke: #c00; stroke-width: 2; }"""

# A value of a signal: None is one that the device refused.
Value = Optional[int]

# The words for a processor that runs, in the book and at the device.
RUNNING = ("active", "suspending", "on")


class Signal(NamedTuple):
    """A signal of a dump."""

    scope: tuple[str, ...]
    name: str
    width: int  # in bits; 0 for a text
    changes: list[tuple[int, Value]]  # times with values
    texts: list[tuple[int, str]]  # of a text, times with what it says

    def is_of_device(self) -> bool:
        """Whether this is a unit as the device has it."""
        return self.scope[:1] == ("device",)

    def label(self) -> str:
        """The name of the signal as it is drawn."""
        name = self.name.replace("reset_", "reset ").replace("clock_", "clock ").replace("RESET_", "reset ")
        return f"device {name}" if self.is_of_device() else name


class Dump(NamedTuple):
    """The signals of a dump."""

    signals: list[Signal]
    words: dict[tuple[tuple[str, ...], str], Sequence[str]]  # of each signal, by its scope and name: what its values are called
    end: int  # the last time

    def named(self, name: str, scope: Optional[tuple[str, ...]] = None) -> Signal:
        """The signal of this name, in this scope if one is given, else outside of the device."""
        found = [it for it in self.signals if it.name == name and (scope == it.scope or scope is None and not it.is_of_device())]
        if len(found) != 1:
            raise ValueError(f"{len(found)} signals {name}")
        return found[0]


class Row(NamedTuple):
    """A signal as it is drawn."""

    signal: Signal
    words: Sequence[str]
    lines: dict[int, list[Value]]  # by line of the script the values that it goes through

    def spans(self, end: int) -> list[tuple[int, int, int]]:
        """From which line to which the signal has each value at their ends."""
        ends = {line: [value for value in values if value is not None][-1] for line, values in self.lines.items()}
        changes = [(line, value) for line, value in sorted(ends.items())]
        kept = [change for place, change in enumerate(changes) if place == 0 or changes[place - 1][1] != change[1]]
        return [(begin, until, value) for (begin, value), (until, _) in zip(kept, kept[1:] + [(end, 0)])]

    def changes(self) -> bool:
        """Whether the signal changes after the load."""
        return len(self.spans(0)) > 1

    def pulses(self) -> list[int]:
        """The lines in which the signal is high for a moment."""
        return [line for line, values in self.lines.items() if line and len(values) > 1 and 1 in values[:-1] and values[-1] == 0]

    def refused(self) -> list[int]:
        """The lines in which the device refused a command."""
        return [line for line, values in self.lines.items() if None in values]


# Reading a dump.


def unescaped(text: str) -> str:
    """A text of a dump."""
    return text.encode("ascii").decode("unicode_escape")


def value_of(text: str) -> Value:
    """A value in binary, or None if it was refused."""
    return None if "x" in text else int(text, 2)


def add_change(signals: dict[str, Signal], time: int, line: str) -> None:
    """Adds what a line of a dump changes, if it changes a signal."""
    if line[0] in "01x":
        signals[line[1:]].changes.append((time, value_of(line[0])))
    elif line[0] == "b":
        value, code = line[1:].split()
        signals[code].changes.append((time, value_of(value)))
    elif line[0] == "s":
        text, code = line[1:].split()
        signals[code].texts.append((time, unescaped(text).strip()))


def read(text: str) -> Dump:
    """The signals of a dump, each with its changes."""
    scope: list[str] = []
    signals: dict[str, Signal] = {}
    words: dict[str, Sequence[str]] = {}
    time = 0
    for line in text.splitlines():
        parts = line.split()
        if line.startswith("$comment values"):
            words.update({code: parts[2 : parts.index(":")] for code in parts[parts.index(":") + 1 : -1]})
        elif parts[0] == "$scope":
            scope.append(parts[2])
        elif parts[0] == "$upscope":
            scope.pop()
        elif parts[0] == "$var":
            width = 0 if parts[1] == "string" else int(parts[2])
            signals[parts[3]] = Signal(tuple(scope), parts[4], width, [], [])
        elif line.startswith("#"):
            time = int(line[1:])
        elif not line.startswith("$"):
            add_change(signals, time, line)
    named = {(signal.scope, signal.name): words.get(code, ()) for code, signal in signals.items()}
    return Dump(list(signals.values()), named, time)


# What is drawn.


def script_of(dump: Dump) -> list[tuple[int, str]]:
    """When each line of the script begins, and what it says."""
    return dump.named("line", ("script",)).texts


def row_of(dump: Dump, signal: Signal, starts: list[int]) -> Row:
    """A signal with its values by the lines of the script."""
    lines: dict[int, list[Value]] = {}
    for time, value in signal.changes:
        lines.setdefault(bisect.bisect(starts, time) - 1, []).append(value)
    return Row(signal, dump.words[signal.scope, signal.name], lines)


def is_followed(book: Row, device: Row, end: int) -> bool:
    """Whether the device has at the end of each line what the book has, and neither refuses nor is pulsed."""
    pair = []
    for row in (book, device):
        said = [(row.words[value] in RUNNING if "active" in book.words else row.words[value]) for _, _, value in row.spans(end)]
        begins = [begin for begin, _, _ in row.spans(end)]
        pair.append([said[bisect.bisect(begins, line) - 1] for line in range(end)])
    return pair[0] == pair[1] and not device.refused() and not device.pulses()


def rows_of(dump: Dump) -> list[Row]:
    """The rows: what changes after the load, each with the device below it if that didn't follow."""
    starts = [time for time, _ in script_of(dump)]
    found = []
    for signal in dump.signals:
        if signal.width and not signal.is_of_device():
            row = row_of(dump, signal, starts)
            found += [row] if row.changes() else []
            others = [it for it in dump.signals if (it.scope, it.name) == (("device", *signal.scope), signal.name)]
            below = [row_of(dump, it, starts) for it in others]
            found += [it for it in below if not is_followed(row, it, len(starts))]
    return found


def column(line: int) -> int:
    """Where a line of the script begins."""
    return LEFT + STEP * line


def boxes(row: Row, end: int, top: int) -> Iterator[str]:
    """A signal of some values: a box for each, a flat one for 0."""
    device = " device" * row.signal.is_of_device()
    for begin, until, value in row.spans(end):
        left, right = column(begin), column(until)
        shape = f"{left},{top + 12.5} {left + 4},{top + HIGH} {right - 4},{top + HIGH}"
        shape += f" {right},{top + 12.5} {right - 4},{top + LOW} {left + 4},{top + LOW}"
        yield f'<polygon class="{"box" if value else "zero"}{device}" points="{shape}"/>'
        yield f'<text class="state" x="{(left + right) / 2:g}" y="{top + 16}">{row.words[value]}</text>'


def levels(row: Row, end: int, top: int) -> Iterator[str]:
    """A signal of two values: a line, high or low, with a narrow peak for a pulse."""
    kind, path = "wave" + " device" * row.signal.is_of_device(), ""
    for begin, until, value in row.spans(end):
        height = top + (HIGH if value else LOW)
        path += f"{'V' if path else f'M{column(begin)} '}{height}H{column(until)}"
    yield f'<path class="{kind}" d="{path}"/>'
    for line in row.pulses():
        yield f'<path class="{kind}" d="M{column(line)} {top + LOW} v{HIGH - LOW} h3 v{LOW - HIGH}"/>'


def crosses(row: Row, top: int) -> Iterator[str]:
    """A cross at each line in which the device refused a command."""
    for line in row.refused():
        left = column(line) + 4
        yield f'<path class="refused" d="M{left} {top + HIGH + 3} l9 9 m0 -9 l-9 9"/>'


def grid(script: list[tuple[int, str]], top: int, height: int) -> Iterator[str]:
    """The lines of the script over their columns."""
    for line, (_, text) in enumerate(script):
        left = column(line)
        yield f'<line class="grid" x1="{left}" y1="{top - 20}" x2="{left}" y2="{height}"/>'
        yield f'<text x="{left + 4}" y="{top - 8}">{line}</text>'
        yield f'<text transform="translate({left + 14},{top - 22}) rotate(-50)">{escape(text.removeprefix("ipi "))}</text>'
    end = column(len(script))
    yield f'<line class="grid" x1="{end}" y1="{top - 20}" x2="{end}" y2="{height}"/>'


def legend(rows: list[Row], top: int) -> list[str]:
    """What the colours and crosses mean, a line each, if the device has rows."""
    of_device = [row for row in rows if row.signal.is_of_device()]
    if not of_device:
        return []
    said = [("wave", "as it is requested (the book)"), ("wave device", "as the device has it, if that didn't follow")]
    lines = [f'<path class="{kind}" d="M{LEFT} {top + KEY * place}h24"/>' for place, (kind, _) in enumerate(said)]
    if any(row.refused() for row in of_device):
        lines.append(f'<path class="refused" d="M{LEFT + 8} {top + KEY * 2 - 5}l9 9 m0 -9 l-9 9"/>')
        said.append(("refused", "a command that the device refused"))
    return lines + [f'<text class="legend" x="{LEFT + 32}" y="{top + KEY * place + 4}">{text}</text>' for place, (_, text) in enumerate(said)]


def drawn(dump: Dump) -> Iterator[str]:
    """The lines of the picture of a dump."""
    script, rows = script_of(dump), rows_of(dump)
    texts = [text.removeprefix("ipi ") for _, text in script]
    top = int(30 + RISE * max(map(len, texts)))
    width = int(max(column(len(script)) + 20, *(column(line) + 30 + RUN * len(text) for line, text in enumerate(texts))))
    end = top + ROW * len(rows) + 8
    below = legend(rows, end + KEY)
    height = end + (KEY * (sum("<text" in line for line in below) + 1) if below else 0)
    yield f'<svg xmlns="http://www.w3.org/2000/svg" width="{width}" height="{height}" viewBox="0 0 {width} {height}">'
    yield f"<style>\n{STYLE}\n</style>"
    yield f'<rect width="{width}" height="{height}" fill="white"/>'
    yield from grid(script, top, end)
    for place, row in enumerate(rows):
        above = top + ROW * place
        yield f'<text class="name" x="{LEFT - 8}" y="{above + 17}">{row.signal.label()}</text>'
        yield from (levels if len(row.words) <= 2 else boxes)(row, len(script), above)
        yield from crosses(row, above)
    yield from below
    yield "</svg>"


def in_row(chip: chips.Chip, row: Row, units: dict[tuple[tuple[str, ...], str], Unit], end: int) -> dict[str, object]:
    """A row as keys and values."""
    unit = units[row.signal.scope, row.signal.name]
    spans = [{"from": begin, "until": until, "state": row.words[value]} for begin, until, value in row.spans(end)]
    about: dict[str, object] = {"of": "device" if row.signal.is_of_device() else "book", **findings.unit(waveform.kind_of(chip, unit), unit.number)}
    return {**about, "spans": spans, "pulses": row.pulses(), "refused": row.refused()}


def in_json(chip: chips.Chip, dump: Dump) -> dict[str, object]:
    """What the picture draws, as keys and values: the lines of the script, and each row by these."""
    script = script_of(dump)
    units = {(path, wave_signals.name_of(it.unit)): it.unit for path, those in wave_signals.scopes(chip) for it in those}
    rows = [in_row(chip, row, units, len(script)) for row in rows_of(dump)]
    return {"lines": [{"line": number, "text": text} for number, (_, text) in enumerate(script)], "rows": rows}


def main(words: Sequence[str]) -> int:
    """Writes the picture of a replay."""
    given, rest = options.taken(words, OPTIONS, USAGE)
    if len(rest) not in (3, 4) or rest[0] != "replay":
        raise BadUse(USAGE)
    _, obj, file, *topology = rest
    chip = chips.chosen(obj, objects.load(obj), topology).chip
    content = to_numbers.in_numbers(read_file(file), file)
    with tempfile.TemporaryDirectory() as room:
        run = steps.steps_of(steps.Run(obj, chip, room), content, file)
    dump = read("\n".join(waveform.dump(chip, run, steps.script_lines(content))))
    if given:
        print(findings.whole("--svg", 0, **in_json(chip, dump)), end="")
    else:
        sys.stdout.writelines(line + "\n" for line in drawn(dump))
    return 0
