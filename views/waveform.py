"""`--vcd [--ticks] [--gtkw FILE] [--json] replay OBJ SCRIPT [TOPO]`: the replay as a value change dump (IEEE 1364), for GTKWave.

A unit is a signal by its name, as the book has it: of a slave its state, of a processor its mode, of a power node whether it is
up, of a reset line whether it is asserted, of a clock other than a PLL whether it runs. They lie in the scopes of their power
domains, and reset lines and clocks in scopes of their own. The scope `device` has each unit again, as the device has it: a
command that it refused is an `x` there. A script line is a second, and 0 is the load; with `--ticks` a second is a unit of the
script's time. Each command within a line has a time of its own, behind the line's. Three signals are texts, as GTKWave reads
them: the line of the script, what is answered in it, and what the device refused. With `--gtkw` a saved view is written too.
"""

import sys
import tempfile
from typing import Iterator, NamedTuple, Optional, Sequence

import chip as chips
import findings
import lines as texts
import objects
import options
import replay_meanings
import saved_view
import split
import steps
import to_names
import to_numbers
from chip import Chip
from program import BadUse, read_file
from steps import Unit
from wave_signals import Signal, code_of, codes_of, name_of, scopes, values_of, width_of

USAGE = "--vcd is followed by replay OBJ SCRIPT [TOPO], with --ticks, --gtkw FILE or --json before it or not"
OPTIONS = {"--ticks": False, "--gtkw": True, "--json": False}

# The characters of a text that GTKWave reads escaped.
ESCAPED = {ord(" "): "\\x20", ord("\t"): "\\t", ord("\\"): "\\\\"}

# The texts: the line, what is answered in it, and what the device refused.
TEXTS = ("line", "answer", "refused")

ANSWERS = ("reply", "call", "drop", "busy", "late", "task", "notask", "smc")

# The names of parts of a second, by how many they are.
TIMESCALES = {1_000: "1 ms", 10_000: "100 us", 100_000: "10 us", 1_000_000: "1 us", 10_000_000: "100 ns", 100_000_000: "10 ns"}


class Times(NamedTuple):
    """When the lines of a script begin, in parts of a second."""

    parts: int  # of a second
    starts: list[int]  # of the load and of each line, and the end


# The text of the dump.


def change(chip: Chip, signal: Signal, value: Optional[int], code: str) -> str:
    """A value change of a signal; None is a value that the device refused."""
    width = width_of(chip, signal)
    if value is None:
        return f"x{code}" if width == 1 else f"b{'x' * width} {code}"
    return f"{value}{code}" if width == 1 else f"b{value:0{width}b} {code}"


def text_change(text: str, code: str) -> str:
    """A change of a text."""
    return f"s{text.translate(ESCAPED) or chr(92) + 'x20'} {code}"


def comments(chip: Chip, codes: dict[Signal, str]) -> Iterator[str]:
    """Which values mean what: comments with the words and the codes of the signals."""
    found: dict[tuple[str, ...], list[str]] = {}
    for signal, code in codes.items():
        found.setdefault(tuple(word.replace(" ", "_") for word in values_of(chip, signal)), []).append(code)
    for words, those in found.items():
        yield f"$comment values {' '.join(words)} : {' '.join(those)} $end"


def declarations(chip: Chip, codes: dict[Signal, str], texts: dict[str, str], parts: int) -> Iterator[str]:
    """The part of a dump that declares the scopes and signals."""
    yield from ("$comment pmu --vcd replay $end", f"$timescale {TIMESCALES[parts]} $end")
    yield from comments(chip, codes)
    yield "$scope module script $end"
    yield from (f"$var string 1 {code} {name} $end" for name, code in texts.items())
    yield "$upscope $end"
    open_path: tuple[str, ...] = ()
    for path, signals in scopes(chip):
        while path[: len(open_path)] != open_path:
            open_path = open_path[:-1]
            yield "$upscope $end"
        yield from (f"$scope module {name} $end" for name in path[len(open_path) :])
        yield from (f"$var wire {width_of(chip, it)} {codes[it]} {name_of(it.unit)} $end" for it in signals)
        open_path = path
    yield from ["$upscope $end"] * len(open_path)
    yield "$enddefinitions $end"


# When what happens.


def ticks_of(line: str) -> int:
    """How much time passes by a line."""
    words = texts.words_of(line)
    return texts.number_of(words[1]) or 0 if split.first_word(line) == "tick" else 0


def times_of(run: steps.Steps, script: list[str], by_ticks: bool) -> Times:
    """When the load and each line begin: a second after the one before, or, by ticks, in the second that their time is."""
    lengths = [1] * (len(script) + 1)
    for moment in run.moments:
        lengths[moment.line] += len(moment.commands) + 1
    places: list[tuple[int, int]] = []
    second, within = 0, 0
    for length, line in zip(lengths, ["", *script]):
        passed = (ticks_of(line) if by_ticks else 1) if places else 0
        second, within = second + passed, 0 if passed else within
        places.append((second, within))
        within += length
    most = max(within + length for (_, within), length in zip(places, lengths))
    parts = next((parts for parts in TIMESCALES if parts > most), None)
    if parts is None:
        raise BadUse("more happens in a unit of time than a dump has parts of it")
    return Times(parts, [second * parts + within for second, within in places] + [(second + 1) * parts])


class Event(NamedTuple):
    """A signal that takes a value; None is one that the device refused."""

    time: int
    line: int
    signal: Signal
    value: Optional[int]


def of_moment(kept: dict[Unit, int], moment: steps.Moment, start: int) -> tuple[list[Event], int]:
    """What happens in a moment: the book changes at its start, and each command has its turn. And when the next moment begins."""
    events = [Event(start, moment.line, Signal(unit, False), value) for unit, value in moment.book]
    refused: list[Signal] = []
    for time, (unit, value, is_taken) in enumerate(moment.commands, start + 1):
        # (an `x` ends with the next command)
        events += [Event(time, moment.line, it, kept.get(it.unit, 0)) for it in refused]
        signal = Signal(unit, True)
        if is_taken:
            kept[unit] = value
        refused = [] if is_taken else [signal]
        events.append(Event(time, moment.line, signal, value if is_taken else None))
    end = start + len(moment.commands) + 1
    return events + [Event(end, moment.line, it, kept.get(it.unit, 0)) for it in refused], end


def events_of(run: steps.Steps, times: Times) -> Iterator[Event]:
    """All that happens to the units, by line."""
    kept: dict[Unit, int] = {}
    line, time = -1, 0
    for moment in run.moments:
        time = times.starts[moment.line] if moment.line != line else time
        line = moment.line
        events, time = of_moment(kept, moment, time)
        yield from events


def unit_changes(chip: Chip, run: steps.Steps, codes: dict[Signal, str], times: Times) -> dict[int, list[str]]:
    """The value changes of the units by their times."""
    changes: dict[int, list[str]] = {}
    for event in events_of(run, times):
        changes.setdefault(event.time, []).append(change(chip, event.signal, event.value, codes[event.signal]))
    return changes


def words_by_line(chip: Chip, run: steps.Steps) -> dict[str, dict[int, str]]:
    """By line what is answered and told in it, and what the device refused, in words."""
    found: dict[str, dict[int, list[str]]] = {"answer": {}, "refused": {}}
    for line, meaning in zip(run.replay.lines, replay_meanings.meanings_of_replay(chip, run.replay)):
        step, kind, *_ = line.split()
        text = "answer" if kind in ANSWERS else "refused" if kind in ("fail", "linefail") else None
        if step != "end" and text:
            found[text].setdefault(int(step), []).append(meaning.removesuffix(": refused by the device"))
    return {text: {line: "; ".join(said) for line, said in lines.items()} for text, lines in found.items()}


def texts_of(chip: Chip, run: steps.Steps, script: list[str]) -> dict[str, dict[int, str]]:
    """The texts by line: what it says, what is answered in it, and what the device refused."""
    said = words_by_line(chip, run)
    said["line"] = dict(enumerate(["load", *(to_names.line_in_names(line, {}) for line in script)]))
    return said


def dump(chip: Chip, run: steps.Steps, script: list[str], by_ticks: bool = False) -> Iterator[str]:
    """The lines of the dump of the steps of a script in numbers."""
    codes = codes_of(chip)
    texts = {name: code_of(len(codes) + place) for place, name in enumerate(TEXTS)}
    times, said = times_of(run, script, by_ticks), texts_of(chip, run, script)
    yield from declarations(chip, codes, texts, times.parts)
    changes = unit_changes(chip, run, codes, times)
    yield from ("#0", "$dumpvars")
    yield from (text_change(said[name].get(0, ""), code) for name, code in texts.items())
    first = dict(run.moments[0].book)
    yield from (change(chip, it, 0 if it.of_device else first.get(it.unit, 0), code) for it, code in codes.items())
    yield "$end"
    for line, start in enumerate(times.starts[1:-1], 1):
        told = [text_change(said[name].get(line, ""), code) for name, code in texts.items()]
        changes[start] = told + changes.get(start, [])
    changes.pop(0, None)
    for time in sorted(changes):
        yield from (f"#{time}", *changes[time])
    yield f"#{times.starts[-1]}"


def kind_of(chip: Chip, unit: Unit) -> str:
    """What a unit is."""
    return chip.nodes[unit.number].kind if unit.kind == "node" else unit.kind


def in_event(chip: Chip, event: Event) -> dict[str, object]:
    """An event as keys and values."""
    unit, of_device = event.signal
    state = None if event.value is None else values_of(chip, event.signal)[event.value]
    about: dict[str, object] = {"of": "device" if of_device else "book", **findings.unit(kind_of(chip, unit), unit.number)}
    return {"time": event.time, "line": event.line, **about, "value": event.value, "state": state}


def in_json(chip: Chip, run: steps.Steps, script: list[str], by_ticks: bool) -> dict[str, object]:
    """What a dump has, as keys and values: the lines of the script with their times, and the events, all signals being 0 before."""
    times, said = times_of(run, script, by_ticks), texts_of(chip, run, script)
    lines = [
        {"line": number, "time": start, "text": said["line"][number], "answers": said["answer"].get(number), "refused": said["refused"].get(number)}
        for number, start in enumerate(times.starts[:-1])
    ]
    events = [in_event(chip, event) for event in sorted(events_of(run, times), key=lambda event: event.time)]
    return {"timescale": TIMESCALES[times.parts], "end": times.starts[-1], "lines": lines, "events": events}


def main(words: Sequence[str]) -> int:
    """Writes the dump of a replay."""
    given, rest = options.taken(words, OPTIONS, USAGE)
    if len(rest) not in (3, 4) or rest[0] != "replay":
        raise BadUse(USAGE)
    _, obj, file, *topology = rest
    by_ticks = "--ticks" in given
    chip = chips.chosen(obj, objects.load(obj), topology).chip
    content = to_numbers.in_numbers(read_file(file), file)
    with tempfile.TemporaryDirectory() as room:
        run = steps.steps_of(steps.Run(obj, chip, room), content, file)
    script = steps.script_lines(content)
    if "--json" in given:
        shown = [findings.whole("--vcd", 0, **in_json(chip, run, script, by_ticks))]
    else:
        shown = [line + "\n" for line in dump(chip, run, script, by_ticks)]
    if "--gtkw" in given:
        saved_view.write(given["--gtkw"], chip, run, times_of(run, script, by_ticks).starts[-1])
    sys.stdout.writelines(shown)
    return 0
