"""What each step of a replay does to the units, from what the program writes: in the book, and at the device.

The book is what is requested: the state of a slave, the mode of a processor, whether a power node is up, the value of a reset
line. The device is what took it: each command in its order, with what became of it. A device that is broken refuses, and the
book goes on without it; so the values of the book are those of the script without its lines `break` and `mend`, over which the
device follows each step. Which clocks run follows from the book.
"""

import re
from typing import NamedTuple, Optional

import modes
import outages
import split
from program import run_text
from replays import Run, Unit, closing_of, content_of, master_masks, script_lines

# The lines that a script line writes itself, after those of its core events; and the clocks of the closing table.
OWN = ("busy", "late", "clock", "task", "notask", "smc")

# The lines of commands, each with the kind of its unit and whether the device took it.
COMMANDS = {"set": ("node", True), "fail": ("node", False), "line": ("line", True), "linefail": ("line", False)}


# The lines of a script that break nodes and mend them.
BREAKING = re.compile(r"[ \t]*(?:break|mend)(?![^ \t\r])")


class Command(NamedTuple):
    """A command to the device."""

    unit: Unit
    value: int
    is_taken: bool  # whether it succeeded


class Moment(NamedTuple):
    """A core event of a line of a script; or what the line itself does, which comes last."""

    line: int  # 0 for the load
    book: list[tuple[Unit, int]]  # what changes in the book: units with their new values
    commands: list[Command]


class Replay(NamedTuple):
    """A replay, and that of the script which has a line of its own for each core event."""

    lines: list[str]  # that the program writes, by the numbers of the script's own lines
    cores: list[str]  # that it writes over the second script: the same ones by other numbers, but for those that lines write themselves
    script: list[str]  # the second script, which has the program's lines alone
    numbers: list[int]  # of each of its lines, that of the line which it comes from


class Steps(NamedTuple):
    """A replay, and what each of its moments does."""

    replay: Replay
    moments: list[Moment]
    closing: dict[Unit, tuple[int, int]]  # the closing table: the value of each unit in the book, and at the device


def of_cores(lines: list[str]) -> list[str]:
    """The lines of a replay without those that its script lines write themselves."""
    return [line for line in lines if line.split(" ", 2)[1] not in OWN]


def replay_of(run: Run, content: bytes, name: Optional[str] = None) -> Replay:
    """The replay of a script in numbers, from the file of that name."""
    made, written = run.turned(content, name)
    lines = outages.by_lines(written, made.numbers)
    if not split.is_split(made.lines):
        return Replay(lines, of_cores(written), made.lines, made.numbers)
    masks = master_masks(run_text(["print", run.obj]))
    cores, numbers = split.split(made.lines, masks, run.chip.owners[split.CALLER])
    return Replay(lines, of_cores(run.written(content_of(cores))), cores, [made.numbers[number - 1] for number in numbers])


def commands_of(lines: list[str], count: int) -> list[list[Command]]:
    """The commands of each step, in their order."""
    found: list[list[Command]] = [[] for _ in range(count + 1)]
    for line in lines:
        step, kind, words = line.split(" ", 2)
        if step != "end" and kind in COMMANDS:
            unit, is_taken = COMMANDS[kind]
            number, _, value = map(int, words.split())
            found[int(step)].append(Command(Unit(unit, number), value, is_taken))
    return found


def unbroken(script: list[str]) -> list[str]:
    """A script without the lines that break and mend nodes: these are empty."""
    return ["" if BREAKING.match(line) else line for line in script]


def changes_of(commands: list[list[Command]]) -> list[list[tuple[Unit, int]]]:
    """What each step changes at a device that takes all commands: units with the values that they have after it. A unit that is
    pulsed doesn't change."""
    now: dict[Unit, int] = {}
    changes = []
    for step in commands:
        after = {command.unit: command.value for command in step} if step else {}
        changes.append([(unit, value) for unit, value in after.items() if now.get(unit, 0) != value] if step else [])
        now.update(after)
    return changes


def with_modes(changes: list[list[tuple[Unit, int]]], found: list[modes.Modes]) -> list[list[tuple[Unit, int]]]:
    """The changes with the mode of a processor in place of whether it runs."""
    made = []
    before: modes.Modes = {}
    for step, after in zip(changes, found):
        others = [(unit, value) for unit, value in step if unit.kind == "line" or unit.number not in after] if step else []
        moved = [(Unit("node", proc), mode) for proc, mode in after.items() if before.get(proc, 0) != mode] if after is not before else []
        made.append(moved + others)
        before = after
    return made


def book_of(run: Run, replay: Replay) -> list[list[tuple[Unit, int]]]:
    """What each core event changes in the book."""
    script = unbroken(replay.script)
    lines = replay.cores if script == replay.script else run.lines_of(content_of(script))
    changes = changes_of(commands_of(lines, len(script)))
    return with_modes(changes, modes.of_steps(run, script, changes))


def clocks_of(lines: list[str]) -> dict[int, list[tuple[Unit, int]]]:
    """By line the clocks that begin to run (1) or cease to (0)."""
    found: dict[int, list[tuple[Unit, int]]] = {}
    for line in lines:
        step, kind, words = line.split(" ", 2)
        if step != "end" and kind == "clock":
            number, _, runs = map(int, words.split())
            found.setdefault(int(step), []).append((Unit(kind, number), runs))
    return found


def moments_of(run: Run, replay: Replay) -> list[Moment]:
    """What each core event does, and behind those of each line the clocks."""
    cores = zip([0, *replay.numbers], book_of(run, replay), commands_of(replay.cores, len(replay.script)))
    moments = [Moment(*core) for core in cores]
    moments += [Moment(line, changes, []) for line, changes in clocks_of(replay.lines).items()]
    return sorted(moments, key=lambda moment: moment.line)


def steps_of(run: Run, content: bytes, name: Optional[str] = None) -> Steps:
    """The steps of the replay of a script in numbers, from the file of that name."""
    replay = replay_of(run, content, name)
    return Steps(replay, moments_of(run, replay), closing_of(replay.lines))
