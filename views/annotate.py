"""`--names [--json] FORM..`: what the program writes, with the meaning of each line behind it.

The lines stay as they are. Behind each one comes a comment, all in one column, which the program reads over where the
lines are the text of an object. The script, the text and NODE may be written with names.
"""

import os
import sys
import tempfile
from typing import Callable, Iterable, Iterator, NamedTuple, Optional, Sequence

import chip as chips
import faults
import findings
import idle
import lines as texts
import names
import objects
import outages
import permits
import steps
import to_numbers
from chip import Board, Chip
from meanings import meaning_of_reached, meanings_of_text
from program import BadUse, read_file, run, run_text, write_file
from replay_meanings import meanings_of_replay
from told import tell

LONGEST = 255  # bytes of a line of a text
WIDEST = 40  # no column of comments begins further right


def put_together(lines: Sequence[str], meanings: Iterable[str]) -> Iterator[str]:
    """The lines with their meanings behind them, in one column."""
    column = min(max(map(len, lines), default=0) + 2, WIDEST)
    for line, meaning in zip(lines, meanings):
        whole = f"{line:<{column - 2}}  # {meaning}"
        yield whole if meaning and len(whole) <= LONGEST else line


def node_in_numbers(word: str) -> str:
    """The number of a node that is named, or the word as it is."""
    number = names.number_of("node", word)
    return word if number is None else str(number)


def number_of_node(word: str) -> int:
    """The number of a node by its name or number, of which the program has accepted the word."""
    number = texts.number_of(node_in_numbers(word))
    if number is None:
        raise BadUse(f"'{word}' is no number of a node")
    return number


def translated(name: str, room: str) -> tuple[bytes, str]:
    """A file in numbers: its content, and a file in the folder `room` that has it, with no outage that ends by itself: these
    don't count if there is no device."""
    content = to_numbers.in_numbers(read_file(name), name)
    path = os.path.join(room, os.path.basename(name) or "file")
    write_file(path, outages.plain(content))
    return content, path


class Shown(NamedTuple):
    """What a form writes: the program's lines with their meanings, and what is said besides."""

    lines: Sequence[str]
    meanings: Sequence[str]
    besides: Sequence[str] = ()

    def in_lines(self) -> str:
        """The lines with their meanings behind them."""
        return "".join(line + "\n" for line in (*put_together(self.lines, self.meanings), *self.besides))

    def in_json(self, form: str) -> str:
        """The lines with their meanings, as JSON."""
        lines: list[dict[str, object]] = [{**line_of(form, line), "text": line, "meaning": meaning} for line, meaning in zip(self.lines, self.meanings)]
        return findings.whole("--names", 0, form=form, lines=lines, besides=list(self.besides))


def line_of(form: str, text: str) -> dict[str, Optional[int]]:
    """The line of the script that a line of a replay is of: 0 is the load, and none of a line of the closing table."""
    first = text.split(" ", 1)[0]
    return {"line": None if first == "end" else int(first)} if form == "replay" else {}


def chip_of(obj: str, topology: Sequence[str]) -> Chip:
    """The chip over which a view looks at the object of a file."""
    return chips.chosen(obj, objects.load(obj), topology).chip


def beside(board: Board, node: int, lines: Sequence[str]) -> Iterator[str]:
    """What reset lines of several units bring into a reach on the chip, beside what the program has in it: comments."""
    have = {tuple(line.split()[:2]) for line in lines}
    more = [str(member) for member in permits.reach(board, node) if (member.kind, str(member.number)) not in have]
    if more:
        yield "# Reset lines of several units bring in besides, on the chip:"
        yield from put_together([f"# {line}" for line in more], map(meaning_of_reached, more))


def replay(room: str, obj: str, script: str, *topology: str) -> Shown:
    """`replay`, and which lines of the script do nothing."""
    board = chips.chosen(obj, objects.load(obj), topology)
    content = read_file(script)
    numbers = to_numbers.in_numbers(content, script)
    told = steps.replay_of(steps.Run(obj, board.chip, room), numbers, script)
    for said in idle.told_once(idle.idle(board, steps.script_lines(numbers), steps.script_lines(content))):
        tell(f"pmu: {faults.name_of(script)}:{said}")
    return Shown(told.lines, list(meanings_of_replay(board.chip, told)))


def reach(_room: str, obj: str, node: str, *topology: str) -> Shown:
    """`reach`, and what more there is on the chip."""
    board = chips.chosen(obj, objects.load(obj), topology)
    over = board.chip.words()
    lines = run_text(["reach", obj, node_in_numbers(node), *over], ["reach", obj, node, *over])
    return Shown(lines, list(map(meaning_of_reached, lines)), list(beside(board, number_of_node(node), lines)))


def isolate(room: str, obj: str, script: str, node: str, *topology: str) -> Shown:
    """`isolate`, and what more there is on the chip."""
    board = chips.chosen(obj, objects.load(obj), topology)
    over = board.chip.words()
    words = ["isolate", obj, translated(script, room)[1], node_in_numbers(node), *over]
    lines = run_text(words, ["isolate", obj, script, node, *over])
    return Shown(lines, list(map(meaning_of_reached, lines)), list(beside(board, texts.number_of(words[3]) or 0, lines)))


def print_text(_room: str, obj: str, *topology: str) -> Shown:
    """`print`."""
    chip = chip_of(obj, topology)
    lines = run_text(["print", obj])
    return Shown(lines, list(meanings_of_text(chip, lines)))


def build(text: str) -> None:
    """`build` of a text with names: it writes the object alone."""
    with tempfile.TemporaryDirectory() as room:
        sys.stdout.buffer.write(run(["build", translated(text, room)[1]], ["build", text]))


# Each form, and how many words it takes: at least, at most.
FORMS: dict[str, tuple[Callable[..., Shown], int, int]] = {
    "replay": (replay, 2, 3),
    "reach": (reach, 2, 3),
    "isolate": (isolate, 3, 4),
    "print": (print_text, 1, 2),
}


def main(words: list[str]) -> int:
    """Writes the output of a form with its meanings, and gives the exit."""
    is_json = words[:1] == ["--json"]
    first, *rest = words[is_json:] or [""]
    if first == "build" and len(rest) == 1 and not is_json:
        build(rest[0])
        return 0
    if first not in FORMS or not FORMS[first][1] <= len(rest) <= FORMS[first][2]:
        raise BadUse("--names is followed by replay, reach, isolate, print or build with its words, as in ./pmu --help")
    with tempfile.TemporaryDirectory() as room:
        shown = FORMS[first][0](room, *rest)
    print(shown.in_json(first) if is_json else shown.in_lines(), end="")
    return 0
