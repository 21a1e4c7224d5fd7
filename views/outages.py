"""Faults of the device that end by themselves: two lines of a script that the program hasn't, and a view turns into its own.

`break N for K` has the device refuse each command on a node in the next K lines, and `fail N once` up to the end of the line in
which it refuses one. Of the program's lines each is a `break`, and a `mend` before the line with which the device takes commands
again. So the program has a line more there than the file: what it writes of that `mend` has the number of the line behind. A later
`break`, `mend` or `fail` of the node takes the place of an outage, and one that the script doesn't see the end of has none.
"""

import re
from typing import Callable, Iterator, NamedTuple, Optional, Sequence

import lines as texts

# Where a script may have such a line.
MAYBE = re.compile(rb"^[ \t]*(?:fail|break[ \t]+[^ \t\r\n]+[ \t]+for)(?=[ \t\r\n]|\Z)", re.MULTILINE)

# What the words of the two lines mean, behind the first one; a plain word is no name and no number of a unit.
KINDS = ("node", "plain", "plain")

# The causes that the program finds in a bad one: it has no line `fail`, and `break` takes one word.
CAUSES = {"fail": 1, "break": 3}

ABOUT_DEVICE = ("break", "mend", "fail")

Written = list[str]


class Turned(NamedTuple):
    """A script as the program takes it."""

    lines: list[str]
    numbers: list[int]  # of each of them, that of the line of the script which it belongs to


class Outage(NamedTuple):
    """A line that begins an outage which ends by itself."""

    node: int
    lines: Optional[int]  # for how many lines; None: until it has refused a command


def may_have_any(script: bytes) -> bool:
    """Whether a script has something like such a line."""
    return MAYBE.search(script) is not None


# A line.


def is_outage(words: Sequence[str]) -> bool:
    """Whether a line with these words is meant as an outage that ends by itself."""
    return list(words[:1]) == ["fail"] or list(words[:1]) == ["break"] and list(words[2:3]) == ["for"]


def wrong_words(words: Sequence[str]) -> Optional[str]:
    """What is wrong with the words of an outage, or None."""
    if words[0] == "fail" and list(words[2:]) != ["once"]:
        return "'fail' takes a node and the word 'once' after it"
    if words[0] == "break" and (len(words) != 4 or not 1 <= (texts.number_of(words[3]) or 0) < texts.UNFIT):
        return "'for' takes a number of lines after it, from 1 on"
    return texts.wrong_number(list(words[:2]))


def fault_of(line: bytes) -> texts.Fault:
    """The cause and the sentence of what is wrong with a line of a script that may have outages, or None."""
    words = texts.words_of(line)
    if not is_outage(words):
        return texts.script_fault(line)
    said = wrong_words(words)
    return texts.unreadable(line) or ((CAUSES[words[0]], said) if said else None)


def first_fault(script: bytes) -> Optional[tuple[int, int, str]]:
    """The number of the first line of a script with no meaning, its cause and the sentence of what is wrong; or None."""
    return texts.first_fault(script, fault_of)


def outage_of(line: str) -> Optional[Outage]:
    """The outage that a line begins, if nothing is wrong with it."""
    words = texts.words_of(line)
    if not is_outage(words) or fault_of(line.encode("latin-1")):
        return None
    return Outage(texts.number_of(words[1]) or 0, None if words[0] == "fail" else texts.number_of(words[3]))


def node_of(line: str) -> Optional[int]:
    """The node of a line about the device, or None of any other."""
    if not line.lstrip(" \t").startswith(ABOUT_DEVICE):
        return None
    words = texts.words_of(line)
    return texts.number_of(words[1]) if len(words) > 1 and words[0] in ABOUT_DEVICE else None


def as_break(line: str) -> str:
    """The line `break` by which an outage begins, in the same columns and with the same comment."""
    (start, first), (place, node), *_, (last, word) = texts.placed_words(line)
    return line[:start] + "break" + line[start + len(first) : place + len(node)] + line[last + len(word) :]


# A script.


def lines_of(content: bytes) -> list[str]:
    """The lines of a script without their line feeds; the last one may lack it."""
    lines = content.decode("latin-1").split("\n")
    return lines[:-1] if lines[-1] == "" else lines


def plain(content: bytes) -> bytes:
    """A script with a line `break` for each outage, which so doesn't end: for a run without a device."""
    if not may_have_any(content):
        return content
    lines = content.decode("latin-1").split("\n")
    return "\n".join(as_break(line) if outage_of(line) else line for line in lines).encode("latin-1")


def turned(script: Sequence[str], ended: dict[int, int]) -> Turned:
    """The lines of the program. `ended` has of lines `fail N once` the line at whose end the outage ends, as far as it does."""
    made = Turned([], [])
    last: dict[int, int] = {}  # of each node in an outage, the last line of that
    for number, line in enumerate(script, 1):
        for mended in [node for node, end in last.items() if end < number]:
            made.lines.append(f"mend {mended}  # the outage of {mended} ends")
            made.numbers.append(number)
            del last[mended]
        node = node_of(line)
        outage = None if node is None else outage_of(line)
        if node is not None:
            last.pop(node, None)
        if outage and (outage.lines or number in ended):
            last[outage.node] = number + outage.lines if outage.lines else ended[number]
        made.lines.append(as_break(line) if outage else line)
        made.numbers.append(number)
    return made


class Single(NamedTuple):
    """A line `fail N once`, with the last line that may end it: the one before the next line about the device's node."""

    node: int
    line: int
    last: int


def singles(script: Sequence[str]) -> Iterator[Single]:
    """The lines `fail N once` of a script."""
    begun: dict[int, int] = {}  # of a node, the line `fail` that is in force
    for number, line in enumerate(script, 1):
        node = node_of(line)
        if node is None:
            continue
        if node in begun:
            yield Single(node, begun.pop(node), number - 1)
        outage = outage_of(line)
        if outage and outage.lines is None:
            begun[outage.node] = number
    yield from (Single(node, line, len(script)) for node, line in begun.items())


def refusals(written: Written, numbers: Sequence[int]) -> Iterator[tuple[int, int]]:
    """Each command on a node that the device refused: the line of the script, and the node."""
    for line in written:
        if " fail " not in line:
            continue
        step, _, *words = line.split()
        if step != "0":
            yield numbers[int(step) - 1], int(words[0])


def run_by(script: Sequence[str], run: Callable[[Turned], Written]) -> tuple[Turned, Written]:
    """The lines of the program, and what it writes of them. Where `fail N once` ends shows in a run: the first refusal of all
    those which still wait for one is the same in the run that has its end, so that each run finds at least one more."""
    ended: dict[int, int] = {}
    left = list(singles(script))
    while True:
        made = turned(script, ended)
        written = run(made)
        refused = list(refusals(written, made.numbers)) if left else []
        found = [(line, it) for line, node in refused for it in left if it.node == node and it.line <= line <= it.last]
        if not found:
            return made, written
        first = min(line for line, _ in found)
        ended.update({it.line: first for line, it in found if line == first})
        left = [it for it in left if it.line not in ended]


def by_lines(written: Written, numbers: Sequence[int]) -> Written:
    """What the program writes with the numbers of the script's own lines in place of those of the program's, in a fault too."""
    if not numbers or numbers[-1] == len(numbers):
        return written
    shown = []
    for line in written:
        first, *words = line.split(" ")
        if first.isdigit() and first != "0":
            line = " ".join([str(numbers[int(first) - 1]), *words])
        elif first == "fault" and words[:1] == ["line"]:
            line = " ".join([first, words[0], str(numbers[int(words[1]) - 1]), *words[2:]])
        shown.append(line)
    return shown
