"""The rules of a policy, as a file has them.

A rule is a line: `never MASTER KIND UNIT`, that the unit isn't in the reach of the master, or `only MASTER KIND UNIT`, that
it is in no other master's reach. KIND is `master`, `slave`, `power` or `line`. A record that gives a master something of
which the topology doesn't say what it is, isn't judged: a line `allow MASTER WHAT` takes that, by its name or a pattern.
Names and numbers are read, and `#` begins a comment.
"""

from typing import NamedTuple, Optional, Sequence

import faults
import lines
import names
import permits
import program
from chip import Board, Chip
from findings import Place

FORMS = "never MASTER KIND UNIT, only MASTER KIND UNIT or allow MASTER WHAT"

KINDS = ("master", "slave", "power", "line")

# A rule that speaks of all masters.
EACH = "*"


class Rule(NamedTuple):
    """A rule over the reaches of masters."""

    place: Place
    text: str
    word: str  # never, only
    master: int
    kind: str
    unit: int


class Allowance(NamedTuple):
    """A line that takes a record as it is, though it isn't judged."""

    place: Place
    text: str
    master: Optional[int]  # None: each master
    what: str  # a pattern of the names of what a record permits


class Policy(NamedTuple):
    """The lines of a file of rules."""

    rules: list[Rule]
    allowances: list[Allowance]


def number_of(kind: str, word: str) -> Optional[int]:
    """The number that a word means as a node or a line, or None."""
    number = lines.number_of(word)
    return names.number_of(kind, word) if number is None else number


def is_unit(chip: Chip, kind: str, number: int) -> bool:
    """Whether a chip has a unit of this kind."""
    if kind == "line":
        return number in chip.lines
    return number in chip.owners if kind == "master" else chip.is_kind(number, kind)


def numbers_of(kind: str, word: str) -> list[int]:
    """The numbers that a word may have: a reset line has a name of its own, or that of the node that it resets."""
    kinds = ("line", "reset") if kind == "line" else ("node",)
    return [number for number in (number_of(each, word) for each in kinds) if number is not None]


def unit_of(place: Place, chip: Chip, kind: str, word: str) -> int:
    """The number of a unit of a kind, by its name or number."""
    found = [number for number in numbers_of(kind, word) if is_unit(chip, kind, number)]
    if not found:
        what = {"line": "reset line", "power": "power node"}.get(kind, kind)
        raise program.BadUse(f"{place}: the table of the chip has no {what} {word}")
    return found[0]


def configured(place: Place, board: Board, word: str) -> int:
    """The number of a master of the object."""
    number = unit_of(place, board.chip, "master", word)
    if number not in permits.masters(board):
        raise program.BadUse(f"{place}: the object has no master {word}")
    return number


def rule_of(place: Place, words: Sequence[str], board: Board) -> Rule:
    """The rule of the words of a line."""
    word, master, kind, unit = words
    number = configured(place, board, unit) if kind == "master" else unit_of(place, board.chip, kind, unit)
    rule = Rule(place, " ".join(words), word, configured(place, board, master), kind, number)
    if kind == "master" and rule.master == rule.unit:
        raise program.BadUse(f"{place}: each master is in its own reach")
    return rule


def add(policy: Policy, place: Place, words: Sequence[str], board: Board) -> None:
    """Adds the rule of a line."""
    if len(words) == 3 and words[0] == "allow":
        master = None if words[1] == EACH else configured(place, board, words[1])
        policy.allowances.append(Allowance(place, " ".join(words), master, words[2]))
    elif len(words) == 4 and words[0] in ("never", "only") and words[2] in KINDS:
        policy.rules.append(rule_of(place, words, board))
    else:
        raise program.BadUse(f"{place}: a rule is {FORMS}, and KIND is {', '.join(KINDS)}")


def read(path: str, board: Board) -> Policy:
    """The rules of a file. One without a rule is refused: it would check nothing."""
    try:
        text = program.read_file(path).decode("ascii")
    except UnicodeDecodeError as fault:
        raise program.BadUse(f"{faults.name_of(path)}: byte {fault.start} isn't ASCII") from None
    policy = Policy([], [])
    for number, line in enumerate(text.split("\n"), 1):
        words = lines.words_of(line)
        if words:
            add(policy, Place(faults.name_of(path), number), words, board)
    if not policy.rules:
        raise program.BadUse(f"{faults.name_of(path)}: no rule is in it")
    return policy
