"""What is expected of a run: clauses in the comments of a script, or in a file beside it.

A comment `# expect CLAUSE, CLAUSE; a note` speaks of its own line; alone in its line, of the last line above it that has
an event. A file SCRIPT.expect has lines `LINE CLAUSE, ..`; LINE is a number of a line, or `end`. The words of a
clause, numbers or names, are those of the program's output; docs/TESTING.md has them.
"""

import re
from typing import NamedTuple, Optional

import lines
from program import BadUse

COMMENT = re.compile(r"(?:^|[ \t])#[ \t]*expect[ \t]+([^;]*)")


class Clause(NamedTuple):
    """One expectation."""

    step: int  # the line of the script of which it speaks
    place: str  # where it is written: a file and a line
    words: tuple[str, ...]

    @property
    def text(self) -> str:
        """As it is written."""
        return " ".join(self.words)


# The first words of clauses, with the least and the most words after them.
FORMS = {
    "answer": (1, 4), "reply": (2, 5), "drop": (0, 1), "call": (1, 6), "run": (1, 2), "set": (1, 2), "fail": (1, 2),
    "line": (1, 2), "linefail": (1, 2), "smc": (1, 1), "busy": (0, 1), "late": (0, 1), "task": (1, 3), "notask": (0, 1),
    "mode": (2, 2), "value": (2, 2), "device": (2, 2), "clock": (2, 2), "nothing": (0, 0),
}  # fmt: skip
# Those that speak of the book and the device after a line; all others of what the line writes.
OF_STATE = ("mode", "value", "device", "clock")


def fault_of(words: list[str], known: list[str]) -> Optional[str]:
    """What is wrong with a clause, or None; `known` are its words without a `no` before them."""
    if known[0] not in FORMS:
        return f"nothing is expected by '{' '.join(words[:2])}'{lines.like(known[0], FORMS)}"
    if words[0] != "no":
        return lines.wrong_count(known, *FORMS[known[0]])
    return f"nothing is expected by 'no {known[0]}'" if known[0] in (*OF_STATE, "nothing", "answer") else None


def clauses_of(text: str, step: int, place: str) -> list[Clause]:
    """The clauses of a text, each with its words. Bad ones are told with their place."""
    found = []
    for part in text.split(","):
        words = part.split()
        known = words[1:] if words[:1] == ["no"] else words
        if not known:
            raise BadUse(f"{place}: an expectation without words")
        why = fault_of(words, known)
        if why:
            raise BadUse(f"{place}: {why}")
        found.append(Clause(step, place, tuple(words)))
    return found


def in_comments(script: list[str], name: str) -> list[Clause]:
    """The clauses of the comments of a script."""
    found, last = [], 0
    for number, line in enumerate(script, 1):
        if lines.words_of(line):
            last = number
        comment = COMMENT.search(line)
        if comment:
            found += clauses_of(comment[1], last, f"{name}:{number}")
    return found


def step_of(word: str, count: int) -> Optional[int]:
    """The line that a word of a file of expectations names."""
    step = count if word == "end" else lines.number_of(word)
    return step if step is not None and step <= count else None


def in_file(content: bytes, name: str, count: int) -> list[Clause]:
    """The clauses of a file of expectations; `count` is the number of lines of its script."""
    found = []
    for number, line in enumerate(content.decode("utf-8", "replace").split("\n"), 1):
        words, place = lines.words_of(line), f"{name}:{number}"
        if not words:
            continue
        step = step_of(words[0], count)
        if step is None:
            raise BadUse(f"{place}: the script has {lines.count(count, 'line')}, and none is '{words[0]}' (a number, or end)")
        found += clauses_of(" ".join(words[1:]), step, place)
    return found
