"""The words that the program takes, its exits, and those of the views."""

from typing import Optional, Sequence

# Each form: its first word, and what the words after it name.
FORMS: dict[str, tuple[str, ...]] = {
    "replay": ("OBJ", "SCRIPT"),
    "reach": ("OBJ", "NODE"),
    "isolate": ("OBJ", "SCRIPT", "NODE"),
    "print": ("OBJ",),
    "build": ("TEXT",),
    "make": ("N",),
    "table": (),
}
# Those that take the text of a topology behind them.
WITH_TOPOLOGY = ("replay", "reach", "isolate")

# The exits of the program.
USAGE, BAD_OBJECT, BAD_LINE, UNREADABLE, UNWRITABLE, NO_MEMORY, TOO_LARGE, BAD_TEXT = range(1, 9)
# That of the wrapper and of the views for all else: wrong words, and a fault of their own.
NOT_RUN = 125
# The exits of views that have done their work and found something: a rule is broken, something is to be said of the
# object, a record gives a master something that no rule was judged by or nothing is expected of a script, or a run is
# otherwise than is expected. What they say is written as with exit 0.
BROKEN, FOUND, NOT_JUDGED, UNEXPECTED = range(101, 105)
DONE = (0, BROKEN, FOUND, NOT_JUDGED, UNEXPECTED)

# The most bytes that are read of each kind of file, in the order in which they are read.
LIMITS = {"OBJ": 16_384, "TEXT": 1_048_576, "TOPO": 1_048_576, "SCRIPT": 67_108_864}

# The most lines of a script that is made.
MOST_LINES = 200_000


def form_of(words: Sequence[str]) -> Optional[tuple[str, ...]]:
    """What the words after the first one name, or None if the words have no form."""
    forms = [names for names in forms_of(words[0]) if len(names) == len(words) - 1] if words else []
    return forms[0] if forms else None


def forms_of(first: str) -> list[tuple[str, ...]]:
    """What the words after this first one may name, once for each number of words."""
    if first not in FORMS:
        return []
    return [FORMS[first], (*FORMS[first], "TOPO")] if first in WITH_TOPOLOGY else [FORMS[first]]


def files_of(words: Sequence[str]) -> list[tuple[int, str]]:
    """The files that the words name, each as its place among the words and its kind, in the order in which they are read."""
    names = form_of(words) or ()
    return sorted(((k, kind) for k, kind in enumerate(names, 1) if kind in LIMITS), key=lambda file: [*LIMITS].index(file[1]))
