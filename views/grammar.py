"""The lines of a script, and the sections and records of an object and of its text: one table of each.

What a word means is its kind: a kind of name (`views/names.py`), or a plain word. docs/FORMATS.md has the formats.
"""

from typing import NamedTuple


class Line(NamedTuple):
    """A line by its first word: what the words after it mean, and how many they are."""

    kinds: tuple[str, ...]
    least: int
    most: int


def _line(*kinds: str) -> Line:
    """A line that takes a word of each of these kinds."""
    return Line(kinds, len(kinds), len(kinds))


# The lines of a script. What the words of a message mean after these is its call's.
SCRIPT = {
    "ipi": Line(("node", "call"), 2, 7),
    "boot": _line("node", "address"),
    "wfi": _line("node"),
    "irq": _line("node"),
    "gic": _line("node"),
    "tick": _line("time"),
    "post": Line(("node", "call"), 2, 7),
    "serve": _line(),
    "smc": Line(("node", "function", "argument", "argument", "argument"), 2, 5),
    "task": _line("key", "interval"),
    "cancel": _line("key"),
    "break": _line("node"),
    "mend": _line("node"),
    "object": Line((), 1, 124),
}

# Those with a message, and the kinds of words that may have 64 bits; all others have 32.
MESSAGES = ("ipi", "post")
WIDE = ("address", "argument")

# The words of a record of an object, by what each is called and what it means.
RECORDS = {
    "master": {"node": "node", "mask": "own mask", "timeout": "timeout", "suspend": "mask", "wake": "mask"},
    "slave": {"node": "node", "flags": "slave flags", "mask": "mask"},
    "group": {"mask": "mask"},
    "prefer": {"node": "node", "flags": "use flags", "current": "capabilities", "preset": "capabilities"},
    "power": {"node": "node", "mask": "mask"},
    "reset": {"line": "line", "mask": "mask"},
    "shutdown": {"subtype": "shutdown subtype", "mask": "mask"},
    "config": {"base": "mask", "overlay": "mask"},
    "gpo": {"word": "word"},
}


class Section(NamedTuple):
    """A section of an object."""

    name: str
    records: tuple[str, ...]  # their kinds; of two kinds the first one begins a group of the second

    @property
    def kind(self) -> str:
        """What its records are, or what their groups are."""
        return self.records[0]


# The sections by their identifiers.
SECTIONS = {
    0x101: Section("masters", ("master",)),
    0x102: Section("slaves", ("slave",)),
    0x103: Section("prealloc", ("group", "prefer")),
    0x104: Section("power", ("power",)),
    0x105: Section("reset", ("reset",)),
    0x106: Section("shutdown", ("shutdown",)),
    0x107: Section("config", ("config",)),
    0x108: Section("gpo", ("gpo",)),
}

# Sections of one record, without a count.
SINGLE = ("config", "gpo")

# The section that a record belongs to.
HOMES = {kind: section.name for section in SECTIONS.values() for kind in section.records}

# The lines of an object's text; those with a record have its words.
TEXT = {
    "header": Line((), 0, 16),
    "section": Line((), 1, 1),
    **{kind: _line(*words.values()) for kind, words in RECORDS.items()},
}

# The lines of the text of a topology, in the order of their kinds, with the words that they take.
TOPOLOGY = {
    "power": "NODE PARENT HELD FIGURE LATENCY",
    "proc": "NODE PARENT FIGURE LATENCY",
    "slave": "NODE PARENT",
    "state": "CAPS LATENCY POWERED FIGURE",
    "line": "LINE TARGET",
    "owner": "NODE PROC, with up to 15 more PROC",
}
