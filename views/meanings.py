"""What the lines of an object's text, of a reach and of a comparison mean."""

from typing import Callable, Iterator

import names
from chip import Chip
from replays import master_masks


def masters_in(mask: int, masters: dict[int, int]) -> str:
    """The masters whose bits a mask has, as names; bits of no master as a number."""
    found = [names.node_name(node) for node, bits in masters.items() if bits & mask]
    rest = mask & ~sum(masters.values())
    return ", ".join(found + [f"{rest:#x} of no master"] * (rest != 0)) or "nobody"


def capabilities(word: int) -> str:
    """A set of capabilities in words."""
    return names.capabilities(word) if word else "nothing"


# The text of an object.


def meaning_of_master(_chip: Chip, masters: dict[int, int], *words: int) -> str:
    """Whom a master may suspend and wake."""
    node, _, timeout, suspend, wake = words
    said = [names.node_name(node) + ":", f"may suspend {masters_in(suspend, masters)}"]
    said += [f"and wake {masters_in(wake, masters)}"] + ["(no timeout)"] * (timeout == 0xFFFFFFFF)
    return " ".join(said)


def meaning_of_slave(chip: Chip, masters: dict[int, int], node: int, flags: int, mask: int) -> str:
    """Who may use a slave."""
    return f"{named_node(chip, node)}: {masters_in(mask, masters)}" + "; shareable" * (flags & 1)


def meaning_of_prefer(chip: Chip, _masters: dict[int, int], *words: int) -> str:
    """What a preallocation gives."""
    node, flags, current, preset = words
    use = "in use with " if flags & 2 else "not in use, "
    return f"{named_node(chip, node)}: {use}{capabilities(current)}; preset {capabilities(preset)}"


def named_node(chip: Chip, node: int) -> str:
    """A node by its name, and whether the chip has it."""
    return names.node_name(node) + ", which the table lacks" * (node not in chip.nodes)


def named_line(chip: Chip, line: int) -> str:
    """A reset line by its name, and whether the chip has it."""
    return names.line_name(line) + ", which the table lacks" * (line not in chip.lines)


MEANING_OF_RECORD: dict[str, Callable[..., str]] = {
    "master": meaning_of_master,
    "slave": meaning_of_slave,
    "group": lambda _, masters, mask: masters_in(mask, masters),
    "prefer": meaning_of_prefer,
    "power": lambda chip, masters, node, mask: f"{named_node(chip, node)}: {masters_in(mask, masters)}",
    "reset": lambda chip, masters, line, mask: f"{named_line(chip, line)}: {masters_in(mask, masters)}",
    "shutdown": lambda _, masters, subtype, mask: f"{names.word_name('shutdown subtype', subtype)}: {masters_in(mask, masters)}",
    "config": lambda _, masters, base, overlay: f"base {masters_in(base, masters)}; overlay {masters_in(overlay, masters)}",
}


def meanings_of_text(chip: Chip, lines: list[str]) -> Iterator[str]:
    """What the lines of `print` mean."""
    masters = master_masks(lines)
    for line in lines:
        word, *rest = line.split()
        meaning = MEANING_OF_RECORD.get(word)
        yield meaning(chip, masters, *map(int, rest)) if meaning else ""


# The text of a reach and of a comparison.

WHY_MASTER = {
    "suspend": "may suspend it",
    "wake": "may wake it",
    "force": "may force a processor of it down, or what is above one or above a slave of it",
    "reset": "may reset a processor of it",
    "shutdown": "may shut down all",
    "config": "may set the configuration",
}
WHY_UNIT = {"use": "may use it", "force": "may force a power node above it down", "reset": "may reset it"}


def meaning_of_reached(line: str) -> str:
    """A line of a reach or of a comparison."""
    kind, *rest = line.split()
    if kind == "differ":
        return named(rest[0], int(rest[1]))
    if kind == "steps":
        return ""
    node, reason, path = int(rest[0]), rest[1], [names.node_name(int(master)) for master in rest[2:]]
    if reason == "self":
        return names.node_name(node)
    if kind == "master":
        return f"{names.node_name(node)}: {' -> '.join(path[:-1])} {WHY_MASTER[reason]}"
    why = "has a processor or brings in a slave below it" if reason == "above" else WHY_UNIT[reason]
    return f"{named(kind, node)}: {' -> '.join(path)} {why}"


def named(kind: str, number: int) -> str:
    """A unit by its kind: `slave`, `power`, `proc`, `line`."""
    return f"reset line {names.line_name(number)}" if kind == "line" else names.node_name(number)
