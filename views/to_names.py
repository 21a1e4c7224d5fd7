"""A line of a script or of the text of an object with names in place of its numbers; `to_numbers.py` reads it again."""

from typing import Optional

import lines
import names
import to_numbers


def mask_name(mask: int, masters: dict[int, int]) -> Optional[str]:
    """A mask by the masters whose bits it has, or None if it has others or none."""
    found = [names.node_name(node) for node, bits in masters.items() if bits & mask]
    return "|".join(found) if found and not mask & ~sum(masters.values()) else None


def ipi_mask_name(mask: int) -> Optional[str]:
    """A master whose published mask this is, or None."""
    found = [names.node_name(node) for node, published in names.IPI_MASKS.items() if published == mask]
    return found[-1] if found else None


def word_in_names(kind: str, word: str, masters: dict[int, int]) -> str:
    """A number of a kind by its name, or the word as it is if it has none."""
    value = lines.number_of(word)
    if value is None or kind == "plain":
        return word
    if kind == "mask":
        return mask_name(value, masters) or word
    if kind == "own mask":
        return ipi_mask_name(value) or word
    if kind == "target":
        return names.node_name(to_numbers.TARGETS[value]) if value < len(to_numbers.TARGETS) else word
    if kind == "call":
        return names.CALLS[value].name if value in names.CALLS else word
    name = names.word_name(kind, value)
    return word if name.isdigit() or "0x" in name else name


def line_in_names(line: str, masters: dict[int, int]) -> str:
    """A line without its comment, with single spaces; `masters` has the mask of each master of a text."""
    words = lines.words_of(line)
    kinds = (to_numbers.kinds_of(words) or ()) if words else ()
    named = [word_in_names(kind, word, masters) for kind, word in zip(kinds, words[1:])]
    return " ".join(words[:1] + named + words[1 + len(named) :])
