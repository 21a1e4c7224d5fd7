"""What is wrong with an object, or with the text of one: the sentence of each cause that the program gives by its number."""

from typing import Optional, Union

from forms import LIMITS
from grammar import HOMES, SECTIONS
from lines import count, form_fault, number_of, words_of


def object_causes(word: int, offset: int, size: int) -> dict[int, str]:
    """The sentence of each cause of a bad object at an offset in words, with the word that is there."""
    return {
        1: f"its {size} bytes are no whole number of words of four bytes",
        2: f"it has more than {LIMITS['OBJ']} bytes",
        3: f"it ends after {count(offset, 'word')}, in the middle of a section or of the header",
        4: f"word 0: the header says {word}, and has at least 2 words after this one",
        5: f"word {offset}: the type of the object is {word}, and only 1 is read",
        6: f"word {offset}: no such section: {word:#x}" + " (or a count before it is wrong)" * (offset > 3),
        7: f"word {offset}: the section {SECTIONS[word].name if word in SECTIONS else word} came before",
        8: f"word {offset}: the first section has to be that of the masters, with one master or more",
        9: f"word {offset}: node {word} is no master here (1, 6, 7 and 8 are, and 6 not beside 7 or 8)",
        10: f"word {offset}: the mask {word:#x} isn't one bit that no earlier master has",
        11: f"word {offset}: an earlier record of the section has {word} too",
        12: f"word {offset}: the object has all its sections before it, and {count(size // 4 - offset, 'word')} too many",
    }


def object_sentence(cause: int, offset: int, data: bytes) -> str:
    """What is wrong with an object of these bytes, by the cause and the place in words that its fault line has."""
    word = int.from_bytes(data[4 * offset : 4 * offset + 4], "little")
    header = int.from_bytes(data[:4], "little")
    if cause == 3 and header >= offset > 0:
        sentence = f"word 0: the header says {count(header, 'word')} after it, and the file has {offset - 1}"
    else:
        sentence = object_causes(word, offset, len(data))[cause]
    turned = int.from_bytes(data[:4], "big") < 64 <= header
    return sentence + " (its words have the most significant byte first, and an object's have it last)" * turned


def section_before(lines: list[bytes]) -> tuple[Optional[str], int]:
    """The section that is open after these lines of an object's text, and the number of its line."""
    for number in range(len(lines), 0, -1):
        words = words_of(lines[number - 1])
        if words[:1] == ["section"]:
            return words[1], number
    return None, 0


def same_before(lines: list[bytes], words: list[str]) -> int:
    """The number of an earlier line that a repeated line of an object's text repeats."""
    for number in range(len(lines), 0, -1):
        earlier = words_of(lines[number - 1])
        if earlier[:1] == words[:1] and keys(earlier) == keys(words):
            return number
    return 0


def keys(words: list[str]) -> list[Union[int, str]]:
    """What a line is told from others by: its first word, and its second one as a number."""
    return [word if (number := number_of(word)) is None else number for word in words[:2]]


def out_of_place(before: list[bytes], words: list[str]) -> str:
    """Why a line of an object's text can't stand behind these."""
    section, at = section_before(before)
    begun = any(words_of(line) for line in before)
    first = words[0] if words else ""
    if not begun and first != "header":
        return "the line is out of place: a header line comes first"
    if first == "header":
        return "the line is out of place: a header line stands at the head, and a further one only after one of 16 words"
    if section in ("config", "gpo") and (first in ("section", "") or HOMES.get(first) != section):
        filled = any(words_of(line) for line in before[at:])
        if not filled:
            return f"the line is out of place: the section {section} of line {at} has no record yet"
    home = HOMES.get(first)
    if home == section and first == "prefer":
        return "the line is out of place: 'prefer' stands after a 'group'"
    if home == section:
        return f"the line is out of place: the section {section} has its one record already"
    where = f"in the section {section}" if section else "before the first section"
    return f"the line is out of place: '{first}' stands in the section {home}, and this is {where}"


def not_of_masters(before: list[bytes], words: list[str]) -> str:
    """What is wrong with the masters of a text at a line."""
    section, at = section_before(before)
    if words[:1] == ["master"]:
        node, mask = number_of(words[1]), number_of(words[2])
        nodes = [number_of(words_of(line)[1]) for line in before if words_of(line)[:1] == ["master"]]
        split = node == 6 and {7, 8} & {*nodes} or node in (7, 8) and 6 in nodes
        if node not in (1, 6, 7, 8):
            return f"node {node} is no master: 1, 6, 7 and 8 are"
        if split:
            return f"master {node} can't stand beside master {' and '.join(str(it) for it in nodes if it != 1)}"
        return f"the mask {mask:#x} of master {node} isn't one bit that no earlier master has"
    if section:
        return f"the section masters of line {at} has no master"
    return "the first section has to be that of the masters"


def text_cause(cause: int, before: list[bytes], line: bytes, is_end: bool) -> Optional[str]:
    """The sentence of a cause of a bad text at a line, with the lines before it."""
    words = words_of(line)
    if cause == 1:
        return form_fault(line)
    if cause == 2 and is_end and not any(words_of(it) for it in before):
        return "the text has no header"
    if cause == 2:
        return out_of_place(before, words)
    if cause == 3:
        what = " ".join(words[:2])
        return f"'{what}' came before, in line {same_before(before, words)}"
    if cause == 4:
        return "the text has no section of masters" if is_end and not section_before(before)[0] else not_of_masters(before, words)
    return f"the object has more than {LIMITS['OBJ'] // 4} words by this line"
