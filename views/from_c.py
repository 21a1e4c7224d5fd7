"""`from-c FILE.c [-o FILE.obj]`: the object of the C array that the vendor's tools write, as `pm_cfg_obj.c`.

The file has one array `XPm_ConfigObject` of words. A word is an expression of numbers, of names that the file
defines, and of those that the headers of the tools define, which are here.
"""

import sys
from typing import Iterator, Optional

import c_source
import faults
import names
import objects
import program
from c_expression import Token

ARRAY = "XPm_ConfigObject"

USAGE = "usage: ./pmu from-c FILE.c [-o FILE.obj]"

# What the tools' headers, and the files that they write, define beside nodes, reset lines and capabilities.
DEFINED = {
    "PM_CONFIG_OBJECT_TYPE_BASE": objects.TYPE_BASE,
    "PM_CONFIG_MASTER_SECTION_ID": 0x101,
    "PM_CONFIG_SLAVE_SECTION_ID": 0x102,
    "PM_CONFIG_PREALLOC_SECTION_ID": 0x103,
    "PM_CONFIG_POWER_SECTION_ID": 0x104,
    "PM_CONFIG_RESET_SECTION_ID": 0x105,
    "PM_CONFIG_SHUTDOWN_SECTION_ID": 0x106,
    "PM_CONFIG_SET_CONFIG_SECTION_ID": 0x107,
    "PM_CONFIG_GPO_SECTION_ID": 0x108,
    "PM_CONFIG_IPI_PSU_CORTEXA53_0_MASK": 0x1,
    "PM_CONFIG_IPI_PSU_CORTEXR5_0_MASK": 0x100,
    "PM_CONFIG_IPI_PSU_CORTEXR5_1_MASK": 0x200,
    "PM_SLAVE_FLAG_IS_SHAREABLE": objects.SHAREABLE,
    "PM_MASTER_USING_SLAVE_MASK": objects.IN_USE,
    "SUSPEND_TIMEOUT": 0xFFFFFFFF,
    # (a place without a node, and one that had another name before)
    "NODE_UNKNOWN": 0,
    "NODE_ID_MA": 70,
    **{f"PM_CONFIG_GPO1_BIT_{bit}_MASK": 1 << bit for bit in range(2, 6)},
    **{f"PM_CONFIG_GPO1_MIO_PIN_{pin}_MAP": 1 << pin - 24 for pin in range(34, 38)},
}

# The prefixes of the kinds of names that names.py has.
PREFIXES = {"node": "NODE_", "reset": "XILPM_RESET_", "capabilities": "PM_CAP_"}


def value_of(name: str) -> Optional[int]:
    """The value of a name of the tools' headers, or None."""
    if name in DEFINED:
        return DEFINED[name]
    for kind, prefix in PREFIXES.items():
        if name.startswith(prefix):
            return names.number_of(kind, name[len(prefix) :])
    return None


def closing(source: c_source.Source, begin: int) -> int:
    """The place of the bracket that closes the one at `begin`."""
    pairs, depth = {"{": 1, "[": 1, "(": 1, "}": -1, "]": -1, ")": -1}, 0
    for place in range(begin, len(source.tokens)):
        depth += pairs.get(source.tokens[place].text, 0)
        if depth == 0:
            return place
    raise c_source.Refused(source.file, source.tokens[begin].line, "a bracket isn't closed")


def arrays(source: c_source.Source) -> Iterator[tuple[list[Token], int, int]]:
    """Of each definition of the array: the tokens of its length, and the places of its two braces."""
    tokens = source.tokens
    for place, token in enumerate(tokens):
        if token.text != ARRAY or [part.text for part in tokens[place + 1 : place + 2]] != ["["]:
            continue
        end = closing(source, place + 1)
        # (attributes of the compiler may stand before the equals sign)
        begin = next((k for k in range(end, len(tokens)) if tokens[k].text in ("=", ";")), len(tokens))
        if [part.text for part in tokens[begin : begin + 2]] == ["=", "{"]:
            yield tokens[place + 2 : end], begin + 1, closing(source, begin + 1)


def the_array(source: c_source.Source) -> tuple[list[Token], int, int]:
    """The one definition of the array."""
    found = list(arrays(source))
    if not found:
        raise c_source.Refused(source.file, 1, f"no array {ARRAY} is defined")
    if len(found) > 1:
        raise c_source.Refused(source.file, source.tokens[found[1][1]].line, f"{ARRAY} is defined a second time")
    return found[0]


def elements(source: c_source.Source, begin: int, end: int) -> Iterator[tuple[list[Token], int]]:
    """The elements between two braces: the tokens of each, and the line at which it ends. A comma may be the last."""
    element: list[Token] = []
    depth = 0
    for token in source.tokens[begin + 1 : end]:
        depth += {"(": 1, ")": -1}.get(token.text, 0)
        if token.text == "," and depth == 0:
            yield element, token.line
            element = []
        else:
            element.append(token)
    if element:
        yield element, source.tokens[end].line


def words_of(file: str, text: str) -> tuple[list[tuple[int, int]], int]:
    """The words of the array, each with its line, and the line at which the array ends."""
    source = c_source.Source(file, text)
    length, begin, end = the_array(source)
    words = []
    for element, line in elements(source, begin, end):
        words.append((source.value(element, line, value_of), element[0].line if element else line))
    last = source.tokens[end].line
    if length and source.value(length, last, value_of) != len(words):
        raise c_source.Refused(file, last, f"the array has {len(words)} words, and another length in its brackets")
    return words, last


def judged(file: str, words: list[tuple[int, int]], last: int) -> bytes:
    """The bytes of the object. What isn't an object is told with the line of the word that shows it."""
    data = objects.to_bytes([word for word, _ in words])
    try:
        objects.decode(data)
    except objects.Fault as fault:
        line = words[fault.place][1] if fault.place < len(words) else last
        raise c_source.Refused(file, line, str(fault)) from None
    return data


def main(words: list[str]) -> int:
    """Makes the object of a C file, and gives the exit."""
    if len(words) != 1:
        raise program.BadUse(USAGE)
    text, name = program.read_file(words[0]).decode("latin-1"), faults.name_of(words[0])
    sys.stdout.buffer.write(judged(name, *words_of(name, text)))
    return 0
