"""`--numbers FILE`: a script or the text of an object that is written with names, in numbers.

A number is put in the place of each name. All else stays as it is: the spaces, the comments, the number of each line; but a
line `break N for K` becomes `break N`, and before the line with which it ends a line `mend N` is put in. A word that is no
name is left for the program to judge. In a text a mask is written with the masters whose bits it
has, by the `master` lines of that text: `slave UART_1 0 RPU_0` or `slave UART_1 SHAREABLE APU|RPU_0`.
"""

import functools
import operator
import re
import sys
from typing import Iterable, Optional, Sequence

import faults
import grammar
import lines
import names
import outages
from program import BadUse, read_file

# Kinds whose one is called otherwise in a fault.
SAID = {
    "line": "reset line",
    "own mask": "master",
    "ack": "acknowledge kind",
    "capabilities": "capability",
    "slave flags": "flag of a slave",
    "use flags": "flag of a preallocation",
}

SETS = ("mask", *names.SETS)

# The processors that are targets of power calls, by their places; and what the arguments of functions mean.
TARGETS = names.MASTERS[1]
FUNCTIONS = {"CPU_ON": ("target", "address", "argument"), "AFFINITY_INFO": ("target", "level", "argument")}
NAME = re.compile(r"[A-Za-z_][A-Za-z0-9_]*(\|[A-Za-z0-9_]+)*|\d\w*(\|\w+)+")


class Unknown(Exception):
    """A name that isn't known in its place."""


def number_of(kind: str, name: str, masters: dict[int, int]) -> Optional[int]:
    """The number of one name of a kind, or None; `masters` has the mask of each master of a text."""
    if kind == "mask":
        return masters.get(names.number_of("node", name) or -1)
    if kind == "own mask":
        return names.IPI_MASKS.get(names.number_of("node", name) or -1)
    if kind == "target":
        number = names.number_of("node", name)
        return TARGETS.index(number) if number in TARGETS else None
    return names.number_of(kind, name)


def bits_of(kind: str, word: str, masters: dict[int, int]) -> Optional[int]:
    """The bits of a set that is written `ACCESS|CONTEXT`, with numbers between the names or not; None if one is unknown."""
    parts = [lines.number_of(part) if part[0].isdigit() else number_of(kind, part, masters) for part in word.split("|")]
    return None if None in parts else functools.reduce(operator.or_, parts)


def translated(kind: str, word: str, masters: dict[int, int]) -> str:
    """A word of a kind with a number in place of its names."""
    if kind == "plain" or not NAME.fullmatch(word):
        return word
    number = bits_of(kind, word, masters) if kind in SETS else number_of(kind, word, masters)
    if number is None:
        raise Unknown(unknown(kind, word))
    return str(number)


def unknown(kind: str, word: str) -> str:
    """What is wrong with a name that its kind doesn't have."""
    if kind == "mask":
        return f"no master line of this text has the mask of {word}"
    if kind == "target":
        return f"no processor of {names.node_name(1)} is named {word}"
    if kind in ("node", "line", "call", "clock", "own mask") or kind in names.WORDS:
        return f"no {SAID.get(kind, kind)} is named {word}"
    return f"the {kind} is a number, not {word}" if kind else f"a number is wanted, not {word}"


def kinds_of_message(words: Sequence[str]) -> tuple[str, ...]:
    """Of a line `ipi M API ..` or `post M API ..`: what its words mean, as far as its call says."""
    number = names.number_of("call", words[2]) if len(words) > 2 else None
    if number is None and len(words) > 2:
        number = lines.number_of(words[2])
    call = names.CALLS.get(number or 0)
    return ("node", "call", *(call.arguments or () if call else ()))


def kinds_of_power_call(words: Sequence[str]) -> tuple[str, ...]:
    """Of a line `smc P FUNCTION ..`: what its words mean, as far as its function says."""
    number = names.number_of("function", words[2]) if len(words) > 2 else None
    if number is None and len(words) > 2:
        number = lines.number_of(words[2])
    return ("node", "function", *FUNCTIONS.get(names.WORDS["function"].get(number or 0, "").replace("_64", ""), ("argument",) * 3))


def too_wide(words: Sequence[str]) -> Optional[str]:
    """What is wrong with an argument of a function that is written by its name and takes 32 bits, or None."""
    number = names.number_of("function", words[2]) if words[0] == "smc" and len(words) > 2 else None
    if number is None or number >= 0xC0000000:
        return None
    wide = [word for word in words[3:] if (lines.number_of(word) or 0) >= 1 << 32]
    return f"the arguments of {words[2]} have 32 bits, and {wide[0]} has more (CPU_ON_64 and AFFINITY_INFO_64 have 64)" if wide else None


def kinds_of(words: Sequence[str]) -> Optional[tuple[str, ...]]:
    """What the words after the first one of a line mean, or None of a line that has no such first word."""
    if words[0] in grammar.MESSAGES:
        return kinds_of_message(words)
    if words[0] == "smc":
        return kinds_of_power_call(words)
    if outages.is_outage(words):
        return outages.KINDS
    form = grammar.SCRIPT.get(words[0], grammar.TEXT.get(words[0]))
    return form.kinds if form and form.kinds else None


def line_in_numbers(line: str, masters: dict[int, int]) -> str:
    """A line without its end, with numbers in place of names."""
    found = lines.placed_words(line)
    kinds = kinds_of([word for _, word in found]) if found else None
    if kinds is None:
        return line
    if fault := too_wide([word for _, word in found]):
        raise Unknown(fault)
    made, end = "", 0
    for place, (start, word) in enumerate(found[1:]):
        kind = kinds[place] if place < len(kinds) else ""
        made += line[end:start] + translated(kind, word, masters)
        end = start + len(word)
    return made + line[end:]


def masters_of(text: Iterable[str]) -> dict[int, int]:
    """The mask of each master, by the `master` lines of a text."""
    masters: dict[int, int] = {}
    for line in text:
        words = lines.words_of(line)
        if len(words) > 2 and words[0] == "master":
            node = names.number_of("node", words[1]) or lines.number_of(words[1])
            mask = names.IPI_MASKS.get(names.number_of("node", words[2]) or -1) or lines.number_of(words[2])
            if node is not None and mask is not None:
                masters.setdefault(node, mask)
    return masters


def in_numbers(content: bytes, name: str) -> bytes:
    """The content of a file, a script or a text, with numbers in place of names. A fault is told with its line."""
    text = content.split(b"\n")
    masters = masters_of(line.decode("latin-1") for line in text if b"master" in line)
    made = []
    for number, line in enumerate(text, 1):
        try:
            # (a line of a script without names is decided at once)
            is_done = lines.GOOD.fullmatch(line)
            made.append(line if is_done else line_in_numbers(line.decode("latin-1"), masters).encode("latin-1"))
        except Unknown as fault:
            raise BadUse(f"{faults.name_of(name)}:{number}: {fault}") from None
    return b"\n".join(made)


def of_the_program(script: bytes, name: str) -> bytes:
    """A script in numbers that has outages, in the program's lines alone."""
    own = outages.lines_of(script)
    single = next(outages.singles(own), None)
    if single:
        raise BadUse(f"{name}:{single.line}: where 'fail {single.node} once' ends shows in a run alone: ./pmu --names replay takes the script")
    return "".join(line + "\n" for line in outages.turned(own, {}).lines).encode("latin-1")


def main(words: list[str]) -> int:
    """Writes a file in numbers, and gives the exit."""
    if len(words) != 1:
        raise BadUse("--numbers takes one FILE, a script or the text of an object")
    content = read_file(words[0])
    kind = faults.kind_of(content)
    if kind in ("is an object", "is an ELF file", "is a C file"):
        raise BadUse(f"{faults.name_of(words[0])} {kind}, and a script or the text of an object is wanted")
    made = in_numbers(content, words[0])
    sys.stdout.buffer.write(of_the_program(made, faults.name_of(words[0])) if outages.may_have_any(made) else made)
    return 0
