"""The lines of a script and of an object's text: their words and numbers, and what is wrong with one."""

import difflib
import functools
import re
from typing import Callable, Collection, Iterable, Optional, Union

import grammar

LONGEST = 255

# What a number of very many digits is read as, which fits nowhere: Python itself reads no more than 4,300 digits.
UNFIT = 1 << 128
MOST_DIGITS = 38

# The cause of a bad line and the sentence of what is wrong with it, or None of a good one.
Fault = Optional[tuple[int, str]]

# So many lines with a message are read once alone: a script has most of its messages again and again.
REMEMBERED = 1 << 16

WORD = re.compile(r"[^ \t]+")
HEXADECIMAL = re.compile(r"0x[0-9a-fA-F]+")

# A line of a script that certainly means something. It decides most lines at once.
GOOD = re.compile(
    rb"[ \t]*(?:(?:(?:ipi|post)(?:[ \t]+N){2,7}|boot(?:[ \t]+N){2}|smc(?:[ \t]+N){2,5}|task(?:[ \t]+N){2}"
    rb"|object(?:[ \t]+N){1,124}|(?:wfi|irq|gic|tick|cancel|break|mend)[ \t]+N|serve)"
    rb"(?=[ \t\r\n]|\Z)[ \t]*)?"
    rb"(?:#[\t -~]*)?\r?".replace(b"N", rb"(?:\d{1,9}|0x[\da-fA-F]{1,8})")
)


def without_return(line: bytes) -> bytes:
    """A line without the carriage return at its end, if it has one."""
    return line[:-1] if line.endswith(b"\r") else line


def placed_words(line: str) -> list[tuple[int, str]]:
    """The words of a line without its comment, each with the place at which it begins. A comment begins with a word."""
    found = []
    for match in WORD.finditer(line.removesuffix("\r")):
        if match.group().startswith("#"):
            break
        found.append((match.start(), match.group()))
    return found


def words_of(line: Union[bytes, str]) -> list[str]:
    """The words of a line, without its comment and its carriage return."""
    text = line.decode("latin-1") if isinstance(line, bytes) else line
    if "#" in text:
        return [word for _, word in placed_words(text)]
    return [word for word in text.removesuffix("\r").replace("\t", " ").split(" ") if word]


def number_of(word: str) -> Optional[int]:
    """The number that a word stands for as scripts, texts and the program's words have it, or None."""
    if not (word.isascii() and word.isdecimal()):
        return int(word, 16) if HEXADECIMAL.fullmatch(word) else None
    digits = word if len(word) <= MOST_DIGITS else word.lstrip("0")
    return int(digits or "0") if len(digits) <= MOST_DIGITS else UNFIT


@functools.lru_cache(REMEMBERED)
def message_of(line: str) -> Optional[tuple[int, ...]]:
    """The message of a line of a script, sent or put into a box, as numbers: the master, the call and its words. None of
    any other line."""
    words = words_of(line)
    if not words or words[0] not in grammar.MESSAGES:
        return None
    numbers = [number_of(word) or 0 for word in words[1:]]
    return (*numbers, *[0] * (7 - len(numbers)))


def like(word: str, known: Iterable[str]) -> str:
    """A hint at the known word that is most like this one, if one is."""
    found = difflib.get_close_matches(word.lower(), known, 1)
    return f" (did you mean '{found[0]}'?)" if found else ""


def count(number: int, what: str) -> str:
    """A number of things, in words."""
    return f"{number} {what}" + "s" * (number != 1)


def unreadable(line: bytes) -> Optional[tuple[int, str]]:
    """Why a line isn't read at all, with its cause in a script, or None."""
    if len(line) > LONGEST:
        return 4, f"the line has {len(line)} bytes, and the most is {LONGEST}"
    for k, byte in enumerate(without_return(line), 1):
        if byte != 9 and not 0x20 <= byte <= 0x7E:
            return 5, f"byte {k} of the line is 0x{byte:02X}, and only tabs and printable ASCII are read"
    return None


def wrong_count(words: list[str], least: int, most: int) -> Optional[str]:
    """Why a line has not the words that its first one takes, or None."""
    has = len(words) - 1
    if least <= has <= most:
        return None
    wanted = count(least, "word") if least == most else f"{least} to {most} words"
    return f"'{words[0]}' takes {wanted} after it, and {has} {'is' if has == 1 else 'are'} here"


def reader_of(word: str) -> str:
    """What reads a word that looks like a name, behind the sentence that it is no number; nothing of another word."""
    return "; ./pmu --names reads names" if word[:1].isalpha() and word.isupper() else ""


def wrong_number(words: list[str], kinds: Collection[str] = ()) -> Optional[str]:
    """Why a word of a line is no number that fits, or None. The words after the first one are of these kinds."""
    wide_places = [k for k, kind in enumerate(kinds, 2) if kind in grammar.WIDE]
    for k, word in enumerate(words[1:], 2):
        value, wide = number_of(word), 64 if k in wide_places else 32
        if value is None:
            return f"a number is wanted in word {k}, not '{word}'{reader_of(word)}"
        if value >= 1 << wide:
            return f"the number in word {k}, {word}, doesn't fit {wide} bits"
    return None


def script_fault(line: bytes) -> Fault:
    """The cause and the sentence of what is wrong with a line of a script, or None."""
    unread = unreadable(line)
    if unread:
        return unread
    words = words_of(line)
    if not words:
        return None
    if words[0] not in grammar.SCRIPT:
        return 1, f"no line of a script begins with '{words[0]}'{like(words[0], grammar.SCRIPT)}"
    form = grammar.SCRIPT[words[0]]
    found = wrong_count(words, form.least, form.most)
    if found:
        return 3, found
    found = wrong_number(words, form.kinds)
    return (2, found) if found else None


def first_fault(script: bytes, judge: Callable[[bytes], Fault] = script_fault) -> Optional[tuple[int, int, str]]:
    """The number of the first line of a script with no meaning, its cause and the sentence of what is wrong; or None. Lines that
    the program has are good ones for each judge."""
    for number, line in enumerate(script.split(b"\n"), 1):
        if not (len(line) <= LONGEST and GOOD.fullmatch(line)):
            found = judge(line)
            if found:
                return number, *found
    return None


def form_fault(line: bytes) -> Optional[str]:
    """What is wrong with the form of a line of an object's text, or None."""
    unread = unreadable(line)
    if unread:
        return unread[1]
    words = words_of(line)
    if not words:
        return None
    if words[0] not in grammar.TEXT:
        return f"no line of an object's text begins with '{words[0]}'{like(words[0], grammar.TEXT)}"
    form = grammar.TEXT[words[0]]
    found = wrong_count(words, form.least, form.most)
    if not found and words[0] == "section":
        known = [section.name for section in grammar.SECTIONS.values()]
        return None if words[1] in known else f"no section is named '{words[1]}'{like(words[1], known)}"
    return found or wrong_number(words)
