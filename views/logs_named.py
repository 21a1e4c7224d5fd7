"""Calls that a log has by their names: `pm_req_node(33, 1, 100, 2)`, `RPU_0> RequestNode(33, 1, 100, 2)`, and the
plain table of time, master, words and answer.
"""

import re
from typing import Optional, Sequence, Union

import grammar
import lines
import names
import to_numbers
from logs import APU, Entry, Left, Read, State, Unreadable, answer_of_return, answer_of_status, message, number

PREFIXES = ("zynqmp_pm_", "xpm_", "eemi_", "pm_", "pm")

# Names of functions that are otherwise than those of the calls.
OTHER_NAMES = {
    "requestwake": 10, "reqwakeup": 10, "reqsuspend": 6, "reqnode": 13, "forcepwrdwn": 8, "forcepowerdown": 8,
    "resetgetstatus": 18, "resetassert": 17, "initfinalize": 21, "setconfiguration": 2,
}  # fmt: skip
CALLS = {call.name.replace("_", "").lower(): call.number for call in names.CALLS.values()} | OTHER_NAMES

CALLED = re.compile(r"(?:(?P<master>\b[A-Za-z][A-Za-z0-9_]*)\s*>\s*)?\b(?P<name>[A-Za-z]\w*)\((?P<words>[^()]*)\)(?P<rest>.*)$")
ANSWER = re.compile(r"(?:->|=>|\bret\b|\bstatus\b|\breturn(?:s|ed)?\b|/\*\s*=|^\s*=)[\s:=]*(?P<value>-?\w+)")
MASTERS = {"RPU0": 7, "RPU1": 8, "R50": 7, "R51": 8, "RPU_LS": 6}

SELF_SUSPEND, REQUEST_WAKEUP = 7, 10


def master_of(word: str) -> Optional[int]:
    """The master that a word names, or None."""
    value = names.number_of("node", word)
    value = MASTERS.get(word.upper()) if value is None else value
    value = lines.number_of(word) if value is None else value
    return value if value in names.MASTERS else None


def call_of(name: str) -> Optional[int]:
    """The number of the call that a function's name says, or None."""
    low = name.lower()
    for prefix in PREFIXES:
        if low.startswith(prefix):
            low = low[len(prefix) :]
            break
    return CALLS.get(low.replace("_", ""))


def value_in(kind: str, word: str) -> int:
    """The value of a word of a call: a number, `name=number`, or a name of its kind."""
    word = word.rpartition("=")[2].strip()
    if re.fullmatch(r"-?(0x[0-9A-Fa-f]+|\d+)", word):
        return number(word) & 0xFFFFFFFFFFFFFFFF
    try:
        return number(to_numbers.translated(kind, word, {}))
    except to_numbers.Unknown as fault:
        raise Unreadable(str(fault)) from None


def halves(address: int) -> list[int]:
    """An address as a message has it: its low word, and its high one."""
    return [address & 0xFFFFFFFF, address >> 32]


def with_address(name: str, call: int, words: list[int]) -> list[int]:
    """The words of a call of which a function takes the address whole, as TF-A's and the kernel's do."""
    if call == SELF_SUSPEND and len(words) == 4:
        return [*words[:3], *halves(words[3])]
    if call == REQUEST_WAKEUP and len(words) == 3:
        return [words[0], *halves(words[1]), words[2]]
    if call == REQUEST_WAKEUP and len(words) == 4 and name.lower().startswith(("zynqmp_pm_", "pm_")):
        return [words[0], *halves(words[2] | (words[1] & 1)), words[3]]
    return words


def read_named(line: str, _state: State) -> Read:
    """A call by its name, with its words in brackets. The kernel's functions (zynqmp_pm_) return error numbers."""
    found = CALLED.search(line)
    call = call_of(found["name"]) if found else None
    if found is None or call is None:
        return None
    name, arguments = found["name"], names.CALLS[call].arguments
    if arguments is None:
        return [message(APU, call, ())]
    master = master_of(found["master"]) if found["master"] else APU if name.lower().startswith(("zynqmp_pm_", "pm_")) else None
    if master is None:
        raise Unreadable("which master sends it isn't printed" if not found["master"] else f"no master is named {found['master']}")
    given = [word for word in found["words"].split(",") if word.strip()]
    shift = call in (SELF_SUSPEND, REQUEST_WAKEUP)
    kinds = [arguments[k] if k < len(arguments) and not (shift and k) else "" for k in range(len(given))]
    given = given if shift else given[: len(arguments)]
    words = with_address(name, call, [value_in(kind, word) for kind, word in zip(kinds, given)])
    if len(words) < len(arguments):
        raise Unreadable(f"{names.CALLS[call].name} has {lines.count(len(arguments), 'word')}, and {len(words)} are printed")
    answer = ANSWER.search(found["rest"])
    said = answer_of_return if name.lower().startswith("zynqmp_pm_") else answer_of_status
    return [message(master, call, tuple(words), said(number(answer["value"]), call) if answer else "")]


# The plain table: a time, a master, the call and its words, and behind `->` the answer; or columns with a heading.

TIME = re.compile(r"-|\d+(\.\d+)?(us|ms|s)?|\d+:\d\d(:\d\d)?([.,]\d+)?")
LINES = [word for word in grammar.SCRIPT if word not in ("ipi", "object")]


def answer_of(words: Sequence[str]) -> str:
    """The expectation of an answer in a table: a status, by name or number, and words; `none`; or nothing."""
    if not words or list(words) == ["-"]:
        return ""
    if words[0].lower() == "none":
        return "none"
    status = to_numbers.number_of("status", words[0].upper(), {})
    status = number(words[0]) if status is None else status
    return " ".join([answer_of_status(status, 0), *(str(number(word)) for word in words[1:])])


def table_call(master: str, call: str, words: Sequence[str], answer: Sequence[str]) -> Union[Entry, Left]:
    """The entry of a row of the table."""
    sender = master_of(master)
    if sender is None:
        raise Unreadable(f"no master is named {master}")
    value = lines.number_of(call)
    value = call_of(call) if value is None else value
    if value is None:
        raise Unreadable(f"no call is named {call}")
    arguments = names.arguments_of(names.CALLS, value)
    kinds = arguments + ("",) * 8
    numbers = [value_in(kind, word) for kind, word in zip(kinds, words)]
    return message(sender, value, tuple(numbers + [0] * (len(arguments) - len(numbers))), answer_of(answer))


def with_heading(line: str, heading: Sequence[str]) -> Read:
    """A row of a table whose columns have names."""
    row = dict(zip(heading, (word.strip() for word in line.split(","))))
    words = [row[name] for name in heading if re.fullmatch(r"(a|arg|word)\d+", name) and row.get(name)]
    answer = [row[name] for name in heading if re.fullmatch(r"status|answer|w\d", name) and row.get(name)]
    return [table_call(row.get("master", ""), row.get("call", ""), words, answer)]


def heading_of(line: str) -> Optional[list[str]]:
    """The names of the columns, if a line has them."""
    columns = [word.strip().lower() for word in line.split(",")]
    columns = ["call" if word == "api" else word for word in columns]
    return columns if {"master", "call"} <= set(columns) else None


def read_table(line: str, state: State) -> Read:
    """A row of a plain table."""
    columns = heading_of(line)
    if columns:
        state.heading = columns
        return []
    if state.heading and line.count(",") + 1 >= 3:
        return with_heading(line, state.heading)
    body, arrow, answer = line.partition("->")
    words = re.split(r"[\s,;]+", body.strip(" \t,;"))
    if len(words) < 3 or not TIME.fullmatch(words[0]):
        return None
    if words[1] == "-":
        del words[1]
    if words[1] in LINES:
        return [Entry(line=" ".join(words[1:]))]
    if len(words) < 3:
        return None
    is_call = call_of(words[2]) is not None or (master_of(words[1]) and lines.number_of(words[2]) in names.CALLS)
    if not is_call and not arrow:
        return None
    return [table_call(words[1], words[2], words[3:], re.split(r"[\s,;]+", answer.strip()) if answer.strip() else [])]
