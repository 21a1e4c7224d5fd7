"""Whether a run is as it is expected to be: a clause, and what is in its place.

A judge takes a run, a step and the words of a clause, and gives None if it is met, or what is instead. The book and the
device after a line are those of the closing table of the script up to that line, which the program writes.
"""

from typing import Callable, Optional, Sequence

import lines
import names
import replay_meanings
import to_numbers
from chip import Chip
from expectations import Clause
from program import BadUse

# The words of a clause behind its first one, and what judges them: None if they are met, or what is instead.
Words = Sequence[str]

# What the kernel makes of statuses: of each error number the statuses that give it; -EINVAL of all others.
OF_ERRORS = {"-EACCES": {2002}, "-ENOTSUPP": {19}, "-ECANCELED": {2005}, "-EUSERS": {2007}}
NO_ERROR = {0, 2004}
RETURNS = {"SUCCESS": 0, "NOT_SUPPORTED": -1, "INVALID_PARAMETERS": -2, "DENIED": -3, "ALREADY_ON": -4, "INTERNAL_FAILURE": -6}
SWITCHED = {"line": ("released", "asserted"), "clock": ("stopped", "runs"), "power": ("off", "on")}


# A closing table: of each unit, a kind and a number, its two numbers.
Table = dict[tuple[str, int], tuple[int, int]]


class Unread(Exception):
    """A word of a clause that means nothing in its place."""


class Run:
    """What the program wrote of a script: by step its lines, and the table after a step."""

    def __init__(self, chip: Chip, script: list[str], written: list[str], table_of: Callable[[int], list[str]]) -> None:
        """The run of a script by what was written of it; `table_of` runs the script up to a line."""
        self.chip, self.script, self.table_of = chip, script, table_of
        self.tables: dict[int, Table] = {}
        self.steps: dict[int, list[list[str]]] = {}
        for line in written:
            step, *words = line.split()
            if step != "end":
                self.steps.setdefault(int(step), []).append(words)

    def wrote(self, step: int, kind: str) -> list[list[int]]:
        """The lines of a kind that a step wrote, as numbers."""
        return [[0 if word == "-" else int(word) for word in words] for first, *words in self.steps.get(step, []) if first == kind]

    def table(self, step: int) -> "Table":
        """The closing table after a step."""
        if step not in self.tables:
            self.tables[step] = table_of(self.table_of(step))
        return self.tables[step]


Judge = Callable[[Run, int, Words], Optional[str]]


def table_of(written: list[str]) -> "Table":
    """The closing table of a run."""
    rows = [line.split()[1:] for line in written if line.startswith("end ")]
    return {(kind, int(unit)): (int(value), int(kept)) for kind, unit, value, kept in rows}


def number(kind: str, word: str) -> int:
    """A word of a clause as a number."""
    try:
        value = lines.number_of(to_numbers.translated(kind, word, {}))
    except to_numbers.Unknown as fault:
        raise Unread(str(fault)) from None
    if value is None:
        raise Unread(f"'{word}' is no {to_numbers.SAID.get(kind, kind) or 'number'}")
    return value


def state(word: str, known: Sequence[str]) -> int:
    """The number of a state, a mode or a switch by its name."""
    value = known.index(word) if word in known else lines.number_of(word)
    if value is None:
        raise Unread(f"'{word}' is none of {', '.join(known)}" if known else f"a number is wanted, not '{word}'")
    return value


def states_of(chip: Chip, node: int) -> tuple[str, ...]:
    """The names of the states of a node."""
    return tuple(chip.kept_name(node, value) for value in range(max(2, len(chip.nodes[node].states)))) if node in chip.nodes else ()


def statuses_of(word: str) -> Callable[[int], bool]:
    """Whether a status is one that a word names: names and numbers with | between, or an error number of the kernel."""
    if word in OF_ERRORS:
        return lambda status: status in OF_ERRORS[word]
    if word == "-EINVAL":
        return lambda status: status not in NO_ERROR.union(*OF_ERRORS.values())
    wanted = {number("status", part) for part in word.split("|")}
    return lambda status: status in wanted


def said_status(status: int, words: list[int], wanted: Words) -> str:
    """A status by its name, with as many words as are expected."""
    return " ".join([names.STATUSES.get(status, str(status)), *map(str, words[: len(wanted)])])


def said_words(first: list[str], kinds: Sequence[str], words: list[int]) -> str:
    """Words of the output by their names, as far as it is known what they mean."""
    return " ".join(first + [hex(word) if kind == "address" else names.word_name(kind, word) for kind, word in zip(kinds, words)])


def of_a_reply(reply: Optional[list[int]], wanted: Words, numbers: list[int]) -> Optional[str]:
    """Judges a status and words by what was answered, or by nothing."""
    if reply is None:
        return None if wanted[0] == "none" else "there is none"
    met = wanted[0] != "none" and statuses_of(wanted[0])(reply[0]) and numbers == reply[1 : 1 + len(numbers)]
    return None if met else "it is " + said_status(reply[0], reply[1:], wanted[1:])


def word_of_answer(chip: Chip, message: Sequence[int], place: int, word: str) -> int:
    """A word of an answer as a number: of a node's status its state and requirement may be named."""
    if message[1] == 3 and place == 0 and message[2] in chip.nodes:
        modes = tuple(names.MODES[value] for value in sorted(names.MODES))
        return state(word, modes if chip.is_kind(message[2], "processor") else states_of(chip, message[2]))
    return number("capabilities" if message[1] == 3 and place == 1 else "", word)


def answer(run: Run, step: int, wanted: Words) -> Optional[str]:
    """The answer to the message of the line: a reply, or with acknowledge kind 3 the callback 31."""
    message = lines.message_of(run.script[step - 1]) if step else None
    if not message or run.script[step - 1].split()[0] != "ipi":
        raise Unread("the line sends no message")
    if run.wrote(step, "drop"):
        return None if wanted[0] == "none" else f"{names.node_name(message[0])} isn't heard"
    found = [reply[1:] for reply in run.wrote(step, "reply") if reply[0] == message[0] and replay_meanings.is_answered(message)]
    found += [call[3:] for call in run.wrote(step, "call") if call[:2] == [message[0], 31] and not replay_meanings.is_answered(message)]
    numbers = [word_of_answer(run.chip, message, place, word) for place, word in enumerate(wanted[1:])]
    return of_a_reply(found[-1] if found else None, wanted, numbers)


def reply(run: Run, step: int, wanted: Words) -> Optional[str]:
    """A reply to a master, late or not."""
    master = number("node", wanted[0])
    found = [words[1:] for words in run.wrote(step, "reply") if words[0] == master]
    if not wanted[1:]:
        return None if found else "there is none"
    numbers = [number("", word) for word in wanted[2:]]
    if any(of_a_reply(it, wanted[1:], numbers) is None for it in found):
        return None
    return of_a_reply(found[-1] if found else None, wanted[1:], numbers)


def callback(run: Run, step: int, wanted: Words) -> Optional[str]:
    """A callback to a master; words that aren't said may be any."""
    master = number("node", wanted[0])
    calls = {call.name: call for call in names.CALLBACKS.values()}
    expected = [master]
    if wanted[1:]:
        known = calls.get(wanted[1]) or names.CALLBACKS.get(lines.number_of(wanted[1]) or 0)
        if known is None:
            raise Unread(f"no callback is named {wanted[1]}")
        kinds = (*(known.arguments or ()), "", "", "", "")
        expected += [known.number, *(number(kind, word) for kind, word in zip(kinds, wanted[2:]))]
    found = [call for call in run.wrote(step, "call") if call[0] == master]
    if any(call[: len(expected)] == expected for call in found):
        return None
    told = [said_words([names.callback_name(call[1])], names.arguments_of(names.CALLBACKS, call[1]), call[2:]) for call in found]
    return f"{names.node_name(master)} gets " + (", ".join(told) or "no callback")


def command(kind: str) -> Judge:
    """The judge of a command to the device, which it took or refused."""

    def judge(run: Run, step: int, wanted: Words) -> Optional[str]:
        """Judges whether the unit had the command, and to which value."""
        of_line = kind.startswith("line")
        unit = number("line" if of_line else "node", wanted[0])
        known = SWITCHED["line"] if of_line else states_of(run.chip, unit)
        found = [words[2] for words in run.wrote(step, kind) if words[0] == unit]
        if found and (not wanted[1:] or state(wanted[1], known) in found):
            return None
        told = [known[value] if value < len(known) else str(value) for value in found]
        return f"it is set to {', '.join(told)}" if told else "there is no such command"

    return judge


def plain(kind: str, *kinds: str) -> Judge:
    """The judge of a line of which each word is a number or a name."""

    def judge(run: Run, step: int, wanted: Words) -> Optional[str]:
        """Judges whether the step wrote such a line with these words."""
        expected = [number(it, word) for it, word in zip(kinds, wanted)]
        found = run.wrote(step, kind)
        if any(words[: len(expected)] == expected for words in found):
            return None
        return ", ".join("it is " + said_words([kind], kinds, words) for words in found) or "there is none"

    return judge


def power_call(run: Run, step: int, wanted: Words) -> Optional[str]:
    """The answer to a power call; the output has - if there is none."""
    found = [words[1] for first, *words in run.steps.get(step, []) if first == "smc"]
    if not found:
        return "the line is no power call"
    met = found[-1] == {**{name: str(value) for name, value in RETURNS.items()}, "none": "-"}.get(wanted[0], wanted[0])
    return None if met else "it is " + {str(value): name for name, value in RETURNS.items()}.get(found[-1], "none")


def mode(run: Run, step: int, wanted: Words) -> Optional[str]:
    """The mode of a processor after the line."""
    known = tuple(names.MODES[value] for value in sorted(names.MODES))
    value, _ = run.table(step).get(("proc", number("node", wanted[0])), (0, 0))
    return None if state(wanted[1], known) == value else f"it is {known[value]}"


def unit_of(run: Run, step: int, word: str) -> tuple[tuple[int, int], Sequence[str]]:
    """The numbers of a unit in the table, and the names of its states: a node, or a reset line by its name or `line:N`."""
    if word.startswith("line:") or word.startswith(names.PREFIXES["reset"]):
        return run.table(step).get(("line", number("line", word.rpartition(":")[2])), (0, 0)), SWITCHED["line"]
    node = number("node", word)
    kinds = [kind for kind in ("slave", "power", "proc") if (kind, node) in run.table(step)]
    return run.table(step)[kinds[0], node] if kinds else (0, 0), states_of(run.chip, node)


def value_in(place: int) -> Judge:
    """The judge of a unit's value after the line: in the book, or at the device."""

    def judge(run: Run, step: int, wanted: Words) -> Optional[str]:
        """Judges the value of a unit after the line."""
        numbers, known = unit_of(run, step, wanted[0])
        if place == 0 and run.chip.is_kind(names.number_of("node", wanted[0]) or lines.number_of(wanted[0]) or 0, "processor"):
            raise Unread(f"{wanted[0]} is a processor, and has a mode: mode {wanted[0]} ..")
        value = numbers[place]
        return None if state(wanted[1], known) == value else f"it is {known[value] if value < len(known) else value}"

    return judge


def clock(run: Run, step: int, wanted: Words) -> Optional[str]:
    """Whether a clock runs after the line."""
    runs = ("clock", number("clock", wanted[0])) in run.table(step)
    return None if state(wanted[1], SWITCHED["clock"]) == runs else f"it {'runs' if runs else 'is stopped'}"


def nothing(run: Run, step: int, _wanted: Words) -> Optional[str]:
    """The line writes nothing."""
    found = run.steps.get(step, [])
    return f"it writes {lines.count(len(found), 'line')}, the first is '{' '.join(found[0])}'" if found else None


JUDGES: dict[str, Judge] = {
    "answer": answer, "reply": reply, "call": callback, "drop": plain("drop", "node"), "run": plain("run", "node", "address"),
    "set": command("set"), "fail": command("fail"), "line": command("line"), "linefail": command("linefail"),
    "smc": power_call, "busy": plain("busy", "node"), "late": plain("late", "address"), "task": plain("task", "key", "", ""),
    "notask": plain("notask", "key"), "mode": mode, "value": value_in(0), "device": value_in(1), "clock": clock,
    "nothing": nothing,
}  # fmt: skip


def difference(run: Run, clause: Clause) -> Optional[str]:
    """What is in the place of what a clause expects, or None if that is met."""
    words = clause.words
    try:
        if words[0] != "no":
            return JUDGES[words[0]](run, clause.step, words[1:])
        if len(words) > 2:
            return None if JUDGES[words[1]](run, clause.step, words[2:]) else "there is one"
        return "there is one" if run.wrote(clause.step, words[1]) else None
    except Unread as fault:
        raise BadUse(f"{clause.place}: {fault}") from None
