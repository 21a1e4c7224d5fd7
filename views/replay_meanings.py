"""What the lines of a replay mean."""

import functools
from typing import Iterator, Sequence

import lines as texts
import names
import reached
from chip import Chip
from meanings import capabilities
from steps import Replay

# The answers to power calls that say that one failed (Arm DEN0022, return codes).
RETURN_CODES = {"-1": " (NOT_SUPPORTED)", "-2": " (INVALID_PARAMETERS)", "-3": " (DENIED)"}
RETURN_CODES |= {"-4": " (ALREADY_ON)", "-6": " (INTERNAL_FAILURE)"}


@functools.lru_cache(texts.REMEMBERED)
def is_answered(message: tuple[int, ...]) -> bool:
    """Whether the message gets a reply in its own step, as far as its words say."""
    _, api, *words = message
    arguments = names.arguments_of(names.CALLS, api)
    return "ack" not in arguments or words[arguments.index("ack")] not in (1, 3)


def message_at(script: Sequence[str], step: int) -> tuple[int, ...]:
    """The message of a step of a script; nothing if it has none."""
    return texts.message_of(script[step - 1]) or () if step else ()


def answers(lines: Sequence[str], script: Sequence[str]) -> set[int]:
    """The places of the replies that answer the message of their own line; all others are late."""
    last: dict[str, int] = {}
    for place, line in enumerate(lines):
        step, kind, words = line.split(" ", 2)
        if kind == "reply":
            message = message_at(script, int(step))
            if message and int(words.split(" ", 1)[0]) == message[0] and is_answered(message):
                last[step] = place
    return set(last.values())


USAGE = {0: "used by nobody", 1: "used by it alone", 2: "used by others", 3: "used by it and others"}


def meaning_of_words(chip: Chip, message: Sequence[int], words: Sequence[int]) -> list[str]:
    """The three words of the answer to a message that was accepted."""
    _, api, node, *rest = message
    kind = chip.nodes[node].kind if node in chip.nodes else None
    if api == 1:
        return [f"version {words[0] >> 16}.{words[0] & 0xFFFF}"]
    if api == 3 and kind == "processor":
        return [names.MODES[words[0]]]
    if api == 3 and kind == "power":
        return [chip.value_name(node, words[0])]
    if api == 3:
        return [chip.value_name(node, words[0]), "requires " + capabilities(words[1]), USAGE[words[2]]]
    if api == 4:
        return [f"{'power' if rest[0] == 1 else 'latency'} {words[0]}"]
    if api == 17:
        more = reached.more_words(chip, node) if rest[0] else ""
        return [f"which on the chip resets {more} too"] if more else []
    if api == 18:
        return ["asserted" if words[0] else "released"]
    if api == 38:
        return ["runs" if words[0] else "stopped"]
    if api == 40:
        return [f"divided by {words[0]}"]
    if api == 44:
        return [f"fed by {names.clock_words(names.CLOCKS[node].parents[words[0]])}"]
    return [] if api in names.CALLS else ["words " + " ".join(map(str, words))]


def meaning_of_answer(chip: Chip, message: Sequence[int], status: int, words: Sequence[int]) -> str:
    """The answer to a message: its status, and the words that it has."""
    said = [names.status_words(status)]
    if status == 0:
        said += meaning_of_words(chip, message, words)
    elif status == 2007:
        said += [f"by {names.node_name(words[0])}"]
    return ", ".join(said).replace("node used, by", "node used by")


def lags(chip: Chip, message: Sequence[int], failed: dict[int, int]) -> str:
    """What is said of units that the device has otherwise than the book: the nodes of a message and those above them, by
    the commands that failed in its step, each with the value that the unit has."""
    _, api, *words = message
    arguments = zip(names.arguments_of(names.CALLS, api), words)
    nodes = [number for kind, number in arguments if kind == "node" and number in chip.nodes]
    shown = [unit for unit in failed if any(unit == node or chip.is_above(unit, node) for node in nodes)]
    return "".join(f"; {names.node_name(unit)} lags: {chip.kept_name(unit, failed[unit])}" for unit in shown)


def failed_by_step(lines: Sequence[str]) -> dict[str, dict[int, int]]:
    """Of each step the nodes whose commands failed in it, each with the value that the device has. What failed is tried
    again in each step."""
    failed: dict[str, dict[int, int]] = {}
    for line in lines:
        step, kind, words = line.split(" ", 2)
        if kind == "fail":
            unit, kept, _ = map(int, words.split())
            failed.setdefault(step, {})[unit] = kept
    return failed


def meaning_of_reply(chip: Chip, message: Sequence[int], words: Sequence[int], failed: dict[int, int]) -> str:
    """An answer, and which units lag if it is a success."""
    master, status, *rest = words
    said = f"{names.node_name(master)}: {meaning_of_answer(chip, message, status, rest)}"
    return said + lags(chip, message, failed) * (status == 0)


def meaning_of_callback(chip: Chip, callback: int, words: Sequence[int]) -> str:
    """A callback with its words."""
    name = names.callback_name(callback)
    if callback == 30:
        reason = names.word_name("suspend reason", words[0])
        return f"{name}: {reason}, latency {words[1]}, state {words[2]}, timeout {words[3]}"
    node = names.node_name(words[0])
    what = names.status_words(words[1]) if callback == 31 else names.word_name("event", words[1])
    return f"{name} {node}: {what}" + (f", {chip.value_name(words[0], words[2])}" if words[0] in chip.nodes else "")


def meaning_of_command(chip: Chip, kind: str, unit: int, _before: int, value: int) -> str:
    """A command, and whether the device refused it."""
    if kind in ("line", "linefail"):
        said = f"reset line {names.line_name(unit)} {'asserted' if value else 'released'}"
    else:
        said = f"{names.node_name(unit)} {chip.kept_name(unit, value)}"
    return said + ": refused by the device" * kind.endswith("fail")


def meaning_of_end(chip: Chip, kind: str, unit: int, value: int, kept: int) -> str:
    """A line of the closing table."""
    if kind == "line":
        return f"reset line {names.line_name(unit)} {'asserted' if value else 'released'}"
    shown = chip.value_name(unit, value)
    agrees = (value in (1, 3)) == (kept == 1) if kind == "proc" else value == kept
    return f"{names.node_name(unit)} {shown}" + f"; the device has {chip.kept_name(unit, kept)}" * (not agrees)


def meaning_of_clock(clock: int, _before: int, runs: int) -> str:
    """A clock that begins or ceases to run."""
    return f"{names.clock_words(clock)} {'runs' if runs else 'stops'}"


def meaning_of_clock_at_end(clock: int, divider: int, index: int) -> str:
    """A clock that runs, in the closing table."""
    parent = names.clock_words(names.CLOCKS[clock].parents[index])
    return f"{names.clock_words(clock)} runs, fed by {parent} and divided by {divider}"


class Meanings:
    """What the lines of `replay` mean if each line of the script, which is in numbers, is one core event."""

    def __init__(self, chip: Chip, lines: Sequence[str], script: Sequence[str]) -> None:
        """The meanings of all lines, each of which is found once it is asked for."""
        self.chip, self.lines, self.script = chip, lines, script

    @functools.cached_property
    def answered(self) -> set[int]:
        """The places of the replies that answer the message of their own line."""
        return answers(self.lines, self.script)

    @functools.cached_property
    def failed(self) -> dict[str, dict[int, int]]:
        """Of each step the nodes whose commands failed in it, each with the value that the device has."""
        return failed_by_step(self.lines)

    def of(self, place: int) -> str:
        """The meaning of the line at a place."""
        step, kind, *rest = self.lines[place].split()
        words = list(map(int, rest))
        if step == "end":
            return meaning_of_end(self.chip, kind, *words)
        if kind == "run":
            return f"{names.node_name(words[0])} starts at {words[1]:#x}"
        if kind == "drop":
            return f"{names.node_name(words[0])} isn't heard"
        if kind == "call":
            return f"{names.node_name(words[0])}: {meaning_of_callback(self.chip, words[1], words[2:])}"
        if kind == "reply" and place in self.answered:
            return meaning_of_reply(self.chip, message_at(self.script, int(step)), words, self.failed.get(step, {}))
        if kind == "reply":
            return f"{names.node_name(words[0])}: its request to suspend ended with {names.status_words(words[1])}"
        return meaning_of_command(self.chip, kind, *words)


def meanings_of_replay(chip: Chip, told: Replay) -> Iterator[str]:
    """What the lines of a replay mean."""
    cores = Meanings(chip, told.cores, told.script)
    meanings = map(cores.of, range(len(told.cores)))
    for line in told.lines:
        step, kind, number, *words = line.split()
        if kind == "clock":
            clock = [int(number), *map(int, words)]
            yield meaning_of_clock_at_end(*clock) if step == "end" else meaning_of_clock(*clock)
        elif kind == "busy":
            yield f"{names.node_name(int(number))}: its box is full"
        elif kind == "late":
            yield f"the words for address {int(number):#x} come too late"
        elif kind == "smc":
            yield f"{names.node_name(int(number))}: its power call is answered {words[0]}{RETURN_CODES.get(words[0], '')}"
        elif kind == "task":
            yield f"timed task {number} is called at {words[0]} and answers {words[1]}"
        elif kind == "notask":
            yield f"no timed task {number}, or no interval"
        else:
            yield next(meanings)
