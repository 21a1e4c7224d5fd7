"""The lines of a script that can't have an effect, whatever comes before them, and those that are surely refused.

What is said of a line follows from its words, the object and the chip alone.
"""

from typing import Iterable, Iterator, NamedTuple, Optional, Sequence

import grammar
import lines as texts
import names
import permits
from chip import Board
from topology import WAKEUP

KINDS = {"power": "power node", "processor": "processor", "slave": "slave"}

# REQUEST_SUSPEND, whose node is a master.
OF_MASTERS = 6


class Idle(NamedTuple):
    line: int  # from 1
    text: str
    check: str
    message: str


# What is said of lines: those whose step writes nothing at all, and those whose answer says it too.
SILENT, TOLD = "no-effect", ("not-heard", "refused")


def other_kind(board: Board, number: int, kind: str) -> Optional[str]:
    """Why a number isn't that of a node of this kind, or None if it is."""
    name = names.node_name(number)
    if number not in board.chip.nodes:
        return f"the chip has no {name}" if name.startswith("node ") else f"{name} isn't on the chip"
    return None if board.chip.is_kind(number, kind) else f"{name} is a {KINDS[board.chip.nodes[number].kind]}, and no {kind}"


def of_processor(board: Board, number: int) -> Optional[str]:
    """Why a line about a processor does nothing, or None."""
    why = other_kind(board, number, "processor")
    if not why and permits.owner(board, number) is None:
        why = f"{names.node_name(number)} belongs to no master of the object"
    return why


def of_interrupt(board: Board, number: int) -> Optional[str]:
    """Why the interrupt of a slave wakes nobody, or None."""
    why = other_kind(board, number, "slave")
    if not why and not board.chip.has(number) & WAKEUP:
        why = f"{names.node_name(number)} can't wake anybody: it lacks WAKEUP"
    return why


def of_device(board: Board, number: int) -> Optional[str]:
    """Why no command is refused, or taken again, by a line about a node, or None."""
    return None if number in board.chip.nodes else f"the chip has no node {number}"


def of_call(number: int) -> Optional[str]:
    """Why a call is answered 19 whatever its arguments are, or None."""
    call = names.CALLS.get(number)
    if call is None:
        return f"no call has the number {number}"
    return f"{call.name} isn't served" if call.arguments is None else None


def of_argument(board: Board, api: int, kind: str, number: int) -> Optional[str]:
    """Why an argument of a call names nothing, or None."""
    if kind == "node" and number not in board.chip.nodes and not (api == OF_MASTERS and number in board.chip.owners):
        return f"the chip has no node {number}" if number not in names.NODES else f"{names.node_name(number)} isn't on the chip"
    if kind == "line" and number not in board.chip.lines:
        return f"{names.line_name(number)} isn't on the chip"
    if kind == "clock" and number not in names.CLOCKS:
        return f"no clock has the number {number}"
    return None


def of_message(board: Board, numbers: Sequence[int]) -> Iterator[tuple[str, str]]:
    """What is said of a message: the check with the sentence."""
    master, api, *arguments = numbers
    if master not in permits.masters(board):
        yield "not-heard", f"{names.node_name(master)} is no master of the object, and its message is dropped"
        return
    why = of_call(api)
    if why:
        yield "refused", why
        return
    for kind, number in zip(names.CALLS[api].arguments or (), arguments):
        why = of_argument(board, api, kind, number)
        if why:
            yield "refused", why


JUDGES = {
    "boot": of_processor,
    "wfi": of_processor,
    "gic": of_processor,
    "irq": of_interrupt,
    "break": of_device,
    "mend": of_device,
    "fail": of_device,
}


def of_line(board: Board, words: Sequence[str], numbers: Sequence[int], filled: bool) -> Iterator[tuple[str, str]]:
    """What is said of a line; `filled` says whether a message may be in a box."""
    if words[0] in JUDGES:
        why = JUDGES[words[0]](board, numbers[0])
        if why:
            yield SILENT, f"it does nothing: {why}"
    elif words[0] in grammar.MESSAGES:
        yield from of_message(board, numbers)
    elif words[0] == "serve" and not filled:
        yield SILENT, "it does nothing: no message is in a box"
    elif words[0] == "smc" and numbers[0] not in board.chip.owners.get(1, ()):
        yield "refused", f"{names.node_name(numbers[0])} is no processor of APU, and its power call is denied"


def idle(board: Board, script: Sequence[str], written: Sequence[str]) -> Iterator[Idle]:
    """The lines of a script in numbers, in which each line has a meaning, that can't have an effect. They are shown as
    they are written."""
    filled = False
    for place, line in enumerate(script, 1):
        words = texts.words_of(line)
        if not words:
            continue
        numbers = [texts.number_of(word) or 0 for word in words[1:]]
        for check, message in of_line(board, words, numbers, filled):
            yield Idle(place, " ".join(texts.words_of(written[place - 1])), check, message)
        if words[0] in ("post", "serve"):
            filled = words[0] == "post" and (filled or numbers[0] in permits.masters(board))


def told_once(found: Iterable[Idle]) -> Iterator[str]:
    """What is said of silent lines, with the first line of each sentence and how many more there are."""
    places: dict[tuple[str, str], list[int]] = {}
    for each in found:
        if each.check == SILENT:
            places.setdefault((each.text, each.message), []).append(each.line)
    for (text, message), lines in places.items():
        more = texts.count(len(lines) - 1, "more line")
        yield f"{lines[0]}: {text}: {message}" + f" ({more} like it)" * (len(lines) > 1)
