"""What the lines of a script are split into: the script that has a line of its own for each core event.

A message that is put into a box by `post` is sent by `ipi` when it is served: a line `serve` becomes one line for each
message, by rising mask of their masters. A power call by `smc` becomes the lines that it comes to. A line that sends
nothing is empty.
"""

import re
from typing import Sequence

import lines as texts

# The master as which the boot firmware sends what a power call comes to.
CALLER = 1

# Power calls by their numbers (Arm DEN0022).
CPU_OFF, SYSTEM_OFF, SYSTEM_RESET = 0x84000002, 0x84000008, 0x84000009
CPU_ON, AFFINITY_INFO = (0x84000003, 0xC4000003), (0x84000004, 0xC4000004)
LOW = 0xFFFFFFFF


# Lines that aren't their own core event.
OTHERS = re.compile(r"[ \t]*(?:post|serve|smc)(?![^ \t\r])")


def first_word(line: str) -> str:
    """The first word of a line, or an empty one."""
    found = texts.WORD.search(line.removesuffix("\r"))
    return found[0] if found and not found[0].startswith("#") else ""


def is_split(script: Sequence[str]) -> bool:
    """Whether a line of a script isn't its own core event: it puts a message into a box, serves the boxes, or is a power
    call."""
    return any(map(OTHERS.match, script))


def lowered(line: str, targets: Sequence[int]) -> list[str]:
    """The lines that a power call comes to. Its targets are the processors of its caller's master, by their places."""
    words = [texts.number_of(word) or 0 for word in texts.words_of(line)[1:]]
    proc, function, first, second, _ = words + [0] * (5 - len(words))
    if proc not in targets:
        return [""]
    if function == CPU_OFF:
        return [f"ipi 1 7 {proc} 0 0 0 0", f"wfi {proc}"]
    if function in (SYSTEM_OFF, SYSTEM_RESET):
        return [f"ipi 1 12 {int(function == SYSTEM_RESET)} 2"]
    if function < 0xC0000000:
        first, second = first & LOW, second & LOW
    target = targets[first] if first < len(targets) else None
    if function in CPU_ON and target and second % 2 == 0:
        return [f"ipi 1 10 {target} {(second & LOW) + 1} {second >> 32} 2"]
    if function in AFFINITY_INFO and target and second & LOW == 0:
        return [f"ipi 1 3 {target}"]
    return [""]


def sent(line: str) -> str:
    """The message of a line `post` in a line `ipi`."""
    start, word = texts.placed_words(line)[0]
    return line[:start] + "ipi" + line[start + len(word) :]


def core_lines(line: str, masks: dict[int, int], targets: Sequence[int], boxes: dict[int, str]) -> list[str]:
    """The lines of the core events of a line. `masks` has the mask of each configured master, `targets` the processors that
    a power call may name, and `boxes` the line that sends the message of each master that has one in its box."""
    first = first_word(line)
    if first == "serve":
        return [boxes.pop(master) for master in sorted(boxes, key=masks.__getitem__)] or [""]
    if first == "smc":
        return lowered(line, targets)
    if first != "post":
        return [line]
    master = texts.number_of(texts.words_of(line)[1])
    if master not in masks:
        return [sent(line)]
    boxes.setdefault(master, sent(line))
    return [""]


def split(script: Sequence[str], masks: dict[int, int], targets: Sequence[int]) -> tuple[list[str], list[int]]:
    """The lines of all core events, and of each of them the number of the line that it comes from."""
    cores: list[str] = []
    numbers: list[int] = []
    boxes: dict[int, str] = {}
    for number, line in enumerate(script, 1):
        lines = core_lines(line, masks, targets, boxes)
        cores += lines
        numbers += [number] * len(lines)
    return cores, numbers
