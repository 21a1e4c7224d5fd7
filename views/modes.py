"""The modes of the processors after each step of a replay.

The mode of a processor is in no line of a step: it is asked for, by a message GET_NODE_STATUS after each line of the
script that may change one, which itself changes nothing. If no master is awake to ask, the closing table of the script up to
that line has it. The script has no line that breaks a node, so that the device follows the book.
"""

from typing import Optional, Sequence

import lines as texts
from program import BadUse, Failed, run_text
from replays import Run, Unit, closing_of, content_of, master_masks

GET_NODE_STATUS = 3
ACTIVE, ASLEEP, SUSPENDING = 1, 2, 3

# The calls that can change the mode of a processor: SELF_SUSPEND, FORCE_POWERDOWN, ABORT_SUSPEND, REQUEST_WAKEUP,
# SYSTEM_SHUTDOWN and RESET_ASSERT.
CHANGING = (7, 8, 9, 10, 12, 17)

Modes = dict[int, int]


def owners(run: Run) -> dict[int, int]:
    """The processors of configured masters, each with its master: the first one of the object that has it."""
    found: dict[int, int] = {}
    for master in master_masks(run_text(["print", run.obj])):
        for proc in run.chip.owners[master]:
            found.setdefault(proc, master)
    return found


def awake(changes: Sequence[Sequence[tuple[Unit, int]]], owner: dict[int, int]) -> list[Optional[int]]:
    """After each step a master that is heard, or None: one of which a processor runs."""
    running: dict[int, int] = {}
    found: list[Optional[int]] = []
    heard: Optional[int] = None
    for step in changes:
        changed = {unit.number: value for unit, value in step if unit.kind == "node" and unit.number in owner} if step else {}
        if changed:
            running.update(changed)
            heard = next((owner[proc] for proc in sorted(running) if running[proc]), None)
        found.append(heard)
    return found


def changed_by(line: str, procs: list[int]) -> list[int]:
    """Those of the processors whose mode a line of a script may change; no message is put into a box."""
    message = texts.message_of(line)
    if message:
        return procs if message[1] in CHANGING else []
    words = texts.words_of(line)
    if words and words[0] in ("boot", "wfi", "gic"):
        return [proc for proc in procs if proc == texts.number_of(words[1])]
    return procs if words and words[0] == "irq" else []


def questions(script: list[str], heard: list[Optional[int]], procs: list[int]) -> tuple[list[str], dict[int, tuple[int, int]]]:
    """A script that asks for the modes that a line may have changed, after each line after which a master is heard; and of each
    of its lines that ask the step and the processor that it asks for."""
    made: list[str] = []
    asks: dict[int, tuple[int, int]] = {}
    for step, line in enumerate(script, 1):
        made.append(line)
        for proc in changed_by(line, procs) if heard[step] is not None else ():
            made.append(f"ipi {heard[step]} {GET_NODE_STATUS} {proc}")
            asks[len(made)] = (step, proc)
    return made, asks


def asked_modes(run: Run, script: list[str], heard: list[Optional[int]], procs: list[int]) -> dict[int, Modes]:
    """By step the mode of each processor that was asked for."""
    made, asks = questions(script, heard, procs)
    if not asks:
        return {}
    try:
        lines = run.lines_of(content_of(made))
    except Failed as failed:
        raise BadUse(f"the script is too long to ask for the modes of its processors (exit {failed.status})") from None
    modes: dict[int, Modes] = {}
    for line in lines:
        step, kind, *words = line.split()
        asked = asks.get(int(step)) if step != "end" and kind == "reply" else None
        if asked:
            modes.setdefault(asked[0], {})[asked[1]] = int(words[2])
    return modes


def without_a_master(run: Run, script: list[str], step: int, before: Modes, was_heard: bool) -> Modes:
    """The modes after a step after which nobody is heard."""
    words = script[step - 1].split()
    if not was_heard or not words:
        return before
    if words[0] == "wfi":
        proc = texts.number_of(words[1]) or 0
        return before | ({proc: ASLEEP} if before.get(proc) == SUSPENDING else {})
    table = closing_of(run.lines_of(content_of(script[:step])))
    return {proc: table.get(Unit("node", proc), (0, 0))[0] for proc in before}


def of_steps(run: Run, script: list[str], changes: Sequence[Sequence[tuple[Unit, int]]]) -> list[Modes]:
    """After each step the mode of each processor of a configured master. Each line of the script is one core event."""
    owner = owners(run)
    heard = awake(changes, owner)
    asked = asked_modes(run, script, heard, sorted(owner))
    modes = [{proc: 0 for proc in owner} | {unit.number: ACTIVE for unit, _ in changes[0] if unit.number in owner}]
    for step in range(1, len(script) + 1):
        if heard[step] is None:
            modes.append(without_a_master(run, script, step, modes[-1], heard[step - 1] is not None))
        else:
            modes.append(modes[-1] | asked[step] if step in asked else modes[-1])
    return modes
