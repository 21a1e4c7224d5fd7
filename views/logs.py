"""The calls of the power management interface that a log has, line by line.

A reader of one format takes a line, and gives the entries that it means, or None if it isn't of that format. What looks
like a call and can't be read is `Unreadable`. The formats are those of print statements and traces that exist:
docs/LOGS.md names the source and the version of each.
"""

import re
from dataclasses import dataclass, field
from typing import Callable, NamedTuple, Optional, Sequence, Union

import lines
import names
import published

APU = 1
BLOCKING, NO_ANSWER = 2, 1
SUSPEND_TO_RAM, ANY_LATENCY = 15, 0xFFFFFFFF

# What the kernel makes of a status (zynqmp_pm_ret_code in drivers/firmware/xilinx/zynqmp.c): its error numbers.
ERRORS = {-13: "-EACCES", -22: "-EINVAL", -87: "-EUSERS", -125: "-ECANCELED", -524: "-ENOTSUPP"}

# From here on calls are TF-A's (plat/xilinx/zynqmp/pm_service/pm_svc_main.h), which sends no message for them.
FIRMWARE_CALLS = 0xA00

# Calls whose words mean other things on a board: dividers and parents are packed and counted otherwise there.
OTHERWISE = (39, 40, 43, 44)
CLOCK_CALLS = (36, 37, 38)


class Unreadable(Exception):
    """Why a line that looks like a call can't be read."""


class Entry(NamedTuple):
    """A message that a log has, or a line of a script."""

    master: int = APU
    call: int = 0  # of an entry that is no message 0
    words: tuple[int, ...] = ()
    answer: str = ""  # the words of an expectation, or empty if the log doesn't say
    line: str = ""  # of an entry that is no message: the line of the script


class Left(NamedTuple):
    """A call that a script can't have, and why."""

    why: str


# What a reader gives of a line: what it means, or None if the line isn't of its format.
Read = Optional[Sequence[Union[Entry, Left]]]


@dataclass
class State:
    """What is kept from line to line of a log."""

    opened: Callable[[str], None]  # a task has begun a call
    complete: Callable[[str, int], None]  # the call of a task has returned this
    place: int = 0  # the line
    off: list[int] = field(default_factory=list)  # the lines in which a processor went off that isn't named yet
    heading: Sequence[str] = ()  # the names of the columns of a table, if they have been said


def answer_of_status(status: int, call: int) -> str:
    """What is expected of a message that a board answered with this status; the kernel's error numbers are below 0."""
    return answer_of_return(status, call) if status < 0 else names.STATUSES.get(status, str(status))


def answer_of_return(value: int, call: int) -> str:
    """What is expected of a message whose function in the kernel returned this number."""
    if value >= 1 << 31:
        value -= 1 << (64 if value >= 1 << 63 else 32)
    if value == 0:
        return "SUCCESS|DOUBLE_REQUEST" if call in (6, 7, 13) else "SUCCESS"
    return ERRORS.get(value, "-EINVAL") if value < 0 else answer_of_status(value, call)


def is_answered(call: int, words: Sequence[int]) -> bool:
    """Whether a message asks for an answer: of those that say so, the ones with BLOCKING."""
    arguments = names.CALLS[call].arguments or ()
    return "ack" not in arguments or words[arguments.index("ack")] == BLOCKING


def message(master: int, call: int, words: Sequence[int], answer: str = "") -> Union[Entry, Left]:
    """The entry of a message, or why the script can't have it."""
    known = names.CALLS.get(call)
    if call >= FIRMWARE_CALLS:
        return Left(f"call {call:#x} is TF-A's own")
    if known is None or known.arguments is None:
        return Left(names.call_name(call) + " isn't served by this core")
    if call in OTHERWISE:
        return Left(f"{known.name} has words of another meaning on a board")
    if call in CLOCK_CALLS:
        if words[0] not in published.OURS:
            return Left(f"this core hasn't the clock {published.name_of(words[0])}")
        words = (published.OURS[words[0]],)
    return Entry(master, call, tuple(words[: len(known.arguments)]), answer)


# Linux: what its drivers print (drivers/soc/xilinx/zynqmp_pm_domains.c, drivers/firmware/xilinx/zynqmp.c,
# drivers/clk/zynqmp/).

REQUIREMENT = re.compile(r"(failed to )?set requirement to 0x([0-9a-f]+) for PM node id (\d+)(?:: (-?\d+))?")
REQUESTED = re.compile(r"requested PM node id (\d+)|request failed for node (\d+): (-?\d+)")
RELEASED = re.compile(r"(?<!already )released PM node id (\d+)|failed to release PM node id (\d+): (-?\d+)")
VERSION = re.compile(r"(?:zynqmp_firmware_probe Platform Management API|BL31: PM Service Init Complete: API) v(\d+)\.(\d+)")
CLOCK = re.compile(r"clock (enable|disable) failed for (\S+) \(id (\d+)\), ret = (-?\d+)|clock get state failed for (\S+), ret = (-?\d+)")
CLOCK_OTHER = re.compile(r"((?:get|set) divider|getparent|set parent) failed for (?:clock: )?(\S+), ret = (-?\d+)")
ON_QOS = 100


def read_requirement(found: re.Match[str]) -> Union[Entry, Left]:
    """A domain is powered on with ACCESS and an answer; off with less, and without one."""
    capabilities, node = int(found[2], 16), int(found[3])
    on = capabilities == 1
    answer = answer_of_return(int(found[4] or 0), 15) if on or found[1] else ""
    words = (node, capabilities, ON_QOS, BLOCKING) if on else (node, capabilities, 0, NO_ANSWER)
    return message(APU, 15, words, answer)


def read_clock(found: re.Match[str]) -> Union[Entry, Left]:
    """A clock's call that failed."""
    if found[1]:
        call = 36 if found[1] == "enable" else 37
        return message(APU, call, (int(found[3]),), answer_of_return(int(found[4]), call))
    clock = published.ours_of(found[5])
    if clock is None:
        return Left(f"this core hasn't the clock {found[5].upper()}")
    return message(APU, 38, (clock,), answer_of_return(int(found[6]), 38))


def read_kernel(line: str, _state: State) -> Read:
    """The prints of the kernel's drivers."""
    if found := REQUIREMENT.search(line):
        return [read_requirement(found)]
    if found := REQUESTED.search(line):
        return [message(APU, 13, (int(found[1] or found[2]), 0, 0, BLOCKING), answer_of_return(int(found[3] or 0), 13))]
    if found := RELEASED.search(line):
        return [message(APU, 14, (int(found[1] or found[2]),), answer_of_return(int(found[3] or 0), 14))]
    if found := VERSION.search(line):
        return [message(APU, 1, (), f"SUCCESS {int(found[1]) << 16 | int(found[2]):#x}")]
    if found := CLOCK.search(line):
        return [read_clock(found)]
    if found := CLOCK_OTHER.search(line):
        return [Left("dividers and parents of clocks have another meaning on a board")]
    return None


# TF-A: what plat/xilinx/zynqmp/plat_psci.c prints at the level VERBOSE.

POWER_ON = re.compile(r"zynqmp_pwr_domain_on: mpidr: 0x([0-9a-f]+)")
POWER = re.compile(r"zynqmp_pwr_domain_(off|suspend|suspend_finish): target_state->pwr_domain_state\[(\d)\]=([0-9a-f]+)")
KILLED = re.compile(r"psci: CPU(\d+) killed")  # (the kernel's: arch/arm64/kernel/psci.c)
OFF_STATE = 2


def sleeps(proc: int, state: int) -> list[Union[Entry, Left]]:
    """A processor suspends, and waits."""
    return [message(APU, 7, (proc, ANY_LATENCY, state, 0, 0)), Entry(line=f"wfi {names.node_name(proc)}")]


def read_power_call(found: re.Match[str], state: State) -> Read:
    """A processor that goes off or sleeps. Which one isn't printed: one that goes off is named by the kernel's print
    that follows, and the one that suspends all is APU_0, since Linux takes the others off before."""
    what, level, value = found[1], int(found[2]), int(found[3], 16)
    if what == "off" and level == 0:
        state.off.append(state.place)
    if what == "off" or level == 0:
        return []
    if value < OFF_STATE:
        if what == "suspend":
            raise Unreadable("which processor idles isn't printed")
        return []
    if what == "suspend_finish":
        return [Entry(line="gic APU_0")]
    return sleeps(names.MASTERS[APU][0], SUSPEND_TO_RAM)


def processor_at(place: int) -> int:
    """The application processor at a place, or Unreadable."""
    if place >= len(names.MASTERS[APU]):
        raise Unreadable(f"there is no application processor {place}")
    return names.MASTERS[APU][place]


def read_firmware(line: str, state: State) -> Read:
    """The prints of TF-A. Its entry for the started processor isn't printed, and is 0 here."""
    if found := POWER_ON.search(line):
        node = processor_at(int(found[1], 16) & 0xFF)
        return [message(APU, 3, (node,)), message(APU, 10, (node, 1, 0, BLOCKING))]
    if found := KILLED.search(line):
        del state.off[:1]
        return sleeps(processor_at(int(found[1])), 0)
    if found := POWER.search(line):
        return read_power_call(found, state)
    return None


# A trace of the kernel's one function that makes all calls, by a probe; see docs/LOGS.md for the commands.

PROBE = re.compile(r"^\s*(?P<task>\S.*?-\d+)\s+\[\d+\]\s+(?:\S+\s+)?\d+\.\d+:\s+\S+: \((?P<where>[^)]*)\)(?P<words>.*)$")
TRACED, TRACED_WORDS = "zynqmp_pm_invoke_fn", 4


def numbers_in(text: str) -> list[int]:
    """The values of `name=value` pairs, in their order."""
    return [number(value) for value in re.findall(r"\w+=(-?\w+)", text)]


def number(word: str) -> int:
    """A number of a log, or Unreadable."""
    value = lines.number_of(word.lstrip("-").replace("0X", "0x"))
    if value is None or value >= 1 << 64:
        raise Unreadable(f"'{word[:40]}' is no number of 64 bits")
    return -value if word.startswith("-") else value


def read_probe(line: str, state: State) -> Read:
    """A probe's event: at the function's begin its words, at its end what it returned. The end completes the message
    of the same task."""
    found = PROBE.match(line)
    if not found or TRACED not in found["where"]:
        return None
    values = numbers_in(found["words"])
    if "<-" in found["where"]:
        if values:
            state.complete(found["task"], values[0])
        return []
    arguments = names.arguments_of(names.CALLS, values[0] & 0xFFFF if values else 0)
    if not values or len(values) - 1 < min(len(arguments), TRACED_WORDS):
        raise Unreadable(f"an event of {TRACED} has the call and {TRACED_WORDS} words, as in id=13 a0=33 a1=1 a2=0 a3=2")
    state.opened(found["task"])
    words = [word & 0xFFFFFFFF for word in values[1:]]
    return [message(APU, values[0] & 0xFFFF, (*words, *[0] * (len(arguments) - len(words))))]
