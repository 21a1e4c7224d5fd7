"""`import LOG`: the calls of a board's log as a script.

A line of the script is a message that the log has, with the answer that the log has as an expectation, which
`./pmu test` judges. What the log doesn't say and the core needs is put between, each with a comment: the start of a
master that isn't the first one, the wait of a processor that has suspended, the interrupt that wakes it again.
"""

import os
import re
from typing import NamedTuple, Optional, Union

import faults
import lines
import logs
import names
import to_names
import to_numbers
from lines import count
from logs_named import read_named, read_table
from program import BadUse, read_file
from told import tell

READERS = (logs.read_probe, logs.read_kernel, logs.read_firmware, read_table, read_named)
STAMP = re.compile(r"^\s*(?:<\d+>)?\[\s*(\d+\.\d+)\]|\s(\d+\.\d{6}):\s|^\s*(\d+(?:\.\d+)?)[\s,;|]")
COLOURS = re.compile(r"\x1b\[[0-9;]*[A-Za-z]")
LOCK_STEP = 6  # (the master of both real-time processors together)
SELF_SUSPEND, FORCE_POWERDOWN, REQUEST_WAKEUP, SET_REQUIREMENT, RELEASE_NODE = 7, 8, 10, 15, 14


class Found(NamedTuple):
    """An entry with its place in the log."""

    entry: logs.Entry
    place: int
    time: str


def numbered(entry: logs.Entry) -> str:
    """The line of a script that an entry is, in numbers if it is a message."""
    return entry.line or " ".join(["ipi", *map(written, (entry.master, entry.call, *entry.words))])


def fits(entry: Union[logs.Entry, logs.Left]) -> None:
    """Raises Unreadable if an entry makes no line of a script."""
    if isinstance(entry, logs.Entry):
        try:
            line = to_numbers.line_in_numbers(numbered(entry), {})
        except to_numbers.Unknown as unknown:
            raise logs.Unreadable(str(unknown)) from None
        fault = lines.script_fault(line.encode("utf-8"))
        if fault:
            raise logs.Unreadable(fault[1])


class Log:
    """What a log has: its entries, the calls that no script can have, and what looks like a call and isn't read."""

    def __init__(self, content: bytes) -> None:
        """What the log of this content has."""
        self.found: list[Found] = []
        self.left: dict[str, int] = {}  # by why the script can't have them, how many calls
        self.unreadable: list[tuple[int, str]] = []  # lines, and why they can't be read
        self.passed = 0  # how many lines have no call
        self.open: dict[str, int] = {}  # of a task the place of its message that has no answer yet
        self.state = logs.State(self.opened, self.complete)
        for place, line in enumerate(content.decode("utf-8", "replace").replace("\r", "").split("\n"), 1):
            self.state.place = place
            self.read(place, COLOURS.sub("", line))
        self.unreadable += [(place, "which processor goes off isn't printed") for place in self.state.off]

    def opened(self, task: str) -> None:
        """A task has begun a call: its message comes next, if the script can have it."""
        self.open[task] = len(self.found)

    def close(self, before: dict[str, int]) -> None:
        """A call that was begun since then has no message here, so its return completes none."""
        self.open = {task: at for task, at in self.open.items() if before.get(task) == at}

    def complete(self, task: str, value: int) -> None:
        """The call that a task has begun returns."""
        place = self.open.pop(task, None)
        if place is not None:
            found = self.found[place]
            if logs.is_answered(found.entry.call, found.entry.words):
                answer = logs.answer_of_return(value & 0xFFFFFFFFFFFFFFFF, found.entry.call)
                self.found[place] = found._replace(entry=found.entry._replace(answer=answer))

    def read(self, place: int, line: str) -> None:
        """Takes a line."""
        if not line.strip() or line.lstrip().startswith("#"):
            return
        before = dict(self.open)
        try:
            entries = next((it for it in (reader(line, self.state) for reader in READERS) if it is not None), None)
            for entry in entries or ():
                fits(entry)
        except logs.Unreadable as why:
            self.close(before)
            self.unreadable.append((place, str(why)))
            return
        if entries is None:
            self.passed += 1
            return
        stamp = STAMP.search(line)
        time = next((it for it in stamp.groups() if it), "") if stamp else ""
        for entry in entries:
            if isinstance(entry, logs.Left):
                self.left[entry.why] = self.left.get(entry.why, 0) + 1
                self.close(before)
            else:
                self.found.append(Found(entry, place, time))


def owner_of(proc: Optional[int]) -> Optional[int]:
    """The master that has a processor; that of a real-time one is its own, and not the one of both."""
    return next((master for master, procs in names.MASTERS.items() if proc in procs and master != LOCK_STEP), None)


class Script:
    """The lines of a script, and which processors run in it as far as the log says."""

    def __init__(self) -> None:
        """A script without lines, at whose begin the first processor runs."""
        self.lines: list[str] = []
        self.waits_told = False  # whether the log says when a processor waits
        self.started = {logs.APU: {names.MASTERS[logs.APU][0]}}  # of a master the processors that run
        self.suspended: dict[int, int] = {}  # of a master the processor that has suspended, and doesn't wait yet

    def add(self, line: str, comment: str) -> None:
        """A line with a comment behind it."""
        self.lines.append(f"{line:<48}  # {comment}" if comment else line)

    def wait(self, master: int) -> None:
        """The processor of a master that has suspended waits from here on."""
        proc = self.suspended.pop(master, None)
        if proc is not None:
            self.add(f"wfi {names.node_name(proc)}", "the log doesn't say when it waits")
            self.started[master].discard(proc)

    def wake(self, master: int) -> None:
        """A master that sends a message runs."""
        if self.started.get(master):
            return
        proc = names.MASTERS[master][0]
        known = master in self.started
        word, said = ("gic", "what wakes it") if known else ("boot", "what starts it, or where")
        self.add(f"{word} {names.node_name(proc)}" + " 0" * (not known), f"the log doesn't say {said}")
        self.started.setdefault(master, set()).add(proc)

    def before(self, entry: logs.Entry) -> None:
        """What has to happen before a message."""
        for master in list(self.suspended):
            if master != entry.master or entry.call not in (SET_REQUIREMENT, RELEASE_NODE):
                self.wait(master)
        self.wake(entry.master)

    def after(self, entry: logs.Entry) -> None:
        """What a message does to processors, if it is accepted."""
        if not entry.answer.startswith("SUCCESS") and entry.answer:
            return
        owner = owner_of(entry.words[0]) if entry.words else None
        if entry.call == SELF_SUSPEND and not self.waits_told:
            self.suspended[entry.master] = entry.words[0]
        elif entry.call == REQUEST_WAKEUP and owner:
            self.started.setdefault(owner, set()).add(entry.words[0])

    def take(self, found: Found) -> None:
        """Adds an entry."""
        entry, note = found.entry, f"log line {found.place}" + f", {found.time}" * bool(found.time)
        if entry.line:
            word, proc, *_ = [*entry.line.split(), "", ""]
            self.waits_told = self.waits_told or word == "wfi"
            self.suspended.clear()
            if word in ("boot", "gic"):
                number = names.number_of("node", proc) or lines.number_of(proc)
                if number is not None:
                    self.started.setdefault(owner_of(number) or logs.APU, set()).add(number)
            self.add(entry.line, note)
            return
        self.before(entry)
        self.add(to_names.line_in_names(numbered(entry), {}), f"expect answer {entry.answer}; {note}" if entry.answer else note)
        self.after(entry)


def written(word: int) -> str:
    """A word of a message, a large number as an address."""
    return hex(word) if word > 0xFFFF else str(word)


def in_ascii(text: str) -> str:
    """A text that a comment of a script may have."""
    return "".join(it if " " <= it <= "~" else "?" for it in text)[:80]


def made(log: Log, name: str) -> list[str]:
    """The lines of the script of a log."""
    script = Script()
    script.waits_told = any(found.entry.line.startswith("wfi") for found in log.found)
    for found in log.found:
        script.take(found)
    for master in list(script.suspended):
        script.wait(master)
    return [f"# The calls of {in_ascii(name)}, with the answers that it has.", *script.lines]


def report(log: Log, name: str) -> None:
    """Says what isn't in the script."""
    calls = sum(not found.entry.line for found in log.found)
    tell(f"{name}: {count(calls, 'call')}; {count(log.passed, 'line')} passed over that {'has' if log.passed == 1 else 'have'} none")
    for why, times in log.left.items():
        tell(f"{name}: {count(times, 'call')} left out: {why}")
    reasons: dict[str, list[int]] = {}
    for place, why in log.unreadable:
        reasons.setdefault(why, []).append(place)
    for why, places in reasons.items():
        more = f", and in {count(len(places) - 1, 'line')} more (the last is {places[-1]})" if places[1:] else ""
        tell(f"{name}:{places[0]}: a call that isn't read: {why}{more}")


def main(words: list[str]) -> int:
    """`import LOG`."""
    if len(words) != 1:
        raise BadUse("import takes one LOG, a file with what a board or its firmware has printed")
    log, name = Log(read_file(words[0])), faults.name_of(words[0])
    report(log, name)
    if not log.found:
        raise BadUse(f"no call that a script can have is in {name} (docs/LOGS.md has the formats that are read)")
    print("".join(line + "\n" for line in made(log, os.path.basename(name))), end="")
    return 0
