"""The power management core in Python: the functions of pmu.h, over the library's shared object, by ctypes alone.

    with Controller(object_bytes, board) as controller:
        print(controller.ipi(1, 13, 33, 1, 0, 2).answer)      # master 1 requests node 33

`board` is whatever has a method `carry_out` that takes a Command and says whether the device took it. Each event is a step:
its commands are given to the device one by one, and what the step tells comes back as dataclasses. docs/EMBEDDING.md has the
rest: the order of calls, what a unit's values are, and what isn't as on a board.

Handle has the functions of pmu.h one by one, for whoever carries out the commands in another way; Controller is a Handle too.
Any answer but PMU_DONE is raised as the exception of its name, each of which is a NotDone. pmu_eemi.py has the numbers of calls,
nodes and statuses by name.

Python 3.9 or a newer one. The shared object is that of the variable PMU_SHARED_OBJECT, else the one that `./pmu --install`
has put beside this file, else `libpmu.so.0.1` as the system finds it.
"""

from __future__ import annotations

import ctypes
import operator
import threading
import weakref
from typing import Any, Callable, Optional, TypeVar

from pmu_library import CommandWords, HandlePointer, StatusWords, close, load, loaded
from pmu_told import answer_in, error_of, event_of
from pmu_told import BadLine, BadObject, Closed, CommandLeft, NoCommand, NoLibrary, NoMemory, NoNode, NoRoom, NotDone
from pmu_told import Answer, Callback, Command, Device, Drop, Event, ModelDevice, NodeStatus, Outcome, OutOfRange, PmuError
from pmu_told import ReadFault, Reply, Start, Status, Step, TooLarge

__all__ = [
    "Answer", "BadLine", "BadObject", "Callback", "Closed", "Command", "CommandLeft", "Controller", "Device", "Drop", "Event",
    "Handle", "ModelDevice", "NoCommand", "NoLibrary", "NoMemory", "NoNode", "NoRoom", "NodeStatus", "NotDone", "OutOfRange",
    "Outcome", "PmuError", "ReadFault", "Reply", "Start", "Status", "Step", "TooLarge", "load", "replay", "version",
]  # fmt: skip

WORD, LONG_WORD = 2**32 - 1, 2**64 - 1

_Kind = TypeVar("_Kind", bound="Handle")


def _word(number: int, most: int = WORD) -> int:
    """A number that fits a word, which ctypes would cut."""
    found = operator.index(number)
    if not 0 <= found <= most:
        raise OutOfRange(f"{found} doesn't fit a word of {most.bit_length()} bits")
    return found


def _message(api: int, arguments: tuple[int, ...]) -> list[int]:
    """The words of a message: a call and five arguments."""
    if len(arguments) > 5:
        raise OutOfRange(f"a message has five arguments at most, and not {len(arguments)}")
    return [_word(word) for word in (api, *arguments, *[0] * (5 - len(arguments)))]


def _told(write: Callable[[Any, int, Any], int], room: Optional[int], first: int) -> str:
    """The text that a call writes into a buffer with so much room; else, from so many bytes on, with as much as it takes."""
    size, written = first if room is None else _word(room, LONG_WORD), ctypes.c_size_t(0)
    while True:
        buffer = ctypes.create_string_buffer(size or 1)
        answer = write(buffer, size, ctypes.byref(written))
        if answer != Status.NO_ROOM or room is not None:
            break
        size *= 4
    text = ctypes.string_at(buffer, written.value).decode("ascii")
    if answer != Status.DONE:
        raise error_of(answer, text)
    return text


def version(library: Optional[ctypes.CDLL] = None) -> int:
    """The version of the library, as PMU_VERSION says that of a header (pmu_version): 100 is 0.1.0."""
    found: int = (library or loaded()).pmu_version()
    return found


def replay(obj: bytes, script: bytes, room: Optional[int] = None, library: Optional[ctypes.CDLL] = None) -> str:
    """The text of the run of a script over an object (pmu_replay). With `room` NoRoom is raised if it has more bytes; else it
    is run again until there is room. An exception has the text up to its fault."""
    call, obj, script = (library or loaded()).pmu_replay, bytes(memoryview(obj)), bytes(memoryview(script))
    return _told(lambda *buffer: call(obj, len(obj), script, len(script), *buffer), room, 1 << 16)


class Handle:
    """A controller by the functions of pmu.h. A `begin_` function begins the step of an event; then `next_command` and `done`
    go through its commands, and `text` and the reads tell of it. Reads change nothing.

    It is closed at the end of `with`, by `close`, or once nobody has it any more; then each function raises Closed. Threads
    may share it: a call waits for one that another thread has begun.
    """

    def __init__(self, obj: bytes, library: Optional[ctypes.CDLL] = None) -> None:
        self._library = library or loaded()
        self._lock = threading.RLock()
        pointer, obj = HandlePointer(), bytes(memoryview(obj))
        answer = self._library.pmu_open(obj, len(obj), ctypes.byref(pointer))
        if answer != Status.DONE:
            raise error_of(answer)
        self._pointer = pointer
        self._end = weakref.finalize(self, close, self._library, pointer)

    def __enter__(self: _Kind) -> _Kind:
        return self

    def __exit__(self, *fault: object) -> None:
        self.close()

    def __reduce__(self) -> str:
        raise TypeError("a handle can't be copied")

    def close(self) -> None:
        """Ends the controller (pmu_close). A second time nothing is done."""
        with self._lock:
            self._end()

    def _call(self, name: str, *words: Any) -> int:
        """What a function of the library answers."""
        with self._lock:
            if not self._end.alive:
                raise error_of(Status.CLOSED)
            answer: int = getattr(self._library, name)(self._pointer, *words)
            return answer

    def _must(self, name: str, *words: Any) -> None:
        """Calls a function, and raises what isn't PMU_DONE."""
        answer = self._call(name, *words)
        if answer != Status.DONE:
            raise error_of(answer)

    def begin_ipi(self, master: int, api: int, *arguments: int) -> None:
        """A message of a master: a call and up to five arguments, of which those that are missing are 0 (pmu_ipi)."""
        self._must("pmu_ipi", _word(master), *_message(api, arguments))

    def begin_boot(self, proc: int, address: int) -> None:
        """A boot loader starts a processor at an address of 64 bits (pmu_boot)."""
        self._must("pmu_boot", _word(proc), _word(address, LONG_WORD))

    def begin_wfi(self, proc: int) -> None:
        """A processor waits for an interrupt (pmu_wfi)."""
        self._must("pmu_wfi", _word(proc))

    def begin_gic(self, proc: int) -> None:
        """An interrupt at a processor itself (pmu_gic)."""
        self._must("pmu_gic", _word(proc))

    def begin_irq(self, slave: int) -> None:
        """A slave raises its interrupt (pmu_irq)."""
        self._must("pmu_irq", _word(slave))

    def begin_tick(self, count: int) -> None:
        """Units of time pass (pmu_tick)."""
        self._must("pmu_tick", _word(count))

    def next_command(self) -> Optional[Command]:
        """The command that waits for its answer, and the same one until `done`; None if the step is over (pmu_next)."""
        command = CommandWords()
        answer = self._call("pmu_next", ctypes.byref(command))
        if answer == Status.NO_COMMAND:
            return None
        if answer != Status.DONE:
            raise error_of(answer)
        return Command(command.line != 0, command.number, command.value)

    def done(self, taken: bool) -> None:
        """Whether the device took the command that waits (pmu_done). NoCommand if none does."""
        self._must("pmu_done", taken)

    def is_settled(self) -> bool:
        """Whether the step is over, and the device took the book's value for each unit (pmu_is_settled)."""
        settled = ctypes.c_bool(False)
        self._must("pmu_is_settled", ctypes.byref(settled))
        return settled.value

    def text(self, number: int, room: Optional[int] = None) -> str:
        """The lines of the last step, each after this number (pmu_text). With `room` NoRoom is raised if they are longer."""
        return _told(lambda *buffer: self._call("pmu_text", _word(number), *buffer), room, 4096)

    def value(self, node: int) -> int:
        """The value of a node in the book (pmu_value). NoNode if the chip has none."""
        value = ctypes.c_uint32(0)
        self._must("pmu_value", _word(node), ctypes.byref(value))
        return value.value

    def mode(self, proc: int) -> int:
        """The mode of a processor: 0 off, 1 active, 2 asleep, 3 suspending (pmu_mode). NoNode if it is none."""
        mode = ctypes.c_uint32(0)
        self._must("pmu_mode", _word(proc), ctypes.byref(mode))
        return mode.value

    def node_status(self, master: int, node: int) -> NodeStatus:
        """What GET_NODE_STATUS would tell a master of a node (pmu_node_status). NoNode if one of them isn't there."""
        status = StatusWords()
        self._must("pmu_node_status", _word(master), _word(node), ctypes.byref(status))
        return NodeStatus(status.state, status.requirement, status.usage)

    def is_beyond(self, of: int, sender: int, api: int, *arguments: int) -> bool:
        """Whether a message of `sender` is beyond the reach of the master `of` (pmu_is_beyond)."""
        beyond = ctypes.c_bool(False)
        self._must("pmu_is_beyond", _word(of), _word(sender), *_message(api, arguments), ctypes.byref(beyond))
        return beyond.value


class Controller(Handle):
    """A controller that drives a device: each event is a whole step, and gives what it tells. The load is step 0, `load`.

    If a step breaks off by an exception, of the device or for want of memory, its command waits on: `finish` gives it to the
    device once more and ends the step, and until then each event raises CommandLeft. The number of the step that it gives says
    whether the event was taken: if memory was wanted for that, it is still the step before.
    """

    def __init__(self, obj: bytes, device: Optional[Device] = None, library: Optional[ctypes.CDLL] = None) -> None:
        super().__init__(obj, library)
        self.device: Device = ModelDevice() if device is None else device
        self._number = -1
        try:
            self.load = self._begun()
        except BaseException:
            self.close()
            raise

    def _begun(self, sender: Optional[int] = None) -> Step:
        """A step that has just begun, of a message of this sender if it is one."""
        self._number, self._sender = self._number + 1, sender
        return self.finish()

    def finish(self) -> Step:
        """Ends the step: gives the commands that are left to the device, and tells of the whole step, also once more."""
        while True:
            command = self.next_command()
            if command is None:
                break
            taken = self.device.carry_out(command)
            if not isinstance(taken, bool):
                raise TypeError(f"a device answers True or False, and not {taken!r}")
            self.done(taken)
        text = self.text(self._number & WORD)
        events = tuple(map(event_of, text.splitlines()))
        answer = None if self._sender is None else answer_in(events, self._sender)
        return Step(self._number, text, events, answer)

    def ipi(self, master: int, api: int, *arguments: int) -> Step:
        """A message of a master: a call and up to five arguments, of which those that are missing are 0."""
        self.begin_ipi(master, api, *arguments)
        return self._begun(master)

    def boot(self, proc: int, address: int) -> Step:
        """A boot loader starts a processor at an address of 64 bits."""
        self.begin_boot(proc, address)
        return self._begun()

    def wfi(self, proc: int) -> Step:
        """A processor waits for an interrupt."""
        self.begin_wfi(proc)
        return self._begun()

    def gic(self, proc: int) -> Step:
        """An interrupt at a processor itself."""
        self.begin_gic(proc)
        return self._begun()

    def irq(self, slave: int) -> Step:
        """A slave raises its interrupt: each processor that it is armed for wakes."""
        self.begin_irq(slave)
        return self._begun()

    def tick(self, count: int) -> Step:
        """Units of time pass."""
        self.begin_tick(count)
        return self._begun()
