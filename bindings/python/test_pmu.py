"""The tests of the binding, over the shared object that PMU_SHARED_OBJECT names; if there is none all are skipped."""

from __future__ import annotations

import copy
import os
import pickle
import re
import sys
import threading
import unittest
import unittest.mock
from typing import Any

HERE = os.path.dirname(os.path.realpath(__file__))
TOP = os.path.dirname(os.path.dirname(HERE))
sys.dont_write_bytecode = True
sys.path.insert(0, HERE)

import pmu  # noqa: E402
import pmu_library  # noqa: E402
import pmu_told  # noqa: E402
from pmu import Callback, Command, Controller, Drop, Handle, ModelDevice, Outcome, Reply, Start  # noqa: E402

UART_0, GPIO, APU, APU_0, RPU_0, OCM_BANK_0 = 33, 46, 1, 2, 7, 11
GET_NODE_STATUS, REQUEST_SUSPEND, REQUEST_WAKEUP, REQUEST_NODE, INIT_FINALIZE = 3, 6, 10, 13, 21

# A script, and its events as calls of a controller.
SCRIPT = b"""ipi 1 21
boot 7 65536
ipi 1 13 33 1 0 2
ipi 7 13 11 1 0 3
ipi 1 6 7 2
ipi 7 7 7
wfi 7
gic 7
ipi 1 11 2 46 1
ipi 1 7 2 0 0 4096 0
wfi 2
irq 46
tick 5
ipi 8 3 33
"""
EVENTS: list[tuple[Any, ...]] = [
    ("ipi", APU, INIT_FINALIZE), ("boot", RPU_0, 65536), ("ipi", APU, REQUEST_NODE, UART_0, 1, 0, 2),
    ("ipi", RPU_0, REQUEST_NODE, OCM_BANK_0, 1, 0, 3), ("ipi", APU, REQUEST_SUSPEND, RPU_0, 2), ("ipi", RPU_0, 7, RPU_0),
    ("wfi", RPU_0), ("gic", RPU_0), ("ipi", APU, 11, APU_0, GPIO, 1), ("ipi", APU, 7, APU_0, 0, 0, 4096), ("wfi", APU_0),
    ("irq", GPIO), ("tick", 5), ("ipi", 8, GET_NODE_STATUS, UART_0),
]  # fmt: skip


def read(name: str) -> bytes:
    """The bytes of a file of the repository."""
    with open(os.path.join(TOP, name), "rb") as file:
        return file.read()


LABORATORY = read("examples/laboratory.obj")


def setUpModule() -> None:
    """Skips all if there is no library."""
    try:
        pmu_library.loaded()
    except pmu.NoLibrary as fault:
        raise unittest.SkipTest(f"there is no library: {fault}") from fault


def texts(controller: Controller, events: list[tuple[Any, ...]]) -> str:
    """What the load and these events tell."""
    return controller.load.text + "".join(getattr(controller, name)(*words).text for name, *words in events)


def all_reads(handle: Handle) -> list[Any]:
    """All that is read of a controller."""
    found: list[Any] = [handle.is_settled(), handle.node_status(APU, UART_0)]
    found += [handle.is_beyond(RPU_0, APU, REQUEST_NODE, UART_0)]
    return found + [handle.value(node) for node in range(1, 70)] + [handle.mode(proc) for proc in (2, 3, 4, 5, 7, 8)]


class Refusing:
    """The library, whose call of this number answers that memory is wanted. It has the names of all calls."""

    def __init__(self, refused: int = 0) -> None:
        self.library, self.refused, self.names = pmu_library.loaded(), refused, list[str]()

    def __getattr__(self, name: str) -> Any:
        def call(*words: Any) -> Any:
            self.names.append(name)
            return int(pmu.Status.NO_MEMORY) if len(self.names) == self.refused else getattr(self.library, name)(*words)

        return call


class Log(list[Command]):
    """A device that takes each command and writes it down."""

    def carry_out(self, command: Command) -> bool:
        """Takes it."""
        self.append(command)
        return True


class Steps(unittest.TestCase):
    """A controller that drives a device."""

    def test_the_device_gets_each_command(self) -> None:
        log = Log()
        with Controller(LABORATORY, log) as controller:
            told = [event.command for event in controller.load.events if isinstance(event, Outcome)]
            self.assertEqual((log, len(log)), (told, 9))

    def test_steps_tell_what_a_replay_writes(self) -> None:
        with Controller(LABORATORY) as controller:
            told = texts(controller, EVENTS)
        whole = pmu.replay(LABORATORY, SCRIPT)
        self.assertEqual(told, "".join(line for line in whole.splitlines(True) if not line.startswith("end ")))
        self.assertEqual(len(re.findall("(?m)^[0-9]+ (?:reply|call|drop)", told)), 9)

    def test_events_are_values(self) -> None:
        with Controller(LABORATORY, ModelDevice()) as controller:
            self.assertEqual(controller.load.events[0], Outcome(Command(False, 10, 1), 0, True))
            self.assertEqual(controller.load.events[-1], Start(2, 0))
            steps = [getattr(controller, name)(*words) for name, *words in EVENTS]
        self.assertEqual([step.number for step in steps], list(range(1, len(EVENTS) + 1)))
        self.assertEqual(steps[1].events[-1], Start(7, 65536))
        self.assertEqual((steps[1].answer, steps[2].answer), (None, Reply(APU, 0, (0, 0, 0))))
        self.assertEqual(steps[3].answer, Callback(RPU_0, 31, (OCM_BANK_0, 0, 2, 0)))
        self.assertEqual((steps[4].events, steps[4].answer), ((Callback(RPU_0, 30, (201, 0, 0, 100)),), None))
        self.assertEqual((steps[6].events[-1], steps[6].answer), (Reply(APU, 0, (0, 0, 0)), None))
        self.assertEqual((steps[7].events[-1], steps[11].events[-1]), (Start(RPU_0, 0), Start(APU_0, 4096)))
        self.assertEqual((steps[13].events, steps[13].answer), ((Drop(8),), Drop(8)))

    def test_each_line_is_an_event(self) -> None:
        lines = ["3 fail 33 0 1", "3 line 34 0 1", "3 linefail 34 1 0", "3 drop 8"]
        asserted, released = Command(True, 34, 1), Command(True, 34, 0)
        wanted = [Outcome(Command(False, 33, 1), 0, False), Outcome(asserted, 0, True), Outcome(released, 1, False), Drop(8)]
        self.assertEqual([pmu_told.event_of(line) for line in lines], wanted)
        for line in ("3 set 33 0", "3 reply 1 0 0 0", "3 walk 1", "3 drop x", "end slave 33 1 1", ""):
            self.assertRaises(ValueError, pmu_told.event_of, line)

    def test_the_answer_is_the_last_event_that_is_one(self) -> None:
        reply, late, drop = Reply(APU, 0, (0, 1, 0)), Reply(RPU_0, 0, (0, 0, 0)), Drop(APU)
        acknowledged, notified = Callback(APU, 31, (33, 0, 1, 0)), Callback(APU, 32, (33, 1, 1, 0))
        rows: list[Any] = [((late, notified, reply), reply), ((reply, acknowledged), acknowledged), ((drop,), drop)]
        of_another = Callback(RPU_0, 31, (33, 0, 1, 0))
        rows += [((late,), None), ((of_another,), None), ((notified,), None), ((), None), ((Start(2, 0),), None)]
        for events, wanted in rows:
            self.assertEqual(pmu_told.answer_in(events, APU), wanted, events)

    def test_time(self) -> None:
        with Controller(LABORATORY) as controller:
            controller.boot(RPU_0, 0)
            self.assertIsNone(controller.ipi(APU, REQUEST_SUSPEND, RPU_0, 2).answer)
            self.assertEqual(controller.tick(99).events, ())
            self.assertEqual(controller.tick(1).events, (Reply(APU, 2006, (0, 0, 0)),))

    def test_a_device_that_fails(self) -> None:
        device = ModelDevice()
        with Controller(LABORATORY, device) as controller:
            controller.ipi(APU, INIT_FINALIZE)
            device.broken.add(UART_0)
            step = controller.ipi(APU, REQUEST_NODE, UART_0, 1, 0, 2)
            self.assertEqual(step.events, (Outcome(Command(False, UART_0, 1), 0, False), Reply(APU, 2000, (0, 0, 0))))
            self.assertEqual((controller.is_settled(), controller.value(UART_0), device.nodes[UART_0]), (False, 1, 0))
            device.broken.clear()
            self.assertEqual(controller.tick(1).events, (Outcome(Command(False, UART_0, 1), 0, True),))
            self.assertEqual((controller.is_settled(), device.nodes[UART_0]), (True, 1))
            self.assertEqual(controller.ipi(APU, 17, UART_0, 1).events[0], Outcome(Command(True, UART_0, 1), 0, True))
            self.assertEqual(device.lines, {UART_0: 1})

    def test_a_device_that_raises_gets_its_command_again(self) -> None:
        device = ModelDevice()
        with Controller(LABORATORY, device) as controller:
            controller.ipi(APU, INIT_FINALIZE)
            rows: list[Any] = [(KeyError, {"side_effect": KeyError}, RPU_0), (TypeError, {"return_value": None}, 3)]
            for fault, answers, proc in rows:
                first = Command(False, 6 if proc == RPU_0 else proc, 1)
                with unittest.mock.patch.object(device, "carry_out", **answers), self.assertRaises(fault):
                    controller.ipi(APU, REQUEST_WAKEUP, proc, 0x10001, 0, 2)
                self.assertRaises(pmu.CommandLeft, controller.tick, 1)
                self.assertEqual(controller.next_command(), first)
                step = controller.finish()
                self.assertEqual((step.events[0], step.answer), (Outcome(first, 0, True), Reply(APU, 0, (0, 0, 0))))
                self.assertEqual(controller.finish(), step)
        with unittest.mock.patch.object(device, "carry_out", side_effect=KeyError), unittest.mock.patch("pmu.close") as closed:
            try:
                Controller(LABORATORY, device)
            except KeyError:
                closed.assert_called_once()
            else:
                self.fail("a load whose device raises")


class Handles(unittest.TestCase):
    """The functions of pmu.h one by one, and what they answer."""

    def begun(self) -> Handle:
        """A handle whose load is carried out."""
        handle = Handle(LABORATORY)
        self.addCleanup(handle.close)
        while handle.next_command():
            handle.done(True)
        return handle

    def test_wrong_order(self) -> None:
        handle = self.begun()
        self.assertRaises(pmu.NoCommand, handle.done, True)
        handle.begin_ipi(APU, INIT_FINALIZE)
        first = handle.next_command()
        begins: list[Any] = [handle.begin_wfi, handle.begin_gic, handle.begin_irq, handle.begin_tick, handle.text]
        for begin in begins:
            self.assertRaises(pmu.CommandLeft, begin, 2)
        self.assertRaises(pmu.CommandLeft, handle.begin_boot, 3, 0)
        self.assertRaises(pmu.CommandLeft, handle.begin_ipi, APU, 1)
        self.assertEqual((handle.next_command(), first), (first, Command(False, 11, 0)))

    def test_numbers(self) -> None:
        handle = self.begun()
        calls: list[Any] = [handle.begin_wfi, handle.begin_tick, handle.value, handle.mode, handle.text]
        for call in calls:
            for number in (-1, 2**32, 10**30):
                self.assertRaises(pmu.OutOfRange, call, number)
            for word in ("1", 1.0, None):
                self.assertRaises(TypeError, call, word)
        self.assertRaises(pmu.OutOfRange, handle.begin_boot, 3, 2**64)
        self.assertRaises(pmu.OutOfRange, handle.begin_ipi, 1, 2, 3, 4, 5, 6, 7, 8)
        self.assertRaises(pmu.OutOfRange, handle.is_beyond, 1, 2, 3, 4, 5, 6, 7, 8, 9)
        self.assertRaises(pmu.NoNode, handle.value, 99)
        self.assertRaises(pmu.NoNode, handle.mode, UART_0)
        self.assertRaises(pmu.NoNode, handle.node_status, APU, 99)
        self.assertRaises(pmu.NoNode, handle.node_status, 5, UART_0)
        handle.begin_boot(3, 2**64 - 1)
        while handle.next_command():
            handle.done(True)
        self.assertEqual(handle.text(2**32 - 1).splitlines()[-1], f"{2**32 - 1} run 3 {2**64 - 1}")

    def test_room(self) -> None:
        handle = self.begun()
        whole = handle.text(4)
        for room in range(len(whole)):
            with self.assertRaises(pmu.NoRoom) as caught:
                handle.text(4, room)
            self.assertEqual(caught.exception.text, whole[:room])
        self.assertEqual(handle.text(4, len(whole)), whole)

    def test_reads_change_nothing(self) -> None:
        with Controller(LABORATORY) as alone, Controller(LABORATORY) as read_of:
            first = all_reads(read_of)
            for name, *words in EVENTS:
                self.assertEqual(all_reads(read_of), all_reads(read_of))
                self.assertEqual(getattr(alone, name)(*words), getattr(read_of, name)(*words))
            self.assertEqual(all_reads(alone), all_reads(read_of))
            self.assertNotEqual(all_reads(read_of), first)

    def test_reads(self) -> None:
        with Controller(read("examples/two-masters.obj")) as controller:
            for name, *words in EVENTS[:4]:
                getattr(controller, name)(*words)
            self.assertEqual(controller.node_status(APU, OCM_BANK_0), pmu.NodeStatus(2, 0, 2))
            self.assertEqual((controller.mode(APU_0), controller.mode(3), controller.value(OCM_BANK_0)), (1, 0, 2))
            self.assertTrue(controller.is_beyond(RPU_0, APU, REQUEST_NODE, UART_0))
            self.assertFalse(controller.is_beyond(APU, RPU_0, REQUEST_NODE, UART_0))
            self.assertFalse(controller.is_beyond(RPU_0, APU, REQUEST_NODE, OCM_BANK_0))

    def test_a_closed_handle(self) -> None:
        with unittest.mock.patch("pmu.close", wraps=pmu_library.close) as closed:
            with Controller(LABORATORY) as controller:
                closed.assert_not_called()
            closed.assert_called_once()
            controller.close()
            closed.assert_called_once()
            for call in (controller.is_settled, controller.next_command, controller.finish):
                self.assertRaises(pmu.Closed, call)
            self.assertRaises(pmu.Closed, controller.tick, 1)
            self.assertRaises(pmu.Closed, controller.value, 1)
            handle = Handle(LABORATORY)
            del handle
            self.assertEqual(closed.call_count, 2)

    def test_a_handle_is_not_copied(self) -> None:
        handle = self.begun()
        self.assertRaises(TypeError, copy.copy, handle)
        self.assertRaises(TypeError, copy.deepcopy, handle)
        self.assertRaises(TypeError, pickle.dumps, handle)

    def test_bytes(self) -> None:
        for broken in (b"", LABORATORY[:-4], LABORATORY[:-1], b"x" + LABORATORY):
            self.assertRaises(pmu.BadObject, Handle, broken)
        for none in (5, "text", None):
            self.assertRaises(TypeError, Handle, none)
        Handle(bytearray(LABORATORY)).close()

    def test_threads(self) -> None:
        told: list[str] = []
        shared = self.begun()

        def run() -> None:
            with Controller(LABORATORY) as controller:
                found = texts(controller, EVENTS)
            for _ in range(50):
                all_reads(shared)
            told.append(found)

        threads = [threading.Thread(target=run) for _ in range(4)]
        for thread in threads:
            thread.start()
        for thread in threads:
            thread.join()
        self.assertEqual((len(told), len(set(told))), (4, 1))

    def test_memory(self) -> None:
        library: Any = Refusing()
        with Controller(LABORATORY, library=library) as controller:
            whole = texts(controller, EVENTS[:4])
        self.assertEqual(library.names[-2:], ["pmu_end", "rattle_dealloc"])
        for refused in range(1, len(library.names) - 1):
            self.assertEqual(self.told_with(Refusing(refused)), whole, refused)

    def told_with(self, library: Any) -> str:
        """What a controller over this library tells; each function that wants memory is called once more."""
        wanting = 0
        while True:
            try:
                controller = Controller(LABORATORY, library=library)
                break
            except pmu.NoMemory:
                wanting += 1
        told = controller.load.text
        for number, (name, *words) in enumerate(EVENTS[:4], 1):
            try:
                step = getattr(controller, name)(*words)
            except pmu.NoMemory:
                wanting += 1
                step = controller.finish()
                # (an event that wasn't taken began no step)
                if step.number < number:
                    step = getattr(controller, name)(*words)
            told += step.text
        controller.close()
        self.assertEqual(wanting, 1)
        return told


class Runs(unittest.TestCase):
    """A whole run in one call."""

    def test_room_and_faults(self) -> None:
        whole = pmu.replay(LABORATORY, SCRIPT)
        self.assertTrue(whole.endswith("\n"))
        self.assertEqual(pmu.replay(LABORATORY, SCRIPT, len(whole)), whole)
        with self.assertRaises(pmu.NoRoom) as caught:
            pmu.replay(LABORATORY, SCRIPT, len(whole) - 1)
        self.assertEqual(caught.exception.text, whole[:-1])
        with self.assertRaises(pmu.BadLine) as bad:
            pmu.replay(LABORATORY, b"walk\n")
        self.assertEqual(bad.exception.text.splitlines()[-1], "fault line 1 1")
        with self.assertRaises(pmu.BadObject) as no_object:
            pmu.replay(b"no object", b"")
        self.assertEqual((no_object.exception.text, no_object.exception.status), ("fault object 1 2\n", pmu.Status.BAD_OBJECT))
        long = SCRIPT * 400
        self.assertGreater(len(pmu.replay(LABORATORY, long)), 1 << 16)


if __name__ == "__main__":
    unittest.main()
