"""What `diff` shows of a script with and without the messages of a master."""

import resource
import unittest

import diff
import lines
import program as programs
from common import Case, board_of, example, examples, program, view

# RPU_0 asks for SATA, which one master at a time may use, while APU has it; and more.
SCRIPT = """ipi 1 21
boot 7 0
ipi 1 13 28 1 0 2   # SATA
ipi 7 13 28 1 0 2
ipi 1 14 28
ipi 7 13 28 1 0 3
ipi 1 6 7 3 50 0
ipi 1 17 33 2
ipi 7 7 7 0 0 0x2000 0
wfi 7
ipi 1 10 7 0 0 2
"""

WITHOUT_APU = """with the 6 messages of APU | without them
of others:
step 1: ipi APU INIT_FINALIZE
  slave OCM_BANK_0   on -> off                                                 | -
  slave SATA         on -> off                                                 | -
  slave SD_0         on -> off                                                 | -
  slave GPIO         on -> off                                                 | -
step 3: ipi APU REQUEST_NODE SATA ACCESS 0 BLOCKING
  slave SATA         off -> on                                                 | -
step 4: ipi RPU_0 REQUEST_NODE SATA ACCESS 0 BLOCKING
  answer to RPU_0    2007 node used by APU                                     | 0 success                                                  DENIED
step 5: ipi APU RELEASE_NODE SATA
  slave SATA         on -> off                                                 | -
step 6: ipi RPU_0 REQUEST_NODE SATA ACCESS 0 NON_BLOCKING
  slave SATA         off -> on                                                 | -
  callback to RPU_0  ACKNOWLEDGE_CB SATA: success, on                          | ACKNOWLEDGE_CB SATA: double request, on
step 7: ipi APU REQUEST_SUSPEND RPU_0 NON_BLOCKING 50 0
  callback to RPU_0  INIT_SUSPEND_CB: PU_REQ, latency 50, state 0, timeout 100 | -
step 11: ipi APU REQUEST_WAKEUP RPU_0 0 0 BLOCKING
  proc RPU_0         asleep -> active                                          | -
  power RPU          off -> on                                                 | -
  start of RPU_0     starts at 0x2000                                          | -
of APU alone:
step 1: ipi APU INIT_FINALIZE
  slave UART_0     on -> off                             | -
step 8: ipi APU RESET_ASSERT UART_0 PULSE
  device line UART_0  released -> asserted -> released      | -
step 10: wfi RPU_0
  callback to APU  ACKNOWLEDGE_CB RPU_0: success, asleep | -
successes that others lose: 1 denied, 0 refused, 0 not heard
"""


class Text(Case):
    def show(self, script, node, obj="laboratory.obj"):
        return self.text("diff", example(obj), self.file("script", script), node)

    def rows(self, text):
        """The rows without their columns' spaces."""
        return [" ".join(line.split()) for line in text.splitlines() if line.startswith("  ")]

    def squeezed(self, text):
        return [" ".join(line.split()) for line in text.splitlines()]

    def test_a_script_of_two_masters(self):
        self.assertEqual(self.squeezed(self.show(SCRIPT, "1")), self.squeezed(WITHOUT_APU))

    def test_names_and_numbers_give_the_same(self):
        self.assertEqual(self.show(SCRIPT, "APU"), self.show(SCRIPT, "0x01"))
        named = SCRIPT.replace("ipi 1 13 28 1 0 2", "ipi APU REQUEST_NODE SATA ACCESS 0 BLOCKING").replace("\n", "\r\n")
        self.assertEqual(self.show(named, "NODE_APU"), self.show(SCRIPT, "1"))
        status = "boot 7 0\nipi 7 13 11 1 0 2\nipi 1 3 11\n"
        row = "answer to APU 0 success, on, requires nothing, used by others | 0 success, on, requires nothing, used by nobody"
        self.assertIn(row, self.rows(self.show(status, "7")))
        self.assertEqual(self.show(status.replace("\n", "\r\n"), "7"), self.show(status, "7"))
        asleep = "boot 7 0\nipi 7 7 7 0 0 0 0\nwfi 7"
        self.assertIn("proc RPU_0 suspending -> asleep | -", self.rows(self.show(asleep, "7")))
        self.assertEqual(self.show(asleep.replace("\n", "\r\n") + "\r", "7"), self.show(asleep, "7"))

    def test_a_denial_a_refusal_and_a_message_that_is_not_heard(self):
        denied = self.show("boot 7 0\nipi 7 13 28 1 0 2\nipi 1 13 28 1 0 3\n", "7")
        self.assertIn("callback to APU ACKNOWLEDGE_CB SATA: node used, on | ACKNOWLEDGE_CB SATA: success, on DENIED", self.rows(denied))
        refused = self.show("boot 7 0\nipi 7 7 7 0 0 0 0\nwfi 7\nipi 1 6 7 1 0 0\nipi 1 10 7 0 0 2\nipi 1 10 7 0 0 2\n", "7")
        self.assertIn("answer to APU 0 success | 1 failure", self.rows(refused))
        other = self.show("boot 7 0\nipi 1 15 11 1 0 2\nipi 7 8 10 1\nboot 2 0\nipi 1 13 33 1 0 2\nipi 1 15 33 0 0 2\n", "1")
        self.assertIn("successes that others lose: 0 denied, 0 refused, 0 not heard", other)
        lost = self.show("boot 7 0\nipi 7 8 10 1\nipi 1 1\nboot 2 0\nipi 1 14 33\n", "7", self.holding())
        self.assertIn("answer to APU not heard | 0 success, version 1.1 NOT HEARD", self.rows(lost))
        self.assertIn("answer to APU 2002 no access | 0 success REFUSED", self.rows(lost))
        self.assertIn("successes that others lose: 0 denied, 1 refused, 1 not heard", lost)

    def holding(self):
        """An object as the laboratory's, in which APU has UART_0 from the start."""
        text = programs.read_file(example("laboratory.txt")) + b"section prealloc\ngroup 1\nprefer 33 2 1 0\n"
        status, built, _ = program("build", self.file("made.txt", text))
        self.assertEqual(status, 0, built)
        return self.file("made.obj", built)

    def test_served_messages(self):
        script = "boot 7 0\npost 1 13 28 1 0 2\npost 7 13 28 1 0 2\npost 7 1\nserve\n"
        self.assertEqual(self.rows(self.show(script, "1")), ["answer to RPU_0 2007 node used by APU | 0 success DENIED"])
        asked = "boot 7 0\nipi 1 6 7 2 0 0\npost 1 1\npost 7 9 100 7\nserve\n"
        self.assertIn("answer to RPU_0 0 success | 1 failure", self.rows(self.show(asked, "1")))
        late = "2005 its request to suspend ended with abort suspend"
        self.assertEqual(self.rows(self.show(asked, "7")), [f"answer to APU 0 success, version 1.1; {late} | 0 success, version 1.1"])

    def test_power_calls(self):
        script = "smc 2 0xC4000003 1 4096\nboot 7 0\nsmc 7 0x84000002\n"
        rows = ["proc APU_1 off -> active | -", "start of APU_1 starts at 0x1000 | -"]
        shown = self.show(script, "APU")
        self.assertEqual(self.rows(shown), rows)
        self.assertEqual(shown.splitlines()[0], "with the 0 messages and 2 power calls of APU | without them")
        self.assertEqual(self.rows(self.show(script, "RPU_0")), [])

    def test_clocks(self):
        script = programs.read_file(example("clocks.script")).decode()
        rows = self.rows(self.show(script, "RPU_0", example("clocks.obj")))
        self.assertEqual(rows[:3], ["clock UART_0 - | runs -> stopped", "clock TTC_0 - | runs -> stopped", "answer to APU 2007 node used by RPU_0 | 0 success DENIED"])
        own = self.show("boot 7 0\nipi 7 36 6\nipi 1 36 14\n", "7", example("clocks.obj")).splitlines()
        self.assertEqual(own[1:4], ["of others: nothing differs", "of RPU_0 alone:", "step 2: ipi RPU_0 CLOCK_ENABLE UART_1"])
        self.assertEqual(self.rows("\n".join(own)), ["clock UART_1 stopped -> runs | -"])

    def test_nothing_differs(self):
        text = "with the 0 messages of RPU_0 | without them\nof others: nothing differs\nof RPU_0 alone: nothing differs\n"
        self.assertEqual(self.show("ipi 1 21\n\nboot 7 0", "7"), text + "successes that others lose: 0 denied, 0 refused, 0 not heard\n")

    def test_a_long_script_takes_seconds(self):
        # (of 20,000 lines, in seconds of the processor: with each line read many times it took 20)
        script = self.file("long.script", "ipi 7 13 33 1 0 2\n" + "ipi 1 13 33 4 0 1\nipi 1 3 33\nipi 7 3 33\nipi 1 15 33 0 0 2\n" * 5_000)
        before = resource.getrusage(resource.RUSAGE_CHILDREN).ru_utime
        shown = self.text("diff", example("two-masters.obj"), script, "7").splitlines()
        self.assertEqual(shown[0], "with the 5001 messages of RPU_0 | without them")
        self.assertLess(resource.getrusage(resource.RUSAGE_CHILDREN).ru_utime - before, 5)

    def test_columns(self):
        for line in self.show(SCRIPT, "1").splitlines():
            if line.startswith("  "):
                self.assertEqual(line.count(" | "), 1, line)

    def test_what_is_of_a_master_alone(self):
        found = board_of(example("laboratory.obj"))
        own = [number for number in [1, 2, 6, 7, 10, 11, 28, 33, 62] if diff.is_own(found, 1, diff.Subject("node", number))]
        self.assertEqual(own, [1, 2, 33])
        self.assertEqual([number for number in [1, 6, 7, 8, 10, 33] if diff.is_own(found, 7, diff.Subject("node", number))], [6, 7])
        self.assertTrue(diff.is_own(found, 1, diff.Subject("line", 33)) and diff.is_own(found, 7, diff.Subject("run", 7)) and diff.is_own(found, 7, diff.Subject("call", 7)))
        self.assertFalse(diff.is_own(found, 7, diff.Subject("line", 33)) or diff.is_own(found, 7, diff.Subject("answer", 1)))

    def test_bad_use(self):
        script = self.file("script", SCRIPT)
        for words in ([], ["a", "b"], ["a", "b", "c", "d", "e"]):
            self.assertEqual(self.refused("diff", *words), f"pmu: {diff.USAGE}")
        self.assertEqual(view("diff", example("laboratory.obj"), script + ".none", "1")[:2], (4, b""))
        self.assertEqual(view("diff", example("laboratory.obj"), script, "8")[:2], (8, b""))
        self.assertEqual(view("diff", script, script, "1")[:2], (2, b""))
        self.assertEqual(view("diff", example("two-masters.obj"), self.file("bad", "ipi 1 21\nwhat\n"), "1")[:2], (3, b""))


class Messages(unittest.TestCase):
    def test_the_messages_of_a_master_are_empty_lines(self):
        content = b"ipi 1 21\n\tipi 0x7 21 # a\nipi 8 21\nirq 7\nipi 007 3\nipi 7\n#ipi 7 21\nipi 77 21\npost 7 1\nserve\npost 1 7"
        wanted = b"ipi 1 21\n\nipi 8 21\nirq 7\n\n\n#ipi 7 21\nipi 77 21\n\nserve\npost 1 7"
        self.assertEqual(diff.without_messages(content, 7), (wanted, [2, 5, 6, 9]))
        self.assertEqual(lines.message_of("irq 7"), None)


if __name__ == "__main__":
    unittest.main()
