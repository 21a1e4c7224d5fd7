"""The lines of a script that can't have an effect are told, and no others."""

import itertools
import os
import random
import re
import unittest

import chip as chips
import idle
import objects
import to_numbers
from common import Case, example, examples, program, view

LABORATORY = example("laboratory.obj")

# Of each line: what is said of it over the laboratory's object, or nothing.
LINES = {
    "boot RPU 0x10000": "it does nothing: RPU is a power node, and no processor [no-effect]",
    "boot 99 0": "it does nothing: the chip has no node 99 [no-effect]",
    "boot PMU 0": "it does nothing: PMU isn't on the chip [no-effect]",
    "boot RPU_1 0": "it does nothing: RPU_1 belongs to no master of the object [no-effect]",
    "boot RPU_0 0": None,
    "wfi 99": "it does nothing: the chip has no node 99 [no-effect]",
    "wfi UART_0": "it does nothing: UART_0 is a slave, and no processor [no-effect]",
    "wfi APU_3": None,
    "gic APU": "it does nothing: APU is a power node, and no processor [no-effect]",
    "gic 2": None,
    "irq 99": "it does nothing: the chip has no node 99 [no-effect]",
    "irq APU_0": "it does nothing: APU_0 is a processor, and no slave [no-effect]",
    "irq DDR": "it does nothing: DDR can't wake anybody: it lacks WAKEUP [no-effect]",
    "irq UART_0": None,
    "break 999": "it does nothing: the chip has no node 999 [no-effect]",
    "mend 1035": "it does nothing: the chip has no node 1035 [no-effect]",
    "break FPD": None,
    "ipi RPU_1 INIT_FINALIZE": "RPU_1 is no master of the object, and its message is dropped [not-heard]",
    "post 2 3 1": "APU_0 is no master of the object, and its message is dropped [not-heard]",
    "ipi APU 77": "no call has the number 77 [refused]",
    "ipi APU IOCTL": "IOCTL isn't served [refused]",
    "ipi APU REQUEST_NODE 99 1 0 2": "the chip has no node 99 [refused]",
    "ipi APU REQUEST_NODE GEM_TSU 1 0 2": "GEM_TSU isn't on the chip [refused]",
    "ipi APU RESET_ASSERT 999 2": "line 999 isn't on the chip [refused]",
    "ipi APU CLOCK_ENABLE 88": "no clock has the number 88 [refused]",
    "ipi APU REQUEST_SUSPEND RPU_0 1 0 0": None,
    "ipi APU REQUEST_NODE UART_0 1 0 2": None,
    "serve": "it does nothing: no message is in a box [no-effect]",
    "smc RPU_0 0x84000002": "RPU_0 is no processor of APU, and its power call is denied [refused]",
    "smc APU_1 0x84000002": None,
    "tick 0": None,
    "# wfi 99": None,
}


class Idle(Case):
    def said(self, script, *words):
        """What lint says of the lines of a script over the laboratory's object: of each line its number and the message."""
        path = self.file("s.script", script)
        lines = [line for line in self.text("lint", *words, LABORATORY, path).splitlines() if line.startswith(path)]
        return [(int(found[1]), found[2]) for found in (re.fullmatch(re.escape(path) + r":(\d+): (.*)", line) for line in lines)]

    def test_each_kind_of_line(self):
        wanted = [(number, f"{line}: {said}") for number, (line, said) in enumerate(LINES.items(), 1) if said]
        self.assertEqual(self.said("\n".join(LINES) + "\n"), wanted)

    def test_a_box_is_full_until_it_is_served(self):
        nothing = "serve: it does nothing: no message is in a box [no-effect]"
        self.assertEqual(self.said("post 1 3 1\nserve\nserve\npost 8 3 1\nserve\n", "--ignore", "not-heard"), [(3, nothing), (5, nothing)])

    def test_what_is_silent_has_no_effect_in_any_book(self):
        """Each line that does nothing writes nothing but its number, whatever came before it."""
        dice = random.Random(3)
        board = chips.chosen(LABORATORY, objects.load(LABORATORY))
        silent = [f"{word} {node}" for word in ("wfi", "gic", "irq", "break", "mend") for node in (0, 1, 6, 8, 9, 11, 33, 55, 78, 99)]
        silent = [line for line in silent if any(each.check == idle.SILENT for each in idle.idle(board, [line], [line]))]
        self.assertGreater(len(silent), 20)
        live = ["ipi 1 21", "boot 7 0", "ipi 7 13 34 1 0 2", "ipi 1 13 33 7 0 2", "ipi 1 7 2 0 0 0 0", "wfi 2", "ipi 1 11 2 33 1", "gic 2", "break 34", "tick 5"]
        for _ in range(20):
            script = [dice.choice(live if dice.random() < 0.6 else silent) for _ in range(40)]
            without = ["" if line in silent else line for line in script]
            runs = [program("replay", LABORATORY, self.file("s", "\n".join(lines) + "\n"))[1] for lines in (script, without)]
            self.assertEqual(runs[0], runs[1], script)

    def test_what_is_said_to_be_refused_or_not_heard_is_so(self):
        said = [text for _, text in self.said("\n".join(LINES) + "\n") if text.endswith(("[refused]", "[not-heard]"))]
        lines = [text.split(": ")[0] for text in said if not text.startswith("post")]
        self.assertGreater(len(lines), 6)
        numbers = to_numbers.in_numbers("\n".join(["ipi APU INIT_FINALIZE", *lines, ""]).encode(), "FILE").decode()
        status, written, _ = program("replay", LABORATORY, self.file("s", numbers))
        answers = [words for words in map(str.split, written.decode().splitlines()) if words[1] in ("reply", "drop", "smc")]
        self.assertEqual((status, [int(words[0]) for words in answers]), (0, list(range(1, len(lines) + 2))))
        self.assertNotIn("0", [words[3] for words in answers[1:] if words[1] != "drop"])

    def test_no_line_of_the_examples_does_nothing(self):
        for obj, script in itertools.product(examples(".obj"), examples(".script")):
            if os.path.basename(obj) == "laboratory.obj":
                self.assertNotIn("[no-effect]", self.text("lint", obj, script), script)

    def test_a_bad_line_ends_as_the_program_does(self):
        path = self.file("s", "ipi 1 21\nwifi 2\n")
        ended = view("lint", LABORATORY, path)
        self.assertEqual(ended, (3, b"", f"{path}:2: no line of a script begins with 'wifi' (did you mean 'wfi'?)\n".encode()))

    def test_a_replay_with_names_tells_them(self):
        path = self.file("s", "ipi APU INIT_FINALIZE\nboot RPU 0\nwfi 99\nwfi 99\nwfi 99\nipi 8 3 1\n")
        status, output, errors = view("--names", "replay", LABORATORY, path)
        self.assertEqual(status, 0)
        self.assertEqual(
            errors.decode().splitlines(),
            [
                f"pmu: {path}:2: boot RPU 0: it does nothing: RPU is a power node, and no processor",
                f"pmu: {path}:3: wfi 99: it does nothing: the chip has no node 99 (2 more lines like it)",
            ],
        )
        self.assertIn(b"# RPU_1 isn't heard", output)


class Lagging(Case):
    def replay(self, *lines):
        """The comments of the lines of each step of a replay over the laboratory's object."""
        made = self.text("--names", "replay", LABORATORY, self.file("s", "\n".join(lines) + "\n"))
        return [line.split("# ")[1] for line in made.splitlines() if line.split()[1] == "reply"]

    def test_success_over_a_unit_that_lags_is_told(self):
        calls = ["REQUEST_NODE SD_0 ACCESS 0 BLOCKING", "SET_MAX_LATENCY SD_0 900", "GET_NODE_STATUS SD_0", "GET_NODE_STATUS GPIO"]
        lines = ["ipi APU INIT_FINALIZE", "break SD_0", *(f"ipi APU {call}" for call in calls), "mend SD_0", "ipi APU SET_MAX_LATENCY SD_0 800"]
        said = [
            "success",
            "internal",
            "success; SD_0 lags: off",
            "success, on, requires ACCESS, used by it alone; SD_0 lags: off",
            "success, off, requires nothing, used by nobody",
            "success",
        ]
        self.assertEqual(self.replay(*lines), ["APU: " + each for each in said])

    def test_a_power_node_above_that_lags_is_told(self):
        asleep = ["ipi APU SELF_SUSPEND APU_0 0 0 0 0", "wfi APU_0", "break FPD"]
        calls = ["REQUEST_NODE SATA ACCESS 0 BLOCKING", "SET_MAX_LATENCY SATA 900", "GET_NODE_STATUS GPIO"]
        found = self.replay("ipi APU INIT_FINALIZE", "boot RPU_0 0", *asleep, *(f"ipi RPU_0 {call}" for call in calls))
        said = ["internal", "success; FPD lags: off", "success, off, requires nothing, used by nobody"]
        self.assertEqual(found[2:], ["RPU_0: " + each for each in said])


if __name__ == "__main__":
    unittest.main()
