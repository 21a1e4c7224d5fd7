"""Outages that end by themselves: what they become, and that each view has the line numbers of the script as it is written."""

import json
import os
import random
import re
import unittest

import outages
import picture
from common import Case, board_of, example, program, view
from replays import Run
from test_devices import one_line, some_slaves

LABORATORY = example("laboratory.obj")

SCRIPT = """\
ipi APU INIT_FINALIZE
break SD_0 for 2    # a card that is loose
ipi APU REQUEST_NODE SD_0 ACCESS 0 BLOCKING     # expect answer INTERNAL, fail SD_0 on
ipi APU GET_NODE_STATUS SD_0                    # expect fail SD_0 on, no set SD_0, value SD_0 on, device SD_0 off
ipi APU GET_NODE_STATUS SD_0                    # expect set SD_0 on, device SD_0 on, no fail SD_0
  fail UART_0 once
tick 1                                          # expect nothing
ipi APU REQUEST_NODE UART_0 ACCESS 0 BLOCKING   # expect answer INTERNAL, fail UART_0 on, device UART_0 off
smc APU_0 CPU_ON_64 APU_1 0x4000                # expect smc SUCCESS, set UART_0 on, run APU_1 0x4000
ipi APU GET_NODE_STATUS UART_0                  # expect answer SUCCESS on ACCESS 1
wfi 99
"""

# What is written of lines 3 to 10, by their numbers in the script.
WRITTEN = """\
3 fail 39 0 1
3 reply 1 2000 0 0 0
4 fail 39 0 1
4 reply 1 0 1 1 1
5 set 39 0 1
5 reply 1 0 1 1 1
8 fail 33 0 1
8 reply 1 2000 0 0 0
9 set 33 0 1
9 set 3 0 1
9 run 3 16384
9 reply 1 0 0 0 0
9 smc 2 0
10 reply 1 0 1 1 1
"""


def without_meanings(text):
    """The lines of a view without what they mean."""
    return [line.partition("#")[0].rstrip() for line in text.splitlines()]


def by_hand(script, run):
    """The lines that a script writes, by its own numbers. It is built up line by line, and run anew after each."""
    made, numbers, ends, single, written = [], [], {}, set(), []
    for number, line in enumerate(script, 1):
        for node in [node for node, end in ends.items() if end == number]:
            made.append(f"mend {node}")
            numbers.append(number)
            del ends[node]
        words = line.split()
        if words and words[0] in ("break", "mend", "fail"):
            ends.pop(words[1], None)
            single.discard(words[1])
            if words[0] == "fail":
                single.add(words[1])
            elif len(words) == 4:
                ends[words[1]] = number + int(words[3]) + 1
            line = " ".join([words[0].replace("fail", "break"), words[1]])
        made.append(line)
        numbers.append(number)
        written = run("".join(f"{it}\n" for it in made).encode())
        steps = [it.split() for it in written]
        for step, kind, node, *_ in (it for it in steps if it[0].isdigit() and int(it[0]) > 0):
            if kind == "fail" and node in single and numbers[int(step) - 1] == number:
                single.discard(node)
                ends[node] = number + 1
    return [re.sub(r"^[1-9]\d*", lambda found: str(numbers[int(found[0]) - 1]), it) for it in written]


class Outages(Case):
    def setUp(self):
        super().setUp()
        self.script = self.file("loose.script", SCRIPT)

    # What they become.

    def test_what_a_script_becomes(self):
        script = ["break 39 for 2 # loose", "tick 1", "", "tick 2", "fail 33  once\r", "break 39 for 1", "tick 3", "tick 4"]
        made = outages.turned(script, {5: 6})
        wanted = ["break 39 # loose", "tick 1", "", "mend 39", "tick 2", "break 33\r", "break 39", "mend 33", "tick 3", "mend 39", "tick 4"]
        self.assertEqual([line.replace("  # the outage of 39 ends", "").replace("  # the outage of 33 ends", "") for line in made.lines], wanted)
        self.assertEqual(made.numbers, [1, 2, 3, 4, 4, 5, 6, 7, 7, 8, 8])

    def test_a_later_line_of_the_node_takes_the_place_of_an_outage(self):
        for later, wanted in (("break 39", []), ("mend 39", []), ("break 0x27 for 3", [7]), ("break 40", [5]), ("fail 39 once", [])):
            made = outages.turned(["tick 1", "break 39 for 2", later, *["tick 1"] * 6], {})
            self.assertEqual([number for number, line in zip(made.numbers, made.lines) if "39 ends" in line], wanted, later)

    def test_scripts_by_chance_are_those_that_are_built_by_hand(self):
        chance, ended = random.Random(71), 0
        for path in (LABORATORY, example("three-masters.obj"), LABORATORY, example("clocks.obj")) * 4:
            board = board_of(path)
            run = Run(path, board.chip, self._room.name)
            slaves = some_slaves(chance, board)
            script = ["ipi 1 21", "boot 7 0"]
            for _ in range(14):
                begin = [f"break {chance.choice(slaves)} for {chance.randrange(1, 4)}", f"fail {chance.choice(slaves)} once", "tick 1", ""]
                script += [chance.choice(begin) if chance.random() < 0.4 else one_line(chance, board, slaves)]
                script += [f"ipi 1 {chance.choice([13, 14])} {slaves[0]} 1 0 2"] * chance.randrange(2)
            wanted = by_hand(script, run.written)
            self.assertEqual(run.lines_of("".join(f"{line}\n" for line in script).encode()), wanted, script)
            ended += len(run.turned("".join(f"{line}\n" for line in script).encode())[0].lines) - len(script)
        self.assertGreater(ended, 16)

    def test_a_line_that_refuses_a_command_itself_is_the_one_that_ends_it(self):
        script = self.file("lags.script", "ipi 1 21\nbreak 33\nipi 1 13 33 1 0 2\nfail 33 once\ntick 1\n")
        lines = without_meanings(self.text("--names", "replay", LABORATORY, script))
        self.assertEqual([line for line in lines if line[0] in "45"], ["4 fail 33 0 1", "5 set 33 0 1"])

    # The numbers of lines, in each view.

    def test_the_numbers_of_the_output(self):
        lines = without_meanings(self.view_of_script("--names", "replay", LABORATORY, self.script))
        self.assertEqual([line for line in lines if re.match("[2-9]|1[01]", line)], WRITTEN.splitlines())
        listed = json.loads(self.view_of_script("--names", "--json", "replay", LABORATORY, self.script))
        self.assertEqual([line["text"] for line in listed["lines"]], lines)

    def view_of_script(self, *words):
        """What a view writes of the script, of whose last line it may say that it does nothing."""
        status, output, errors = view(*words)
        self.assertEqual(status, 0, errors)
        for line in errors.decode().splitlines():
            self.assertEqual(line, f"pmu: {self.script}:11: wfi 99: it does nothing: the chip has no node 99")
        return output.decode()

    def test_the_numbers_of_a_test(self):
        self.assertEqual(self.text("test", LABORATORY, self.script), f"{self.script}: 17 expectations met\n")
        beside = self.file("beside.script", SCRIPT.replace("# expect", "#"))
        self.file("beside.script.expect", "5 set SD_0 on\n9 set UART_0 on\n8 device UART_0 off\nend device UART_0 on\n")
        self.assertEqual(self.text("test", LABORATORY, beside), f"{beside}: 4 expectations met\n")

    def test_the_numbers_of_a_dump_and_a_picture(self):
        dump = picture.read(self.text("--vcd", "replay", LABORATORY, self.script))
        lines = [(time, text.split()[0]) for time, text in dump.named("line").texts]
        self.assertEqual(lines, [(1000 * number, line.split()[0]) for number, line in enumerate(["load", *SCRIPT.splitlines()])])
        device = [signal for signal in dump.signals if signal.is_of_device() and signal.name in ("SD_0", "UART_0")]
        changes = {signal.name: [(time // 1000, value) for time, value in signal.changes if time // 1000 > 1] for signal in device}
        self.assertEqual(changes["SD_0"], [(3, None), (3, 0), (4, None), (4, 0), (5, 1)])
        self.assertEqual(changes["UART_0"], [(8, None), (8, 0), (9, 1)])
        drawn = self.text("--svg", "replay", LABORATORY, self.script)
        self.assertIn(">break SD_0 for 2</text>", drawn)
        self.assertIn(">11</text>", drawn)
        self.assertNotIn(">12</text>", drawn)

    def test_the_numbers_of_a_comparison(self):
        text = self.text("diff", LABORATORY, self.script, "APU")
        parts = dict(re.findall(r"(?m)^step (\d+): (.*)", text))
        for number in ("3", "4", "5", "8", "9"):
            self.assertIn(parts[number].split()[0], SCRIPT.splitlines()[int(number) - 1])
        rows = " ".join(text.split())
        self.assertIn("step 5: ipi APU GET_NODE_STATUS SD_0 device slave SD_0 off -> on | -", rows)
        self.assertIn("step 9: smc APU_0 CPU_ON_64 APU_1 0x4000 device slave UART_0 off -> on | -", rows)
        compared = without_meanings(self.text("--names", "isolate", LABORATORY, self.script, "APU"))
        self.assertEqual(compared[-1], "steps 11")

    def test_the_numbers_of_a_page_and_of_lint(self):
        page = self.text("report", LABORATORY, self.script)
        lines = dict(re.findall(r'(?s)<span class="number">(\d+)</span>(.*?)(?=<span class="number">|<span>What|</section>)', page))
        self.assertIn("set 39 0 1", lines["5"])
        self.assertIn("fail 33 0 1", lines["8"])
        self.assertIn("set 33 0 1", lines["9"])
        self.assertIn("it does nothing: the chip has no node 99", lines["11"])
        self.assertIn("break SD_0 for 2", lines["2"])
        self.assertIn("17 expectations met", page)
        said = self.text("lint", "--ignore", "forces-a-master,leads-to-all", LABORATORY, self.script)
        self.assertEqual(said, f"{self.script}:11: wfi 99: it does nothing: the chip has no node 99 [no-effect]\n")
        typo = self.file("typo.script", "fail 99 once\nbreak 98 for 2\nfail RPU once\n")
        said = self.text("lint", "--ignore", "forces-a-master,leads-to-all", LABORATORY, typo)
        wanted = [f"{typo}:{k}: {line}: it does nothing: the chip has no node" for k, line in ((1, "fail 99 once"), (2, "break 98 for 2"))]
        self.assertEqual([line.rpartition(" ")[0].rpartition(" ")[0] for line in said.splitlines()], wanted)

    # In numbers, and what is wrong.

    def test_in_numbers(self):
        script = self.file("for.script", "break SD_0 for 1  # loose\ntick 1\ntick 2\n")
        made = self.text("--numbers", script)
        self.assertEqual(made, "break 39  # loose\ntick 1\nmend 39  # the outage of 39 ends\ntick 2\n")
        self.assertEqual(program("replay", LABORATORY, self.file("made.script", made))[0], 0)
        said = self.refused("--numbers", self.script)
        self.assertEqual(said, f"pmu: {self.script}:6: where 'fail 33 once' ends shows in a run alone: ./pmu --names replay takes the script")

    def test_a_line_with_a_fault(self):
        for line, said in (
            ("break 39 for", "'for' takes a number of lines after it, from 1 on"),
            ("break 39 for 0", "'for' takes a number of lines after it, from 1 on"),
            ("break 39 for 2 3", "'for' takes a number of lines after it, from 1 on"),
            ("break 39 for x", "'for' takes a number of lines after it, from 1 on"),
            ("break 0x100000000 for 2", "the number in word 2, 0x100000000, doesn't fit 32 bits"),
            ("break 39 4", "'break' takes 1 word after it, and 2 are here"),
            ("fail", "'fail' takes a node and the word 'once' after it"),
            ("fail 39", "'fail' takes a node and the word 'once' after it"),
            ("fail 39 twice", "'fail' takes a node and the word 'once' after it"),
            ("fail 39 once \x7f", "byte 14 of the line is 0x7F, and only tabs and printable ASCII are read"),
            ("fail 39 once #" + "-" * 250, "the line has 264 bytes, and the most is 255"),
            ("bot 7 0", "no line of a script begins with 'bot' (did you mean 'boot'?)"),
        ):
            script = self.file("bad.script", f"ipi 1 21\nbreak 39 for 1\nipi 1 13 39 1 0 2\ntick 1\n{line}\nfail 33 once\n")
            with self.subTest(line=line):
                status, output, errors = view("--names", "replay", LABORATORY, script)
                self.assertEqual((status, errors.decode()), (3, f"{script}:5: {said}\n"))
                self.assertRegex(output, rb"\n3 fail 39 0 1\n3 reply 1 2000 0 0 0\n4 set 39 0 1\nfault line 5 [1345]\n\Z")
        for words in (["--vcd", "replay"], ["diff"], ["lint"], ["--names", "isolate"], ["report"]):
            words += [LABORATORY, script, *["1"] * (words[-1] in ("diff", "isolate"))]
            status, _, errors = view(*words)
            self.assertEqual((status, errors.decode()), (3, f"{script}:5: {said}\n"), words)

    def test_a_name_that_is_no_node(self):
        script = self.file("bad.script", "break SD for 2\n")
        self.assertEqual(self.refused("--names", "replay", LABORATORY, script), f"pmu: {script}:1: no node is named SD")

    def test_what_the_program_is_told_of_them(self):
        import faults

        for line, said in (
            ("fail 39 once", "'fail 39 once' is a line for the views: ./pmu --names replay takes it"),
            ("break 39 for 2", "'break 39 for 2' is a line for the views: ./pmu --names replay takes it"),
            ("fail 39 often", "'fail' takes a node and the word 'once' after it"),
        ):
            script = self.file("views.script", f"tick 1\n{line}\n")
            status = program("replay", LABORATORY, script)[0]
            words = ["replay", LABORATORY, script]
            self.assertEqual((status, faults.told(os.environ["PMU_PROGRAM"], words, words, status, None)), (3, f"{script}:2: {said}"))


if __name__ == "__main__":
    unittest.main()
