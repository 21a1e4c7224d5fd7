"""`--names`: the lines stay as they are, and each has its meaning behind it."""

import json
import os
import unittest

import annotate
import names
from common import Case, board_of, example, examples, program, view

SCRIPT_WITH_NAMES = """\
# Master 1 and the serial port.
ipi APU INIT_FINALIZE
ipi APU REQUEST_NODE UART_0 ACCESS 0 BLOCKING   # the port
ipi APU PM_GET_NODE_STATUS NODE_UART_0
boot RPU_0 0x1000
ipi RPU_0 REQUEST_NODE UART_0 ACCESS 0 BLOCKING
"""

TEXT_WITH_NAMES = """\
header
section masters
master APU APU 100 RPU_0 0
master RPU_0 RPU_0 100 0 0
section slaves
slave UART_0 SHAREABLE APU|RPU_0
slave UART_1 0 RPU_0
section prealloc
group APU
prefer UART_0 IN_USE ACCESS 0
section reset
reset UART_0 APU
reset RESET_UART1 RPU_0
section shutdown
shutdown SYSTEM APU
"""

# Lines that mean nothing more than they say.
PLAIN = ("header", "section", "steps", "gpo")


def runs():
    """Every form but `build` over every example: the words."""
    for obj in examples(".obj"):
        yield ["print", obj]
        masters = [line.split()[1] for line in program("print", obj)[1].decode().splitlines() if line.startswith("master")]
        yield from (["reach", obj, node] for node in masters)
        for script in examples(".script"):
            yield ["replay", obj, script]
        yield from (["isolate", obj, example("force.script"), node] for node in masters)


class Names(Case):
    def test_each_line_of_each_example_stays_and_has_its_meaning(self):
        count = 0
        for words in runs():
            topology = board_of(words[1]).chip.words() if words[0] != "print" else []
            plain = program(*words, *topology)[1].decode().splitlines()
            shown = [line for line in self.text("--names", *words).splitlines() if not line.startswith("#")]
            self.assertEqual([line.split("#")[0].rstrip() for line in shown], plain, words)
            columns = {line.index("# ") for line in shown if "# " in line}
            self.assertEqual(len(columns), 1, words)
            for line in shown:
                self.assertEqual("  # " in line, not line.startswith(PLAIN), (words, line))
                count += 1
        self.assertGreater(count, 700)

    def test_a_text_with_its_meanings_builds_the_same_object(self):
        for obj in examples(".obj"):
            text = self.file("text", self.text("--names", "print", obj))
            with open(obj, "rb") as file:
                self.assertEqual(program("build", text), (0, file.read(), b""))

    def meanings(self, *words):
        """The meaning of each line."""
        found = {}
        for line in self.text("--names", *words).splitlines():
            said, _, meaning = line.partition("  # ")
            found.setdefault(said.rstrip(), meaning)
        return found

    def check(self, words, wanted):
        found = self.meanings(*words)
        for line, meaning in wanted.items():
            self.assertEqual(found.get(line), meaning, line)

    def test_a_replay_of_a_script_with_names(self):
        script = self.file("names.script", SCRIPT_WITH_NAMES)
        self.check(
            ["replay", example("two-masters.obj"), script],
            {
                "0 run 2 0": "APU_0 starts at 0x0",
                "2 set 33 1 0": "UART_0 off",
                "3 set 33 0 1": "UART_0 on",
                "3 reply 1 0 0 0 0": "APU: success",
                "4 reply 1 0 1 1 1": "APU: success, on, requires ACCESS, used by it alone",
                "5 run 7 4096": "RPU_0 starts at 0x1000",
                "6 reply 7 2002 0 0 0": "RPU_0: no access",
                "end proc 2 1 1": "APU_0 active",
                "end power 62 1 1": "LPD on",
            },
        )

    def test_answers_late_replies_and_callbacks(self):
        self.check(
            ["replay", example("laboratory.obj"), example("suspend.script")],
            {
                "4 call 7 30 201 50 0 100": "RPU_0: INIT_SUSPEND_CB: PU_REQ, latency 50, state 0, timeout 100",
                "5 reply 1 2004 0 0 0": "APU: double request",
                "7 reply 1 0 0 0 0": "APU: its request to suspend ended with success",
                "12 call 1 31 7 2005 1 0": "APU: ACKNOWLEDGE_CB RPU_0: abort suspend, active",
                "19 reply 1 2006 0 0 0": "APU: its request to suspend ended with timeout",
            },
        )

    def test_a_late_reply_in_the_step_of_a_message_of_the_same_master(self):
        script = "boot 7 0\nipi 7 6 7 2 0 0\nipi 7 9 100 7\n"
        self.check(
            ["replay", example("three-masters.obj"), self.file("late.script", script)],
            {
                "3 reply 7 2005 0 0 0": "RPU_0: its request to suspend ended with abort suspend",
                "3 reply 7 0 0 0 0": "RPU_0: success",
            },
        )

    def test_messages_that_wait_in_boxes(self):
        script = "boot 7 0\npost 7 1\npost 1 3 2\npost 1 21\npost 99 1\nserve\n"
        self.check(
            ["replay", example("laboratory.obj"), self.file("boxes.script", script)],
            {
                "4 busy 1": "APU: its box is full",
                "5 drop 99": "node 99 isn't heard",
                "6 reply 1 0 1 0 0": "APU: success, active",
                "6 reply 7 0 65537 0 0": "RPU_0: success, version 1.1",
            },
        )

    def test_words_that_lines_attach(self):
        script = "object 8 1\nipi APU SET_CONFIGURATION 8\nipi APU SET_CONFIGURATION 9\nobject 8 1\n"
        self.check(
            ["replay", example("laboratory.obj"), self.file("attached.script", script)],
            {
                "2 reply 1 15 4 0 0": "APU: invalid parameter",
                "3 reply 1 15 0 0 0": "APU: invalid parameter",
                "4 late 8": "the words for address 0x8 come too late",
            },
        )

    def test_a_late_reply_after_the_answer_to_another_message_of_a_line(self):
        script = "boot RPU_0 0\nipi APU REQUEST_SUSPEND RPU_0 BLOCKING 0 0\npost RPU_0 ABORT_SUSPEND 100 RPU_0\npost APU 1\n"
        script += "post APU 1\nserve # both\npost RPU_1 1\n"
        self.check(
            ["replay", example("laboratory.obj"), self.file("boxes.script", script)],
            {
                "5 busy 1": "APU: its box is full",
                "6 reply 1 0 65537 0 0": "APU: success, version 1.1",
                "6 reply 1 2005 0 0 0": "APU: its request to suspend ended with abort suspend",
                "6 reply 7 0 0 0 0": "RPU_0: success",
                "7 drop 8": "RPU_1 isn't heard",
            },
        )

    def test_modules_and_timed_tasks(self):
        script = "ipi 1 256 7 8 9\ntask 0 10\ntick 20\ncancel 0\ncancel 0\npost 1 260 511\nserve\ntask 1 5\ntick 5\n"
        self.check(
            ["replay", example("laboratory.obj"), self.file("tasks.script", script)],
            {
                "1 reply 1 0 7 8 9": "APU: success, words 7 8 9",
                "3 task 0 20 1": "timed task 0 is called at 20 and answers 1",
                "5 notask 0": "no timed task 0, or no interval",
                "7 reply 1 0 255 0 0": "APU: success, words 255 0 0",
                "9 task 1 25 1": "timed task 1 is called at 25 and answers 1",
            },
        )

    def test_power_calls(self):
        script = "ipi 1 21\nsmc APU_0 0xC4000003 1 4096\nsmc 2 0xC4000003 1 4096\nsmc APU_1 0x84000002\nsmc RPU_0 1\nsmc 2 1\n"
        self.check(
            ["replay", example("laboratory.obj"), self.file("calls.script", script)],
            {
                "2 reply 1 0 0 0 0": "APU: success",
                "2 smc 2 0": "APU_0: its power call is answered 0",
                "3 smc 2 -4": "APU_0: its power call is answered -4 (ALREADY_ON)",
                "4 reply 1 0 0 0 0": "APU: success",
                "5 smc 7 -3": "RPU_0: its power call is answered -3 (DENIED)",
                "6 smc 2 -1": "APU_0: its power call is answered -1 (NOT_SUPPORTED)",
            },
        )

    def test_clocks(self):
        script = "ipi APU CLOCK_ENABLE UART_0\nipi 1 38 5\nipi 1 39 5 4\nipi 1 40 5\nipi 1 43 5 1\nipi 1 44 5\npost 1 36 14\nserve\n"
        script += "ipi 1 44 14\nboot 7 0\nipi 7 39 5 2\nipi 1 38 15\nipi 1 36 16\nipi 1 37 14\nipi 1 36 14\n"
        self.check(
            ["replay", example("clocks.obj"), self.file("clocks.script", script)],
            {
                "1 clock 5 0 1": "the clock of UART_0 runs",
                "2 reply 1 0 1 0 0": "APU: success, runs",
                "4 reply 1 0 4 0 0": "APU: success, divided by 4",
                "6 reply 1 0 1 0 0": "APU: success, fed by RPLL",
                "8 clock 14 0 1": "the clock of TTC_0 runs",
                "9 reply 1 0 0 0 0": "APU: success, fed by the clock of UART_0",
                "11 reply 7 2007 1 0 0": "RPU_0: node used by APU",
                "12 reply 1 0 0 0 0": "APU: success, stopped",
                "13 reply 1 2003 0 0 0": "APU: invalid node",
                "14 clock 14 1 0": "the clock of TTC_0 stops",
                "end clock 5 4 1": "the clock of UART_0 runs, fed by RPLL and divided by 4",
                "end clock 14 1 0": "the clock of TTC_0 runs, fed by the clock of UART_0 and divided by 1",
            },
        )

    def test_the_words_of_answers(self):
        script = "ipi 1 1\nipi 1 4 11 3\nipi 1 4 11 1\nipi 1 3 10\nipi 1 3 2\nipi 1 18 33\nboot 7 0\nipi 1 13 28 1 0 2\nipi 7 13 28 1 0 2\n"
        self.check(
            ["replay", example("laboratory.obj"), self.file("words.script", script)],
            {
                "1 reply 1 0 65537 0 0": "APU: success, version 1.1",
                "2 reply 1 0 0 0 0": "APU: success, latency 0",
                "3 reply 1 0 15 0 0": "APU: success, power 15",
                "4 reply 1 0 1 0 0": "APU: success, on",
                "5 reply 1 0 1 0 0": "APU: success, active",
                "6 reply 1 0 0 0 0": "APU: success, released",
                "9 reply 7 2007 1 0 0": "RPU_0: node used by APU",
            },
        )

    def test_an_acknowledge_kind_before_a_carriage_return(self):
        script = "boot 7 0\r\nipi 7 6 7 2 0 0\r\nipi 7 8 6 1\r\nipi 1 18 1000\r\n"
        self.check(
            ["replay", example("three-masters.obj"), self.file("crlf.script", script)],
            {"3 reply 7 0 0 0 0": "RPU_0: its request to suspend ended with success", "4 reply 1 0 0 0 0": "APU: success, released"},
        )

    def test_reset_lines_and_notifications(self):
        script = "ipi 1 21\nipi 1 5 33 1 0 1\nipi 1 17 33 1\nipi 1 13 33 1 0 3\n"
        self.check(
            ["replay", example("laboratory.obj"), self.file("notify.script", script)],
            {
                "3 line 33 0 1": "reset line UART_0 asserted",
                "4 call 1 32 33 1 1 0": "APU: NOTIFY_CB UART_0: STATE_CHANGE, on",
                "4 call 1 31 33 0 1 0": "APU: ACKNOWLEDGE_CB UART_0: success, on",
                "end line 33 1 1": "reset line UART_0 asserted",
            },
        )

    def test_a_text_with_names_is_built_and_printed(self):
        text = self.file("names.txt", TEXT_WITH_NAMES)
        obj = self.file("names.obj", self.written("--names", "build", text))
        self.check(
            ["print", obj],
            {
                "master 1 1 100 256 0": "APU: may suspend RPU_0 and wake nobody",
                "slave 33 1 257": "UART_0: APU, RPU_0; shareable",
                "slave 34 0 256": "UART_1: RPU_0",
                "group 1": "APU",
                "prefer 33 2 1 0": "UART_0: in use with ACCESS; preset nothing",
                "reset 33 1": "UART_0, which the table lacks: APU",
                "reset 1035 256": "RESET_UART1: RPU_0",
                "shutdown 2 1": "SYSTEM: APU",
            },
        )

    def test_masks_of_no_master_and_nodes_that_the_table_lacks(self):
        text = "header\nsection masters\nmaster 1 1 4294967295 0 0\nsection slaves\nslave 70 0 5\nslave 200 1 0\n"
        status, obj, _ = program("build", self.file("text", text))
        self.assertEqual(status, 0)
        self.check(
            ["print", self.file("obj", obj)],
            {
                "master 1 1 4294967295 0 0": "APU: may suspend nobody and wake nobody (no timeout)",
                "slave 70 0 5": "GEM_TSU, which the table lacks: APU, 0x4 of no master",
                "slave 200 1 0": "node 200, which the table lacks: nobody; shareable",
            },
        )

    def test_a_reach_and_a_comparison_by_the_name_of_the_master(self):
        wanted = {
            "master 1 force 7 1": "APU: RPU_0 may force a processor of it down, or what is above one or above a slave of it",
            "master 7 self 7": "RPU_0",
            "slave 11 use 7": "OCM_BANK_0: RPU_0 may use it",
            "slave 33 use 7 1": "UART_0: RPU_0 -> APU may use it",
            "slave 19 force 7": "L2: RPU_0 may force a power node above it down",
            "power 1 above 7 1": "APU: RPU_0 -> APU has a processor or brings in a slave below it",
            "line 33 reset 7 1": "reset line UART_0: RPU_0 -> APU may reset it",
        }
        self.check(["reach", example("laboratory.obj"), "RPU_0"], wanted)
        wanted |= {"differ proc 2": "APU_0", "differ power 10": "FPD", "steps 8": ""}
        self.check(["isolate", example("laboratory.obj"), example("force.script"), "RPU_0"], wanted)

    def test_where_the_program_fails_its_output_and_its_exit_are_handed_on(self):
        script = self.file("bad.script", "boot 7 0\nbot 7 0\n")
        for words in (["replay", example("laboratory.obj"), script], ["reach", example("laboratory.obj"), "8"]):
            self.assertEqual(view("--names", *words)[:2], program(*words)[:2])
            self.assertNotEqual(program(*words)[0], 0)
        status, output, errors = view("--names", "replay", example("laboratory.obj"), script)
        self.assertEqual(len(errors.splitlines()), 1)
        self.assertTrue(errors.startswith(script.encode() + b":2: "), errors)

    def test_the_lines_with_their_meanings_as_json(self):
        words = ["replay", example("laboratory.obj"), example("sleep.script")]
        found = json.loads(self.text("--names", "--json", *words))
        listed = found["lines"]
        self.assertEqual((found["view"], found["exit"], found["form"], found["besides"]), ("--names", 0, "replay", []))
        self.assertEqual([it["text"] for it in listed], program(*words)[1].decode().splitlines())
        self.assertEqual(["end" if it["line"] is None else str(it["line"]) for it in listed], [it["text"].split()[0] for it in listed])
        shown = [line.partition("# ")[2] for line in self.text("--names", *words).splitlines()]
        self.assertEqual([it["meaning"] for it in listed], shown)
        # (the comments of a reach are lines of their own)
        words = ["reach", example("pm_cfg_obj.obj"), "RPU_0"]
        self.assertEqual(json.loads(self.text("--names", "--json", *words))["besides"], [line for line in self.text("--names", *words).splitlines() if line.startswith("#")])
        self.assertIn("--names is followed by", self.refused("--names", "--json", "build", example("two-masters.txt")))

    def test_bad_use(self):
        self.assertIn("--names is followed by", self.refused("--names"))
        self.assertIn("--names is followed by", self.refused("--names", "replay", example("laboratory.obj")))
        self.assertIn("--names is followed by", self.refused("--names", "lint", example("laboratory.obj")))
        missing = os.path.join(os.path.dirname(example("x")), "no.script")
        self.assertEqual(view("--names", "replay", example("laboratory.obj"), missing)[:2], (4, b""))
        bad = self.file("bad.script", "wfi 2\nipi APU REQUEST_NODE UART_9\n")
        self.assertIn("bad.script:2: no node is named UART_9", self.refused("--names", "replay", example("laboratory.obj"), bad))


if __name__ == "__main__":
    unittest.main()
