"""What `policy` says of rules that an object keeps, and of rules that it breaks."""

import os
import unittest

import names
import permits
import policy
from common import JUDGED, Case, board_of, examples, program, view
from forms import BROKEN, NOT_JUDGED, UNREADABLE

TEXT = """header
section masters
master 1 1 100 2 0
master 7 2 100 0 0
master 8 4 100 1 0
section slaves
slave 33 1 1
slave 34 0 2
slave 15 0 2
section power
power 6 4
section reset
reset 34 2
reset 62 6
"""

UNJUDGED = ["not judged: reset 62 6 (word 39): RPU_0, RPU_1 may reset line_62"]
COUNT = "records not judged: 1; allowed: 0"


class Policy(Case):
    def setUp(self):
        super().setUp()
        status, built, _ = program("build", self.file("made.txt", TEXT))
        self.assertEqual(status, 0, built)
        self.path = self.file("made.obj", built)

    def judge(self, rules, path=None):
        """The exit, and the lines."""
        status, output, errors = view("policy", path or self.path, self.file("rules", rules))
        self.assertFalse([line for line in errors.splitlines() if not line.startswith(JUDGED)], rules)
        return status, output.decode().replace(self.file("rules", rules), "FILE").splitlines()

    def test_rules_that_hold(self):
        rules = "# apart\n\nnever RPU_0 master APU  # at all\nnever RPU_0 slave UART_0\nonly RPU_1 master APU\n"
        rules += "never RPU_0 power FPD\nnever 7 line 0x21\nonly NODE_RPU_0 power PLD\r\nnever RPU_0 slave PL\n"
        status, lines = self.judge(rules)
        self.assertEqual(lines, [*UNJUDGED, "7 of 7 rules hold", COUNT])
        self.assertEqual(status, NOT_JUDGED)

    def test_a_rule_of_each_kind_that_is_broken(self):
        word = "suspend: master 1 1 100 2 0 (word 5): its suspend word has the bit of RPU_0"
        use = "use: slave 34 0 2 (word 25): its mask has the bit of RPU_0"
        reset = "reset: reset 34 2 (word 37): line 34 resets UART_1"
        above = "above: master 1 1 100 2 0 (word 5): FPD is above its processor APU_0"
        for rule, step, reasons in [
            ("never APU master RPU_0", "APU > RPU_0", [word]),
            ("never RPU_0 slave UART_1", "RPU_0 > slave UART_1", [use, reset]),
            ("never RPU_0 line UART_1", "RPU_0 > line UART_1", ["reset: reset 34 2 (word 37): its mask has the bit of RPU_0"]),
            ("never APU power FPD", "APU > power FPD", [above]),
        ]:
            with self.subTest(rule):
                status, lines = self.judge(rule + "\n")
                self.assertEqual(status, BROKEN)
                self.assertEqual(lines[:2], [f"FILE:1: {rule}: broken by {rule.split()[1]}", f"  {step}"])
                for reason in reasons:
                    self.assertIn(f"  {step}: {reason}", lines[2:-3])
                self.assertEqual(lines[-3:], [*UNJUDGED, "0 of 1 rules hold", COUNT])

    def test_each_path_and_each_record_of_a_breach(self):
        status, lines = self.judge("never RPU_1 slave TCM_0_A\nnever RPU_0 master APU\nnever RPU_1 slave TCM_0_A\n")
        self.assertEqual(status, BROKEN)
        paths = [
            "  RPU_1 > slave TCM_0_A",
            "  RPU_1 > RPU_0 > slave TCM_0_A",
            "  RPU_1 > APU > RPU_0 > slave TCM_0_A",
        ]
        self.assertEqual(
            lines,
            [
                "FILE:1: never RPU_1 slave TCM_0_A: broken by RPU_1",
                *paths,
                "FILE:3: never RPU_1 slave TCM_0_A: broken by RPU_1",
                *paths,
                "the records that give each step:",
                "  RPU_1 > slave TCM_0_A: force: power 6 4 (word 33): RPU is above TCM_0_A",
                "  RPU_1 > RPU_0: force: power 6 4 (word 33): RPU is above processor RPU_0 and above TCM_0_A, which RPU_0 may use",
                "  RPU_0 > slave TCM_0_A: use: slave 15 0 2 (word 28): its mask has the bit of RPU_0",
                "  RPU_1 > APU: suspend: master 8 4 100 1 0 (word 15): its suspend word has the bit of APU",
                "  APU > RPU_0: suspend: master 1 1 100 2 0 (word 5): its suspend word has the bit of RPU_0",
                *UNJUDGED,
                "1 of 3 rules hold",
                COUNT,
            ],
        )

    def test_only_speaks_of_all_others(self):
        status, lines = self.judge("only APU slave UART_0\nonly RPU_1 slave UART_0\n")
        self.assertEqual(status, BROKEN)
        broken = [line for line in lines if "broken by" in line]
        self.assertEqual(broken, ["FILE:1: only APU slave UART_0: broken by RPU_1", "FILE:2: only RPU_1 slave UART_0: broken by APU"])
        # (a master is in its own reach: that breaks no rule)
        self.assertEqual(self.judge("only RPU_1 master APU\nallow * line_62\n")[0], 0)
        self.assertEqual(self.judge("only RPU_0 master APU\n")[1][0], "FILE:1: only RPU_0 master APU: broken by RPU_1")

    def test_each_member_of_each_reach_of_the_examples_breaks_its_rule(self):
        for path in examples(".obj"):
            with self.subTest(os.path.basename(path)):
                board = board_of(path)
                members = [(member.kind, member.number) for member in permits.reach(board, 1) if member.why != "self"]
                status, lines = self.judge("".join(f"never 1 {kind} {unit}\n" for kind, unit in members), path)
                broken = [line for line in lines if line.endswith(": broken by APU")]
                self.assertEqual((status, len(broken)), (BROKEN, len(members)))
                beyond = [slave for slave in board.chip.of_kind("slave") if ("slave", slave) not in members]
                if beyond:
                    rules = "allow * *\n" + "".join(f"never 1 slave {slave}\n" for slave in beyond)
                    status, lines = self.judge(rules, path)
                    self.assertEqual((status, lines[0]), (0, f"{len(beyond)} of {len(beyond)} rules hold"))

    def test_the_lines_of_several_units_break_rules(self):
        text = "header\nsection masters\nmaster 1 1 100 0 0\nmaster 7 2 100 0 0\nsection slaves\nslave 15 0 2\nsection reset\n"
        for line, rule in [
            ("RESET_RPU_LS", "never APU master RPU_0"),
            ("RESET_SOFT", "never APU slave UART_0"),
            ("RESET_PS_ONLY", "never APU master RPU_0"),
            ("RESET_RPU_LS", "only RPU_0 slave TCM_0_A"),
            ("RESET_FPD", "never APU slave DDR"),
        ]:
            number = names.number_of("line", line)
            path = self.file("line.obj", program("build", self.file("line.txt", text + f"reset {number} 1\n"))[1])
            self.assertEqual(self.judge(f"{rule}\n", path)[0], BROKEN, line)
            self.assertEqual(self.judge("never APU slave PL\n", path)[0], BROKEN if line == "RESET_SOFT" else 0)

    def test_what_is_not_judged_ends_in_its_own_status_unless_it_is_allowed(self):
        text = "header\nsection masters\nmaster 1 1 100 0 0\nmaster 7 2 100 0 0\nsection slaves\nslave 70 1 3\nsection power\n"
        text += "power 33 1\nsection reset\nreset 1004 2\nreset 1081 1\nreset 1082 0\nreset 1034 1\n"
        path = self.file("line.obj", program("build", self.file("line.txt", text))[1])
        rule = "never RPU_0 slave UART_0\n"
        left = [
            "not judged: slave 70 1 3 (word 17): APU, RPU_0 may use GEM_TSU",
            "not judged: power 33 1 (word 22): APU may force UART_0",
            "not judged: reset 1004 2 (word 26): RPU_0 may reset RESET_SWDT_CRF",
            "not judged: reset 1081 1 (word 28): APU may reset RESET_GPO3_PL_0",
        ]
        self.assertEqual(self.judge(rule, path), (NOT_JUDGED, [*left, "1 of 1 rules hold", "records not judged: 4; allowed: 0"]))
        some = rule + "allow APU GEM_TSU\nallow RPU_0 RESET_SWDT_*\nallow RPU_0 1081\n"
        left[0] = left[0].replace("APU, RPU_0", "RPU_0")
        del left[2]
        self.assertEqual(self.judge(some, path), (NOT_JUDGED, [*left, "1 of 1 rules hold", "records not judged: 3; allowed: 1"]))
        every = some + "allow RPU_0 70\nallow APU UART_0\nallow * RESET_GPO3_PL_?\n"
        self.assertEqual(self.judge(every, path), (0, ["1 of 1 rules hold", "records not judged: 0; allowed: 4"]))
        self.assertEqual(self.judge(every + "never APU slave UART_0\n", path)[0], BROKEN)

    def test_bad_rules(self):
        for rules, message in [
            ("", "rules: no rule is in it"),
            ("# none\n", "rules: no rule is in it"),
            ("allow * *\n", "rules: no rule is in it"),
            ("allow RPU *\n", "rules:1: the object has no master RPU"),
            ("allow APU\n", "rules:1: a rule is "),
            ("never APU slave 99999999999999999999\n", "rules:1: the table of the chip has no slave 9999"),
            ("\nnever APU UART_1\n", "rules:2: a rule is never MASTER KIND UNIT, only MASTER KIND UNIT or allow MASTER WHAT, and KIND is master, slave, power, line"),
            ("always APU slave UART_1\n", "rules:1: a rule is "),
            ("never APU proc APU_0\n", "rules:1: a rule is "),
            ("never APU slave UART_1 UART_0\n", "rules:1: a rule is "),
            ("never APU slave UART_2\n", "rules:1: the table of the chip has no slave UART_2"),
            ("never APU slave FPD\n", "rules:1: the table of the chip has no slave FPD"),
            ("never APU power UART_1\n", "rules:1: the table of the chip has no power node UART_1"),
            ("never APU line RESET_UART1\n", "rules:1: the table of the chip has no reset line RESET_UART1"),
            ("never APU line 62\n", "rules:1: the table of the chip has no reset line 62"),
            ("never APU_0 slave UART_1\n", "rules:1: the table of the chip has no master APU_0"),
            ("never 0x slave UART_1\n", "rules:1: the table of the chip has no master 0x"),
            ("never RPU slave UART_1\n", "rules:1: the object has no master RPU"),
            ("never APU master RPU\n", "rules:1: the object has no master RPU"),
            ("only APU master APU\n", "rules:1: each master is in its own reach"),
            ("never APU slave \u00e9\n", "rules: byte 16 isn't ASCII"),
        ]:
            with self.subTest(rules):
                self.assertIn("/" + message, self.refused("policy", self.path, self.file("rules", rules)))

    def test_bad_use(self):
        for words in ([], ["a"], ["a", "b", "c", "d"]):
            self.assertEqual(self.refused("policy", *words), f"pmu: {policy.USAGE}")
        self.assertEqual(view("policy", self.path, self.path + ".none")[:2], (UNREADABLE, b""))
        self.assertEqual(view("policy", self.file("bad.obj", b"abc"), "none")[:2], (2, b""))


if __name__ == "__main__":
    unittest.main()
