"""`test OBJ SCRIPT..`: what is expected of runs, and what is told where it is otherwise."""

import json
import os
import tempfile
import xml.etree.ElementTree as ElementTree

from common import TOP, Case, example, view

LABORATORY = example("laboratory.obj")
SLEEP = """\
ipi APU INIT_FINALIZE                    # expect answer SUCCESS, set UART_0 off, value UART_0 off
ipi APU REQUEST_NODE UART_0 ACCESS 0 2   # expect answer SUCCESS, set UART_0 on, device UART_0 on; a port
boot RPU_0 0x1000                        # expect run RPU_0 0x1000, mode RPU_0 active, no call APU
ipi RPU_0 REQUEST_NODE UART_0 1 0 2      # expect answer NO_ACCESS, reply RPU_0 NO_ACCESS, no reply APU
ipi APU GET_NODE_STATUS UART_0           # expect answer SUCCESS on ACCESS 1
ipi APU REGISTER_NOTIFIER UART_0 STATE_CHANGE 0 1
ipi APU RELEASE_NODE UART_0
# expect call APU NOTIFY_CB UART_0 STATE_CHANGE 0, value UART_0 off
ipi APU REQUEST_SUSPEND RPU_0 BLOCKING 50 0  # expect answer none, call RPU_0 INIT_SUSPEND_CB PU_REQ
ipi RPU_0 SELF_SUSPEND RPU_0 0 0 0x2000 0    # expect mode RPU_0 suspending
wfi RPU_0                                # expect reply APU SUCCESS, mode RPU_0 asleep, device RPU_0 off
ipi RPU_0 GET_API_VERSION                # expect drop RPU_0, answer none
smc APU_0 0xC4000003 1 0x4000            # expect smc SUCCESS, run APU_1 0x4000
smc RPU_0 0xC4000003 1 0x4000            # expect smc DENIED
break UART_0
ipi APU REQUEST_NODE UART_0 1 0 2        # expect answer INTERNAL, fail UART_0 on, value UART_0 on, device UART_0 off
tick 1                                   # expect fail UART_0, no set UART_0
"""


class Judged(Case):
    def script(self, content, beside=None):
        """The path of a script, with a file of expectations beside it."""
        path = self.file("run.script", content)
        if beside is not None:
            self.file("run.script.expect", beside)
        return path

    def fault(self, path):
        """What is wrong with the expectations of a script."""
        import chip
        import replays
        import testing

        with tempfile.TemporaryDirectory() as room, self.assertRaises(Exception) as raised:
            testing.outcome(replays.Run(LABORATORY, chip.read(), room), path)
        self.assertEqual(raised.exception.status, 125)
        return str(raised.exception)

    def test_a_run_as_it_is_expected(self):
        path = self.script(SLEEP)
        self.assertEqual(self.text("test", LABORATORY, path), f"{path}: 32 expectations met\n")

    def test_each_clause_tells_what_is_in_its_place(self):
        line = "ipi APU REQUEST_NODE UART_0 ACCESS 0 BLOCKING"
        cases = {
            "answer NO_ACCESS": "it is SUCCESS",
            "answer INTERNAL|CONFLICT": "it is SUCCESS",
            "answer -EACCES": "it is SUCCESS",
            "answer -EINVAL": "it is SUCCESS",
            "answer SUCCESS 7": "it is SUCCESS 0",
            "answer none": "it is SUCCESS",
            "reply RPU_0 SUCCESS": "there is none",
            "reply APU 2002": "it is SUCCESS",
            "call APU NOTIFY_CB": "APU gets no callback",
            "run APU_0": "there is none",
            "set UART_0 off": "it is set to on",
            "set ETH_0": "there is no such command",
            "fail UART_0": "there is no such command",
            "line UART_0 asserted": "there is no such command",
            "smc SUCCESS": "the line is no power call",
            "drop APU": "there is none",
            "mode APU_0 asleep": "it is active",
            "value UART_0 off": "it is on",
            "device UART_0 off": "it is on",
            "clock UART_0 runs": "it is stopped",
            "no set UART_0 on": "there is one",
            "no reply APU": "there is one",
            "nothing": "it writes 2 lines, the first is 'set 33 0 1'",
        }
        path = self.script("ipi 1 21\nipi 1 13 33 1 0 2\n", "".join(f"2 {clause}\n" for clause in cases))
        status, output, errors = view("test", "--all", LABORATORY, path)
        self.assertEqual((status, errors), (104, b""))
        head, *told = output.decode().splitlines()
        self.assertEqual(head, f"{path}: 0 of {len(cases)} expectations met")
        for number, (clause, instead) in enumerate(cases.items(), 1):
            self.assertEqual(told[number - 1], f"  {path}.expect:{number}: expected {clause}, and {instead}: {line}")

    def test_the_kernels_numbers(self):
        path = self.script("ipi 1 21\nipi 1 14 46 # expect answer -EACCES\nipi 1 3 99 # expect answer -EINVAL\n")
        self.assertEqual(self.text("test", LABORATORY, path), f"{path}: 2 expectations met\n")
        path = self.script("ipi 1 21\nipi 1 14 46 # expect answer -EINVAL\nipi 1 3 99 # expect answer -EACCES\nipi 1 21 # expect answer -EINVAL\n")
        self.assertIn(": 0 of 3 expectations met", view("test", LABORATORY, path)[1].decode())

    def test_a_callback_by_its_names(self):
        path = self.script("ipi 1 21\nipi 1 5 33 1 0 1\nipi 1 13 33 1 0 2 # expect call APU NOTIFY_CB UART_0 ZERO_USERS\n")
        told = "expected call APU NOTIFY_CB UART_0 ZERO_USERS, and APU gets NOTIFY_CB UART_0 STATE_CHANGE 1"
        self.assertIn(told, view("test", LABORATORY, path)[1].decode())

    def test_a_file_beside_the_script(self):
        path = self.script("ipi 1 21\nipi 1 13 33 1 0 2\n", "# the port\n1 set UART_0 off, answer SUCCESS\nend value UART_0 off\n0 run APU_1\n")
        status, output, _ = view("test", LABORATORY, path)
        self.assertEqual(status, 104)
        self.assertEqual(output.decode().splitlines(), [
            f"{path}: 2 of 4 expectations met",
            f"  {path}.expect:4: expected run APU_1, and it is run APU_0 0x0: the load",
            "  and 1 more (--all tells them)",
        ])  # fmt: skip
        whole = view("test", "--all", LABORATORY, path)[1].decode().splitlines()
        self.assertEqual(whole[2], f"  {path}.expect:3: expected value UART_0 off, and it is on: ipi APU REQUEST_NODE UART_0 ACCESS 0 BLOCKING")

    def test_bad_expectations(self):
        cases = {
            "anwser SUCCESS": "nothing is expected by 'anwser SUCCESS' (did you mean 'answer'?)",
            "answer": "'answer' takes 1 to 4 words after it, and 0 are here",
            "answer SUCESS": "no status is named SUCESS",
            "mode UART_9 active": "no node is named UART_9",
            "mode APU_0 awake": "'awake' is none of off, active, asleep, suspending",
            "value APU_0 on": "APU_0 is a processor, and has a mode: mode APU_0 ..",
            "no value UART_0 on": "nothing is expected by 'no value'",
            "call APU TELL_CB": "no callback is named TELL_CB",
        }
        for clause, why in cases.items():
            with self.subTest(clause):
                path = self.script(f"ipi 1 21\nipi 1 13 33 1 0 2  # expect {clause}\n")
                self.assertEqual(self.fault(path), f"{path}:2: {why}")
        path = self.script("tick 1 # expect answer SUCCESS\n")
        self.assertEqual(self.fault(path), f"{path}:1: the line sends no message")
        path = self.script("tick 1\n", "2 nothing\n")
        self.assertIn("the script has 1 line, and none is '2'", self.fault(path))

    def test_a_script_of_which_nothing_is_expected(self):
        path = self.script("ipi 1 21 # a comment\n")
        self.assertEqual(view("test", LABORATORY, path), (103, f"{path}: nothing is expected of it\n".encode(), b""))

    def test_a_script_that_cant_run(self):
        bad, good = self.file("bad.script", "ipi 1\n"), self.script("ipi 1 21 # expect answer SUCCESS\n")
        status, output, _ = view("test", LABORATORY, bad, good)
        self.assertEqual(status, 3)
        self.assertIn("bad.script:1: ", output.decode())
        self.assertIn(f"{good}: 1 expectation met", output.decode())

    def test_for_robots(self):
        good = self.script("ipi 1 21 # expect answer SUCCESS, value UART_0 off\n")
        bad = self.file("bad.script", "ipi 1 21 # expect answer NO_ACCESS, answer SUCCESS\n")
        junit = self.file("junit.xml", "")
        status, output, _ = view("test", "--tap", "--junit", junit, LABORATORY, good, bad)
        self.assertEqual(status, 104)
        self.assertEqual(output.decode().splitlines(), [
            "TAP version 13",
            "1..2",
            f"ok 1 - {good}: 2 expectations met",
            f"not ok 2 - {bad}: 1 of 2 expectations met",
            f"# {bad}:1: expected answer NO_ACCESS, and it is SUCCESS: ipi APU INIT_FINALIZE",
        ])  # fmt: skip
        suites = ElementTree.parse(junit).getroot()
        self.assertEqual([(it.get("tests"), it.get("failures"), it.get("errors")) for it in suites], [("2", "0", "0"), ("2", "1", "0")])
        failures = [it.get("message") for it in suites.iter("failure")]
        self.assertEqual(failures, [f"{bad}:1: expected answer NO_ACCESS, and it is SUCCESS: ipi APU INIT_FINALIZE"])

    def test_in_json(self):
        path = self.script("ipi 1 21 # expect answer NO_ACCESS, answer SUCCESS\n")
        status, output, _ = view("test", "--json", LABORATORY, path)
        whole = json.loads(output)
        self.assertEqual((whole["view"], whole["exit"]), ("test", 104))
        (found,) = whole["scripts"]
        self.assertEqual((status, found["exit"], found["said"]), (104, 104, f"{path}: 1 of 2 expectations met"))
        self.assertEqual(found["expectations"][1], {"line": 1, "place": f"{path}:1", "expected": "answer SUCCESS", "difference": None})
        self.assertIn("and it is SUCCESS", found["expectations"][0]["difference"])

    def test_the_topology_of_the_published_lines(self):
        path = self.script("ipi 1 17 1034 1 # expect answer SUCCESS, line RESET_UART0 asserted\n")
        status, output, errors = view("test", example("pm_cfg_obj.obj"), path)
        self.assertEqual((status, output.decode()), (0, f"{path}: 2 expectations met\n"))
        self.assertIn("it is judged over topologies/zynqmp-resets.topology", errors.decode())

    def test_another_topology(self):
        path = self.script("ipi 1 17 1034 1 # expect answer INVALID_NODE\n")
        topologies = os.path.join(TOP, "topologies")
        for name, status in (("zynqmp.topology", 0), ("zynqmp-resets.topology", 104)):
            words = ("test", "--topology", os.path.join(topologies, name), example("pm_cfg_obj.obj"), path)
            self.assertEqual(view(*words)[0], status, name)

    def test_a_missing_script_among_others(self):
        path = self.script("ipi 1 21 # expect answer SUCCESS\n")
        missing = os.path.join(os.path.dirname(path), "missing")
        status, output, _ = view("test", LABORATORY, missing, path)
        self.assertEqual((status, output.decode().splitlines()), (4, [f"no file {missing}", f"{path}: 1 expectation met"]))

    def test_its_words(self):
        self.assertIn("test takes an OBJ", self.refused("test", LABORATORY))
        self.assertIn("--junit is the last word", self.refused("test", LABORATORY, "x", "--junit"))
