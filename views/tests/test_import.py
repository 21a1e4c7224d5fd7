"""`import LOG`: logs of each format become scripts, with the answers that they have."""

import os
import re

from common import VIEWS, Case, example, program, view

LOGS = os.path.join(VIEWS, "tests", "logs")


def script_of(name: str):
    """The script of a log, without the notes behind its lines, and what was told."""
    status, output, told = view("import", os.path.join(LOGS, name))
    assert status == 0, told
    lines = [re.sub(r";? *\(?log line.*", "", line).rstrip(" #") for line in output.decode("ascii").splitlines()[1:]]
    return lines, [line.replace(LOGS + "/", "") for line in told.decode().splitlines()]


class Formats(Case):
    def test_prints_of_the_kernels_drivers(self):
        lines, told = script_of("linux-dynamic-debug.log")
        self.assertEqual(lines[:4], [
            "ipi APU GET_API_VERSION                           # expect answer SUCCESS 0x10001",
            "ipi APU REQUEST_NODE UART_0 0 0 BLOCKING          # expect answer SUCCESS|DOUBLE_REQUEST",
            "ipi APU SET_REQUIREMENT UART_0 ACCESS 100 BLOCKING  # expect answer -EINVAL",
            "ipi APU RELEASE_NODE UART_0                       # expect answer SUCCESS",
        ])  # fmt: skip
        self.assertEqual(lines[6], "ipi APU SET_REQUIREMENT UART_0 0 0 NO")
        self.assertEqual(lines[-3:], [
            "ipi APU CLOCK_ENABLE UART_1                       # expect answer -EACCES",
            "ipi APU SET_REQUIREMENT ETH_0 ACCESS 100 BLOCKING  # expect answer SUCCESS",
            "ipi APU SET_REQUIREMENT ETH_0 WAKEUP 0 NO",
        ])  # fmt: skip
        self.assertEqual(told, [
            "linux-dynamic-debug.log: 16 calls; 22 lines passed over that have none",
            "linux-dynamic-debug.log: 1 call left out: dividers and parents of clocks have another meaning on a board",
            "linux-dynamic-debug.log: 1 call left out: this core hasn't the clock CAN0_REF",
        ])  # fmt: skip

    def test_a_probe_of_the_kernels_function(self):
        lines, told = script_of("linux-probe.log")
        self.assertEqual(len(lines), 17)
        self.assertEqual(lines[:4], [
            "ipi APU GET_API_VERSION                           # expect answer SUCCESS",
            "ipi APU INIT_FINALIZE                             # expect answer SUCCESS",
            "ipi APU REQUEST_NODE UART_0 0 0 BLOCKING          # expect answer SUCCESS|DOUBLE_REQUEST",
            "ipi APU SET_REQUIREMENT UART_0 ACCESS 100 BLOCKING  # expect answer -EINVAL",
        ])  # fmt: skip
        self.assertIn("ipi APU SET_REQUIREMENT UART_0 0 0 NO", lines)
        self.assertIn("linux-probe.log: 1 call left out: FEATURE_CHECK isn't served by this core", told)

    def test_probes_of_two_tasks_at_once(self):
        log = self.file("two.log", (
            "  a-1  [000] .....  1.000001: pm: (zynqmp_pm_invoke_fn+0x0/0x1a0) id=0xd a0=0x21 a1=0x1 a2=0x64 a3=0x2\n"
            "  b-2  [001] .....  1.000002: pm: (zynqmp_pm_invoke_fn+0x0/0x1a0) id=14 a0=34 a1=0 a2=0 a3=0\n"
            "  b-2  [001] .....  1.000003: pm_ret: (f+0x40/0x68 <- zynqmp_pm_invoke_fn) ret=-13\n"
            "  a-1  [000] .....  1.000004: pm_ret: (f+0x40/0x68 <- zynqmp_pm_invoke_fn) ret=0x0\n"
        ))  # fmt: skip
        _, output, _ = view("import", log)
        self.assertEqual(output.decode().splitlines()[1:], [
            "ipi APU REQUEST_NODE UART_0 ACCESS 100 BLOCKING   # expect answer SUCCESS|DOUBLE_REQUEST; log line 1, 1.000001",
            "ipi APU RELEASE_NODE UART_1                       # expect answer -EACCES; log line 2, 1.000002",
        ])  # fmt: skip

    def test_a_return_doesnt_complete_a_call_that_was_left_out(self):
        log = self.file("left.log", (
            "  a-1  [000] .....  1.000001: pm: (zynqmp_pm_invoke_fn+0x0/0x1a0) id=14 a0=33 a1=0 a2=0 a3=0\n"
            "  a-1  [000] .....  1.000002: pm: (zynqmp_pm_invoke_fn+0x0/0x1a0) id=35 a0=1 a1=0 a2=0 a3=0\n"
            "  a-1  [000] .....  1.000003: pm_ret: (f+0x40/0x68 <- zynqmp_pm_invoke_fn) ret=-22\n"
            "  a-1  [000] .....  1.000004: pm: (zynqmp_pm_invoke_fn+0x0/0x1a0) id=14 a0=34 a1=0 a2=0 a3=0\n"
        ))  # fmt: skip
        _, output, _ = view("import", log)
        self.assertNotIn(b"expect", output)

    def test_a_return_doesnt_complete_the_call_of_another_task(self):
        log = self.file("other.log", (
            "  a-1  [000] .....  1.000001: pm: (zynqmp_pm_invoke_fn+0x0/0x1a0) id=13 a0=33\n"
            "  b-2  [001] .....  1.000002: pm: (zynqmp_pm_invoke_fn+0x0/0x1a0) id=14 a0=34 a1=0 a2=0 a3=0\n"
            "  a-1  [000] .....  1.000003: pm_ret: (f+0x40/0x68 <- zynqmp_pm_invoke_fn) ret=-22\n"
        ))  # fmt: skip
        _, output, told = view("import", log)
        self.assertNotIn(b"expect", output)
        self.assertIn(b"other.log:1: a call that isn't read", told)

    def test_what_the_kernel_returns(self):
        import logs

        returned = {0: "SUCCESS", -13: "-EACCES", 0xFFFFFFF3: "-EACCES", -524: "-ENOTSUPP", -87: "-EUSERS", -1: "-EINVAL", 2002: "NO_ACCESS"}
        for value, answer in returned.items():
            self.assertEqual(logs.answer_of_return(value, 15), answer)
        self.assertEqual(logs.answer_of_return(0, 13), "SUCCESS|DOUBLE_REQUEST")

    def test_a_master_that_sends_again_has_slept_and_woken(self):
        log = self.file("sleep.log", "RPU_0> SelfSuspend(7, 0, 0, 0)\nRPU_0> SetRequirement(11, 2, 0, 1)\nRPU_0> RequestNode(11, 1, 0, 2)\n")
        _, output, _ = view("import", log)
        self.assertEqual([line.partition("  ")[0] for line in output.decode().splitlines()[2:]], [
            "ipi RPU_0 SELF_SUSPEND RPU_0 0 0 0 0", "ipi RPU_0 SET_REQUIREMENT OCM_BANK_0 CONTEXT 0 NO", "wfi RPU_0", "gic RPU_0",
            "ipi RPU_0 REQUEST_NODE OCM_BANK_0 ACCESS 0 BLOCKING",
        ])  # fmt: skip

    def test_prints_of_tf_a_and_the_kernel_on_one_console(self):
        lines, told = script_of("console.log")
        self.assertEqual(lines[1:3], ["ipi APU GET_NODE_STATUS APU_1", "ipi APU REQUEST_WAKEUP APU_1 1 0 BLOCKING"])
        self.assertEqual(lines[7:9], ["ipi APU SELF_SUSPEND APU_1 0xffffffff 0 0 0", "wfi APU_1"])
        self.assertEqual(lines[13:16], ["ipi APU SELF_SUSPEND APU_0 0xffffffff 15 0 0", "wfi APU_0", "gic APU_0"])
        self.assertEqual(told, ["console.log: 17 calls; 12 lines passed over that have none"])

    def test_a_processor_that_isnt_printed_is_told_with_its_place(self):
        _, told = script_of("tfa-verbose.log")
        self.assertEqual(told[1:], [
            "tfa-verbose.log:11: a call that isn't read: which processor goes off isn't printed, and in 2 lines more (the last is 15)"
        ])  # fmt: skip

    def test_calls_by_their_names(self):
        lines, told = script_of("named.log")
        self.assertEqual(lines, [
            "ipi APU REQUEST_NODE UART_0 ACCESS 100 BLOCKING",
            "boot RPU_0 0                                      # the log doesn't say what starts it, or where",
            "ipi RPU_0 SELF_SUSPEND RPU_0 0 0 0xffff0000 0",
            "ipi RPU_0 SET_REQUIREMENT OCM_BANK_0 CONTEXT 0 NO",
            "wfi RPU_0                                         # the log doesn't say when it waits",
            "ipi APU REQUEST_WAKEUP RPU_0 0 0 BLOCKING",
            "ipi RPU_0 RELEASE_NODE OCM_BANK_0",
            "ipi APU REQUEST_NODE UART_1 ACCESS 100 BLOCKING   # expect answer NO_ACCESS",
            "ipi APU REQUEST_NODE GPIO ACCESS 100 BLOCKING     # expect answer SUCCESS|DOUBLE_REQUEST",
            "ipi APU REQUEST_WAKEUP APU_1 4097 1 BLOCKING      # expect answer -EACCES",
        ])  # fmt: skip
        self.assertEqual(told[2:], [
            "named.log:7: a call that isn't read: which master sends it isn't printed",
            "named.log:8: a call that isn't read: REQUEST_NODE has 4 words, and 2 are printed",
        ])  # fmt: skip

    def test_a_plain_table(self):
        lines, told = script_of("table.txt")
        self.assertEqual(lines, [
            "ipi APU INIT_FINALIZE                             # expect answer SUCCESS",
            "boot RPU_0 0x10000",
            "ipi RPU_0 REQUEST_NODE OCM_BANK_0 ACCESS|CONTEXT 0 BLOCKING  # expect answer SUCCESS",
            "ipi RPU_0 REQUEST_NODE UART_0 ACCESS 0 BLOCKING   # expect answer NO_ACCESS",
            "ipi APU GET_NODE_STATUS UART_0                    # expect answer SUCCESS 1 1 1",
            "wfi RPU_0",
        ])  # fmt: skip
        self.assertEqual(told, ["table.txt: 4 calls; 0 lines passed over that have none"])

    def test_columns_with_a_heading(self):
        lines, _ = script_of("table.csv")
        self.assertEqual([line.partition("  #")[2] for line in lines if line.startswith("ipi")], [
            " expect answer SUCCESS 0 0 0", " expect answer NO_ACCESS", " expect answer SUCCESS 2 1 1",
        ])  # fmt: skip


class Scripts(Case):
    def test_each_script_runs(self):
        for name in sorted(os.listdir(LOGS)):
            with self.subTest(name):
                _, output, _ = view("import", os.path.join(LOGS, name))
                script = self.file("script", self.written("--numbers", self.file("named", output)))
                status, told, _ = program("replay", example("pm_cfg_obj.obj"), script)
                self.assertEqual(status, 0, told)

    def test_a_faulty_row_is_told_with_its_place(self):
        rows = {
            "0.1 APU REQUEST_NODE UART_9 1 0 2 -> 0": "no node is named UART_9",
            "0.1 BPU REQUEST_NODE UART_0 1 0 2 -> 0": "no master is named BPU",
            "0.1 APU BORROW_NODE UART_0 1 0 2 -> 0": "no call is named BORROW_NODE",
            "0.1 - wfi APU_9": "no node is named APU_9",
            "0.1 - boot APU_0": "'boot' takes 2 words after it, and 1 is here",
            "0.1 APU REQUEST_NODE 0x100000000 1 0 2 -> 0": "the number in word 4, 0x100000000, doesn't fit 32 bits",
            "a-1 [000] ... 1.0: pm: (zynqmp_pm_invoke_fn+0x0/0x1a0) id=13 a0=33": "an event of zynqmp_pm_invoke_fn has the call and 4 words",
        }
        for row, why in rows.items():
            with self.subTest(row):
                log = self.file("log", "0.0 APU INIT_FINALIZE\n" + row + "\n")
                status, output, told = view("import", log)
                self.assertEqual((status, output.count(b"\n")), (0, 2))
                self.assertIn(f"{log}:2: a call that isn't read: {why}", told.decode())

    def test_a_log_without_a_call_is_refused(self):
        log = self.file("log", "[ 0.0] Booting Linux on physical CPU 0x0\n\xff\xfe\n".encode("latin-1"))
        status, output, told = view("import", log)
        self.assertEqual((status, output), (125, b""))
        self.assertIn("no call that a script can have", told.decode())

    def test_its_words(self):
        self.assertIn("import takes one LOG", self.refused("import"))
        self.assertEqual(view("import", "/no/such/file")[0] in (4, 125), True)
