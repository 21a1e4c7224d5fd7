"""`--numbers`: a script or a text with names, in numbers."""

import re
import unittest

import lines as texts
import to_names
import to_numbers
from common import Case, example, examples, program, view


def read(path):
    with open(path, "rb") as file:
        return file.read()


def in_names(content):
    """A script or a text with names and without its comments."""
    lines = content.decode().split("\n")
    masters = to_numbers.masters_of(lines)
    return "\n".join(to_names.line_in_names(line, masters) for line in lines).encode()


def in_plain_numbers(content):
    """A file with decimal numbers, single spaces and no comments."""
    lines = [texts.words_of(line) for line in content.decode().split("\n")]
    plain = [[word if (value := texts.number_of(word)) is None else str(value) for word in line] for line in lines]
    return "\n".join(" ".join(line) for line in plain)


class Numbers(Case):
    def test_a_file_without_names_stays_as_it_is(self):
        for path in (*examples(".script"), *examples(".txt")):
            self.assertEqual(self.written("--numbers", path), read(path), path)

    def test_names_to_numbers_and_back_over_every_example(self):
        for path in (*examples(".script"), *examples(".txt")):
            named = in_names(read(path))
            self.assertGreater(len(re.findall(rb"\b[A-Z][A-Z0-9_]+\b", named)), 3, path)
            numbers = self.written("--numbers", self.file("named", named))
            self.assertEqual(in_plain_numbers(numbers), in_plain_numbers(read(path)), path)

    def test_every_object_built_from_its_text_with_names_is_the_same(self):
        for path in examples(".obj"):
            named = in_names(program("print", path)[1])
            self.assertEqual(self.written("--names", "build", self.file("named", named)), read(path), path)

    def test_what_is_no_name_is_left_for_the_program(self):
        left = b"ipi 1 99 0x1F 0xZZ -1\r\nfoo APU\n\n# APU\nipi 1 13 33 1 0 2 9 9 # UART_0\n\ttick 5\xff\nboot"
        self.assertEqual(self.written("--numbers", self.file("left", left)), left)

    def test_spaces_and_comments_stay(self):
        given = "\tipi  APU   REQUEST_NODE\tUART_0 ACCESS|CONTEXT|WAKEUP 0 NON_BLOCKING # APU\r\n"
        wanted = "\tipi  1   13\t33 7 0 3 # APU\r\n"
        self.assertEqual(self.text("--numbers", self.file("given", given)), wanted)

    def test_each_kind_of_name(self):
        for given, wanted in [
            ("ipi RPU_0 RESET_ASSERT GPIO PULSE", "ipi 7 17 46 2"),
            ("ipi APU RESET_GET_STATUS XILPM_RESET_UART1", "ipi 1 18 1035"),
            ("ipi APU ABORT_SUSPEND ABORT_REASON_WKUP_EVENT APU_0", "ipi 1 9 100 2"),
            ("ipi APU SYSTEM_SHUTDOWN RESET SUBSYSTEM", "ipi 1 12 1 0"),
            ("ipi APU REGISTER_NOTIFIER DDR ZERO_USERS 0 1", "ipi 1 5 55 2 0 1"),
            ("ipi APU GET_OP_CHARACTERISTIC DDR LATENCY", "ipi 1 4 55 3"),
            ("ipi APU SET_WAKEUP_SOURCE APU_0 GPIO 1", "ipi 1 11 2 46 1"),
            ("ipi 1 13 PD_OCM_1 0x1|CONTEXT 0 REQUEST_ACK_NO", "ipi 1 13 12 3 0 1"),
            ("ipi APU FEATURE_CHECK 13", "ipi 1 63 13"),
            ("ipi APU CLOCK_ENABLE UART_0\nipi RPU_0 PM_CLOCK_DISABLE NODE_TTC_0", "ipi 1 36 5\nipi 7 37 14"),
            ("ipi APU CLOCK_GETSTATE IOPLL\nipi APU CLOCK_SETDIVIDER GPU 63", "ipi 1 38 4\nipi 1 39 13 63"),
            ("ipi APU CLOCK_GETDIVIDER PD_SD_1\npost APU CLOCK_SETPARENT SATA 2", "ipi 1 40 9\npost 1 43 7 2"),
            ("ipi APU CLOCK_GETPARENT DDR", "ipi 1 44 11"),
            ("post APU REQUEST_NODE UART_0 ACCESS 0 BLOCKING\nserve", "post 1 13 33 1 0 2\nserve"),
            ("smc APU_1 0xC4000003 2 0x100000000", "smc 3 0xC4000003 2 0x100000000"),
            ("task 0 100\ncancel 0", "task 0 100\ncancel 0"),
            ("wfi APU_3\nirq GPIO\ngic RPU_1\nboot RPU_0 0x0", "wfi 5\nirq 46\ngic 8\nboot 7 0x0"),
        ]:
            self.assertEqual(self.text("--numbers", self.file("given", given)), wanted)

    def test_a_mask_has_the_bits_of_the_masters_of_its_text(self):
        given = "header\nsection masters\nmaster APU 0x4 1 0 RPU_0\nmaster RPU_0 RPU_0 1 APU 0\nsection slaves\n"
        given += "slave GPIO SHAREABLE APU|RPU_0|0x8000\nslave NODE_GEM_TSU 0 RPU_0\n"
        wanted = "header\nsection masters\nmaster 1 0x4 1 0 256\nmaster 7 256 1 4 0\nsection slaves\n"
        wanted += "slave 46 1 33028\nslave 70 0 256\n"
        self.assertEqual(self.text("--numbers", self.file("given", given)), wanted)

    def test_an_unknown_name_is_told_with_its_line(self):
        for given, fault in [
            ("wfi 2\nwfi APU_4\n", "given:2: no node is named APU_4"),
            ("ipi APU REQUEST_NOD 1\n", "given:1: no call is named REQUEST_NOD"),
            ("serve\npost APU REQUEST_NODE UART_9\n", "given:2: no node is named UART_9"),
            ("ipi APU REQUEST_NODE UART_0 READ\n", "given:1: no capability is named READ"),
            ("ipi APU REQUEST_NODE UART_0 ACCESS LOW\n", "given:1: the qos is a number, not LOW"),
            ("task APU 100\n", "given:1: the key is a number, not APU"),
            ("task 0 SECOND\n", "given:1: the interval is a number, not SECOND"),
            ("ipi APU RESET_ASSERT FPD ASSERT\n", "given:1: no reset line is named FPD"),
            ("ipi APU FEATURE_CHECK REQUEST_NODE\n", "given:1: a number is wanted, not REQUEST_NODE"),
            ("header\nsection masters\nmaster APU APU 1 0 0\nsection slaves\nslave GPIO 0 RPU_0\n", "given:5: no master line of this text has the mask of RPU_0"),
            ("header\nsection masters\nmaster UART_0 UART_0 1 0 0\n", "given:3: no master is named UART_0"),
        ]:
            self.assertTrue(self.refused("--numbers", self.file("given", given)).endswith(fault), fault)

    def test_power_calls(self):
        given = self.file("given", (
            "smc APU_0 CPU_ON APU_1 0x1000\nsmc APU_0 PSCI_CPU_ON_AARCH64 APU_3 0x100001000\nsmc APU_1 AFFINITY_INFO APU_0 0\n"
            "smc APU_1 CPU_OFF\nsmc APU_0 SYSTEM_RESET\nsmc APU_0 0xC4000003 APU_2 4096\nsmc APU_0 CPU_ON 1 4096\n"
        ))  # fmt: skip
        self.assertEqual(self.text("--numbers", given).splitlines(), [
            "smc 2 2214592515 1 0x1000", "smc 2 3288334339 3 0x100001000", "smc 3 2214592516 0 0", "smc 3 2214592514",
            "smc 2 2214592521", "smc 2 0xC4000003 2 4096", "smc 2 2214592515 1 4096",
        ])  # fmt: skip
        self.assertEqual(to_names.line_in_names("smc 2 3288334339 3 4096", {}), "smc APU_0 CPU_ON_64 APU_3 4096")
        self.assertEqual(to_names.line_in_names("smc 2 0x84000004 1 0", {}), "smc APU_0 AFFINITY_INFO APU_1 0")
        for line, why in [
            ("smc APU_0 CPU_ON APU_1 0x100001000", "the arguments of CPU_ON have 32 bits, and 0x100001000 has more"),
            ("smc APU_0 CPU_ON RPU_0 0", "no processor of APU is named RPU_0"),
            ("smc APU_0 CPU_SUSPEND 0", "no function is named CPU_SUSPEND"),
        ]:
            self.assertIn(why, self.refused("--numbers", self.file("given", line)))

    def test_bad_use(self):
        self.assertIn("--numbers takes one FILE", self.refused("--numbers"))
        self.assertIn("--numbers takes one FILE", self.refused("--numbers", example("a"), example("b")))
        status, output, errors = view("--numbers", example("no.script"))
        self.assertEqual((status, output), (4, b""))
        self.assertIn(b"no file ", errors)
        self.assertEqual(view("--numbers", self._room.name)[:2], (4, b""))


if __name__ == "__main__":
    unittest.main()
