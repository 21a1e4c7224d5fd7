"""The table of names is that of the chip and of the published interface, as the sources have them."""

import json
import os
import re
import unittest

import names
from common import TOP, Case


def source(path):
    with open(os.path.join(TOP, "crates", path), encoding="utf-8") as file:
        return file.read()


def powers_of_the_chip():
    """Of the chip's table: each power node with its name, and its parent's name or None."""
    found = re.findall(r"power\((\d+), (None|Some\((\w+)\)), \w+, \d+, \d+\), // (\w+)", source("pm_chip/src/chip.rt"))
    return {int(number): (name, parent or None) for number, _, parent, name in found}


def slaves_of_the_chip():
    """Of the chip's table: each slave with its parent's name, its class, and its name or what that begins with."""
    found = re.findall(r"Group\((\d+), (\d+), (\w+), Class::(\w+)\), // (.*)", source("pm_chip/src/chip.rt"))
    return {
        int(first) + place: (parent, kind.lower(), (listed.split(", ") * int(count))[place])
        for first, count, parent, kind, listed in found
        for place in range(int(count))
    }


def procs_of_the_chip():
    found = re.findall(r"proc\((\d+), (\w+), \d+, \d+\), // (\w+)", source("pm_chip/src/chip.rt"))
    return {int(number): (name, parent) for number, parent, name in found}


def masters_of_the_chip():
    found = re.findall(r"push_master\(\s*alloc,\s*&mut masters,\s*(\d+),\s*&\[(.*?)\],?\s*\)", source("pm_chip/src/chip.rt"))
    return {int(number): tuple(map(int, re.findall(r"NodeId\((\d+)\)", procs))) for number, procs in found}


def parent_name(node):
    return None if node.parent is None else names.NODES[node.parent].name


def snake(name):
    """`GetApiVersion` is GET_API_VERSION."""
    return re.sub(r"(?<!^)([A-Z])", r"_\1", name).upper()


class Chip(unittest.TestCase):
    def nodes(self, *kinds):
        return {node.number: node for node in names.NODES.values() if node.kind in kinds}

    def test_the_power_nodes_are_those_of_the_chip(self):
        ours = {number: (node.name, parent_name(node)) for number, node in self.nodes("power").items()}
        self.assertEqual(ours, powers_of_the_chip())
        self.assertEqual(len(ours), 5)

    def test_the_processors_are_those_of_the_chip(self):
        ours = {number: (node.name, parent_name(node)) for number, node in self.nodes("processor").items()}
        self.assertEqual(ours, procs_of_the_chip())
        self.assertEqual(len(ours), 6)

    def test_the_slaves_are_those_of_the_chip(self):
        ours = {number: parent_name(node) for number, node in self.nodes("slave").items()}
        chip = slaves_of_the_chip()
        self.assertEqual(ours, {number: row[0] for number, row in chip.items()})
        self.assertEqual(len(ours), 58)
        for number, (_, _, listed) in chip.items():
            name = names.NODES[number].name
            self.assertRegex(name, f"^{listed}(_BANK)?(_[0-3])?(_[AB])?$")
            if chip.get(number + 1, ("", "", ""))[2] == listed:
                self.assertLess(name, names.NODES[number + 1].name)

    def test_the_clocks_are_those_of_the_chip(self):
        text = source("pm_clock_tree/src/table.rt")
        roots = re.search(r"ROOTS: .*?\[(NodeId.*?)\];", text, re.DOTALL).group(1)
        ours = {clock.number: (clock.node, clock.parents) for clock in names.CLOCKS.values()}
        chip = {number: (int(node), ()) for number, node in enumerate(re.findall(r"NodeId\((\d+)\)", roots))}
        parts = re.findall(r"number: (\d+),\s+node: NodeId\((\d+)\),\s+first: (\d+),\s+second: (\d+),\s+third: (None|Some\((\d+)\))", text)
        for number, node, first, second, _, third in parts:
            chip[int(number)] = (int(node), tuple(map(int, (first, second, *[third] * (third != "")))))
        self.assertEqual(ours, chip)
        self.assertEqual((len(ours), sum(map(names.is_root, ours))), (16, 5))

    def test_the_masters_are_those_of_the_chip(self):
        self.assertEqual(names.MASTERS, masters_of_the_chip())

    def test_what_is_published_and_not_in_the_table(self):
        self.assertEqual(sorted(self.nodes("absent")), list(range(70, 78)))
        self.assertEqual(sorted(names.NODES), list(range(1, 78)))


class Interface(unittest.TestCase):
    def test_the_calls_that_are_served_are_those_of_the_program(self):
        rows = source("pm_ipi/specs/Calls.antt")
        found = [(n, name) for name, n in re.findall(r"^row_of \(?(\w+).* = row (\d+) ", rows, re.MULTILINE) if n != "0"]
        clocks = re.findall(r"^        (\d+) => Some\(ClockAct::", source("pm_clock_tree/src/calls.rt"), re.MULTILINE)
        served = {number: call.name for number, call in names.CALLS.items() if call.arguments is not None}
        named = {number: name for number, name in served.items() if str(number) not in clocks}
        self.assertEqual(named, {int(number): snake(name) for number, name in found})
        self.assertTrue(named)
        self.assertEqual([name[:6] for number, name in served.items() if str(number) in clocks], ["CLOCK_"] * 7)

    def test_the_callbacks_are_those_of_the_program(self):
        found = re.findall(r"pub const (\w+): u32 = (3\d);", source("pm_ipi/src/callbacks.rt"))
        ours = {number: call.name for number, call in names.CALLBACKS.items()}
        self.assertEqual(ours, {int(number): name + "_CB" for name, number in found})
        self.assertEqual(len(ours), 3)

    def test_the_status_words_are_those_of_the_program(self):
        found = {int(number): name for name, number in re.findall(r"pub const (\w+): u32 = (\d+);", source("pm_ipi/src/status.rt"))}
        self.assertGreater(len(found), 8)
        for number, name in found.items():
            self.assertEqual(names.STATUSES[number], name)
        self.assertEqual(sorted(set(names.STATUSES) - set(found)), [2001])

    def test_the_published_reset_lines(self):
        self.assertEqual(sorted(names.RESETS), list(range(1000, 1120)))
        known = {1000: "PCIE_CFG", 1028: "SOFT", 1035: "UART1", 1071: "FPD", 1081: "GPO3_PL_0", 1112: "GPO3_PL_31"}
        known |= {1054: "RPU_R50", 1063: "USB0_APB", 1076: "APLL", 1113: "RPU_LS", 1114: "PS_ONLY", 1119: "PS_PL3"}
        for number, name in known.items():
            self.assertEqual(names.RESETS[number], name)


class Words(unittest.TestCase):
    def test_each_name_gives_its_number_again(self):
        for number, node in names.NODES.items():
            self.assertEqual(names.number_of("node", node.name), number)
            self.assertEqual(names.number_of("node", "NODE_" + node.name), number)
        for number in names.RESETS:
            self.assertEqual(names.number_of("line", names.line_name(number)), number)
        for number, call in names.CALLS.items():
            self.assertEqual(names.number_of("call", call.name), number)
        for number in names.CLOCKS:
            self.assertEqual(names.number_of("clock", names.clock_name(number)), number)
        for kind, table in names.WORDS.items():
            for number, name in table.items():
                self.assertEqual(names.number_of(kind, name), number)

    def test_no_name_of_a_kind_means_two_numbers(self):
        for table in ([node.name for node in names.NODES.values()], list(names.RESETS.values())):
            self.assertEqual(len(table), len(set(table)))
        self.assertEqual(len(names.CALLS), len({call.name for call in names.CALLS.values()}))

    def test_names_as_linux_and_tf_a_have_them(self):
        for kind, name, number in [
            ("node", "PD_UART_1", 34),
            ("node", "PD_OCM_3", 14),
            ("line", "ZYNQMP_RESET_UART1", 1035),
            ("line", "XILPM_RESET_PS_PL3", 1119),
            ("line", "UART_1", 34),
            ("call", "PM_REQUEST_NODE", 13),
            ("call", "PM_REQ_NODE", 13),
            ("capabilities", "ZYNQMP_PM_CAPABILITY_WAKEUP", 4),
            ("ack", "REQ_ACK_NON_BLOCKING", 3),
            ("shutdown type", "ZYNQMP_PM_SHUTDOWN_TYPE_RESET", 1),
            ("clock", "PD_UART_0", 5),
            ("clock", "UART_2", None),
            ("clock", "GPIO", None),
            ("node", "UART_2", None),
            ("node", "NODE_", None),
        ]:
            self.assertEqual(names.number_of(kind, name), number, name)

    def test_states_and_capabilities_in_words(self):
        self.assertEqual([names.state_name(11, value) for value in range(4)], ["off", "retention", "on", "3"])
        self.assertEqual([names.state_name(49, 0), names.state_name(10, 1), names.state_name(2, 0)], ["on", "on", "off"])
        self.assertEqual([names.capabilities(word) for word in (0, 1, 3, 7, 9)], ["0", "ACCESS", "ACCESS|CONTEXT", "ACCESS|CONTEXT|WAKEUP", "ACCESS|0x8"])
        self.assertEqual([names.status_words(word) for word in (0, 2002, 7)], ["success", "no access", "status 7"])


class View(Case):
    def test_each_name_has_a_line(self):
        lines = self.text("names").splitlines()
        counts = [len(table) for table in (names.NODES, names.RESETS, names.CALLS, names.CALLBACKS, names.CLOCKS, *names.WORDS.values())]
        self.assertEqual(len(lines), sum(counts))
        self.assertEqual(len(lines), len(set(lines)))
        unserved = next(number for number, call in names.CALLS.items() if call.arguments is None)
        for line in [
            "node 33 UART_0",
            "node 77 PMU, not in the table of the chip",
            "line 1034 RESET_UART0, not in the table of the chip",
            "call 2 SET_CONFIGURATION: address",
            f"call {unserved} {names.CALLS[unserved].name}, not served",
            "call 13 REQUEST_NODE: node, capabilities, qos, ack",
            "call 21 INIT_FINALIZE",
            "callback 32 NOTIFY_CB: node, event, operating point",
            "clock 4 IOPLL: a root",
            "clock 15 TTC_1: TTC_0, IOPLL",
            "abort-reason 100 WKUP_EVENT",
            "status 2002 NO_ACCESS",
        ]:
            self.assertIn(line, lines)

    def test_each_line_has_a_kind_of_one_word_a_number_and_a_name(self):
        found = [re.fullmatch(r"([a-z-]+) (\d+|0x[0-9a-f]+) ([A-Z]\w*)(?:[,:] (.+))?", line) for line in self.text("names").splitlines()]
        self.assertNotIn(None, found)
        listed = json.loads(self.text("names", "--json"))["names"]
        self.assertEqual([[it["kind"], it["number"], it["name"], it["more"]] for it in listed], [[line[1], int(line[2], 0), line[3], line[4] or ""] for line in found])

    def test_words_are_refused(self):
        self.assertIn("names takes no words", self.refused("names", "node"))


if __name__ == "__main__":
    unittest.main()
