"""`dts OBJ TREE`: what Linux asks for by a device tree, and what an object refuses."""

import json
import re

from common import Case, example, view


def tree_of(path):
    import dts

    return dts.tree_of(path)


def asked(tree):
    """What the devices of a tree ask for, by the names of the devices."""
    import chip
    import dts

    found = dts.asked(tree, chip.read(chip.PUBLISHED))
    return {device.name: [thing.name for thing in device.things] for device in found.devices}, found.unknown


WANTED = {
    "serial@ff000000": ["UART_0", "clock UART_0"],
    "serial@ff010000": ["UART_1", "clock UART_1"],
    "ethernet@ff0b0000": ["ETH_0", "RESET_GEM0", "ETH_0 to wake"],
    "gpio@ff0a0000": ["GPIO"],
    "gpio-keys/power-key": ["GPIO to wake"],
}


class Trees(Case):
    def test_a_source_and_its_blob(self):
        for name in ("board.dts", "board.dtb"):
            with self.subTest(name):
                self.assertEqual(asked(tree_of(example(name))), (WANTED, ["LPD_LSBUS", "LPD_LSBUS"]))

    def test_a_source_in_parts(self):
        with open(example("board.dts"), encoding="ascii") as file:
            self.file("base.dtsi", file.read().replace("/dts-v1/;", ""))
        path = self.file("all.dts", (
            '/dts-v1/; /* a board */\n#include "base.dtsi"\n#define PORT PD_UART_1\n'
            '&uart1 { /delete-property/ clocks; power-domains = <&zynqmp_firmware 34>; note = "a { string // in it", [00 1f]; };\n'
            '&spi0 { status = "okay"; };\n&gem0 { status = "disabled"; child { power-domains = <&zynqmp_firmware 22>; }; };\n'
            "/ { axi { extra: dma@0 { power-domains = <&zynqmp_firmware (40 + 2)>; status = \"disabled\"; }; /delete-node/ gpio@ff0a0000; };\n"
            "  gpio-keys { /delete-node/ power-key; }; };\n"
        ))  # fmt: skip
        self.assertEqual(asked(tree_of(path))[0], {
            "serial@ff000000": ["UART_0", "clock UART_0"], "serial@ff010000": ["UART_1"], "spi@ff040000": ["SPI_0"],
        })  # fmt: skip

    def test_references_with_other_numbers_of_cells(self):
        path = self.file("cells.dts", (
            "/dts-v1/; / { fixed: clock { #clock-cells = <0>; }; three: three { #clock-cells = <3>; };\n"
            '  fw: firmware { compatible = "xlnx,zynqmp-clk"; #clock-cells = <1>; };\n'
            "  device { clocks = <&three 1 2 3>, <&fixed>, <&fw UART0_REF &fw GPU_REF>; }; };\n"
        ))  # fmt: skip
        self.assertEqual(asked(tree_of(path))[0], {"device": ["clock UART_0", "clock GPU"]})

    def test_trees_that_cant_be_read(self):
        with open(example("board.dts"), encoding="ascii") as file:
            source = file.read()
        with open(example("board.dtb"), "rb") as file:
            blob = file.read()
        cases = {
            source.replace("PD_UART_1", "PD_UART_9"): "a name in its power-domains that isn't known: PD_UART_9",
            source.replace("status =", "status"): "'{' is wanted in the device tree, not '\"disabled\"; };",
            source.replace("<&zynqmp_reset", "<&reset"): "the device tree has no node 'reset'",
            source[:900]: "is wanted in the device tree, not 'the end'",
            "#ifdef BOARD\n" + source: "isn't read: give what the C preprocessor makes of it",
            "/dts-v1/; /plugin/;": "an overlay has no whole tree",
            blob[:500]: "the device tree can't be read",
            blob.replace(b"\0\0\0\x03", b"\0\0\0\x07", 1): "the device tree can't be read: a token 0x7 is out of place",
        }
        for content, why in cases.items():
            with self.subTest(why):
                path = self.file("tree", content)
                with self.assertRaises(Exception) as raised:
                    asked(tree_of(path))
                self.assertEqual(raised.exception.status, 125)
                self.assertIn(why, str(raised.exception))

    def test_published_clocks(self):
        import names
        import published

        ours = {published.name_of(number): names.clock_name(ours) for number, ours in published.OURS.items()}
        self.assertEqual(ours["UART0_REF"], "UART_0")
        self.assertEqual((ours["GEM0_REF"], ours["IOPLL"], ours["SDIO1_REF"]), ("ETH_0", "IOPLL", "SD_1"))
        self.assertEqual((published.NUMBERS["ACPU"], published.NUMBERS["UART0_REF"], published.NUMBERS["LPD_WDT"]), (10, 56, 112))


class Refusals(Case):
    def test_an_object_of_the_vendors_tools(self):
        status, output, _ = view("dts", example("pm_cfg_obj.obj"), example("board.dtb"))
        self.assertEqual(status, 102)
        lines = output.decode().splitlines()
        self.assertEqual(lines[:9], [
            "serial@ff000000: UART_0, clock UART_0",
            "serial@ff010000: UART_1, clock UART_1",
            "  refused: UART_1 (no access; RPU_0 may)",
            "  refused: clock UART_1 (no access; RPU_0 may)",
            "ethernet@ff0b0000: ETH_0, RESET_GEM0, ETH_0 to wake",
            "gpio@ff0a0000: GPIO",
            "gpio-keys/power-key: GPIO to wake",
            "5 devices ask for 9 things; refused to APU: 2",
            "not judged: 2 clocks that this core hasn't (1 different)",
        ])  # fmt: skip
        rest = re.sub(r"\s+", " ", " ".join(lines[9:]))
        self.assertIn("permitted to APU, and no device asks for it: slaves: OCM_BANK_0, ", rest)
        self.assertIn(" SPI_0, ", rest)  # (its device is switched off)
        self.assertIn(" RESET_RPU_R50, ", rest)
        self.assertNotIn(" GPIO,", rest)

    def test_a_slave_that_cant_wake(self):
        with open(example("board.dts"), encoding="ascii") as file:
            path = self.file("dp.dts", file.read().replace("PD_ETH_0", "PD_DP"))
        _, output, _ = view("dts", example("pm_cfg_obj.obj"), path)
        self.assertIn("ethernet@ff0b0000: DP, RESET_GEM0, DP to wake\n  refused: DP to wake (no feature; nobody may)\n", output.decode())

    def test_a_tree_of_another_master_over_an_object_without_published_lines(self):
        status, output, told = view("dts", "--master", "RPU_0", example("two-masters.obj"), example("board.dts"))
        self.assertEqual(status, 102)
        self.assertIn("  refused: UART_0 (no access; APU may)\n", output.decode())
        self.assertIn("  refused: RESET_GEM0 (no access; nobody may)\n", output.decode())
        self.assertIn("  slaves: OCM_BANK_0\n", output.decode())

    def test_in_json(self):
        status, output, _ = view("dts", "--json", example("pm_cfg_obj.obj"), example("board.dtb"))
        found = json.loads(output)
        self.assertEqual((status, found["master"], found["unknown_clocks"]), (102, "APU", ["LPD_LSBUS"]))
        self.assertEqual((found["view"], found["exit"]), ("dts", 102))
        asks = found["devices"][1]["asks"][0]
        self.assertEqual((asks["kind"], asks["number"], asks["name"], asks["permitted"]), ("slave", 34, "UART_1", ["RPU_0"]))
        self.assertEqual(asks["answers"], {"APU": "no access", "RPU_0": "double request", "RPU_1": "no access"})
        self.assertIn("SPI_0", found["unasked"]["slave"])

    def test_its_words(self):
        self.assertIn("dts takes an OBJ", self.refused("dts", example("laboratory.obj")))
        self.assertIn("the object has no master RPU_1", self.refused("dts", "--master", "RPU_1", example("laboratory.obj"), example("board.dtb")))
