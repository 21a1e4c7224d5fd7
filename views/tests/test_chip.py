"""The chip is what the program, or a topology's text, says that it is; and which one an object is judged over is told."""

import os
import re
import unittest
import unittest.mock

import breaches
import chip as chips
import names
import objects
import permits
import program as programs
import reached
from common import EXAMPLES, TOPOLOGIES, Case, example, program, view

PUBLISHED = os.path.join(TOPOLOGIES, "zynqmp-resets.topology")
OWN = os.path.join(TOPOLOGIES, "zynqmp.topology")

# Three masters.
ALL_LINES = "header\nsection masters\nmaster 1 1 100 0 0\nmaster 7 2 100 0 0\nmaster 8 4 100 0 0\nsection reset\n"

# A master that may reset the whole RPU, and another which runs there.
BY_LINE = "header\nsection masters\nmaster 1 1 100 0 0\nmaster 7 2 100 0 0\nsection slaves\nslave 15 0 2\nsection reset\nreset {line} 1\n"


class Chip(Case):
    def object_of(self, text):
        """The path of the object that a text means."""
        status, built, _ = program("build", self.file("made.txt", text))
        self.assertEqual(status, 0, built)
        return self.file("made.obj", built)

    def test_the_files_of_topologies_are_the_programs_own_and_one_with_other_lines(self):
        own = chips.read()
        self.assertEqual(programs.read_file(OWN), program("table")[1])
        self.assertEqual(chips.read(OWN), own._replace(source=OWN))
        published = chips.read(PUBLISHED)
        self.assertEqual((published.nodes, published.owners), (own.nodes, own.owners))
        self.assertEqual(list(published.lines), list(names.RESETS))
        with unittest.mock.patch.dict(os.environ, {"PMU_PROGRAM": ""}):
            self.assertEqual(chips.read(), own)

    def test_what_is_below_what(self):
        chip = chips.read()
        self.assertEqual([chip.nodes[62].kind, chip.nodes[7].kind, chip.nodes[15]], ["power", "processor", (15, "slave", 6, (0, 2, 3))])
        self.assertEqual(chip.below(6), [7, 8, 15, 16, 17, 18])
        self.assertTrue(chip.is_above(62, 7) and not chip.is_above(10, 7) and chip.is_kind(33, "slave") and not chip.is_kind(70, "slave"))
        self.assertEqual([chip.lines[33], chip.owners[1], chip.owners[6]], [33, (2, 3, 4, 5), (7,)])

    def test_values_in_words(self):
        chip = chips.read()
        self.assertEqual([chip.value_name(2, mode) for mode in range(5)], ["off", "active", "asleep", "suspending", "4"])
        self.assertEqual([chip.value_name(11, value) for value in range(4)], ["off", "retention", "on", "3"])
        self.assertEqual([chip.value_name(10, 1), chip.value_name(33, 1), chip.value_name(49, 0), chip.kept_name(2, 1)], ["on"] * 4)
        text = b"power 9 none 0 1 1\nslave 11 9\nstate 0 1 0 0\nstate 1 1 0 0\nstate 3 0 1 0\n"
        made = chips.chip_of(text.split(b"\n"), "made")
        self.assertEqual([made.value_name(11, value) for value in range(3)], ["off", "on (1)", "on (2)"])

    def test_lines_that_reset_several_units(self):
        chip = chips.read(PUBLISHED)
        line = {name: number for number, name in names.RESETS.items()}
        self.assertEqual(set(reached.EFFECTS) - set(line), set())
        self.assertEqual(chip.resets[line["RPU_LS"]], (7, 8, 15, 16, 17, 18))
        self.assertEqual(chip.resets[line["RPU_R50"]], (7,))
        self.assertEqual(chip.resets[line["GPU"]], (20, 21, 58))
        self.assertEqual(set(chip.resets[line["FPD"]]), {2, 3, 4, 5, 19, 20, 21, 28, 41, 42, 50, 51, 52, 55, 58, 59})
        everything = [number for number in chip.nodes if not chip.is_kind(number, "power")]
        self.assertEqual(set(chip.resets[line["SOFT"]]), set(everything))
        self.assertEqual(set(everything) - set(chip.resets[line["PS_ONLY"]]), {63, 69})
        self.assertEqual([chip.resets[line[name]] for name in ("SWDT_CRF", "GPO3_PL_0", "PS_PL3")], [(), (), ()])
        self.assertEqual(sum(1 for units in chip.resets.values() if len(units) > 1), len(reached.EFFECTS))

    def test_where_a_register_is_published_is_said(self):
        for name, effect in reached.EFFECTS.items():
            register = effect.bit.split()[0].replace(".", "_")
            self.assertIn(effect.register_in, (register, reached.REFERENCE), name)
            if effect.field_in != reached.REFERENCE:
                self.assertTrue(effect.field_in.startswith(register.split("_")[0]) and effect.register_in == register, name)
        found = {name for name, effect in reached.EFFECTS.items() if effect.field_in != reached.REFERENCE}
        self.assertEqual(found, {"SOFT", "RPU_AMBA"})

    @unittest.skipUnless(os.environ.get("TF_A"), "the environment's TF_A names no unpacked source of TF-A")
    def test_registers_are_those_of_the_firmware(self):
        with open(os.path.join(os.environ["TF_A"], "plat/xilinx/zynqmp/include/zynqmp_def.h"), encoding="utf-8") as file:
            macros = set(re.findall(r"^#define (\w+)", file.read(), re.MULTILINE))
        for effect in reached.EFFECTS.values():
            self.assertLessEqual({effect.register_in, effect.field_in} - {reached.REFERENCE}, macros)

    def test_a_line_of_which_nothing_is_known_is_not_judged(self):
        records = "".join(f"reset {line} 1\n" for line in names.RESETS)
        path = self.object_of(ALL_LINES + records)
        board = chips.chosen(path, objects.read(path), [PUBLISHED])
        silent = {record.record.line for record in breaches.unjudged(board)}
        self.assertEqual(silent, {line for line in names.RESETS if not board.chip.resets[line]})
        self.assertEqual(len(silent), 55)
        # (and each other one brings all that it resets into the reach)
        for line in set(names.RESETS) - silent:
            for unit in board.chip.resets[line]:
                owner = permits.owner(board, unit)
                reasons = permits.brings(board, 1, "slave", unit) if owner is None else permits.leads(board, 1, owner)
                found = [reason.record.line for reason in reasons if reason.why == "reset"]
                self.assertIn(line, found, unit)

    def test_an_object_with_published_lines_is_judged_over_these(self):
        path = self.object_of(BY_LINE.format(line=1054))
        told = b"pmu: the object has records of 1 published reset lines; it is judged over topologies/"
        script = self.file("reset.script", "boot 7 0\nipi 1 17 1054 1\n")
        rules = self.file("rules", "never APU master RPU_0\n")
        for words in (
            ["--names", "reach", path, "APU"],
            ["--names", "replay", path, script],
            ["--names", "isolate", path, script, "APU"],
            ["--dot", "reach", path, "APU"],
            ["--vcd", "replay", path, script],
            ["diff", path, script, "APU"],
            ["policy", path, rules],
            ["lint", path],
        ):
            with self.subTest(words[:2]):
                status, output, errors = view(*words)
                self.assertEqual(errors, told + b"zynqmp-resets.topology\n", output)
                named, same, _ = view(*words, PUBLISHED)
                self.assertEqual((named, same), (status, output))
                other, another, errors = view(*words, OWN)
                self.assertEqual(errors, told + b"zynqmp.topology\n")
                self.assertNotEqual((other, another), (status, output))

    def test_an_object_without_such_lines_is_judged_over_the_programs_own(self):
        path = self.object_of(BY_LINE.format(line=7))
        self.assertEqual(view("lint", path)[2], b"")
        self.assertEqual(view("--names", "reach", path, "APU")[1:], (self.text("--names", "reach", path, "1", OWN).encode(), b""))

    def test_a_bad_topology_is_told_as_the_program_does(self):
        path = self.object_of(BY_LINE.format(line=1054))
        bad = self.file("bad.topology", "power 1 2 3\n")
        status, output, errors = view("--dot", "reach", path, "1", bad)
        self.assertEqual((status, output), (8, b""), errors)
        self.assertIn(b"bad.topology:1: ", errors)
        with unittest.mock.patch.dict(os.environ, {"PMU_PROGRAM": ""}):
            self.assertIn("is the text of an object, and a script or the text of a topology is wanted", self.refused("lint", path, example("two-masters.txt")))

    def test_what_the_reach_of_the_program_lacks_is_said_beside_it(self):
        path = self.object_of(BY_LINE.format(line=1113))
        shown = self.text("--names", "reach", path, "APU").splitlines()
        self.assertNotIn("master 7", "".join(line for line in shown if not line.startswith("#")))
        said = "# master 7 reset 1 7  # RPU_0: APU may reset a processor of it"
        self.assertIn(said, shown)
        script = self.file("reset.script", "boot 7 0\nipi 1 17 1113 2\n")
        self.assertIn(said, self.text("--names", "isolate", path, script, "APU").splitlines())

    def test_what_a_reset_of_several_units_does_on_the_chip_is_said_of_its_answer(self):
        path = self.object_of(BY_LINE.format(line=1113))
        script = self.file("reset.script", "ipi 1 17 1113 2\nipi 1 17 1113 0\nipi 1 18 1113\n")
        shown = [line.split("  # ")[1] for line in self.text("--names", "replay", path, script).splitlines() if " reply " in line]
        self.assertEqual(shown, ["APU: success, which on the chip resets all of RPU too", "APU: success", "APU: success, released"])

    def test_the_examples_hold_no_topology_of_their_own(self):
        self.assertEqual([name for name in os.listdir(EXAMPLES) if name.endswith(".topology")], [])


class Values(unittest.TestCase):
    def test_the_published_lines_that_a_chip_lacks(self):
        found = objects.decode(objects.to_bytes([2, 2, 1, 0x101, 1, 1, 1, 0, 0, 0, 0x105, 3, 33, 1, 1000, 0, 1120, 1]))
        self.assertEqual(chips.published_lines(found, chips.read()), [1000])
        self.assertEqual(chips.published_lines(found, chips.read(PUBLISHED)), [])


if __name__ == "__main__":
    unittest.main()
