"""What `lint` says of an object, each check by an object that has what it looks for and by one that hasn't."""

import json
import os
import re
import struct
import unittest
import unittest.mock

import lint
import objects
import program as programs
import to_names
import to_numbers
from common import TOPOLOGIES, Case, example, examples, program, view
from forms import FOUND

TWO = ["header", "section masters", "master 1 1 100 0 0", "master 7 2 100 0 0"]
THREE = [*TWO, "master 8 4 100 0 0"]
SHARED = ["section slaves", "slave 33 1 3", "slave 34 0 3", "slave 15 1 2"]

# Of each object: its lines after those above, and what is said of them.
OBJECTS = {
    "nothing": (TWO, SHARED + ["section prealloc", "group 1", "prefer 33 2 7 7", "group 2", "prefer 33 0 0 1", "prefer 34 0 0 0"], []),
    "not-in-table": (
        TWO,
        ["section slaves", "slave 70 1 3", "slave 10 1 1", "slave 999 0 0", "section prealloc", "group 1", "prefer 77 2 1 1"]
        + ["section power", "power 33 2", "power 78 0", "power 8 0", "section reset", "reset 1035 3", "reset 1119 0", "reset 62 1"]
        + ["section shutdown", "shutdown 0 1", "shutdown 3 0"],
        [
            "slave 70 1 3: GEM_TSU is no slave of the table of the chip; reach and isolate don't see that APU, RPU_0 may use it",
            "slave 10 1 1: FPD is no slave of the table of the chip; reach and isolate don't see that APU may use it",
            "slave 999 0 0: node 999 is no slave of the table of the chip",
            "prefer 77 2 1 1: PMU is no slave of the table of the chip",
            "power 33 2: UART_0 is no power node or processor of the table of the chip; reach and isolate don't see that RPU_0 may force it",
            "power 78 0: node 78 is no power node or processor of the table of the chip",
            "reset 62 1: line 62 is no reset line of the table of the chip; reach and isolate don't see that APU may reset it",
            "shutdown 0 1: a master may always shut itself down",
            "shutdown 3 0: no call has the subtype 3",
        ],
    ),
    "no-unit": (
        TWO,
        ["section reset", "reset 1004 3", "reset 1081 2", "reset 1119 0", "reset 1034 1", "reset 1113 1"],
        [
            "reset 1004 3: RESET_SWDT_CRF resets none of the chip's nodes; reach and isolate don't see that APU, RPU_0 may reset it",
            "reset 1081 2: RESET_GPO3_PL_0 resets none of the chip's nodes; reach and isolate don't see that RPU_0 may reset it",
        ],
    ),
    "no-master": (
        ["header", "section masters", "master 1 1 100 0 0x30", "master 7 2 100 4 0"],
        ["section slaves", "slave 33 1 9", "section prealloc", "group 8", "section power", "power 9 0x10000", "section reset", "reset 9 2"]
        + ["reset 33 6", "section shutdown", "shutdown 1 8", "section config", "config 4 8"],
        [
            "master 1 1 100 0 48: 0x30 of its wake word is of no master",
            "master 7 2 100 4 0: 0x4 of its suspend word is of no master",
            "slave 33 1 9: 0x8 of its mask word is of no master",
            "group 8: 0x8 of its mask word is of no master",
            "power 9 65536: 0x10000 of its mask word is of no master",
            "reset 33 6: 0x4 of its mask word is of no master",
            "shutdown 1 8: 0x8 of its mask word is of no master",
            "config 4 8: 0x4 of its base word is of no master",
            "config 4 8: 0x8 of its overlay word is of no master",
        ],
    ),
    "no-flag": (
        TWO,
        ["section slaves", "slave 33 3 1", "section prealloc", "group 1", "prefer 33 5 1 1"],
        ["slave 33 3 1: 0x2 of its flags means nothing", "prefer 33 5 1 1: 0x5 of its flags means nothing"],
    ),
    "no-user": (
        TWO,
        ["section slaves", "slave 33 1 4", "slave 34 0 0", "slave 35 0 2", "slave 70 0 0"],
        ["slave 33 1 4: no master may use UART_0", "slave 34 0 0: no master may use UART_1"],
    ),
    "no-permission": (
        TWO,
        SHARED + ["section prealloc", "group 3", "prefer 15 2 1 1", "prefer 36 2 1 1", "prefer 33 0 0 0"],
        [
            "prefer 15 2 1 1: it is for APU, which may not use TCM_0_A",
            "prefer 36 2 1 1: it is for APU, which may not use SPI_1",
            "prefer 36 2 1 1: it is for RPU_0, which may not use SPI_1",
        ],
    ),
    "no-capability": (
        TWO,
        ["section slaves", "slave 11 1 1", "slave 33 1 1", "section prealloc", "group 1", "prefer 11 2 7 3", "prefer 33 2 7 0x18"],
        ["prefer 11 2 7 3: OCM_BANK_0 lacks WAKEUP of its current word", "prefer 33 2 7 24: UART_0 lacks 0x18 of its preset word"],
    ),
    "preallocated-twice": (
        TWO,
        SHARED + ["section prealloc", "group 1", "prefer 33 2 1 1", "group 3", "prefer 33 2 7 7", "group 2", "prefer 15 0 0 1"],
        ["prefer 33 2 7 7: an earlier one of UART_0 for APU counts"],
    ),
    "only-preset": (
        ["header", "section masters", "master 7 2 100 0 0", "master 1 1 100 0 0"],
        SHARED + ["section prealloc", "group 3", "prefer 33 2 0 7", "group 1", "prefer 34 0 1 0", "prefer 11 0 0 7", "group 2", "prefer 15 2 1 0"],
        [
            "prefer 33 2 0 7: for APU, which isn't the first master, its preset alone counts",
            "prefer 34 0 1 0: for APU, which isn't the first master, its preset alone counts",
        ],
    ),
    "not-shareable": (
        TWO,
        SHARED + ["section prealloc", "group 3", "prefer 33 2 1 1", "prefer 34 0 0 1", "group 1", "prefer 15 2 1 1"],
        ["prefer 34 0 0 1: UART_1 isn't shareable, and is preallocated for APU and RPU_0"],
    ),
    "several-units": (
        TWO,
        ["section reset", "reset 1014 1", "reset 1028 2", "reset 1034 1", "reset 1071 0", "reset 1113 3", "reset 1057 1"],
        [
            "reset 1014 1: APU may reset GPU_PP_0, GPU_PP_1 by RESET_GPU, and reach and isolate don't see it",
            "reset 1028 2: RPU_0 may reset all of LPD, all of FPD, all of PLD by RESET_SOFT, and reach and isolate don't see it",
            "reset 1113 3: APU, RPU_0 may reset all of RPU by RESET_RPU_LS, and reach and isolate don't see it",
            "reset 1057 1: APU may reset OCM_BANK_0, OCM_BANK_1, OCM_BANK_2, OCM_BANK_3 by RESET_OCM, and reach and isolate don't see it",
        ],
    ),
    "forces-a-master": (
        THREE,
        ["section power", "power 10 3", "power 6 6", "power 7 4", "power 8 4", "power 9 7", "power 62 1", "power 1 1"],
        [
            "power 10 3: RPU_0 may force FPD down, and with it APU",
            "power 6 6: RPU_0, RPU_1 may force RPU down, and with it RPU_0, RPU_1",
            "power 7 4: RPU_1 may force RPU_0 down, and with it RPU_0",
            "power 62 1: APU may force LPD down, and with it RPU_0, RPU_1",
        ],
    ),
    "leads-to-all": (
        ["header", "section masters", "master 1 1 100 6 4", "master 7 2 100 5 0xd", "master 8 4 100 2 1"],
        ["section shutdown", "shutdown 0 7", "shutdown 1 4", "shutdown 2 0", "section config", "config 3 7"],
        [
            "master 1 1 100 6 4: APU may suspend all others",
            "master 7 2 100 5 13: RPU_0 may suspend and wake all others",
            "shutdown 1 4: RPU_1 may shut all others down",
            "config 3 7: APU, RPU_0 may set the configuration of all others",
        ],
    ),
}


class Lint(Case):
    def object_of(self, lines):
        """The path of the object that a text means."""
        status, built, _ = program("build", self.file("made.txt", "\n".join(lines) + "\n"))
        self.assertEqual(status, 0, built)
        return self.file("made.obj", built)

    def split(self, path, text):
        """Each line as its word, its record, its message and its check."""
        found = [re.fullmatch(re.escape(path) + r": (.*?) \(word (\d+)\): (.*) \[(.*?)(, note)?\]", line) for line in text.splitlines()]
        self.assertNotIn(None, found, text)
        for line in found:
            self.assertEqual(line[5] is not None, lint.CHECKS[line[4]].level == "note", line)
        return [(int(line[2]), line[1], line[3], line[4]) for line in found]

    def test_each_check_finds_what_it_looks_for_and_nothing_else(self):
        self.assertEqual([*OBJECTS][1:], [*lint.CHECKS])
        for name, (head, lines, wanted) in OBJECTS.items():
            with self.subTest(name):
                path = self.object_of(head + lines)
                found = self.split(path, self.text("lint", path))
                ours = [f"{record}: {message}" for _, record, message, check in found if check == name]
                self.assertEqual(ours, wanted)
                if name in ("nothing", "no-flag", "forces-a-master"):
                    self.assertEqual(len(found), len(wanted), found)

    def test_each_record_is_at_its_word(self):
        for path in examples(".obj"):
            data = programs.read_file(path)
            for place, record, _, _ in self.split(path, self.text("lint", path)):
                words = objects.to_bytes(list(map(int, record.split()[1:])))
                self.assertEqual(data[4 * place : 4 * place + len(words)], words, (path, record))

    def test_each_record_of_a_text_or_a_c_file_is_at_its_line(self):
        c_file, text = self.file("bare.c", self.bare_c()), self.file("named.txt", self.named_text())
        wanted = self.split(example("pm_cfg_obj.obj"), self.text("lint", example("pm_cfg_obj.obj")))
        for path, first in ((c_file, "{}, "), (text, "{} ")):
            with open(path, encoding="ascii") as file:
                lines = file.read().splitlines()
            found = [re.fullmatch(re.escape(path) + r":(\d+): (.*?): (.*) \[(.*?)(, note)?\]", line) for line in self.text("lint", path).splitlines()]
            self.assertEqual([(line[2], line[3], line[4]) for line in found], [said[1:] for said in wanted])
            for line in found:
                kind, number = line[2].split()[:2]
                self.assertTrue(lines[int(line[1]) - 1].startswith(first.format(number if path == c_file else kind)), (line, lines[int(line[1]) - 1]))

    def bare_c(self):
        """The C file of the example's object with the words of each record on a line of its own."""
        words = list(map(str, struct.unpack("<535I", programs.read_file(example("pm_cfg_obj.obj")))))
        starts = {record.offset // 4 for section in objects.read(example("pm_cfg_obj.obj")).sections for record in section.records}
        return "u32 XPm_ConfigObject[] = {\n" + "".join(("\n" if place in starts else " ") + word + "," for place, word in enumerate(words)) + "\n};\n"

    def named_text(self):
        """The text of the example's object with names and comments."""
        printed = program("print", example("pm_cfg_obj.obj"))[1].decode().splitlines()
        masters = to_numbers.masters_of(printed)
        return "# the example\n\n" + "".join(f"{to_names.line_in_names(line, masters)} # {line}\n" for line in printed)

    def test_the_records_of_the_example_that_the_table_lacks(self):
        path = next(path for path in examples(".obj") if path.endswith("pm_cfg_obj.obj"))
        found = self.split(path, self.text("lint", path, os.path.join(TOPOLOGIES, "zynqmp.topology")))
        lines = [record.split()[1] for _, record, _, check in found if check == "not-in-table"]
        self.assertEqual(lines, [str(line) for line in range(1000, 1120)])
        first, last = ["leads-to-all"] * 3 + ["only-preset"] * 7 + ["forces-a-master"] * 2, ["leads-to-all"]
        self.assertEqual([check for *_, check in found], first + ["not-in-table"] * 120 + last)
        # (over the published lines, those of the PL have no unit)
        found = self.split(path, self.text("lint", path))
        lines = [record.split()[1] for _, record, _, check in found if check == "no-unit"]
        self.assertEqual(lines, [str(line) for line in [*range(1081, 1113), *range(1116, 1120)]])
        several = ["RESET_GT", "RESET_SOFT", "RESET_RPU_AMBA", "RESET_FPD", "RESET_RPU_LS", "RESET_PS_ONLY"]
        self.assertEqual([check for *_, check in found if check != "no-unit"], first + ["several-units"] * len(several) + last)

    def test_what_is_said_comes_by_place(self):
        # (a record of which two checks speak, between records of one check)
        head = ["header", "section masters", "master 1 1 100 0 0", "master 7 2 100 0 0x10"]
        lines = ["section slaves", "slave 33 3 1", "slave 70 3 8", "slave 35 0 0", "section power", "power 6 5", "power 78 2"]
        wanted = ["no-master", "no-flag", "not-in-table", "no-master", "no-flag", "no-user", "no-master", "forces-a-master", "not-in-table"]
        text, script = self.file("made.txt", "\n".join(head + lines) + "\n"), self.file("script", "wfi 99\nipi 9 1\n")
        found = json.loads(self.text("lint", "--json", text, script))["findings"]
        self.assertEqual([each["line"] for each in found], [4, 6, 7, 7, 7, 8, 10, 10, 11, 1, 2])
        self.assertEqual([each["check"] for each in found], [*wanted, "no-effect", "not-heard"])
        for path in (text, self.object_of(head + lines)):
            places = [line.split(" [")[1].split(",")[0].rstrip("]") for line in self.text("lint", path).splitlines()]
            self.assertEqual(places, wanted)
            results = json.loads(self.text("lint", "--sarif", path))["runs"][0]["results"]
            self.assertEqual([result["ruleId"] for result in results], wanted)
            regions = [result["locations"][0]["physicalLocation"]["region"] for result in results]
            places = [region.get("startLine", region.get("byteOffset")) for region in regions]
            self.assertEqual(places, sorted(places))
        for path in examples(".obj"):
            places = [place for place, *_ in self.split(path, self.text("lint", path))]
            self.assertEqual(places, sorted(places), path)

    def test_the_exit(self):
        clean, full = self.object_of(TWO), self.file("full.obj", programs.read_file(examples("laboratory.obj")[0]))
        self.assertEqual([view("lint", clean)[0], view("lint", "--strict", clean)[0]], [0, 0])
        strange = self.object_of([*TWO, "section slaves", "slave 33 2 1"])
        self.assertEqual([view("lint", strange)[0], view("lint", strange, "--strict")[0]], [0, FOUND])
        self.assertEqual(view("lint", strange)[1], view("lint", "--strict", strange)[1])
        self.assertEqual(view("lint", "--strict", "--ignore", "no-flag", strange), (0, b"", b""))
        # (what each object of the tools has, and what a policy judges, is noted)
        self.assertEqual(view("lint", full, "--strict")[:2], (0, self.written("lint", full)))
        self.assertEqual(view("lint", "--strict", example("pm_cfg_obj.obj"))[0], 0)
        self.assertEqual(view("lint", "--strict", example("pm_cfg_obj.obj"), os.path.join(TOPOLOGIES, "zynqmp.topology"))[0], FOUND)

    def test_ignored_checks(self):
        path = example("laboratory.obj")
        self.assertEqual([self.text("lint", *words, path).count("\n") for words in ([], ["--ignore", "leads-to-all"])], [2, 1])
        for words in (["--ignore", "leads-to-all,forces-a-master"], ["--ignore", "leads-to-all", "--ignore", "forces-a-master"]):
            self.assertEqual(self.text("lint", *words, path), "")
        self.assertIn("no check is named 'no-masters' (did you mean 'no-master'?): they are not-in-table, ", self.refused("lint", "--ignore", "no-masters", path))

    def test_json(self):
        path, script = example("laboratory.obj"), self.file("s", "wfi 99\n")
        whole = json.loads(self.text("lint", "--json", path, script))
        self.assertEqual((whole["view"], whole["exit"]), ("lint", 0))
        found = whole["findings"]
        self.assertEqual(
            found[1],
            {
                "check": "forces-a-master",
                "level": "note",
                "file": path,
                "word": 34,
                "text": "power 10 256",
                "message": "RPU_0 may force FPD down, and with it APU",
            },
        )
        wanted = {"check": "no-effect", "level": "warning", "file": script, "line": 1, "text": "wfi 99", "message": "it does nothing: the chip has no node 99"}
        self.assertEqual(found[-1], wanted)
        self.assertEqual(len(found), len(self.text("lint", path, script).splitlines()))

    def test_sarif(self):
        path, script = example("laboratory.obj"), self.file("s", "wfi 99\n")
        found = json.loads(self.text("lint", path, script, "--sarif"))
        self.assertEqual((found["version"], found["$schema"]), ("2.1.0", "https://json.schemastore.org/sarif-2.1.0.json"))
        run = found["runs"][0]
        rules = [rule["id"] for rule in run["tool"]["driver"]["rules"]]
        self.assertEqual((run["tool"]["driver"]["name"], rules), ("pmu lint", [*lint.RULES]))
        places = [result["locations"][0]["physicalLocation"] for result in run["results"]]
        self.assertEqual([place["artifactLocation"]["uri"] for place in places], [path, path, script])
        self.assertEqual([place["region"] for place in places], [{"byteOffset": 20, "byteLength": 4}, {"byteOffset": 136, "byteLength": 4}, {"startLine": 1}])
        self.assertEqual([(result["ruleId"], result["level"]) for result in run["results"]], [("leads-to-all", "note"), ("forces-a-master", "note"), ("no-effect", "warning")])

    def test_one_master_leads_to_nobody(self):
        lines = ["header", "section masters", "master 1 1 100 1 1", "section power", "power 10 1", "section shutdown", "shutdown 2 1"]
        self.assertEqual(self.text("lint", self.object_of(lines + ["section config", "config 1 1"])), "")

    def test_bad_use(self):
        for words in ([], ["--strict"], ["a", "b", "c", "d"], ["--strict", "--strict", "a"], ["--json", "--sarif", "a"], ["--what", "a"], ["--ignore", "no-flag"]):
            self.assertEqual(self.refused("lint", *words), f"pmu: {lint.USAGE}")

    def test_what_is_no_object_is_told(self):
        bad = self.file("bad.obj", objects.to_bytes([2, 1, 1, 0x101, 1, 1, 3, 100, 0, 0]))
        fault = "word 6: the mask 0x3 isn't one bit that no earlier master has (fault object 10 6)"
        self.assertEqual(self.refused("lint", bad), f"pmu: {bad}: {fault}")
        rules = self.file("rules", "never APU\n")
        self.assertIn(f"{rules}: this is a text, and no object: ", self.refused("lint", rules))
        text = self.file("bad.txt", "header\nsection masters\nmaster 1 3 1 0 0\n")
        said = f"{text}:3: the mask 0x3 of master 1 isn't one bit that no earlier master has\n"
        self.assertEqual(view("lint", text)[::2], (8, said.encode()))
        source = self.file("bad.c", "u32 XPm_ConfigObject[] = {\nNO };\n")
        self.assertEqual(self.refused("lint", source), f"pmu: {source}:2: unknown name NO")
        self.assertIn("it ends after 0 words, in the middle of a section or of the header (fault object 3 0)", self.refused("lint", self.file("empty.obj", b"")))

    def test_no_program_is_needed(self):
        with unittest.mock.patch.dict(os.environ, {"PMU_PROGRAM": ""}):
            self.assertEqual(len(self.text("lint", examples("laboratory.obj")[0]).splitlines()), 2)
            self.assertEqual(view("lint", example("pm_cfg_obj.c"))[0], 0)
            self.assertIn("this is the text of an object: ./pmu build makes", self.refused("lint", example("laboratory.txt")))


if __name__ == "__main__":
    unittest.main()
