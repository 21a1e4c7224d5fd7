"""What the views write for robots: JSON in the shape that docs/JSON.md has, and SARIF as its version 2.1.0 wants it."""

import base64
import json
import os
import re
import unittest
import urllib.parse

import names
import picture
from program import read_file
from common import TOP, Case, example, program, view

LABORATORY, MADE, APART = example("laboratory.obj"), example("pm_cfg_obj.obj"), example("apart.policy")
SHORT = "never APU master RPU_0\nonly RPU_0 slave TCM_0_A\nnever RPU_0 slave UART_0\n"


class Robots(Case):
    def parsed(self, *words):
        """The JSON that a view writes, which has its first word and its exit, and the exit."""
        status, output, errors = view(*words)
        found = json.loads(output)
        self.assertEqual((found["view"], found["exit"]), (words[0], status), errors)
        self.check_units(found)
        return found

    def check_units(self, value):
        """Each kind with a number has the name that `names` lists."""
        if isinstance(value, list):
            for each in value:
                self.check_units(each)
        elif isinstance(value, dict):
            self.check_units(list(value.values()))
            if {"kind", "number", "name"} <= set(value) and "more" not in value:
                name_of = {"line": names.line_name, "clock": names.clock_name}.get(value["kind"], names.node_name)
                self.assertEqual(value["name"], name_of(value["number"]))

    # SARIF.

    def sarif(self, *words):
        """The results of a view in SARIF, each with the properties that the format requires."""
        status, output, errors = view(*words)
        log = json.loads(output)
        self.assertEqual((log["version"], log["$schema"]), ("2.1.0", "https://json.schemastore.org/sarif-2.1.0.json"), errors)
        (run,) = log["runs"]
        driver = run["tool"]["driver"]
        self.assertIsInstance(driver["name"], str)
        rules = [rule["id"] for rule in driver["rules"]]
        self.assertEqual(len(set(rules)), len(rules))
        for result in run["results"]:
            self.assertIn(result["ruleId"], rules)
            self.assertIn(result["level"], ("none", "note", "warning", "error"))
            self.assertTrue(result["message"]["text"])
            for location in [*result["locations"], *result.get("relatedLocations", [])]:
                self.check_location(location)
            for fix in result.get("fixes", []):
                self.check_fix(fix)
        return status, run["results"]

    def check_location(self, location):
        """A place in a file, whose name is a reference in the form of a URI."""
        place = location["physicalLocation"]
        self.assertRegex(place["artifactLocation"]["uri"], r"\A[\w./~%-]+\Z")
        self.assertTrue(os.path.exists(urllib.parse.unquote(place["artifactLocation"]["uri"], errors="surrogateescape")))
        region = place.get("region", {"startLine": 1})
        self.assertTrue(region.get("startLine", 0) >= 1 or region["byteOffset"] >= 0 and region["byteLength"] >= 0, region)

    def check_fix(self, fix):
        """A fix has changes of files, which have replacements."""
        for changed in fix["artifactChanges"]:
            self.assertTrue(changed["artifactLocation"]["uri"])
            for replacement in changed["replacements"]:
                content = base64.b64decode(replacement["insertedContent"]["binary"], validate=True)
                self.assertEqual(replacement["deletedRegion"]["byteLength"], len(content))

    def test_a_policy_as_sarif(self):
        rules = self.file("short rules.policy", SHORT)
        status, found = self.sarif("policy", "--sarif", MADE, rules)
        self.assertEqual(status, 101)
        broken = [it for it in found if it["ruleId"] == "broken-rule"]
        self.assertEqual([it["locations"][0]["physicalLocation"]["region"]["startLine"] for it in broken], [1, 2, 2, 3])
        self.assertEqual({it["level"] for it in broken}, {"error"})
        self.assertTrue(broken[0]["message"]["text"].startswith("never APU master RPU_0: broken by APU: APU > RPU_0; "), broken[0])
        self.assertIn({"byteOffset": 20, "byteLength": 4}, [it["physicalLocation"]["region"] for it in broken[0]["relatedLocations"]])
        self.assertIn("APU > RPU_0: suspend: master 1 1 4294967295 768 768: its suspend word", broken[0]["relatedLocations"][0]["message"]["text"])
        for result in broken:
            for related in result["relatedLocations"]:
                self.assertIn(related["message"]["text"].partition(": ")[0], result["message"]["text"])
        left = [it for it in found if it["ruleId"] == "not-judged"]
        self.assertEqual((len(left), {it["level"] for it in left}), (36, {"warning"}))
        self.assertIn("reset 1119 769: APU, RPU_0, RPU_1 may reset RESET_PS_PL3, and no rule judges it", left[-1]["message"]["text"])
        self.assertEqual(self.sarif("policy", "--sarif", LABORATORY, self.file("kept", "never APU slave TCM_0_A\n")), (0, []))

    def test_a_repair_as_sarif_makes_the_rules_hold(self):
        data = bytearray(read_file(MADE))
        _, found = self.sarif("policy", "--repair", "--sarif", MADE, APART)
        self.assertEqual({it["ruleId"] for it in found}, {"record-to-change"})
        for result in found:
            (replacement,) = result["fixes"][0]["artifactChanges"][0]["replacements"]
            begin, length = replacement["deletedRegion"]["byteOffset"], replacement["deletedRegion"]["byteLength"]
            self.assertEqual(begin, result["locations"][0]["physicalLocation"]["region"]["byteOffset"])
            data[begin : begin + length] = base64.b64decode(replacement["insertedContent"]["binary"])
        self.assertEqual(view("policy", self.file("mended.obj", bytes(data)), APART)[0], 0)

    def test_no_repair_as_sarif(self):
        rules = self.file("rules", "never APU slave UART_0\nnever APU power LPD\nnever APU power APU\n")
        _, found = self.sarif("policy", "--sarif", "--repair", LABORATORY, rules)
        self.assertEqual([it["ruleId"] for it in found], ["no-repair"] * len(found))
        self.assertIn("power APU: no change of records takes it out of the reach of APU", [it["message"]["text"] for it in found])

    def test_lint_as_sarif(self):
        script = self.file("a script", "wfi 99\n")
        status, found = self.sarif("lint", "--sarif", "--strict", LABORATORY, script)
        self.assertEqual((status, found[-1]["ruleId"], found[-1]["locations"][0]["physicalLocation"]["region"]), (102, "no-effect", {"startLine": 1}))
        self.assertTrue(self.sarif("lint", "--sarif", example("pm_cfg_obj.c"))[1])

    # JSON.

    def test_a_policy(self):
        rules = self.file("short.policy", SHORT)
        found = self.parsed("policy", "--json", MADE, rules)
        self.assertEqual([(it["file"], it["line"], it["rule"], it["holds"]) for it in found["rules"]], [(rules, k, text, False) for k, text in enumerate(SHORT.splitlines(), 1)])
        self.assertEqual([(it["master"], it["paths"][0]) for it in found["rules"][1]["broken_by"]], [("APU", ["APU", "slave TCM_0_A"]), ("RPU_1", ["RPU_1", "slave TCM_0_A"])])
        text = view("policy", MADE, rules)[1].decode()
        lines = [f"  {it['from']} > {it['to']}: {why['why']}: {why['record']} (word {why['word']}): {why['detail']}" for it in found["steps"] for why in it["reasons"]]
        self.assertEqual("\n".join(lines), text.partition("each step:\n")[2].partition("\nnot judged")[0])
        self.assertEqual((len(found["unknown_records"]), found["unknown_records"][-1]["not_judged"]), (36, ["APU", "RPU_0", "RPU_1"]))
        held = self.parsed("policy", "--json", LABORATORY, self.file("held", "never RPU_0 slave SPI_0\n"))
        self.assertEqual((held["exit"], [it["holds"] for it in held["rules"]], held["steps"], held["unknown_records"]), (0, [True], [], []))

    def test_a_repair(self):
        found = self.parsed("policy", "--json", "--repair", MADE, APART)
        lines = view("policy", "--repair", MADE, APART)[1].decode().splitlines()[1:]
        shown = [line for it in found["changes"] for line in (f"- {it['record']}  # word {it['word']}", f"+ {it['after']}  # {it['change']}")]
        self.assertEqual((shown, found["unmet"]), (lines, []))
        unmet = self.parsed("policy", "--json", "--repair", LABORATORY, self.file("rules", "never APU power APU\n"))
        self.assertEqual((unmet["changes"], unmet["unmet"]), ([], [{"master": "APU", "kind": "power", "number": 1, "name": "APU"}]))

    def test_two_objects(self):
        text = program("print", LABORATORY)[1].decode().replace("slave 33 0 1\n", "slave 33 0 257\n").replace("reset 33 1", "reset 33 0")
        other = self.file("other.obj", program("build", self.file("other.txt", text))[1])
        found = self.parsed("compare", "--json", LABORATORY, other)
        self.assertEqual((found["exit"], found["objects"], found["masters"]), (102, [LABORATORY, other], []))
        path = {"masters": ["APU"], "why": ["reset"]}
        self.assertIn({"by": "first", "master": "APU", "kind": "line", "number": 33, "name": "UART_0", "paths": [path]}, found["reaches"])
        self.assertIn({"master": "RPU_0", "kind": "slave", "number": 33, "name": "UART_0", "first": [], "second": ["use"]}, found["steps"])
        said = self.parsed("compare", "--json", LABORATORY, LABORATORY)
        self.assertEqual((said["exit"], said["reaches"], said["steps"], said["not_judged"]), (0, [], [], []))
        both = self.parsed("compare", "--json", MADE, example("three-masters.obj"))
        lines = view("compare", MADE, example("three-masters.obj"))[1].decode()
        self.assertEqual({it["by"] for it in both["reaches"] if f"{'-+'[it['by'] == 'second']} {it['kind']}" not in lines}, set())
        self.assertIn({"by": "first", "masters": ["APU", "RPU_0", "RPU_1"], "may": "reset line RESET_PS_PL3"}, both["not_judged"])

    def test_a_script_without_the_messages_of_a_master(self):
        script = self.file("loose.script", "ipi 1 21\nboot 7 0\nfail 39 once\nipi 1 13 39 1 0 2\nipi 7 13 39 1 0 2\nsmc 2 0x84000003 1 0\n")
        found = self.parsed("diff", "--json", LABORATORY, script, "APU")
        self.assertEqual((found["master"], found["messages"], found["power_calls"]), ("APU", 2, 1))
        rows = {line["line"]: line["rows"] for line in found["lines"]}
        unit = {"kind": "slave", "number": 39, "name": "SD_0"}
        self.assertIn({"of": "book", **unit, "own": False, "with": "off -> on", "without": None, "lost": None}, rows[4])
        self.assertIn({"of": "device", **unit, "own": False, "with": "off -> on refused", "without": None, "lost": None}, rows[4])
        answer = {"of": "answer", "kind": "master", "number": 7, "name": "RPU_0", "own": False}
        self.assertIn({**answer, "with": "2007 node used by APU", "without": "0 success", "lost": "denied"}, rows[5])
        start = {"of": "start", "kind": "processor", "number": 3, "name": "APU_1", "own": True}
        self.assertIn({**start, "with": "starts at 0x0", "without": None, "lost": None}, rows[6])
        shown = self.text("diff", LABORATORY, script, "APU")
        self.assertEqual(sum(map(len, rows.values())), sum(" | " in line for line in shown.splitlines()[1:]))

    def test_the_events_of_a_dump(self):
        script = self.file("loose.script", "ipi 1 21\nfail 33 once\nipi 1 13 33 1 0 2\nipi 1 17 33 2\n")
        found = self.parsed("--vcd", "--json", "replay", LABORATORY, script)
        dump = picture.read(self.text("--vcd", "replay", LABORATORY, script))
        times = [it["time"] for it in found["lines"]]
        self.assertEqual((found["timescale"], found["end"], times), ("1 ms", 5000, [0, 1000, 2000, 3000, 4000]))
        unit = {"kind": "slave", "number": 33, "name": "UART_0"}
        of_unit = [it for it in found["events"] if (it["kind"], it["number"]) == ("slave", 33) and it["line"] > 2]
        told = [(it["time"], it["of"], it["value"], it["state"]) for it in of_unit]
        self.assertEqual(told, [(3000, "book", 1, "on"), (3001, "device", None, None), (3002, "device", 0, "off"), (4001, "device", 1, "on")])
        self.assertEqual({key: of_unit[0][key] for key in unit}, unit)
        pulse = [(it["of"], it["value"]) for it in found["events"] if it["kind"] == "line"]
        self.assertEqual(pulse, [("device", 1), ("device", 0)])
        self.assertEqual((found["lines"][3]["answers"], found["lines"][3]["refused"]), ("APU: internal", "UART_0 on"))
        changes = sum(len([it for it in signal.changes if it[0]]) for signal in dump.signals if signal.width)
        self.assertEqual(len([it for it in found["events"] if it["time"]]), changes)
        self.assertEqual(self.parsed("--vcd", "--ticks", "--json", "replay", LABORATORY, script)["lines"][-1]["line"], 4)

    def test_the_rows_of_a_picture(self):
        script = self.file("loose.script", "ipi 1 21\nfail 33 once\nipi 1 13 33 1 0 2\nipi 1 17 33 2\n")
        found = self.parsed("--svg", "--json", "replay", LABORATORY, script)
        self.assertEqual(found["lines"][2], {"line": 2, "text": "fail UART_0 once"})
        rows = {(it["of"], it["kind"], it["number"]): it for it in found["rows"]}
        spans = [{"from": 0, "until": 1, "state": "on"}, {"from": 1, "until": 4, "state": "off"}, {"from": 4, "until": 5, "state": "on"}]
        self.assertEqual((rows["device", "slave", 33]["spans"], rows["device", "slave", 33]["refused"]), (spans, [3]))
        self.assertEqual(rows["device", "line", 33]["pulses"], [4])
        drawn = self.text("--svg", "replay", LABORATORY, script)
        self.assertEqual(len(found["rows"]), drawn.count('<text class="name"'))

    def test_the_arrows_of_a_graph(self):
        for words in (["--dot", "reach", LABORATORY, "RPU_0"], ["--dot", "--all", "reach", LABORATORY, "RPU_0"], ["--dot", "reach", MADE, "APU"]):
            status, output, _ = view(*words)
            found = self.parsed(words[0], "--json", *words[1:])
            boxes = re.findall(r"(?m)^  master_(\d+) -> (\w+) \[label=\"([^\"]*)\"", output.decode())
            arrows = {(it["from"], ", ".join(it["why"])) for it in found["arrows"]}
            self.assertEqual((status, arrows), (0, {(names.node_name(int(start)), why) for start, _, why in boxes}))
            self.assertEqual([it["name"] for it in found["masters"] if it["in_reach"]], [it["name"] for it in found["masters"]])
            framed = {it["name"]: it["in"] for it in found["frames"]}
            self.assertEqual((framed["FPD"], framed["APU_0"], framed["OCM_BANK_0"]), (None, "APU", "LPD"))
        to = {"kind": "line", "number": 1054, "name": "RESET_RPU_R50"}
        self.assertIn({"from": "APU", "to": to, "why": ["reset"]}, found["arrows"])

    def test_a_fault_writes_no_json(self):
        bad = self.file("bad.script", "ipi 1 21\nbot 7\n")
        for words in (["--names", "--json", "replay", LABORATORY, bad], ["diff", "--json", LABORATORY, bad, "APU"], ["--vcd", "--json", "replay", LABORATORY, bad], ["--svg", "--json", "replay", LABORATORY, bad]):
            status, output, errors = view(*words)
            self.assertEqual((status, output, len(errors.splitlines())), (3, b"", 1), words)
        self.assertEqual(view("policy", "--json", "--sarif", LABORATORY, APART)[:2], (125, b""))

    def test_the_page_names_each_view_with_json(self):
        with open(os.path.join(TOP, "docs", "JSON.md"), encoding="utf-8") as file:
            page = file.read().partition("## The views")[2]
        named = set(re.findall(r"(?m)^- `(?:\./pmu )?(--?[a-z]+|[a-z]+)", page))
        self.assertEqual(named, {"--names", "names", "lint", "policy", "diff", "compare", "test", "dts", "--vcd", "--svg", "--dot"})


if __name__ == "__main__":
    unittest.main()
