"""`--vcd`: the dump is read again, and gives the values and the lines of the replay."""

import os
import re
import shutil
import subprocess
import unittest
import xml.dom.minidom

import names
import picture
import program as programs
from common import TOP, Case, example, examples, program, view


KINDS = ("nodes", "reset_lines", "clocks")


def closing_values(lines):
    """The closing table: the value of each unit in the book by its kind and name."""
    found = {}
    for line in lines:
        words = line.split()
        if words[:2] == ["end", "clock"]:
            found["clocks", "clock_" + names.clock_name(int(words[2]))] = 1
        elif words[:2] == ["end", "line"]:
            found["reset_lines", "reset_" + names.line_name(int(words[2]))] = int(words[3])
        elif words[0] == "end":
            found["nodes", names.node_name(int(words[2]))] = int(words[3])
    return found


def kind_of(signal):
    """The kind of a unit of the book by the scope of its signal."""
    if signal.is_of_device():
        return "device"
    return signal.scope[0] if signal.scope[0] in ("reset_lines", "clocks") else "nodes"


def last_values(dump):
    """The last value of each unit that isn't 0, by its kind and name."""
    units = [signal for signal in dump.signals if signal.width and not signal.is_of_device()]
    values = {(kind_of(signal), signal.name): signal.changes[-1][1] for signal in units}
    return {unit: value for unit, value in values.items() if value}


def by_lines(changes):
    """Changes with the lines of their times, each a second of 1000 parts."""
    return [(time // 1000, value) for time, value in changes]


class Waveform(Case):
    def dump(self, *words):
        return picture.read(self.text("--vcd", "replay", *words))

    def test_a_dump_gives_the_values_of_the_closing_table(self):
        for script in examples(".script"):
            obj = example("two-masters.obj" if "status" in script else "clocks.obj" if "clocks" in script else "laboratory.obj")
            dump = self.dump(obj, script)
            lines = program("replay", obj, script)[1].decode().splitlines()
            self.assertEqual(last_values(dump), {unit: value for unit, value in closing_values(lines).items() if value})
            self.assertGreater(len(last_values(dump)), 0)

    def test_each_command_is_a_change_at_its_line(self):
        obj, script = example("laboratory.obj"), example("force.script")
        dump = self.dump(obj, script)
        count, times = 0, []
        for line in program("replay", obj, script)[1].decode().splitlines():
            step, kind, *words = line.split()
            if step != "end" and kind in ("set", "line"):
                node = names.NODES[int(words[0])]
                place = ("reset_lines",) if kind == "line" else scope_of(node)
                signal = dump.named("reset_" * (kind == "line") + node.name, ("device", *place))
                self.assertIn((int(step), int(words[2])), by_lines(signal.changes), line)
                times += [time for time, value in signal.changes if (time // 1000, value) == (int(step), int(words[2]))][:1]
                count += 1
        self.assertEqual((count, times), (25, sorted(times)))

    def test_the_modes_of_a_processor(self):
        dump = self.dump(example("laboratory.obj"), example("sleep.script"))
        modes = {"off": 0, "active": 1, "asleep": 2, "suspending": 3}
        wanted = [(0, "active"), (4, "suspending"), (7, "active"), (9, "suspending"), (12, "asleep")]
        self.assertEqual(dump.named("APU_0", ("FPD", "APU")).changes, [(1000 * time, modes[mode]) for time, mode in wanted])

    def test_the_line_and_what_is_answered_are_texts(self):
        script = self.file("names.script", "ipi APU INIT_FINALIZE # done\n\nipi 1 13 33 1 0 2\nipi RPU_0 3 33")
        dump = self.dump(example("laboratory.obj"), script)
        lines = ["load", "ipi APU INIT_FINALIZE", "", "ipi APU REQUEST_NODE UART_0 ACCESS 0 BLOCKING", "ipi RPU_0 GET_NODE_STATUS UART_0"]
        self.assertEqual(by_lines(dump.named("line").texts), list(enumerate(lines)))
        answers = ["", "APU: success", "", "APU: success", "RPU_0 isn't heard"]
        self.assertEqual(by_lines(dump.named("answer").texts), list(enumerate(answers)))
        self.assertEqual(dump.end, 5000)

    def test_what_a_line_serves_is_at_its_time(self):
        script = self.file("boxes.script", "post 1 21\npost APU 17 33 2\nserve\npost 1 17 33 2\npost 8 1\nserve")
        dump = self.dump(example("laboratory.obj"), script)
        lines = ["load", "post APU INIT_FINALIZE", "post APU RESET_ASSERT UART_0 PULSE", "serve"]
        lines += ["post APU RESET_ASSERT UART_0 PULSE", "post RPU_1 GET_API_VERSION", "serve"]
        self.assertEqual(by_lines(dump.named("line").texts), list(enumerate(lines)))
        answers = ["", "", "APU: its box is full", "APU: success", "", "RPU_1 isn't heard", "APU: success"]
        self.assertEqual(by_lines(dump.named("answer").texts), list(enumerate(answers)))
        self.assertEqual(dump.named("reset_UART_0", ("device", "reset_lines")).changes, [(0, 0), (6001, 1), (6002, 0)])

    def test_the_calls_of_timed_tasks_are_at_their_time(self):
        script = self.file("tasks.script", "task 0 2\ntask 1 1\ntick 2\nipi 1 260 511\ncancel 2")
        dump = self.dump(example("laboratory.obj"), script)
        lines = ["load", "task 0 2", "task 1 1", "tick 2", "ipi APU 260 511", "cancel 2"]
        self.assertEqual(by_lines(dump.named("line").texts), list(enumerate(lines)))
        answers = ["", "", "", "timed task 0 is called at 2 and answers 1; timed task 1 is called at 2 and answers 1"]
        answers += ["APU: success, words 255 0 0", "no timed task 2, or no interval"]
        self.assertEqual(by_lines(dump.named("answer").texts), list(enumerate(answers)))

    def test_a_script_with_carriage_returns(self):
        with open(example("sleep.script"), "rb") as file:
            script = file.read().replace(b"\n", b"\r\n")
        plain = self.text("--vcd", "replay", example("laboratory.obj"), example("sleep.script"))
        self.assertEqual(self.text("--vcd", "replay", example("laboratory.obj"), self.file("crlf", script)), plain)

    def test_a_pulse_is_two_changes_at_the_device(self):
        dump = self.dump(example("laboratory.obj"), example("force.script"))
        self.assertEqual(dump.named("reset_UART_0", ("device", "reset_lines")).changes, [(0, 0), (3001, 1), (3002, 0)])
        self.assertEqual(dump.named("reset_UART_0", ("reset_lines",)).changes, [(0, 0)])

    def test_time_by_ticks(self):
        script = self.file("ticks.script", "ipi 1 21\ntick 3\nipi 1 13 33 1 0 2\ntick 0\nipi 1 14 33\ntick 4\n")
        text = self.text("--vcd", "--ticks", "replay", example("laboratory.obj"), script)
        self.assertIn("$timescale 1 ms $end", text)
        dump = picture.read(text)
        starts = [time for time, _ in dump.named("line").texts]
        self.assertEqual([time // 1000 for time in starts], [0, 0, 3, 3, 3, 3, 7])
        self.assertEqual(sorted(set(starts)), starts)
        self.assertEqual(dump.end, 8000)
        changes = dump.named("UART_0", ("device", "LPD")).changes
        self.assertEqual([value for _, value in changes], [0, 1, 0, 1, 0])
        self.assertTrue(starts[3] < changes[3][0] < starts[4] and starts[5] < changes[4][0] < starts[6])

    def test_values_have_names_in_the_dump(self):
        text = self.text("--vcd", "replay", example("laboratory.obj"), self.file("empty", ""))
        dump = picture.read(text)
        for scope, name, words in [
            (("FPD", "APU"), "APU_0", ["off", "active", "asleep", "suspending"]),
            (("device", "FPD", "APU"), "APU_0", ["off", "on"]),
            (("LPD",), "OCM_BANK_0", ["off", "retention", "on"]),
            (("reset_lines",), "reset_APU_0", ["released", "asserted"]),
            (("clocks",), "clock_UART_0", ["stopped", "runs"]),
        ]:
            self.assertEqual(dump.words[scope, name], words)

    def test_a_saved_view_has_what_changes_with_names_for_its_values(self):
        saved = self.file("sleep.gtkw", "")
        self.text("--vcd", "--gtkw", saved, "replay", example("laboratory.obj"), example("sleep.script"))
        lines = programs.read_file(saved).decode().splitlines()
        self.assertEqual(lines[0].split()[:2], ["*-12.468285", "0"])
        self.assertEqual(lines[1:5], ["@820", "script.line", "script.answer", "script.refused"])
        self.assertIn("FPD.APU.APU_0[1:0]", lines)
        self.assertNotIn("device.FPD.APU.APU_0", lines)
        names_file = lines[lines.index("FPD.APU.APU_0[1:0]") - 1].split(" ", 1)[1]
        self.assertEqual(programs.read_file(names_file), b"00 off\n01 active\n10 asleep\n11 suspending\n")
        broken = self.file("broken.script", "ipi 1 21\nbreak 33\nipi 1 13 33 1 0 2\n")
        self.text("--vcd", "--gtkw", saved, "replay", example("laboratory.obj"), broken)
        lines = programs.read_file(saved).decode().splitlines()
        self.assertEqual([line for line in lines if "UART_0" in line], ["LPD.UART_0", "+{device UART_0} device.LPD.UART_0"])

    def test_each_unit_of_the_table_is_a_signal(self):
        dump = self.dump(example("two-masters.obj"), self.file("empty", ""))
        found = {kind: [it.name for it in dump.signals if it.width and kind_of(it) == kind] for kind in (*KINDS, "device")}
        self.assertEqual(sorted(found["nodes"]), sorted(node.name for node in names.NODES.values() if node.kind != "absent"))
        self.assertEqual([len(found[kind]) for kind in (*KINDS, "device")], [69, 64, 11, 133])

    def test_the_clocks_that_run(self):
        dump = self.dump(example("clocks.obj"), example("clocks.script"))
        changes = [(0, 0), (5, 1), (15, 0), (16, 1), (17, 0), (19, 1)]
        self.assertEqual(by_lines(dump.named("clock_UART_0", ("clocks",)).changes), changes)
        self.assertEqual(by_lines(dump.named("clock_TTC_0", ("clocks",)).changes), [(0, 0), (8, 1), *changes[2:]])
        self.assertEqual(dump.named("clock_UART_1", ("clocks",)).changes, [(0, 0)])
        self.assertEqual(dump.named("answer").texts[6], (6000, "APU: success, runs"))

    @unittest.skipUnless(shutil.which("vcd2fst"), "GTKWave isn't installed")
    def test_gtkwave_reads_the_dump(self):
        dump = self.file("dump.vcd", self.text("--vcd", "replay", example("laboratory.obj"), example("sleep.script")))
        subprocess.run(["vcd2fst", "-v", dump, "-f", dump + ".fst"], check=True, capture_output=True)
        again = subprocess.run(["fst2vcd", dump + ".fst"], check=True, capture_output=True).stdout.decode()
        for text in ("sload ", "sipi\\040APU\\040INIT_FINALIZE ", "$var wire 2", "#17000"):
            self.assertIn(text, again)

    def test_where_the_program_fails_its_exit_is_handed_on_alone(self):
        words = ["replay", example("laboratory.obj"), self.file("bad.script", "ipi 1 21\nipi 1\n")]
        self.assertEqual((view("--vcd", *words)[:2], program(*words)[0]), ((3, b""), 3))

    def test_bad_use(self):
        self.assertIn("--vcd is followed by replay", self.refused("--vcd"))
        self.assertIn("--vcd is followed by replay", self.refused("--vcd", "reach", example("laboratory.obj"), "7"))
        self.assertEqual(view("--vcd", "replay", example("laboratory.obj"), example("no.script"))[:2], (4, b""))


def scope_of(node):
    """The scope of a node: the power nodes above it, and itself if it is one."""
    path = [node.name] if node.kind == "power" else []
    while node.parent is not None:
        node = names.NODES[node.parent]
        path.insert(0, node.name)
    return tuple(path)


class Picture(Case):
    def drawn(self, obj, script):
        """The picture of a replay."""
        text = self.text("--svg", "replay", obj, script)
        xml.dom.minidom.parseString(text)
        return text

    def rows(self, text):
        """The names of the rows."""
        return re.findall(r'class="name".*?>(.*?)<', text)

    def test_the_picture_of_the_documents_is_that_of_the_example(self):
        with open(os.path.join(TOP, "docs", "pictures", "sleep.svg"), encoding="ascii") as file:
            self.assertEqual(file.read(), self.drawn(example("laboratory.obj"), example("sleep.script")))

    def test_what_is_drawn(self):
        text = self.drawn(example("laboratory.obj"), example("force.script"))
        for part in (">FPD<", ">RPU_0<", ">RPU_0 FORCE_POWERDOWN FPD BLOCKING<", ">active<"):
            self.assertIn(part, text)
        self.assertNotIn(">LPD<", text)
        self.assertEqual([row for row in self.rows(text) if row.startswith("device")], ["device reset UART_0"])
        self.assertEqual(text.count(" h3 "), 1)  # the pulse

    def test_clocks_are_named_as_clocks(self):
        text = self.drawn(example("clocks.obj"), example("clocks.script"))
        self.assertEqual([row for row in self.rows(text) if "UART_0" in row], ["UART_0", "clock UART_0"])

    def test_what_the_device_refuses_is_crossed(self):
        script = self.file("broken.script", "ipi 1 21\nbreak 33\nipi 1 13 33 1 0 2\nmend 33\n")
        text = self.drawn(example("laboratory.obj"), script)
        self.assertEqual([row for row in self.rows(text) if "UART_0" in row], ["UART_0", "device UART_0"])
        # (one of them is in the legend)
        self.assertEqual(text.count('class="refused"'), 2)

    def test_a_legend_says_what_the_colours_are_if_there_are_two(self):
        legend = r'class="legend".*?>(.*?)<'
        self.assertEqual(re.findall(legend, self.drawn(example("laboratory.obj"), example("sleep.script"))), [])
        text = self.drawn(example("laboratory.obj"), example("force.script"))
        self.assertEqual(re.findall(legend, text), ["as it is requested (the book)", "as the device has it, if that didn't follow"])
        script = self.file("broken.script", "ipi 1 21\nbreak 33\nipi 1 13 33 1 0 2\n")
        text = self.drawn(example("laboratory.obj"), script)
        self.assertEqual(re.findall(legend, text)[2:], ["a command that the device refused"])
        height = int(re.search(r' height="(\d+)"', text)[1])
        self.assertLess(max(int(y) for y in re.findall(r'class="legend" x="\d+" y="(\d+)"', text)), height)

    def test_bad_use(self):
        self.assertIn("--svg is followed by replay", self.refused("--svg"))
        self.assertIn("--svg is followed by replay", self.refused("--svg", "reach", example("laboratory.obj"), "7"))


if __name__ == "__main__":
    unittest.main()
