"""`--dot`: the graph has each member of the reach with its reason."""

import itertools
import os
import re
import shutil
import subprocess
import unittest

import names
import permits
from common import TOP, Case, board_of, example, examples, program, view


def masters_of(obj):
    return [line.split()[1] for line in program("print", obj)[1].decode().splitlines() if line.startswith("master")]


def arrows(graph):
    """The arrows of a graph: from, to and the label."""
    return re.findall(r"^  (\w+) -> (\w+) \[label=\"([\w, ]+)\"", graph, re.MULTILINE)


def boxes(graph):
    """The labels of the boxes, each as its names."""
    found = re.findall(r"^ *(\w+) \[shape=\"\w+\".*?label=\"(.*?)\"", graph, re.MULTILINE)
    return {box: re.split(r", |\\n", label) for box, label in found}


class Graph(Case):
    def test_each_member_of_the_reach_is_drawn_with_its_reason(self):
        for obj in examples(".obj"):
            for node in masters_of(obj):
                self.check(obj, node)

    def test_an_arrow_begins_at_the_last_master_of_the_path(self):
        text = "header\nsection masters\nmaster 1 1 9 256 0\nmaster 7 256 9 0 512\nmaster 8 512 9 0 0\n"
        text += "section slaves\nslave 33 0 512\nslave 63 0 256\n"
        obj = self.file("obj", program("build", self.file("text", text))[1])
        self.check(obj, "1")
        wanted = [("master_1", "master_7", "suspend"), ("master_7", "master_8", "wake")]
        wanted += [("master_8", "slaves_62_8_use", "use"), ("master_7", "slaves_9_7_use", "use")]
        drawn = arrows(self.text("--dot", "reach", obj, "1"))
        self.assertEqual(sorted(arrow for arrow in drawn if arrow[2] != "runs on"), sorted(wanted))

    def check(self, obj, node):
        graph = self.text("--dot", "reach", obj, node)
        drawn, labels, count = arrows(graph), boxes(graph), 0
        for line in map(str, permits.reach(board_of(obj), int(node))):
            kind, number, reason, *path = line.split()
            if kind == "master" and reason != "self":
                self.assertIn((f"master_{path[-2]}", f"master_{number}", reason), drawn, line)
            elif kind == "power":
                self.assertRegex(graph, f'label="{names.node_name(int(number))}"; style="filled"')
            elif kind in ("slave", "line"):
                self.assertEqual(self.arrows_to(int(number), kind, drawn, labels), [(f"master_{path[-1]}", reason)], line)
                count += 1
        self.assertIn("first reason alone", graph)
        units = [box for box in labels if box.startswith(("slaves_", "lines_"))]
        listed = sum(len([name for name in labels[box] if name != "reset lines"]) for box in units)
        self.assertEqual(listed, count, (obj, node))

    def test_all_reasons_are_drawn_if_they_are_wanted(self):
        for obj in (example("laboratory.obj"), example("pm_cfg_obj.obj")):
            board = board_of(obj)
            graph = self.text("--dot", "--all", "reach", obj, "RPU_0")
            drawn, labels = arrows(graph), boxes(graph)
            masters = [number for kind, number, *_ in permits.reach(board, 7) if kind == "master"]
            for a, b in itertools.permutations(masters, 2):
                words = list(dict.fromkeys(reason.why for reason in permits.leads(board, a, b)))
                wanted = [(f"master_{a}", f"master_{b}", ", ".join(words))] if words else []
                self.assertEqual([arrow for arrow in drawn if arrow[:2] == (f"master_{a}", f"master_{b}")], wanted)
            for kind, number, *_ in permits.reach(board, 7):
                if kind in ("slave", "line"):
                    reasons = {a: permits.brings(board, a, kind, number) for a in masters}
                    words = [(f"master_{a}", ", ".join(dict.fromkeys(it.why for it in why))) for a, why in reasons.items() if why]
                    self.assertEqual(sorted(self.arrows_to(number, kind, drawn, labels)), sorted(words))

    def test_the_legend_has_the_words_that_are_drawn(self):
        graph = self.text("--dot", "reach", example("laboratory.obj"), "7")
        text = re.search(r'legend \[.*label="(.*)"', graph)[1].split("\\l")
        self.assertEqual([line.split(":")[0] for line in text if line.startswith(("use", "force", "reset", "wake"))], ["use", "force", "reset"])
        self.assertNotIn("dotted box: a master beyond the reach", text)
        self.assertIn("dotted box: a master beyond the reach", self.text("--dot", "reach", example("two-masters.obj"), "RPU_0"))
        self.assertIn("each arrow has all its reasons", self.text("--dot", "--all", "reach", example("laboratory.obj"), "7"))

    def test_a_line_of_several_units_is_drawn_as_what_it_resets(self):
        text = "header\nsection masters\nmaster 1 1 9 0 0\nmaster 7 256 9 0 0\nsection reset\nreset 1113 1\n"
        obj = self.file("obj", program("build", self.file("text", text))[1])
        graph = self.text("--dot", "reach", obj, "APU")
        self.assertIn(("master_1", "master_7", "reset"), arrows(graph))
        self.assertEqual(boxes(graph)["slaves_6_1_reset"], ["TCM_0_A", "TCM_0_B", "TCM_1_A", "TCM_1_B"])

    def arrows_to(self, number, kind, drawn, labels):
        """The arrows to the box that has a slave or line: from which master, and why."""
        name = names.node_name(number) if kind == "slave" else names.line_name(number)
        return [(start, why) for start, box, why in drawn if box.startswith(kind) and name in labels[box]]

    def test_a_slave_lies_in_the_frame_of_its_power_domain(self):
        graph = self.text("--dot", "reach", example("laboratory.obj"), "7")
        frames, place = {}, []
        for line in graph.splitlines():
            if "subgraph" in line:
                place.append(int(re.search(r"cluster_(\d+)", line)[1]))
            elif line.strip() == "}" and place:
                place.pop()
            elif " [" in line and place:
                frames[line.split()[0]] = list(place)
        self.assertEqual(frames["slaves_10_7_use"], [10])
        self.assertEqual(frames["procs_1"], [10, 1])
        self.assertEqual(frames["procs_6"], [62, 6])
        self.assertEqual(len(frames), 6)

    def test_a_master_beyond_is_dotted(self):
        graph = self.text("--dot", "reach", example("two-masters.obj"), "RPU_0")
        self.assertRegex(graph, r'master_1 \[.*beyond.*style="dotted"')
        self.assertNotIn("-> master_1", graph)

    def test_where_the_program_fails_its_exit_is_handed_on_alone(self):
        words = ["reach", example("laboratory.obj"), "8"]
        self.assertEqual(view("--dot", *words)[:2], (program(*words)[0], b""))
        self.assertEqual(program(*words)[0], 8)

    def test_bad_use(self):
        self.assertIn("--dot is followed by reach", self.refused("--dot"))
        self.assertIn("--dot is followed by reach", self.refused("--dot", "reach", example("laboratory.obj")))

    def test_the_graph_of_the_documents_is_that_of_the_example(self):
        with open(os.path.join(TOP, "docs", "pictures", "reach.dot"), encoding="ascii") as file:
            self.assertEqual(file.read(), self.text("--dot", "reach", example("laboratory.obj"), "RPU_0"))

    @unittest.skipUnless(shutil.which("dot"), "Graphviz isn't installed")
    def test_graphviz_draws_it(self):
        for obj in examples(".obj"):
            for node in masters_of(obj):
                graph = self.written("--dot", "reach", obj, node)
                ended = subprocess.run(["dot", "-Tsvg"], input=graph, capture_output=True, check=True)
                self.assertEqual(ended.stderr, b"")
                self.assertIn(b"<svg", ended.stdout)


if __name__ == "__main__":
    unittest.main()
