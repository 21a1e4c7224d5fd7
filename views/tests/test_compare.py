"""What two objects permit otherwise."""

import unittest

import compare
import permits
from common import Case, board_of, example, examples, program, view
from forms import FOUND

FIRST = """header
section masters
master 1 1 9 0 0
master 7 2 9 0 0
section slaves
slave 33 1 3
slave 34 0 2
section reset
reset 1081 1
"""

WANTED = """in the reach of APU by one object alone:
  + master RPU_0: APU > RPU_0 (suspend)
  + slave UART_1: APU > RPU_0 (use)
  + power RPU: APU > RPU_0 (above)
in the reach of RPU_0 by one object alone:
  + line RESET_GPO3_PL_0: RPU_0 (reset)
what APU may do itself:
  master RPU_0: nothing | suspend
  slave UART_0: use | nothing
  power LPD: above | nothing
what RPU_0 may do itself:
  line RESET_GPO3_PL_0: nothing | reset
not judged:
  + RPU_0 may reset line RESET_GPO3_PL_0
"""


class Compare(Case):
    def object_of(self, name, text):
        """The path of the object that a text means."""
        status, built, _ = program("build", self.file(name + ".txt", text))
        self.assertEqual(status, 0, built)
        return self.file(name + ".obj", built)

    def compare(self, first, second):
        """The exit, and what is written behind the two names."""
        status, output, _ = view("compare", first, second)
        lines = output.decode().splitlines(keepends=True)
        self.assertEqual(lines[:2], [f"- {first}\n", f"+ {second}\n"])
        return status, "".join(lines[2:])

    def test_what_differs(self):
        second = FIRST.replace("master 1 1 9 0", "master 1 1 9 2").replace("slave 33 1 3", "slave 33 1 2").replace("1081 1", "1081 3")
        first, second = self.object_of("first", FIRST), self.object_of("second", second)
        status, text = self.compare(first, second)
        self.assertEqual((status, text), (FOUND, WANTED))

    def test_an_object_permits_what_itself_does(self):
        for path in examples(".obj"):
            self.assertEqual(self.compare(path, path), (0, "both permit the same\n"))

    def test_other_bits_of_the_masters_are_no_difference(self):
        second = FIRST.replace("master 7 2", "master 7 512").replace("slave 33 1 3", "slave 33 1 513").replace("slave 34 0 2", "slave 34 0 512")
        self.assertEqual(self.compare(self.object_of("first", FIRST), self.object_of("second", second))[0], 0)

    def test_masters_of_one_object_alone(self):
        second = FIRST.replace("master 7 2 9 0 0\n", "").replace("slave 34 0 2", "slave 34 0 0").replace("slave 33 1 3", "slave 33 1 1")
        status, text = self.compare(self.object_of("first", FIRST), self.object_of("second", second))
        self.assertEqual((status, text.splitlines()[0]), (FOUND, "- master RPU_0"))

    def test_each_member_of_one_reach_alone_is_told(self):
        first, second = board_of(example("pm_cfg_obj.obj")), board_of(example("three-masters.obj"))
        boards = compare.Board(first.found, first.chip), compare.Board(second.found, first.chip)
        text = "\n".join(compare.lines_of(compare.differences(*boards)))
        for node in (1, 7, 8):
            reaches = [{(it.kind, it.number) for it in permits.reach(board, node)} for board in boards]
            steps = [{master: compare.steps_of(board, master) for master in permits.masters(board)} for board in boards]
            paths = [set(compare.reach_of(board, node, of)) | {("master", node)} for board, of in zip(boards, steps)]
            self.assertEqual(paths, reaches)
        self.assertIn("may do itself", text)

    def test_bad_use(self):
        for words in ([], ["a"], ["a", "b", "c", "d"], ["--json", "--json", "a", "b"]):
            self.assertEqual(self.refused("compare", *words), f"pmu: {compare.USAGE}")
        self.assertEqual(view("compare", example("laboratory.obj"), example("laboratory.txt"))[0], 2)


if __name__ == "__main__":
    unittest.main()
