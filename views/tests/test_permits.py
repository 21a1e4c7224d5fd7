"""The records that give a reach are those by which the program finds it."""

import os
import random
import unittest
from unittest import mock

import chip as chips
import objects
import permits
import reached
from common import Case, example, examples, program

def random_words(chance):
    """The words of an object in which few permissions are given, by chance."""
    nodes = chance.choice([[1, 7, 8], [8, 1, 7], [1, 6], [6], [7, 1], [1, 8]])
    masters = [[node, 1 << place, 100, chance.choice([0, 0, 1, 2, 4]), chance.choice([0, 0, 0, 1, 6])] for place, node in enumerate(nodes)]
    slaves = [[slave, 1, chance.choice([0, 1, 2, 4, 8])] for slave in chance.sample(range(11, 72), 12)]
    power = [[node, chance.choice([0, 0, 1, 2, 4])] for node in chance.sample([*range(1, 12), 62], 5)]
    reset = [[line, chance.choice([0, 1, 2, 4])] for line in chance.sample([*range(1, 80), 1000, 1035], 8)]
    shutdown = [[subtype, chance.choice([0, 0, 0, 1, 2])] for subtype in chance.sample(range(4), 2)]
    words = [2, 6, 1]
    for identifier, records in ((0x101, masters), (0x102, slaves), (0x104, power), (0x105, reset), (0x106, shutdown)):
        words += [identifier, len(records), *(word for record in records for word in record)]
    return words + [0x107, chance.choice([0, 0, 0, 0, 2]), 0]


class Permits(Case):
    def check(self, path, source=None):
        """The reach of each master by the records is the text of the program, over a topology."""
        board = chips.Board(objects.load(path), chips.read(source))
        for node in permits.masters(board):
            status, text, _ = program("reach", path, str(node), *board.chip.words())
            self.assertEqual(status, 0)
            found = list(map(str, permits.reach(board, node)))
            self.assertEqual(found, text.decode().splitlines(), f"of {node}: {board.found}")

    def test_the_reach_of_each_example(self):
        for path in examples(".obj"):
            with self.subTest(os.path.basename(path)):
                self.check(path)

    def test_the_reach_over_the_published_lines_of_one_unit(self):
        with mock.patch.dict(reached.EFFECTS, clear=True):
            self.check(example("three-masters.obj"), chips.PUBLISHED)
            self.check(example("pm_cfg_obj.obj"), chips.PUBLISHED)

    def test_the_reach_of_objects_by_chance(self):
        chance = random.Random(32)
        for place in range(40):
            self.check(self.file(f"{place}.obj", objects.to_bytes(random_words(chance))))

    def test_all_reasons_of_a_step(self):
        words = [2, 5, 1, 0x101, 2, 1, 1, 100, 2, 2, 7, 2, 100, 0, 0, 0x102, 2, 33, 1, 3, 15, 1, 2]
        words += [0x104, 2, 62, 1, 7, 1, 0x105, 2, 7, 1, 33, 1, 0x107, 1, 1]
        board = chips.Board(objects.decode(objects.to_bytes(words)), chips.read())
        reasons = permits.leads(board, 1, 7)
        self.assertEqual(
            [(reason.why, str(reason.record)) for reason in reasons],
            [
                ("suspend", "master 1 1 100 2 2"),
                ("wake", "master 1 1 100 2 2"),
                ("force", "power 62 1"),
                ("force", "power 7 1"),
                ("reset", "reset 7 1"),
                ("config", "config 1 1"),
            ],
        )
        self.assertEqual(reasons[2].detail, "LPD is above processor RPU_0 and above UART_0, TCM_0_A, which RPU_0 may use")
        self.assertEqual(reasons[3].detail, "it is a processor of RPU_0")
        self.assertEqual([reason.why for reason in permits.brings(board, 1, "slave", 33)], ["use", "force", "reset"])
        self.assertEqual([reason.why for reason in permits.brings(board, 7, "slave", 33)], ["use"])
        self.assertEqual(permits.leads(board, 7, 1), [])
        self.assertEqual(permits.paths(board, 1), [(1,), (1, 7)])


if __name__ == "__main__":
    unittest.main()
