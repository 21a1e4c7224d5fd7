"""`policy --repair`: the fewest records to change, by trying all fewer ones."""

import itertools
import random
import unittest

import chip as chips
import objects
import permits
import repair
from common import Case, board_of, example, program, view
from forms import BROKEN
from repair import Question

# Objects in which few records permit much, so that all sets of these can be tried.
NODES = ([1, 7, 8], [7, 1], [1, 8, 7])


def random_object(chance):
    """An object by chance in which a few records permit something."""
    nodes = chance.choice(NODES)
    masters = [[node, 1 << place, 100, chance.choice([0, 0, 2, 4]), chance.choice([0, 0, 1, 6])] for place, node in enumerate(nodes)]
    slaves = [[slave, 1, chance.choice([0, 1, 2, 4, 6])] for slave in chance.sample([15, 28, 33, 34], 3)]
    power = [[node, chance.choice([0, 1, 2, 4])] for node in chance.sample([1, 6, 10, 7], 2)]
    reset = [[line, chance.choice([0, 1, 2, 5])] for line in chance.sample([1034, 1054, 1113, 1071], 2)]
    words = [2, 5, 1]
    for identifier, records in ((0x101, masters), (0x102, slaves), (0x104, power), (0x105, reset)):
        words += [identifier, len(records), *(word for record in records for word in record)]
    found = objects.decode(objects.to_bytes(words + [0x107, chance.choice([0, 0, 1, 2]), 0]))
    return chips.Board(found, chips.read(chips.PUBLISHED))


def random_questions(chance, board):
    """What must not be in which reach, by chance: nothing that a master has without any record."""
    masters = list(permits.masters(board))
    found = [Question(*pair) for pair in ((a, "master", b) for a in masters for b in masters if a != b)]
    found += [Question(a, "slave", slave) for a in masters for slave in (15, 28, 33, 34)]
    return chance.sample(found, 3)


def without(board, offsets):
    """An object in which some records permit nothing."""
    bits = sum(record.mask for record in permits.masters(board).values())
    records = {}
    for record in (record for section in board.found.sections for record in section.records if record.offset in offsets):
        for word in repair.WORDS[record.kind]:
            record = repair.with_word(record, word, getattr(record, word) & ~bits)
        records[record.offset] = record
    return repair.with_records(board.found, records)


def is_enough(board, offsets, questions):
    """Whether all rules hold if some records permit nothing, by the reaches themselves."""
    other = chips.Board(without(board, offsets), board.chip)
    reaches = {master: {(it.kind, it.number) for it in permits.reach(other, master)} for master in permits.masters(other)}
    return all((asked.kind, asked.unit) not in reaches[asked.master] for asked in questions)


class Repair(Case):
    def test_no_fewer_records_are_enough(self):
        chance, counts = random.Random(71), []
        for _ in range(25):
            board = random_object(chance)
            questions = random_questions(chance, board)
            found = repair.fewest(board, questions)
            self.assertIsNotNone(found)
            self.assertTrue(is_enough(board, found, questions), (board.found, questions, found))
            kinds = repair.WORDS
            records = [it for section in board.found.sections for it in section.records if it.kind in kinds and any(getattr(it, word) for word in kinds[it.kind])]
            fewer = itertools.combinations([it.offset for it in records], max(len(found) - 1, 0))
            if found:
                self.assertFalse([some for some in fewer if repair.holds(board, without(board, some), questions)], (board.found, questions, found))
            counts.append(len(found))
        self.assertGreaterEqual(len(set(counts)), 3, counts)

    def test_each_record_keeps_all_that_it_may(self):
        chance = random.Random(17)
        for _ in range(10):
            board = random_object(chance)
            questions = random_questions(chance, board)
            records = repair.mended(board, questions, repair.fewest(board, questions))
            self.assertTrue(repair.holds(board, repair.with_records(board.found, records), questions))
            old = {record.offset: record for section in board.found.sections for record in section.records}
            for offset, record in records.items():
                for word in repair.WORDS[record.kind]:
                    gone = getattr(old[offset], word) & ~getattr(record, word)
                    for bit in (1 << place for place in range(3) if gone >> place & 1):
                        more = repair.with_word(record, word, getattr(record, word) | bit)
                        other = repair.with_records(board.found, {**records, offset: more})
                        self.assertFalse(repair.holds(board, other, questions), (record, word, bit))

    def test_the_text_that_is_told_makes_an_object_that_keeps_the_rules(self):
        path, rules = example("pm_cfg_obj.obj"), example("apart.policy")
        status, output, _ = view("policy", "--repair", path, rules)
        lines = output.decode().splitlines()
        self.assertEqual((status, lines[0]), (BROKEN, "the fewest records to change so that all rules hold: 10"))
        changes = dict(zip(lines[1::2], lines[2::2]))
        self.assertEqual(changes["- reset 1054 257  # word 396"], "+ reset 1054 256  # mask without APU")
        texts = {before[2:].split("  #")[0]: after[2:].split("  #")[0] for before, after in changes.items()}
        text = program("print", path)[1].decode().splitlines()
        self.assertEqual(set(texts) - set(text), set())
        changed = self.file("changed.txt", "".join(texts.get(line, line) + "\n" for line in text))
        self.assertEqual(view("policy", self.file("changed.obj", program("build", changed)[1]), rules)[0], 0)

    def test_what_keeps_its_rules_wants_no_change(self):
        path = self.file("one.obj", program("build", example("two-masters.txt"))[1])
        rules = self.file("rules", "never RPU_0 slave UART_0\n")
        self.assertEqual(self.text("policy", "--repair", path, rules), "the fewest records to change so that all rules hold: 0\n")

    def test_what_no_change_of_records_takes_away(self):
        rules = self.file("rules", "never APU power FPD\nnever RPU_0 slave SATA\n")
        status, output, _ = view("policy", "--repair", example("laboratory.obj"), rules)
        self.assertEqual((status, output), (BROKEN, b"no change of records takes power FPD out of the reach of APU\n"))

    def test_a_force_ends_too_if_the_other_master_may_use_nothing_below(self):
        text = "header\nsection masters\nmaster 1 1 9 0 0\nmaster 7 2 9 0 0\nsection slaves\nslave 28 0 2\nsection power\npower 10 1\n"
        board = board_of(self.file("force.obj", program("build", self.file("force.txt", text))[1]))
        rules = [Question(1, "master", 7), Question(7, "slave", 28)]
        self.assertEqual(len(repair.fewest(board, rules)), 1)
        self.assertEqual([str(it) for it in repair.mended(board, rules, repair.fewest(board, rules)).values()], ["slave 28 0 0"])

    def test_fewer_records_of_slaves_are_taken(self):
        text = "header\nsection masters\nmaster 1 1 9 2 0\nmaster 7 2 9 0 0\nsection slaves\nslave 28 0 2\n"
        board = board_of(self.file("word.obj", program("build", self.file("word.txt", text))[1]))
        rules = [Question(1, "slave", 28)]
        self.assertEqual([str(it) for it in repair.mended(board, rules, repair.fewest(board, rules)).values()], ["master 1 1 9 0 0"])



if __name__ == "__main__":
    unittest.main()
