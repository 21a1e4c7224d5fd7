"""Objects are read and written as the program reads and writes them."""

import glob
import os
import random
import unittest

import grammar
import objects
import program as programs
from common import TOP, Case, examples, program


def text_of(found):
    """The text of an object, as the program prints it, without its header."""
    lines = []
    for section in found.sections:
        lines.append("section " + grammar.SECTIONS[section.identifier].name)
        lines += map(str, section.records)
    return lines


class Objects(Case):
    def test_each_example_is_what_the_program_prints(self):
        for path in examples(".obj"):
            with self.subTest(os.path.basename(path)):
                status, printed, _ = program("print", path)
                self.assertEqual(status, 0)
                self.assertEqual(text_of(objects.load(path)), printed.decode().splitlines()[1:])

    def test_each_example_is_written_as_it_was(self):
        for path in examples(".obj"):
            with self.subTest(os.path.basename(path)):
                data = programs.read_file(path)
                self.assertEqual(objects.encode(objects.decode(data)), data)

    def test_a_record_is_at_its_place(self):
        for path in examples(".obj"):
            data = programs.read_file(path)
            records = [record for section in objects.decode(data).sections for record in section.records]
            self.assertGreater(len(records), 3)
            for record in records:
                begin = objects.to_bytes(record.words)
                self.assertEqual(data[record.offset : record.offset + len(begin)], begin, (path, record))

    def test_the_words_of_a_record_have_names(self):
        found = objects.decode(programs.read_file(examples("laboratory.obj")[0]))
        master = found.records("master")[1]
        self.assertEqual((master.node, master.mask, master.timeout, master.offset), (7, 0x100, 100, 40))
        self.assertEqual(str(found.records("power")[0]), "power 10 256")
        with self.assertRaises(AttributeError):
            _ = master.flags

    def test_extra_words_of_the_header_and_groups_stay(self):
        words = [4, 2, 1, 9, 8, 0x101, 1, 1, 1, 100, 0, 0, 0x103, 2, 1, 1, 33, 2, 1, 1, 1, 0]
        found = objects.decode(objects.to_bytes(words))
        self.assertEqual(found.extra, (9, 8))
        self.assertEqual([(group.mask, len(records)) for group, records in found.groups()], [(1, 1), (1, 0)])
        self.assertEqual(objects.encode(found), objects.to_bytes(words))

    def fault_of(self, data):
        """The fault line of these bytes, or none."""
        try:
            objects.decode(data)
        except objects.Fault as fault:
            self.assertTrue(str(fault).endswith(f" (fault object {fault.cause} {fault.place})"), fault)
            return f"fault object {fault.cause} {fault.place}\n"
        return ""

    def test_each_fault_is_that_of_the_program(self):
        good = [2, 1, 1, 0x101, 1, 1, 1, 100, 0, 0]
        faults = {
            "1 0": b"abc",
            "1 10": objects.to_bytes(good) + b"a",
            "2 4096": bytes(16385),
            "3 0": b"",
            "3 9": objects.to_bytes(good[:-1]),
            "3 2": objects.to_bytes([5, 1]),
            "4 0": objects.to_bytes([1, 1, 1, 0x101]),
            "5 2": objects.to_bytes([2, 0, 2]),
            "6 3": objects.to_bytes([2, 1, 1, 0x109]),
            "6 10": objects.to_bytes([2, 2, *good[2:], 0]),
            "7 10": objects.to_bytes([2, 2, *good[2:], 0x101]),
            "8 3": objects.to_bytes([2, 1, 1, 0x102]),
            "8 4": objects.to_bytes([2, 1, 1, 0x101, 0]),
            "8 5": objects.to_bytes([4, 0, 1, 0, 0]),
            "9 5": objects.to_bytes([2, 1, 1, 0x101, 1, 2]),
            "9 10": objects.to_bytes([2, 1, 1, 0x101, 2, 7, 1, 0, 0, 0, 6]),
            "9 11": objects.to_bytes([3, 1, 1, 0, 0x101, 2, 6, 1, 0, 0, 0, 8]),
            "10 6": objects.to_bytes([2, 1, 1, 0x101, 1, 1, 0]),
            "10 11": objects.to_bytes([2, 1, 1, 0x101, 2, 1, 4, 0, 0, 0, 7, 4]),
            "11 10": objects.to_bytes([2, 1, 1, 0x101, 2, 1, 4, 0, 0, 0, 1]),
            "11 14": objects.to_bytes([2, 2, *good[2:], 0x104, 2, 9, 1, 9]),
            "11 18": objects.to_bytes([2, 2, *good[2:], 0x103, 1, 1, 2, 33, 0, 0, 0, 33]),
            "12 10": objects.to_bytes([*good, 0]),
        }
        self.assertEqual({fault.split()[0] for fault in faults}, set(map(str, range(1, 13))))
        for fault, data in faults.items():
            with self.subTest(fault):
                self.assertEqual(self.fault_of(data), f"fault object {fault}\n")
                path = self.file("bad.obj", data)
                self.assertEqual(program("print", path)[:2], (2, f"fault object {fault}\n".encode()))
                # (one sentence for one fault, but where the file looks like another kind of file)
                with self.assertRaises(programs.Failed) as failed:
                    programs.run(["print", path])
                with self.assertRaises(programs.BadUse) as ours:
                    objects.read(path)
                said = str(ours.exception).replace(f" (fault object {fault})", "")
                if " is wanted" not in failed.exception.sentence and "no object" not in said:
                    self.assertEqual(failed.exception.sentence, said)

    def test_the_faults_of_the_cases_and_of_objects_that_are_changed_by_chance(self):
        paths = sorted(glob.glob(os.path.join(TOP, "cases", "object_*", "obj"))) + examples(".obj")
        self.assertGreater(len(paths), 8)
        chance = random.Random(5)
        for path in paths:
            data = programs.read_file(path)
            words = [data[k : k + 4] for k in range(0, len(data), 4)]
            for place in [None, *(chance.randrange(len(words)) for _ in range(min(len(words), 6)))]:
                changed = list(words)
                if place is not None:
                    changed[place] = objects.to_bytes([chance.choice([0, 1, 2, 6, 7, 8, 0x101, 0x104, 0x200, 0xFFFFFFFF])])
                status, output, _ = program("print", self.file("made.obj", b"".join(changed)))
                fault = self.fault_of(b"".join(changed))
                self.assertEqual((fault, status), (output.decode() if status else "", 2 if fault else 0), (path, place))

    def test_a_file_that_the_program_refuses_is_handed_on(self):
        path = self.file("bad.obj", objects.to_bytes([2, 1, 1, 0x101, 1, 1, 3, 100, 0, 0]))
        with self.assertRaises(programs.Failed) as caught:
            objects.load(path)
        self.assertEqual((caught.exception.output, caught.exception.status), (b"fault object 10 6\n", 2))


if __name__ == "__main__":
    unittest.main()
