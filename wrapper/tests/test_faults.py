"""What is said of a fault, and with which exit."""
import os
import random
import subprocess
import unittest

from common import PROGRAMS, TOP, Named, read, run, write

import faults
import grammar
import lines
from forms import USAGE


class Faults(Named):
    def told(self, words, status, sentence, given=b""):
        """Whether a call ends so, with this sentence alone on standard error and the program's own output, but for words
        with no form, for which it isn't run."""
        with self.subTest(words=words, sentence=sentence):
            found, out, said = self.call(*words, given=given)
            self.assertEqual((found, said), (status, sentence + "\n"))
            if status == USAGE:
                self.assertEqual(out, b"")
            elif "-" not in words:
                self.assertEqual((found, out), run([PROGRAMS[0], *words], self.folder))

    def of_file(self, name, data, words, status, sentence):
        write(f"{self.folder}/{name}", data)
        self.told(words, status, sentence)

    def test_words(self):
        forms = "./pmu --help has the forms"
        self.told(["relay", "a", "b"], 1, f"no form begins with 'relay' (did you mean 'replay'?): {forms}")
        self.told(["zzz"], 1, f"no form begins with 'zzz': {forms}")
        self.told(["print"], 1, "'print' takes OBJ, which is 1 word, and 0 are given")
        self.told(["replay", "a"], 1, "'replay' takes OBJ SCRIPT [TOPO], which is 2 or 3 words, and 1 is given")
        self.told(["isolate", "a", "b", "1", "2", "3"], 1, "'isolate' takes OBJ SCRIPT NODE [TOPO], which is 3 or 4 words, and 5 are given")
        self.told(["table", "a"], 1, "'table' takes no word after it, and 1 is given")

    def test_files_that_can_not_be_read(self):
        obj, script = "laboratory.obj", "sleep.script"
        self.told(["replay", obj, "sleep.scrpt"], 4, "no file sleep.scrpt (did you mean 'sleep.script'?)")
        self.told(["replay", "none", "nothing"], 4, "no file none")
        self.told(["print", "none/at/all"], 4, "no file none/at/all")
        self.told(["reach", "7", obj], 4, "no file 7: 'reach' takes OBJ NODE, in this order")
        self.told(["print", ""], 4, "no file ''")
        os.mkdir(f"{self.folder}/folder")
        self.told(["replay", "folder", script], 4, "folder is a folder, and no file")
        self.told(["replay", obj, "folder"], 4, "folder is a folder, and no file")
        self.told(["build", f"{obj}/x"], 4, f"no file {obj}/x")
        os.symlink("loop", f"{self.folder}/loop")
        self.told(["print", "loop"], 4, "loop can't be read: Too many levels of symbolic links")

    def test_objects(self):
        good = read(f"{TOP}/examples/laboratory.obj")

        def put(**words):
            data = bytearray(good)
            for place, word in words.items():
                place = int(place[1:])
                data[4 * place : 4 * place + 4] = word.to_bytes(4, "little")
            return bytes(data)

        cases = [
            (b"", "x is empty, and an object is wanted"),
            (good[:-1], f"x: its {len(good) - 1} bytes are no whole number of words of four bytes"),
            (good[:40], "x: it ends after 10 words, in the middle of a section or of the header"),
            (good + bytes(4), f"x: word {len(good) // 4}: the object has all its sections before it, and 1 word too many"),
            (good + bytes(17000), "x: it has more than 16384 bytes"),
            (put(w0=1), "x: word 0: the header says 1, and has at least 2 words after this one"),
            (put(w2=7), "x: word 2: the type of the object is 7, and only 1 is read"),
            (put(w3=0x99), "x: word 3: no such section: 0x99"),
            (put(w3=0x102), "x: word 3: the first section has to be that of the masters, with one master or more"),
            (put(w4=0), "x: word 4: the first section has to be that of the masters, with one master or more"),
            (put(w5=9), "x: word 5: node 9 is no master here (1, 6, 7 and 8 are, and 6 not beside 7 or 8)"),
            (put(w6=3), "x: word 6: the mask 0x3 isn't one bit that no earlier master has"),
            (b"fault text 15 2\n", "x has nothing but the fault line of an earlier run, 'fault text 15 2', and an object is wanted"),
            (
                b"".join(good[k : k + 4][::-1] for k in range(0, len(good), 4)),
                "x: word 0: the header says 33554432 words after it, and the file has 39 (its words have the most significant byte first, "
                "and an object's have it last)",
            ),
            (b"\x7fELF" + bytes(60), "x is an ELF file, and an object is wanted"),
            (b"const u32 XPm_ConfigObject[] = {\n", "x is a C file, and an object is wanted: ./pmu from-c x -o FILE makes its object"),
        ]
        for data, sentence in cases:
            self.of_file("x", data, ["print", "x"], 2, sentence)
        self.told(["replay", "laboratory.txt", "sleep.script"], 2, "laboratory.txt is the text of an object, and an object is wanted: ./pmu build laboratory.txt -o FILE makes its object")
        self.told(["replay", "sleep.script", "laboratory.obj"], 2, "sleep.script is a script, and an object is wanted; the object comes before the script")

    def test_scripts(self):
        first = b"ipi 1 21\n\n"
        cases = [
            (first + b"tick x\n", "s:3: a number is wanted in word 2, not 'x'"),
            (b"ipi APU 21\n", "s:1: a number is wanted in word 2, not 'APU'; ./pmu --names reads names"),
            (first + b"ipi 1 21 4294967296", "s:3: the number in word 4, 4294967296, doesn't fit 32 bits"),
            (b"boot 2 0x1FFFFFFFFFFFFFFFF\n", "s:1: the number in word 3, 0x1FFFFFFFFFFFFFFFF, doesn't fit 64 bits"),
            (b"boot 2 0X10\n", "s:1: a number is wanted in word 3, not '0X10'"),
            (b"ipi -1 3\n", "s:1: a number is wanted in word 2, not '-1'"),
            (b"Boot 2 0\n", "s:1: no line of a script begins with 'Boot' (did you mean 'boot'?)"),
            (b"set 2 0\n", "s:1: no line of a script begins with 'set'"),
            (b"boot 2\n", "s:1: 'boot' takes 2 words after it, and 1 is here"),
            (b"ipi 1\n", "s:1: 'ipi' takes 2 to 7 words after it, and 1 is here"),
            (b"wfi 2 3\n", "s:1: 'wfi' takes 1 word after it, and 2 are here"),
            (b"post 1\n", "s:1: 'post' takes 2 to 7 words after it, and 1 is here"),
            (b"serve 1\n", "s:1: 'serve' takes 0 words after it, and 1 is here"),
            (b"task 0 1\ntask 0\n", "s:2: 'task' takes 2 words after it, and 1 is here"),
            (b"cancel 0\ncancel 4294967296\n", "s:2: the number in word 2, 4294967296, doesn't fit 32 bits"),
            (b"tasks 0 1\n", "s:1: no line of a script begins with 'tasks' (did you mean 'task'?)"),
            (b"# " + b"x" * 254 + b"\n", "s:1: the line has 256 bytes, and the most is 255"),
            ("tick 1 # ö\n".encode(), "s:1: byte 10 of the line is 0xC3, and only tabs and printable ASCII are read"),
            (b"tick 1\r\r\n", "s:1: byte 7 of the line is 0x0D, and only tabs and printable ASCII are read"),
            (b"tick 1\0\n", "s:1: byte 7 of the line is 0x00, and only tabs and printable ASCII are read"),
            (b"\xef\xbb\xbftick 1\n", "s:1: the file begins with a byte order mark, and only ASCII is read"),
            (b"header\nsection masters\n", "s is the text of an object, and a script is wanted"),
        ]
        for data, sentence in cases:
            self.of_file("s", data, ["replay", "laboratory.obj", "s"], 3, sentence)
            self.of_file("s", data, ["isolate", "two-masters.obj", "s", "7"], 3, sentence)
        self.told(["replay", "laboratory.obj", "two-masters.obj"], 3, "two-masters.obj is an object, and a script is wanted; the object comes before the script")

    def test_exits_that_take_long_or_are_none(self):
        for status, said in ((7, "s: the script has more than 67108864 bytes"), (6, "there isn't enough memory"), (86, "the program ended with 86, which is none of its exits")):
            write(f"{self.folder}/program", f"#!/bin/sh\nexit {status}\n", 0o755)
            self.environment["PMU_PROGRAM"] = f"{self.folder}/program"
            self.assertEqual(self.call("replay", "laboratory.obj", "s"), (status, b"", said + "\n"))

    def test_a_fault_that_can_not_be_told_keeps_its_exit(self):
        found, faults.sentence = faults.sentence, lambda *_: 1 // 0
        try:
            self.assertEqual(faults.told("x", [], [], 3, None), "the program ended with 3, and why can't be told")
        finally:
            faults.sentence = found

    def test_texts(self):
        head = b"header\nsection masters\nmaster 1 1 0 0 0\n"
        cases = [
            (head + b"slave 33 0 1\n", "t:4: the line is out of place: 'slave' stands in the section slaves, and this is in the section masters"),
            (b"section masters\n", "t:1: the line is out of place: a header line comes first"),
            (b"header\nmaster 1 1 0 0 0\n", "t:2: the line is out of place: 'master' stands in the section masters, and this is before the first section"),
            (head + b"header\n", "t:4: the line is out of place: a header line stands at the head, and a further one only after one of 16 words"),
            (head + b"section prealloc\nprefer 33 0 0 0\n", "t:5: the line is out of place: 'prefer' stands after a 'group'"),
            (head + b"section gpo\nsection config\n", "t:5: the line is out of place: the section gpo of line 4 has no record yet"),
            (head + b"section gpo\n", "t:5 (its end): the line is out of place: the section gpo of line 4 has no record yet"),
            (head + b"section gpo\ngpo 1\ngpo 1\n", "t:6: the line is out of place: the section gpo has its one record already"),
            (head + b"section slaves\nslave 33 0 1\n\nslave 0x21 0 1\n", "t:7: 'slave 0x21' came before, in line 5"),
            (head + b"section masters\n", "t:4: 'section masters' came before, in line 2"),
            (head + b"master 9 2 0 0 0\n", "t:4: node 9 is no master: 1, 6, 7 and 8 are"),
            (head + b"master 7 2 0 0 0\nmaster 6 4 0 0 0\n", "t:5: master 6 can't stand beside master 7"),
            (head + b"master 7 1 0 0 0\n", "t:4: the mask 0x1 of master 7 isn't one bit that no earlier master has"),
            (b"header\nsection slaves\n", "t:2: the first section has to be that of the masters"),
            (b"header\nsection masters\nsection slaves\n", "t:3: the section masters of line 2 has no master"),
            (b"header\nsection masters\n", "t:3 (its end): the section masters of line 2 has no master"),
            (b"header\n", "t:2 (its end): the text has no section of masters"),
            (b"# nothing\n", "t:2 (its end): the text has no header"),
            (b"", "t is empty, and the text of an object is wanted"),
            (head + b"section power\n" + b"".join(b"power %d 1\n" % k for k in range(2100)), "t:2047: the object has more than 4096 words by this line"),
            (b"headr\n", "t:1: no line of an object's text begins with 'headr' (did you mean 'header'?)"),
            (b"header\nsection master\n", "t:2: no section is named 'master' (did you mean 'masters'?)"),
            (head + b"section slaves\nslave 33 1\n", "t:5: 'slave' takes 3 words after it, and 2 are here"),
            (head + b"section slaves\nslave UART_0 0 1\n", "t:5: a number is wanted in word 2, not 'UART_0'; ./pmu --names reads names"),
            (b"\n" * 1048577, "t: the text has more than 1048576 bytes"),
        ]
        for data, sentence in cases:
            self.of_file("t", data, ["build", "t"], 8, sentence)
        self.told(["build", "laboratory.obj"], 8, "laboratory.obj is an object, and the text of an object is wanted: ./pmu print laboratory.obj writes its text")
        self.told(["make", "0"], 8, "'0' is no number of lines: 1 to 200000 are")
        self.told(["make", "x"], 8, "'x' is no number of lines: 1 to 200000 are")
        self.told(["build", "sleep.script"], 8, "sleep.script is a script, and the text of an object is wanted")

    def test_nodes(self):
        self.told(["reach", "two-masters.obj", "9"], 8, "node 9 is no master of two-masters.obj (it has 1 and 7)")
        self.told(["reach", "two-masters.obj", "APU"], 8, "'APU' is no number of a master of two-masters.obj (it has 1 and 7); ./pmu --names reads names")
        self.told(["isolate", "two-masters.obj", "sleep.script", "0x8"], 8, "node 8 is no master of two-masters.obj (it has 1 and 7)")
        self.told(["reach", "two-masters.obj", "4294967297"], 8, "'4294967297' is no number of a master of two-masters.obj (it has 1 and 7)")

    def test_outputs(self):
        how = {"cwd": self.folder, "env": self.environment, "stdin": subprocess.DEVNULL, "stderr": subprocess.PIPE}
        with open("/dev/full", "wb") as full:
            ran = subprocess.run([f"{self.top}/pmu", "print", "laboratory.obj"], stdout=full, **how)
        self.assertEqual((ran.returncode, ran.stderr), (5, b"standard output can't be written: No space left on device\n"))
        gone, end = os.pipe()
        os.close(gone)
        ran = subprocess.run([f"{self.top}/pmu", "print", "laboratory.obj"], stdout=end, **how)
        os.close(end)
        self.assertEqual((ran.returncode, ran.stderr), (5, b""))
        ran = subprocess.run(["sh", "-c", f"{self.top}/pmu print laboratory.obj >&-"], **how)
        self.assertEqual((ran.returncode, ran.stderr), (5, b"standard output can't be written: Bad file descriptor\n"))

    def test_standard_input(self):
        self.told(["build", "-"], 8, "standard input:1: no line of an object's text begins with 'x'", given=b"x\n")
        self.told(["replay", "laboratory.obj", "-"], 3, "standard input:2: a number is wanted in word 2, not 'y'", given=b"\ntick y\n")
        self.told(["print", "-"], 2, "standard input is empty, and an object is wanted")

    def test_standard_input_that_is_a_file(self):
        write(f"{self.folder}/t", "header\nslaves\n")
        with open(f"{self.folder}/t", "rb") as file:
            ran = subprocess.run([f"{self.top}/pmu", "build", "/dev/stdin"], cwd=self.folder, env=self.environment, stdin=file, capture_output=True)
        said = b"standard input:2: no line of an object's text begins with 'slaves' (did you mean 'slave'?)\n"
        self.assertEqual((ran.returncode, ran.stderr), (8, said))

    def test_names_that_a_terminal_would_act_on(self):
        self.told(["build", "a\n\x1b[1mb"], 4, r"no file a\n\x1b[1mb")
        self.told(["re\nach", "x", "1"], 1, r"no form begins with 're\nach' (did you mean 'reach'?): ./pmu --help has the forms")
        self.told(["reach", "two-masters.obj", "1\n"], 8, r"'1\n' is no number of a master of two-masters.obj (it has 1 and 7)")
        self.told(["build", b"\xff.txt"], 1, r"the program reads no word that isn't UTF-8: \xff.txt")

    def test_the_bad_line_is_the_program_s(self):
        """The line and the cause that are looked for are those of the fault line."""
        dice = random.Random(31)
        words = [word.encode() for word in grammar.SCRIPT]
        numbers = [b"1", b"0x1F", b"007", b"4294967295", b"4294967296", b"0x", b"0xfffffffff", b"#", b"#x", b"x"]
        pieces = [*words, *numbers, b"\t", b"", b"\r", b"\xff", b"a" * 250]
        scripts = [word + b" 1" * k for word in (*words, b"x") for k in range(10)]
        begun = (b"ipi 1 %s", b"post 1 %s", b"boot %s 1", b"boot 1 %s", b"tick %s")
        scripts += [line % number for line in begun for number in numbers]
        for _ in range(60):
            parts = [dice.choice(pieces) + dice.choice([b" ", b" ", b"\t", b"\n", b""]) for _ in range(dice.randint(1, 12))]
            scripts.append(b"".join(parts))
        for bad in scripts:
            write(f"{self.folder}/s", bad)
            status, out = run([PROGRAMS[0], "replay", "two-masters.obj", "s"], self.folder)
            found = lines.first_fault(bad)
            self.assertEqual(status, 3 if found else 0, bad)
            if found:
                self.assertEqual(out.splitlines()[-1], b"fault line %d %d" % found[:2], bad)

    def test_each_sentence_is_one_line(self):
        """Objects and texts with a changed byte or line: each fault is told in one line that names the file."""
        dice = random.Random(32)
        good, text = read(f"{TOP}/examples/laboratory.obj"), read(f"{TOP}/examples/laboratory.txt").splitlines(True)
        for _ in range(25):
            data, told = bytearray(good), [*text]
            data[dice.randrange(len(good))] = dice.randrange(256)
            place = dice.randrange(len(text))
            told[place] = dice.choice([b"", told[place] + told[place], told[place].replace(b" ", b" x", 1), told[dice.randrange(len(text))]])
            write(f"{self.folder}/x", bytes(data))
            write(f"{self.folder}/t", b"".join(told))
            for words in (["print", "x"], ["build", "t"]):
                status, out, said = self.call(*words)
                self.assertEqual((status, out), run([PROGRAMS[0], *words], self.folder))
                wanted = rf"\A{words[1]}[: ][^\n]+\n\Z" if status else r"\A\Z"
                self.assertRegex(said, wanted)


if __name__ == "__main__":
    unittest.main()
