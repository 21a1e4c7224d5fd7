"""`-` and `-o FILE` of a view."""

import os
import stat
import subprocess
import sys
import unittest

from common import VIEWS, Case, example, program, view
from forms import BROKEN, FOUND


def view_of_input(given, *words):
    ended = subprocess.run([sys.executable, os.path.join(VIEWS, "main.py"), *words], input=given, capture_output=True, check=False)
    return ended.returncode, ended.stdout, ended.stderr


def read(path):
    with open(path, "rb") as file:
        return file.read()


class Files(Case):
    def path(self, name):
        return os.path.join(self._room.name, name)

    def test_the_output_goes_to_the_file(self):
        path = self.file("made", "old")
        os.chmod(path, 0o640)
        for words in (["--numbers", example("port.names")], ["--names", "build", example("two-masters.txt")]):
            self.assertEqual(view(*words, "-o", path), (0, b"", b""))
            self.assertEqual(read(path), self.written(*words))
        self.assertEqual(read(path), read(example("two-masters.obj")))
        self.assertEqual(stat.S_IMODE(os.stat(path).st_mode), 0o640)
        self.assertEqual(os.listdir(self._room.name), ["made"])

    def test_a_file_stays_as_it_was_where_the_view_or_the_program_fails(self):
        path, bad = self.file("made", "old"), self.file("bad.txt", "header\nslave 1 2 3\n")
        said = f"{bad}:2: the line is out of place: 'slave' stands in the section slaves, and this is before the first section\n"
        self.assertEqual(view("--names", "build", bad, "-o", path), (8, program("build", bad)[1], said.encode()))
        self.assertIn("no node", self.refused("--numbers", self.file("wrong", "wfi APU_9"), "-o", path))
        self.assertEqual(read(path), b"old")
        self.assertEqual(sorted(os.listdir(self._room.name)), ["bad.txt", "made", "wrong"])

    def test_a_file_that_cannot_be_written(self):
        for name in (self.path("none/made"), self._room.name, self.path("none/"), "/dev/full"):
            for words in (["--numbers", example("port.names")], ["from-c", example("pm_cfg_obj.c")]):
                status, output, errors = view(*words, "-o", name)
                self.assertEqual((status, output, len(errors.splitlines())), (5, b"", 1), errors)
                self.assertIn(name.encode(), errors)
        self.assertEqual(os.listdir(self._room.name), [])

    def test_a_device_or_a_pipe_stays_what_it_is(self):
        pipe, wanted = self.path("pipe"), self.written("--numbers", example("port.names"))
        os.mkfifo(pipe)
        reader = os.open(pipe, os.O_RDONLY | os.O_NONBLOCK)
        self.addCleanup(os.close, reader)
        self.assertEqual(view("--numbers", example("port.names"), "-o", pipe), (0, b"", b""))
        self.assertEqual((os.read(reader, 1 << 16), stat.S_ISFIFO(os.stat(pipe).st_mode)), (wanted, True))

    def test_the_object_of_a_c_file_stays_where_it_cannot_be_written(self):
        path = self.file("made", "old")
        limited = ["sh", "-c", 'ulimit -f 0; exec "$@"', "sh", sys.executable, os.path.join(VIEWS, "main.py")]
        ended = subprocess.run([*limited, "from-c", example("pm_cfg_obj.c"), "-o", path], capture_output=True, check=False)
        self.assertEqual((ended.returncode, ended.stderr), (5, f"{path} can't be written: File too large\n".encode()))
        self.assertEqual((read(path), os.listdir(self._room.name)), (b"old", ["made"]))

    def test_a_fault_of_the_program_is_told_by_the_names_that_the_caller_gave(self):
        text, obj, script = self.file("t", "header\nslaves\n"), example("laboratory.obj"), example("sleep.script")
        cases = [
            (["--vcd", "replay", obj, self.file("s", "tick 4294967296\n")], 3, self.path("s:1: the number in word 2, 4294967296, doesn't fit 32 bits")),
            (["--names", "build", text], 8, f"{text}:2: no line of an object's text begins with 'slaves' (did you mean 'slave'?)"),
            (["--names", "replay", obj, self.file("w", "wait 1\n")], 3, self.path("w:1: no line of a script begins with 'wait'")),
            (["--names", "print", self.path("none")], 4, f"no file {self.path('none')}"),
            (["--dot", "reach", obj, "9"], 8, f"node 9 is no master of {obj} (it has 1 and 7)"),
            (["diff", obj, script, "RPU_1"], 8, f"node 8 is no master of {obj} (it has 1 and 7)"),
            (["policy", text, example("apart.policy")], 2, f"{text} is the text of an object, and an object is wanted: ./pmu build {text} -o FILE makes its object"),
        ]
        for words, status, sentence in cases:
            ended = view(*words)
            self.assertEqual((ended[0], ended[2]), (status, sentence.encode() + b"\n"))
            self.assertRegex(ended[1], rb"\A([a-z0-9 \n]*fault [a-z0-9 ]+\n)?\Z" if words[0] == "--names" else rb"\A\Z")
        ended = view_of_input(b"\nirq 1 2\n", "--names", "replay", obj, "-")
        self.assertEqual((ended[0], ended[2]), (3, b"standard input:2: 'irq' takes 1 word after it, and 2 are here\n"))

    def test_standard_input_is_a_file(self):
        script = read(example("port.names"))
        for words in (["--numbers", "-"], ["--names", "replay", example("two-masters.obj"), "-"]):
            wanted = self.written(*[example("port.names") if word == "-" else word for word in words])
            self.assertEqual(view_of_input(script, *words), (0, wanted, b""))
        wanted = self.written("--vcd", "replay", example("laboratory.obj"), example("sleep.script"))
        words = ["--vcd", "replay", "-", example("sleep.script")]
        self.assertEqual(view_of_input(read(example("laboratory.obj")), *words), (0, wanted, b""))

    def test_each_view_has_an_output(self):
        path, lint = self.path("made"), self.written("lint", example("laboratory.obj"))
        self.assertEqual(view("lint", example("laboratory.obj"), "-o", path), (0, b"", b""))
        self.assertEqual(read(path), lint)
        script = self.file("script", "wfi 99\n")
        self.assertEqual(view("lint", example("laboratory.obj"), script, "--strict", "-o", path), (FOUND, b"", b""))
        self.assertEqual(read(path), lint + f"{script}:1: wfi 99: it does nothing: the chip has no node 99 [no-effect]\n".encode())
        rules = self.file("rules", "never APU slave UART_0\n")
        broken = view("policy", example("laboratory.obj"), rules)
        self.assertEqual(broken[0], BROKEN)
        self.assertEqual(view("policy", "-o", path, example("laboratory.obj"), rules), (BROKEN, b"", broken[2]))
        self.assertEqual(read(path), broken[1])
        words = ["diff", example("laboratory.obj"), example("denied.script"), "APU"]
        self.assertEqual(view(*words, "-o", path), (0, b"", b""))
        self.assertIn(b"DENIED", read(path))

    def test_an_output_that_is_no_file(self):
        pipe = self.path("pipe")
        os.mkfifo(pipe)
        with open(os.open(pipe, os.O_RDWR), "rb", buffering=0) as kept:
            self.assertEqual(view("--numbers", example("port.names"), "-o", pipe), (0, b"", b""))
            self.assertEqual(kept.read(4096), self.written("--numbers", example("port.names")))
        self.assertTrue(stat.S_ISFIFO(os.stat(pipe).st_mode))
        # (the file of -o isn't standard input)
        words = ["from-c", example("pm_cfg_obj.c"), "-o", "-"]
        refused = b"pmu: standard output is written without -o (a file of that name is ./-)\n"
        self.assertEqual(view_of_input(b"x", *words), (125, b"", refused))
        words = [sys.executable, os.path.join(VIEWS, "main.py"), *words[:-1], "./-"]
        self.assertEqual(subprocess.run(words, cwd=self._room.name, input=b"x", check=False).returncode, 0)
        self.assertEqual(read(self.path("-")), read(example("pm_cfg_obj.obj")))

    def test_standard_input_has_a_name(self):
        obj, script = example("pm_cfg_obj.obj"), b"ipi APU INIT_FINALIZE\nwfi APU_9\n"
        named = view_of_input(read(obj), "lint", "-")
        self.assertEqual(named[0], 0)
        self.assertEqual(named[1].replace(b"standard input:", obj.encode() + b":"), self.written("lint", obj))
        faults = [
            (b"slave 1", ["lint", "-"], b"pmu: standard input: "),
            (script, ["--numbers", "-"], b"pmu: standard input:2: "),
            (script, ["--names", "replay", example("laboratory.obj"), "-"], b"pmu: standard input:2: "),
            (b"int x;\n", ["from-c", "-", "-o", self.path("made")], b"pmu: standard input:1: "),
            (b"never APU\n", ["policy", example("laboratory.obj"), "-"], b"pmu: standard input:1: "),
            (b"ipi 1 21\nwhat\n", ["diff", example("laboratory.obj"), "-", "1"], b"standard input:2: "),
        ]
        for given, words, begin in faults:
            errors = view_of_input(given, *words)[2]
            self.assertEqual((len(errors.splitlines()), errors[: len(begin)]), (1, begin), (words, errors))

    def test_bad_use(self):
        self.assertIn("-o is the last word", self.refused("--numbers", example("port.names"), "-o"))
        self.assertIn("-o is given more than once", self.refused("--numbers", example("port.names"), "-o", "a", "-o", "b"))
        for words in (["--numbers", example("port.names")], ["from-c", example("pm_cfg_obj.c")]):
            self.assertIn("standard output is written without -o", self.refused(*words, "-o", "-"))
        self.assertIn("is an object, and a script", self.refused("--numbers", example("laboratory.obj")))
        self.assertIn("only one of the files", self.refused("--names", "replay", "-", "-"))
        self.assertIn("no such view", self.refused("--name", "print"))
        self.assertIn("no such view", self.refused())

    def test_an_output_that_nobody_takes(self):
        words = [sys.executable, os.path.join(VIEWS, "main.py"), "--names", "print", example("laboratory.obj")]
        with open("/dev/full", "wb") as full:
            ended = subprocess.run(words, stdout=full, stderr=subprocess.PIPE, check=False)
        self.assertEqual((ended.returncode, ended.stderr), (5, b"standard output can't be written: No space left on device\n"))
        ended = subprocess.run(words, preexec_fn=lambda: os.close(1), stderr=subprocess.PIPE, check=False)
        self.assertEqual((ended.returncode, ended.stderr), (5, b"standard output can't be written: Bad file descriptor\n"))


if __name__ == "__main__":
    unittest.main()
