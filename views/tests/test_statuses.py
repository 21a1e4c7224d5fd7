"""The exits of the views: the program's own, those of what was found, and 125 for all else."""

import ast
import glob
import os
import shutil
import subprocess
import sys
import unittest
import unittest.mock

import files
import forms
import lines
import main
import oldest
from common import JUDGED, VIEWS, Case, example, program, run, view

LABORATORY = example("laboratory.obj")

# Each view with words that it can do: the files among them are the places of an object, a script, rules or a text.
WORKING = [
    ["--names", "replay", LABORATORY, example("sleep.script")],
    ["--names", "reach", LABORATORY, "RPU_0"],
    ["--names", "isolate", LABORATORY, example("denied.script"), "APU"],
    ["--names", "print", LABORATORY],
    ["--names", "build", example("two-masters.txt")],
    ["--numbers", example("port.names")],
    ["--vcd", "replay", LABORATORY, example("sleep.script")],
    ["--dot", "reach", LABORATORY, "RPU_0"],
    ["lint", LABORATORY],
    ["policy", example("pm_cfg_obj.obj"), example("apart.policy")],
    ["diff", LABORATORY, example("denied.script"), "APU"],
]


def python_of(minor):
    """A Python 3 of this minor version that runs here, or None."""
    found = [shutil.which(f"python3.{minor}"), *sorted(glob.glob(os.path.expanduser(f"~/.pyenv/versions/3.{minor}.*/bin/python3")))]
    return next((path for path in found if path and run([path, "-c", ""])[0] == 0), None)


def old_python():
    """A Python that is older than the oldest one that serves, or None."""
    return next(filter(None, map(python_of, range(oldest.OLDEST[1] - 1, 5, -1))), None)


def besides_judged(errors):
    """The lines of standard error, but for the one that says over which topology an object is judged."""
    return [line.decode() for line in errors.splitlines() if not line.startswith(JUDGED)]


class Statuses(Case):
    def ended(self, *words):
        """The exit of a view, which writes one line to standard error and nothing to standard output."""
        status, output, errors = view(*words)
        self.assertEqual((output, len(errors.splitlines())), (b"", 1), (words, errors))
        return status, errors.decode().rstrip("\n")

    def test_the_exits_are_apart(self):
        program_s = [forms.USAGE, forms.BAD_OBJECT, forms.BAD_LINE, forms.UNREADABLE, forms.UNWRITABLE, forms.NO_MEMORY, forms.TOO_LARGE, forms.BAD_TEXT]
        self.assertEqual(program_s, list(range(1, 9)))
        self.assertEqual((forms.BROKEN, forms.FOUND, forms.NOT_JUDGED, forms.NOT_RUN), (101, 102, 103, 125))
        self.assertTrue({0, 101, 102, 103} <= set(forms.DONE))
        self.assertNotIn(forms.NOT_RUN, forms.DONE)

    def test_a_file_that_is_not_there_is_4_everywhere(self):
        none = os.path.join(self._room.name, "none")
        for words in WORKING:
            for place in range(1, len(words)):
                if os.path.exists(words[place]):
                    changed = [*words[:place], none, *words[place + 1 :]]
                    with self.subTest(changed):
                        status, output, errors = view(*changed)
                        self.assertEqual((status, besides_judged(errors)), (4, [f"no file {none}"]))
                        self.assertIn(output, (b"", b"fault read\n"))
        self.assertEqual(self.ended("from-c", none, "-o", none + ".obj"), (4, f"no file {none}"))

    def test_a_folder_is_4_too(self):
        room = self._room.name
        for words in (["lint", room], ["--numbers", room], ["policy", LABORATORY, room], ["from-c", room, "-o", room + "/made"]):
            self.assertEqual(self.ended(*words), (4, f"{room} is a folder, and no file"))

    def test_a_fault_of_a_view_is_125_with_one_line(self):
        for fault in (ValueError("one\ntwo"), RecursionError("deep"), MemoryError(), OSError(28, "No space left on device"), KeyError("k")):
            told = []
            with unittest.mock.patch.object(main, "view", side_effect=fault), unittest.mock.patch.object(main, "tell", told.append):
                self.assertEqual(main.main(["names"]), 125)
            self.assertEqual(len(told), 1)
            self.assertTrue(told[0].startswith(f"pmu: a fault of this view: {type(fault).__name__}: "), told)

    def test_no_room_for_temporary_files(self):
        words = [sys.executable, os.path.join(VIEWS, "main.py"), "--names", "build", example("two-masters.txt")]
        broken = "import tempfile; tempfile.tempdir = '/none'"
        ended = subprocess.run([sys.executable, "-c", f"{broken}; import sys, runpy; sys.argv = {words[1:]}; sys.path.insert(0, {VIEWS!r}); runpy.run_path(sys.argv[0], run_name='__main__')"], capture_output=True, check=False)
        self.assertEqual((ended.returncode, ended.stdout, len(ended.stderr.splitlines())), (125, b"", 1), ended.stderr)

    def test_words_of_very_many_digits(self):
        digits = "1" * 5000
        self.assertEqual(lines.number_of("0" * 5000 + "7"), 7)
        self.assertEqual(lines.number_of(digits), lines.UNFIT)
        self.assertEqual(lines.number_of("0x" + "f" * 40), 16**40 - 1)
        self.assertIsNone(lines.number_of("1_0"))
        for words in (
            ["--names", "reach", LABORATORY, digits],
            ["--names", "isolate", LABORATORY, example("denied.script"), digits],
            ["--dot", "reach", LABORATORY, digits],
            ["diff", LABORATORY, example("denied.script"), digits],
        ):
            status, _, errors = view(*words)
            self.assertEqual((status, len(errors.splitlines())), (8, 1), errors)
        text = self.file("text", f"header\nsection masters\nmaster 1 {digits} 1 1 1\n")
        script = self.file("script", f"tick {digits}\n")
        rules = self.file("rules", f"never {digits} master 1\n")
        for status, words in ((0, ["--numbers", script]), (0, ["--numbers", text]), (125, ["policy", LABORATORY, rules])):
            self.assertEqual(view(*words)[0], status, words)
        # (a line of more than 255 bytes is the fault here, as the program has it)
        for status, words in ((3, ["--names", "replay", LABORATORY, script]), (8, ["--names", "build", text])):
            self.assertEqual(view(*words)[0], status, words)
        file = self.file("words.c", f"u32 XPm_ConfigObject[] = {{ {digits} }};\n")
        self.assertEqual(self.ended("from-c", file, "-o", os.path.join(self._room.name, "made"))[0], 125)

    def test_names_of_files_that_are_not_utf_8(self):
        strange = os.fsdecode(b"\xff\xfe n\xe4me")
        for words in WORKING:
            for place in range(1, len(words)):
                if os.path.exists(words[place]):
                    with open(words[place], "rb") as file:
                        path = self.file(strange, file.read())
                    changed = [*words[:place], path, *words[place + 1 :]]
                    with self.subTest(changed):
                        plain, ended = view(*words), view(*changed)
                        self.assertEqual((ended[0], ended[2]), (plain[0], plain[2]))
                        self.assertEqual(ended[1].replace(os.fsencode(path), os.fsencode(words[place])), plain[1])
        bad = self.file(strange, b"slave 1\n")
        self.assertEqual(view("--names", "print", bad)[0], 2)
        self.assertIn(rb"\xff\xfe n\xe4me is a text", view("lint", bad)[2].replace(b"is a text, and no", b"is a text and no").replace(b": this is", b" is"))
        self.assertEqual(view("from-c", example("pm_cfg_obj.c"), "-o", os.path.join(self._room.name, strange + "2"))[0], 0)

    def test_a_pipe_that_nobody_reads_ends_as_the_program_does(self):
        for words in [*WORKING, ["names"]]:
            reader, writer = os.pipe()
            os.close(reader)
            ended = subprocess.run([sys.executable, os.path.join(VIEWS, "main.py"), *words], stdout=writer, stderr=subprocess.PIPE, check=False)
            os.close(writer)
            self.assertEqual((ended.returncode, besides_judged(ended.stderr)), (5, []), words)

    def test_an_output_of_which_a_part_alone_is_taken(self):
        script = self.file("long.script", "ipi 1 3 33\n" * 4_000)
        words = [sys.executable, os.path.join(VIEWS, "main.py"), "--names", "replay", LABORATORY, script]
        for kind in ("", "1"):
            with subprocess.Popen(words, stdout=subprocess.PIPE, stderr=subprocess.PIPE, env={**os.environ, "PYTHONUNBUFFERED": kind}) as begun:
                # (who reads it goes after the first line)
                self.assertTrue(begun.stdout.readline())
                begun.stdout.close()
                self.assertEqual((begun.stderr.read(), begun.wait()), (b"", 5), kind)
            full = os.open(os.path.join(self._room.name, "full"), os.O_WRONLY | os.O_CREAT)
            limited = ["prlimit", f"--fsize={100_000}", *words]
            ended = subprocess.run(limited, stdout=full, stderr=subprocess.PIPE, env={**os.environ, "PYTHONUNBUFFERED": kind}, check=False)
            os.close(full)
            self.assertEqual((ended.returncode, ended.stderr), (5, b"standard output can't be written: File too large\n"), kind)

    def test_an_input_that_can_not_be_kept(self):
        words = ["prlimit", "--fsize=1000", sys.executable, os.path.join(VIEWS, "run.py"), os.environ["PMU_PROGRAM"], "replay", LABORATORY, "-"]
        script = b"ipi 1 3 33\n" * 100 + b"ipi 1 3 39\n" * 200_000
        ended = subprocess.run(words, input=script, capture_output=True, check=False)
        self.assertEqual((ended.returncode, ended.stdout, ended.stderr), (125, b"", b"pmu: the input can't be kept: File too large\n"))

    def test_a_form_without_words(self):
        program_ = os.environ["PMU_PROGRAM"]
        for words, wanted in ((["table"], program("table")), (["table", "more"], (1, b"", b"'table' takes no word after it, and 1 is given\n"))):
            self.assertEqual(run([sys.executable, os.path.join(VIEWS, "run.py"), program_, *words]), wanted)
        for first, names in forms.FORMS.items():
            self.assertEqual(run([sys.executable, os.path.join(VIEWS, "run.py"), "", first, *names]), (0, b"", b""), first)

    def test_what_the_program_ends_with_is_handed_on(self):
        bad = self.file("bad.obj", b"\0" * 5)
        self.assertEqual(view("--names", "print", bad)[:2], program("print", bad)[:2])
        for words in (["--dot", "reach", bad, "1"], ["policy", bad, example("apart.policy")], ["--names", "--json", "print", bad]):
            self.assertEqual(self.ended(*words)[0], 2)

    def test_what_is_written_before_a_bad_line_is_handed_on_as_lines_alone(self):
        bad = self.file("bad.script", "ipi 1 21\nipi 1 13 39 1 0 2\nbot 7 0\n")
        said = f"{bad}:3: no line of a script begins with 'bot' (did you mean 'boot'?)"
        status, output, _ = program("replay", LABORATORY, bad)
        self.assertEqual(view("--names", "replay", LABORATORY, bad)[:2], (status, output))
        self.assertIn(b"\n2 reply 1 0 0 0 0\n", output)
        page = os.path.join(self._room.name, "page.html")
        for words in (
            ["report", LABORATORY, bad],
            ["report", LABORATORY, bad, "-o", page],
            ["--vcd", "replay", LABORATORY, bad],
            ["--svg", "replay", LABORATORY, bad],
            ["diff", LABORATORY, bad, "APU"],
            ["--names", "--json", "replay", LABORATORY, bad],
        ):
            self.assertEqual(self.ended(*words), (3, said), words)
        self.assertFalse(os.path.exists(page))


class Python(Case):
    def test_each_file_is_read_by_the_oldest_python(self):
        paths = [*glob.glob(os.path.join(VIEWS, "*.py")), *glob.glob(os.path.join(VIEWS, "tests", "*.py")), os.path.join(VIEWS, "check")]
        self.assertGreater(len(paths), 30)
        for path in paths:
            with open(path, encoding="utf-8") as file:
                text = file.read()
            ast.parse(text, path, feature_version=oldest.OLDEST)
            # (what came later: of numbers, of itertools, and of zip)
            for later in (".bit" + "_count(", "pair" + "wise", "strict" + "=True", "import tom" + "llib", "Type" + "Alias"):
                self.assertNotIn(later, text, path)

    @unittest.skipUnless(old_python(), "no older Python is here")
    def test_an_older_python_is_refused_in_one_line(self):
        status, output, errors = run([old_python(), "-B", os.path.join(VIEWS, "main.py"), "names"])
        self.assertEqual((status, output), (125, b""), errors)
        self.assertRegex(errors.decode(), r"\Apmu: this is Python 3\.\d, and the views want 3\.9 or a newer one\n\Z")

    @unittest.skipUnless(python_of(oldest.OLDEST[1]), "the oldest Python that serves isn't here")
    def test_the_oldest_python_runs_each_view(self):
        for words in [*WORKING, ["names"]]:
            ended = run([python_of(oldest.OLDEST[1]), "-B", os.path.join(VIEWS, "main.py"), *words])
            self.assertEqual(ended, view(*words), words)


class Output(Case):
    def test_what_was_found_goes_to_the_file(self):
        for status in (0, forms.BROKEN, forms.FOUND, forms.NOT_JUDGED, forms.NOT_RUN):
            path = self.file("made", "old")
            with unittest.mock.patch.object(files, "write_out") as written:
                self.assertEqual(files.run(lambda words, status=status: print("new") or status, [], path), status)
            with open(path, encoding="ascii") as file:
                self.assertEqual(file.read(), "new\n" if status != forms.NOT_RUN else "old")
            self.assertEqual(written.call_count, 0 if status != forms.NOT_RUN else 1)


if __name__ == "__main__":
    unittest.main()
