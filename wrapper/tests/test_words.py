"""The words that the wrapper takes: its options, in each place, help, the version and the program's path."""
import importlib
import os
import shutil
import subprocess
import sys
import unittest

from common import PROGRAMS, TOP, Named, Tree, read, run


class Options(Named):
    def test_an_output_in_each_place_and_form(self):
        good = read(f"{TOP}/examples/laboratory.obj")
        for option in (["-o", "made"], ["-omade"], ["--output", "made"], ["--output=made"]):
            for place in range(3):
                words = ["build", "laboratory.txt"]
                words[place:place] = option
                with self.subTest(words=words):
                    self.assertEqual(self.call(*words), (0, b"", ""))
                    self.assertEqual(read(f"{self.folder}/made"), good)
                    os.unlink(f"{self.folder}/made")

    def test_an_output_in_each_place_of_a_view(self):
        wanted = self.call("--names", "print", "laboratory.obj")[1]
        for place in range(4):
            words = ["--names", "print", "laboratory.obj"]
            words[place:place] = ["-o", "made"]
            with self.subTest(words=words):
                self.assertEqual(self.call(*words), (0, b"", ""))
                self.assertEqual(read(f"{self.folder}/made"), wanted)
                os.unlink(f"{self.folder}/made")
        for words in (["lint", "laboratory.obj"], ["names"], ["from-c", f"{TOP}/examples/pm_cfg_obj.c"]):
            self.assertEqual(self.call("-o", "made", *words), (0, b"", ""))
            self.assertEqual(read(f"{self.folder}/made"), self.call(*words)[1])

    def test_the_object_of_a_c_file_goes_to_standard_output(self):
        good = read(f"{TOP}/examples/pm_cfg_obj.obj")
        self.assertEqual(self.call("from-c", f"{TOP}/examples/pm_cfg_obj.c"), (0, good, ""))
        self.assertEqual(self.call("print", "-", given=good)[1], self.call("print", f"{TOP}/examples/pm_cfg_obj.obj")[1])

    def test_behind_two_dashes_no_word_is_an_option(self):
        shutil.copy(f"{self.folder}/laboratory.txt", f"{self.folder}/-o")
        shutil.copy(f"{self.folder}/laboratory.txt", f"{self.folder}/--help")
        good = read(f"{TOP}/examples/laboratory.obj")
        for name in ("-o", "--help"):
            self.assertEqual(self.call("build", "--", name), (0, good, ""))
            self.assertEqual(self.call("-o", "made", "build", "--", name), (0, b"", ""))
            self.assertEqual(read(f"{self.folder}/made"), good)
        self.assertEqual(self.call("lint", "--", "--strict")[0], self.call("lint", "./--strict")[0])

    def test_a_wrong_option(self):
        for words, said in (
            (["print", "a", "--output"], "pmu: --output is the last word, and no file follows it\n"),
            (["print", "a", "-o"], "pmu: -o is the last word, and no file follows it\n"),
            (["-ob", "print", "-o", "b", "a"], "pmu: -o is given more than once (a file of that name is ./-o)\n"),
            (["print", "a", "--output="], "pmu: -o is followed by an empty name\n"),
        ):
            self.assertEqual(self.call(*words), (125, b"", said))


class Help(Named):
    FORMS = ("replay", "reach", "isolate", "print", "build", "make", "table", "--names", "--numbers", "--vcd", "--dot", "from-c", "lint", "policy", "diff", "names")

    def test_the_help_of_each_form(self):
        for form in self.FORMS:
            for word in ("--help", "-h"):
                status, out, said = self.call(form, "x", word)
                with self.subTest(form=form):
                    first, *others = out.decode().splitlines()
                    self.assertEqual((status, said), (0, ""))
                    self.assertTrue(first.startswith(f"       ./pmu {form}"), out)
                    self.assertEqual([line for line in others if "./pmu" in line], [])
                    self.assertIn("exit   0 all was written", out.decode())

    def test_the_help_of_a_view_has_its_options(self):
        words = {"--vcd": "waveform", "--svg": "picture", "--dot": "graph", "policy": "policy", "diff": "diff", "compare": "compare", "test": "testing", "report": "report"}
        wanted = {form: importlib.import_module(name).OPTIONS for form, name in words.items()}
        wanted.update({"--names": ["--json"], "names": ["--json"], "lint": ["--strict", "--ignore", "--json", "--sarif"], "dts": ["--json", "--master"], "import": [], "from-c": [], "replay": []})
        for form, known in wanted.items():
            lines = self.call(form, "--help")[1].decode().splitlines()
            told = [line.split()[0] for line in lines if line.startswith(" " * 9 + "--")]
            self.assertEqual(sorted(told), sorted(known), form)
        for form in ("reach", "isolate"):
            self.assertIn(f"isn't in it: --names {form} has that", self.call(form, "--help")[1].decode())

    def test_the_whole_help(self):
        status, out, said = self.call("--help")
        self.assertEqual((status, said, self.call("-h")), (0, "", (0, out, "")))
        for form in self.FORMS:
            self.assertRegex(out.decode(), rf"(?m)^(usage:|      ) \./pmu {form}\b")
        for status in (0, 1, 2, 3, 4, 5, 6, 7, 8, 101, 102, 103, 104, 125):
            self.assertRegex(out.decode(), rf"(?m)(^exit   |^ {{7}}| {{4}}){status} [a-z]")

    def test_no_words(self):
        status, out, said = self.call()
        self.assertEqual((status, out, said), (1, b"", self.call("--help")[1].decode()))

    def test_words_with_no_form_are_told_on_standard_error_alone(self):
        for words in (["relay", "a", "b"], ["print"], ["table", "x"], ["make", "1", "2"]):
            status, out, said = self.call(*words)
            self.assertEqual((status, out, said.count("\n")), (1, b"", 1), words)
            self.assertEqual(run([PROGRAMS[0], *words], self.folder), (1, b"fault usage\n"))


class Python(Named):
    def test_a_python_that_is_too_old_is_told(self):
        script = "import runpy, sys; sys.version_info = (3, 8, 0); sys.path.insert(0, sys.argv[1]); runpy.run_path(sys.argv[1] + '/run.py', run_name='__main__')"
        ran = subprocess.run([sys.executable, "-BS", "-c", script, f"{TOP}/views"], stdin=subprocess.DEVNULL, capture_output=True, check=False)
        self.assertEqual((ran.returncode, ran.stdout), (125, b""))
        self.assertEqual(ran.stderr, b"pmu: this is Python 3.8, and the views want 3.9 or a newer one\n")


class ClosedPipe(Named):
    def test_each_form_ends_alike(self):
        calls = [
            ["print", "laboratory.obj"],
            ["replay", "laboratory.obj", "sleep.script"],
            ["build", "laboratory.txt"],
            ["--names", "replay", "laboratory.obj", "sleep.script"],
            ["--vcd", "replay", "laboratory.obj", "sleep.script"],
            ["--dot", "reach", "laboratory.obj", "1"],
            ["--numbers", "laboratory.txt"],
            ["diff", "laboratory.obj", "sleep.script", "7"],
            ["from-c", f"{TOP}/examples/pm_cfg_obj.c"],
            ["names"],
        ]
        for words in calls:
            with self.subTest(words=words):
                self.assertEqual(self.without_a_reader(*words), (5, b""))

    def without_a_reader(self, *words):
        """The exit and what is said if whoever read the output has gone."""
        gone, end = os.pipe()
        os.close(gone)
        how = {"stdin": subprocess.DEVNULL, "stdout": end, "stderr": subprocess.PIPE, "check": False}
        ran = subprocess.run([f"{self.top}/pmu", *words], cwd=self.folder, env=self.environment, **how)
        os.close(end)
        return ran.returncode, ran.stderr


class Version(Tree):
    def without_toolchain(self):
        """The environment's path with no rt in it."""
        os.unlink(f"{self.room}/bin/rt")
        for folder in ("/usr/bin", "/bin"):
            for name in os.listdir(folder):
                if name != "rt" and not os.path.lexists(f"{self.room}/bin/{name}"):
                    os.symlink(f"{folder}/{name}", f"{self.room}/bin/{name}")
        return f"{self.room}/bin"

    def test_the_version(self):
        out = self.call("--version")[1].decode()
        self.assertEqual(out, "pmu 0.1.0\na toolchain\nprogram not proved\n")
        self.assertEqual(self.call("-V"), (0, out.encode(), ""))
        self.call("--prove")
        self.assertEqual(self.call("-V"), (0, b"pmu 0.1.0\na toolchain\nprogram proved\n", ""))
        self.assertEqual(self.calls("try"), 0)

    def test_each_form_works_without_a_toolchain_if_a_program_is_there(self):
        self.call("--prove")
        path = self.without_toolchain()
        self.assertEqual(self.call("--version", PATH=path), (0, b"pmu 0.1.0\nno toolchain: rt isn't in the path\nprogram proved\n", ""))
        for words in (["replay", "examples/laboratory.obj", "examples/sleep.script"], ["--names", "print", "examples/laboratory.obj"], ["lint", "examples/laboratory.obj"]):
            self.assertEqual(self.call(*words, PATH=path)[::2], (0, ""), words)

    def test_the_path_of_the_program(self):
        status, out, _ = self.call("--program")
        (name,) = self.kept("unproved")
        self.assertEqual((status, out.decode()), (0, f"{self.top}/out/{name}\n"))
        self.assertEqual(self.call("--program"), (0, out, ""))
        self.assertEqual(self.call("--program", PMU_PROGRAM="/a/program"), (0, b"/a/program\n", ""))

    def test_words_that_stand_alone(self):
        for word in ("--version", "-V", "--prove", "--program"):
            self.assertEqual(self.call(word, "all"), (125, b"", f"pmu: {word} stands alone\n"))
        said = "pmu: --proved is followed by the words that the proved program takes\n"
        self.assertEqual(self.call("--proved"), (125, b"", said))
        self.assertEqual(self.calls("try") + self.calls("ci"), 0)


if __name__ == "__main__":
    unittest.main()
