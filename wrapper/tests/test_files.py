"""`-o FILE`, a file `-`, and signals."""
import os
import signal
import subprocess
import unittest

from common import PROGRAMS, TOP, Named, as_a_shell_starts_it, read, run, write


class Files(Named):
    def left(self):
        """What is in the folder that wasn't put there."""
        return sorted({*os.listdir(self.folder)} - {"laboratory.obj", "laboratory.txt", "sleep.script", "two-masters.obj", "bad.txt"})

    def test_the_output_goes_to_the_file(self):
        good = read(f"{TOP}/examples/laboratory.obj")
        for words in (["build", "laboratory.txt", "-o", "made"], ["-o", "made", "build", "laboratory.txt"], ["build", "-o", "made", "laboratory.txt"]):
            self.assertEqual(self.call(*words), (0, b"", ""))
            self.assertEqual((read(f"{self.folder}/made"), self.left()), (good, ["made"]))
            os.unlink(f"{self.folder}/made")
        self.assertEqual(self.call("replay", "laboratory.obj", "sleep.script", "-o", "made")[0], 0)
        self.assertEqual((0, read(f"{self.folder}/made")), run([PROGRAMS[0], "replay", "laboratory.obj", "sleep.script"], self.folder))

    def test_a_fault_leaves_the_file_as_it_was(self):
        write(f"{self.folder}/bad.txt", "header\nslave 1\n")
        status, out, said = self.call("build", "bad.txt", "-o", "made")
        self.assertEqual((status, out, said), (8, b"", "bad.txt:2: 'slave' takes 3 words after it, and 1 is here\n"))
        self.assertEqual(self.left(), [])
        write(f"{self.folder}/made", "what was there")
        self.assertEqual(self.call("build", "bad.txt", "-o", "made")[0], 8)
        self.assertEqual((read(f"{self.folder}/made"), self.left()), (b"what was there", ["made"]))

    def test_the_mode_and_a_link_stay(self):
        write(f"{self.folder}/made", "", 0o640)
        os.symlink("made", f"{self.folder}/link")
        self.assertEqual(self.call("print", "laboratory.obj", "-o", "link")[0], 0)
        self.assertTrue(os.path.islink(f"{self.folder}/link"))
        self.assertEqual(os.stat(f"{self.folder}/made").st_mode & 0o777, 0o640)
        self.assertEqual(read(f"{self.folder}/made"), run([PROGRAMS[0], "print", "laboratory.obj"], self.folder)[1])
        self.call("print", "laboratory.obj", "-o", "new", umask=0o027)
        self.assertEqual(os.stat(f"{self.folder}/new").st_mode & 0o777, 0o640)

    def test_a_file_that_can_not_be_written(self):
        os.mkdir(f"{self.folder}/folder")
        told = [("folder", "folder is a folder, and no file can be written there"), ("none/made", "none/made can't be written: No such file or directory")]
        for name, sentence in told:
            self.assertEqual(self.call("print", "laboratory.obj", "-o", name), (5, b"", sentence + "\n"))
        self.assertEqual(self.call("print", "laboratory.obj", "-o", "/dev/full"), (5, b"", "/dev/full can't be written: No space left on device\n"))
        self.assertEqual(self.call("print", "laboratory.obj", "-o", "/dev/null"), (0, b"", ""))
        self.assertTrue(os.path.exists("/dev/null") and not os.path.isfile("/dev/null"))
        self.assertEqual(self.call("print", "laboratory.obj", "-o", "none/"), (5, b"", "none/ ends with / and is no folder\n"))
        said = "pmu: standard output is written without -o (a file of that name is ./-)\n"
        self.assertEqual(self.call("print", "laboratory.obj", "-o", "-"), (125, b"", said))
        self.assertEqual(self.call("print", "laboratory.obj", "-o", ""), (125, b"", "pmu: -o is followed by an empty name\n"))
        self.assertEqual(self.call("print", "laboratory.obj", "-o")[0], 125)
        self.assertEqual(self.call("-o", "a", "print", "laboratory.obj", "-o", "b")[0], 125)

    def test_a_file_with_a_long_name_and_standard_output(self):
        wanted = run([PROGRAMS[0], "print", "laboratory.obj"], self.folder)[1]
        self.assertEqual(self.call("print", "laboratory.obj", "-o", "x" * 255), (0, b"", ""))
        self.assertEqual(read(f"{self.folder}/{'x' * 255}"), wanted)
        self.assertEqual(self.call("print", "laboratory.obj", "-o", "/dev/stdout"), (0, wanted, ""))

    def test_a_full_disk_leaves_the_file_as_it_was(self):
        write(f"{self.folder}/made", "what was there")
        words = ["replay", "laboratory.obj", "s", "-o", "made"]
        write(f"{self.folder}/s", "ipi 1 3 11\n" * 1000)
        limited = ["sh", "-c", 'ulimit -f 8; exec "$@"', "sh", f"{self.top}/pmu", *words]
        ran = subprocess.run(limited, cwd=self.folder, env=self.environment, stdin=subprocess.DEVNULL, capture_output=True, timeout=60)
        self.assertNotEqual(ran.returncode, 0)
        self.assertEqual((read(f"{self.folder}/made"), self.left()), (b"what was there", ["made", "s"]))

    def test_standard_input(self):
        good, text = read(f"{TOP}/examples/laboratory.obj"), read(f"{TOP}/examples/laboratory.txt")
        self.assertEqual(self.call("build", "-", given=text), (0, good, ""))
        self.assertEqual(self.call("build", "/dev/stdin", given=text), (0, good, ""))
        wanted = run([PROGRAMS[0], "replay", "laboratory.obj", "sleep.script"], self.folder)[1]
        self.assertEqual(self.call("replay", "-", "sleep.script", given=good), (0, wanted, ""))
        script = read(f"{TOP}/examples/sleep.script")
        self.assertEqual(self.call("replay", "laboratory.obj", "-", given=script), (0, wanted, ""))
        self.assertEqual(self.call("replay", "-", "-", given=good)[0], 125)
        for shell in ("{} build - <.", "{} build - <&-"):
            ran = subprocess.run(["sh", "-c", shell.format(f"{self.top}/pmu")], cwd=self.folder, env=self.environment, capture_output=True)
            self.assertEqual((ran.returncode, ran.stderr), (8, b"standard input is empty, and the text of an object is wanted\n"))
        ran = subprocess.run(["bash", "-c", f"{self.top}/pmu build <(cat laboratory.txt)"], cwd=self.folder, env=self.environment, capture_output=True)
        self.assertEqual((ran.returncode, ran.stdout, ran.stderr), (0, good, b""))
        with open(f"{self.folder}/laboratory.txt", "rb") as file:
            ran = subprocess.run([f"{self.top}/pmu", "build", "-"], cwd=self.folder, env=self.environment, stdin=file, stdout=subprocess.PIPE)
        self.assertEqual((ran.returncode, ran.stdout), (0, good))

    def test_the_program_has_the_caller_s_own_output(self):
        write(f"{self.folder}/program", "#!/bin/sh\nreadlink /proc/self/fd/1\n", 0o755)
        self.environment["PMU_PROGRAM"] = f"{self.folder}/program"
        with open(f"{self.folder}/made", "wb") as file:
            subprocess.run([f"{self.top}/pmu", "print", "x"], cwd=self.folder, env=self.environment, stdout=file, check=True)
        self.assertEqual(os.path.realpath(read(f"{self.folder}/made").decode().strip()), os.path.realpath(f"{self.folder}/made"))

    def test_a_signal_ends_the_program_too(self):
        write(f"{self.folder}/program", "#!/bin/sh\necho $$\nexec sleep 60\n", 0o755)
        self.environment["PMU_PROGRAM"] = f"{self.folder}/program"
        for number in (signal.SIGTERM, signal.SIGINT, signal.SIGHUP):
            how = {"cwd": self.folder, "env": self.environment, "stdout": subprocess.PIPE, "preexec_fn": as_a_shell_starts_it}
            call = subprocess.Popen([f"{self.top}/pmu", "print", "x"], **how)
            child = int(call.stdout.readline())
            call.send_signal(number)
            call.communicate(timeout=30)
            self.assertEqual(call.returncode, -number)
            self.assertFalse(os.path.exists(f"/proc/{child}"))
        write(f"{self.folder}/program", "#!/bin/sh\nkill -TERM $$\n", 0o755)
        write(f"{self.folder}/made", "what was there")
        self.assertEqual(self.call("print", "x", "-o", "made")[0], -signal.SIGTERM)
        self.assertEqual((read(f"{self.folder}/made"), self.left()), (b"what was there", ["made", "program"]))


if __name__ == "__main__":
    unittest.main()
