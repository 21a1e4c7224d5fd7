"""The program that the toolchain compiles of the sources answers as the proved one does."""
import os
import time
import unittest
from concurrent.futures import ThreadPoolExecutor

from common import COMPARES, EXAMPLE, NOTICE, PROGRAMS, READS, TOP, Tree, read, run


def calls_of_cases():
    for name in sorted(os.listdir(f"{TOP}/cases")):
        if os.path.isfile(f"{TOP}/cases/{name}/words"):
            yield f"{TOP}/cases/{name}", read(f"{TOP}/cases/{name}/words").splitlines()


def calls_of_examples():
    names = sorted(os.listdir(f"{TOP}/examples"))
    objects = [name for name in names if name.endswith(".obj")]
    scripts = [name for name in names if name.endswith(".script")]
    for it in objects:
        yield f"{TOP}/examples", ["print", it]
        yield f"{TOP}/examples", ["build", it.replace(".obj", ".txt")]
        for node in "1", "7", "8":
            yield f"{TOP}/examples", ["reach", it, node]
        for script in scripts:
            yield f"{TOP}/examples", ["replay", it, script]
            yield f"{TOP}/examples", ["isolate", it, script, "7"]


class Compiled(Tree):
    """The program that the toolchain compiles of the sources."""

    LEFT_OUT = ["out", ".git", "must-fail", "more-edits", "__pycache__"]

    def test_it_answers_as_the_proved_one_does(self):
        self.environment["PATH"] = os.environ["PATH"]
        begun = time.monotonic()
        status, out, said = self.call(*EXAMPLE)
        print(f"(the first answer took {time.monotonic() - begun:.0f} seconds)", flush=True)
        self.assertEqual((status, out), run([PROGRAMS[0], *EXAMPLE], self.top))
        self.assertTrue(said.startswith(READS) and said.endswith(COMPARES + NOTICE), said)
        self.answers(NOTICE)
        (name,) = self.kept("unproved")

        def differs(call):
            folder, words = call
            runs = [run([program, *words], folder) for program in (f"{self.top}/out/{name}", *PROGRAMS)]
            return any(it != runs[0] for it in runs)

        calls = [*calls_of_cases(), *calls_of_examples()]
        with ThreadPoolExecutor(os.cpu_count()) as pool:
            differ = [words for (_, words), it in zip(calls, pool.map(differs, calls)) if it]
        self.assertEqual(differ, [])
        self.assertGreater(len(calls), 100)


if __name__ == "__main__":
    unittest.main()
