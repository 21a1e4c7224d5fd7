"""How the program is proved, with a script for the toolchain, and which program answers then."""
import os
import signal
import subprocess
import unittest

from common import COMPILES, EXAMPLE, NOTICE, Tree, read, write

BEGINS = "pmu: the proof takes about two hours of a processor, less what was proved here before; it can be broken off, and then goes on from there\n"


class Prove(Tree):
    def test_no_proved_program(self):
        status, out, said = self.call("--proved", *EXAMPLE)
        self.assertEqual((status, out), (125, b""))
        self.assertEqual(said, "pmu: the program isn't proved for the sources as they are: ./pmu --prove proves it\n")
        self.assertEqual(self.calls("try") + self.calls("ci"), 0)

    def test_the_proved_program_answers_once_it_is_there(self):
        self.answers(COMPILES, NOTICE)
        status, out, said = self.call("--prove")
        self.assertEqual((status, out), (0, b""))
        self.assertRegex(said, rf"pmu: \d+ of {self.count_of_crates()} crates proved")
        self.assertTrue(said.endswith("pmu: the program is proved, and answers from now on\n"), said)
        self.answers()
        self.assertEqual(self.call("--proved", *EXAMPLE)[0], 0)
        self.assertEqual(self.call("--prove"), (0, b"", "pmu: the program is proved\n"))
        self.assertEqual((self.calls("try"), self.calls("ci")), (1, 1))
        self.assertEqual(os.listdir(self.temporary), [])

    def test_what_is_left_to_prove_is_shown(self):
        said = self.call("--prove", SECONDS_OF_WORK="5")[2]
        count = self.count_of_crates()
        self.assertGreater(count, 20)
        self.assertRegex(said, rf"pmu: 10 of {count} crates proved, left:( pm_\w+){{{count - 10}}}\n")
        self.assertIn(f"pmu: {count} of {count} crates proved\n", said)

    def test_a_stale_program_does_not_answer(self):
        self.call("--prove")
        self.answers()
        before = read(f"{self.top}/crates/pm_core/src/lib.rt")
        self.change_a_source()
        # (its time says nothing: it is older than the program)
        os.utime(f"{self.top}/crates/pm_core/src/lib.rt", (0, 0))
        self.assertEqual(self.call("--proved", *EXAMPLE)[0], 125)
        self.answers(COMPILES, NOTICE)
        write(f"{self.top}/crates/pm_core/src/lib.rt", before)
        self.answers()

    def test_a_refused_proof_keeps_nothing(self):
        status, _, said = self.call("--prove", REFUSES="yes")
        self.assertEqual(status, 125)
        self.assertIn("pm_core NOT PROVED", said)
        self.assertEqual(self.kept("proved"), [])

    def test_an_interrupted_proof_leaves_nothing(self):
        for number in (signal.SIGTERM, signal.SIGINT):
            call = self.begin("ci", "--prove")
            os.kill(call.pid, number)
            call.communicate(timeout=60)
            self.assertEqual(call.returncode, 128 + number)
            self.assertEqual((self.kept("proved"), os.listdir(self.temporary)), ([], []))
        self.assertEqual(self.call("--prove")[0], 0)

    def test_what_is_said_before_and_after(self):
        said = self.call("--prove")[2]
        self.assertTrue(said.startswith(BEGINS), said)
        self.assertNotIn("minutes left", said)
        self.assertEqual(self.call("--prove"), (0, b"", "pmu: the program is proved\n"))

    def test_a_proof_that_is_broken_off_says_that_it_goes_on(self):
        call = self.begin("ci", "--prove")
        os.kill(call.pid, signal.SIGINT)
        said = call.communicate(timeout=60)[1].decode()
        self.assertTrue(said.endswith("pmu: what was proved is kept: the next ./pmu --prove goes on from there\n"), said)

    def test_the_time_that_is_left_is_reckoned_after_a_minute(self):
        """By the sizes of what was proved here: what was kept took no time."""
        sizes = "a 100\nb 300\nc 500\nd 100\n"
        cases = [
            ("rt: a proved\n", 59, "1 of 4 crates proved, left: b c d"),
            ("rt: a proved\n", 60, "1 of 4 crates proved, about 10 minutes left, left: b c d"),
            ("rt: a proved\nrt: b proved\n", 240, "2 of 4 crates proved, about 7 minutes left, left: c d"),
            ("rt: a proved\nrt: b is kept: ..\n", 120, "2 of 4 crates proved, about 13 minutes left, left: c d"),
            ("rt: b is kept: ..\nrt: e proved\n", 600, "1 of 4 crates proved, left: a c d"),
            ("rt: a proved\nrt: b proved\nrt: c proved\nrt: d proved\n", 600, "4 of 4 crates proved"),
        ]
        write(f"{self.room}/sizes", sizes)
        for log, seconds, wanted in cases:
            write(f"{self.room}/log", log)
            script = f'top=. out=.; . wrapper/kept.sh; . wrapper/prove.sh; room={self.room}; progress {seconds}'
            ran = subprocess.run(["sh", "-c", script], cwd=self.top, stdout=subprocess.PIPE, check=True)
            self.assertEqual(ran.stdout.decode(), wanted)


if __name__ == "__main__":
    unittest.main()
