"""How the program is compiled before its proof, with a script for the toolchain."""
import os
import signal
import unittest

from common import COMPARES, COMPILES, EXAMPLE, NOTICE, READS, SLOW, Tree, write


class Compile(Tree):
    def test_the_first_call_compiles_and_the_second_does_not(self):
        self.answers(COMPILES, NOTICE)
        self.answers(NOTICE)
        self.assertEqual(self.calls("try"), 1)
        self.assertEqual(os.listdir(self.temporary), [])

    def test_a_source_that_changes_meanwhile(self):
        call = self.begin("try", *EXAMPLE)
        self.change_a_source()
        said = call.communicate(timeout=120)[1].decode()
        self.assertEqual(call.returncode, 125)
        self.assertIn("a source changed meanwhile", said)
        self.assertEqual(self.kept("unproved"), [])

    def test_two_calls_at_once_compile_once(self):
        calls = [self.start(*EXAMPLE, SECONDS_OF_WORK="1") for _ in range(2)]
        said = [call.communicate(timeout=60)[1].decode() for call in calls]
        self.assertEqual([call.returncode for call in calls], [0, 0])
        self.assertEqual(self.calls("try"), 1)
        self.assertEqual(sum("another call compiles the program; waiting for it" in it for it in said), 1)

    def test_an_interrupted_compilation_leaves_nothing(self):
        for number in (signal.SIGTERM, signal.SIGHUP, signal.SIGINT):
            call = self.begin("try", *EXAMPLE)
            os.kill(call.pid, number)
            call.communicate(timeout=60)
            self.assertEqual(call.returncode, 128 + number)
            self.assertEqual((self.kept("unproved"), os.listdir(self.temporary)), ([], []))
        self.answers(COMPILES, NOTICE)

    def test_a_killed_compilation_leaves_nothing_that_counts(self):
        call = self.begin("try", *EXAMPLE)
        os.killpg(call.pid, signal.SIGKILL)
        call.wait(timeout=60)
        self.answers(COMPILES, NOTICE)
        self.assertEqual(os.listdir(self.temporary), [])

    def test_a_call_that_is_killed_alone_keeps_no_other_waiting(self):
        call = self.begin("try", *EXAMPLE)
        os.kill(call.pid, signal.SIGKILL)
        self.assertEqual(call.communicate(timeout=15)[0], b"")
        self.answers(COMPILES, NOTICE)

    def test_half_a_program_under_another_name_does_not_count(self):
        self.call(*EXAMPLE)
        (name,) = self.kept("unproved")
        os.rename(f"{self.top}/out/{name}", f"{self.top}/out/{name}.new")
        os.truncate(f"{self.top}/out/{name}.new", 4096)
        self.answers(COMPILES, NOTICE)


class Optimise(Tree):
    """Which program is kept, by what the toolchain's parts make."""

    def other_program(self, *lines):
        """A program that writes these lines for a replay, and is right otherwise."""
        path = f"{self.room}/other"
        write(path, '#!/bin/sh\nif [ "$1" = replay ]; then\n' + "\n".join(lines) + '\nfi\nexec "$STAND_IN" "$@"\n', 0o755)
        return path

    def slow(self, *said):
        """Whether the program that isn't optimised answers now and later, after these lines of the first call."""
        self.answers(*said, SLOW)
        self.answers(SLOW)
        self.assertEqual((len(self.kept("unproved")), len(self.kept("unproved-slow")), os.listdir(self.temporary)), (0, 1, []))

    def test_the_optimised_program_is_kept(self):
        self.answers(COMPILES, NOTICE)
        self.assertEqual((self.calls("optimised"), len(self.kept("unproved")), self.kept("unproved-slow")), (1, 1, []))

    def test_a_toolchain_without_one_of_the_parts(self):
        for part in ("bin/rtlib.py", "c/asan.a"):
            with self.subTest(part=part):
                os.rename(f"{self.kit}/{part}", f"{self.kit}/elsewhere")
                self.slow(READS)
                os.rename(f"{self.kit}/elsewhere", f"{self.kit}/{part}")
                self.change_a_source()
        self.assertEqual(self.calls("optimised"), 0)

    def test_a_toolchain_that_does_not_say_where_it_is(self):
        os.unlink(f"{self.kit}/page")
        os.unlink(f"{self.room}/bin/rt")
        write(f"{self.room}/bin/rt", '#!/bin/sh\n[ "$1" != doc ] && exec "$KIT/bin/rt" "$@"\n', 0o755)
        self.environment["KIT"] = self.kit
        self.slow(READS)

    def test_a_toolchain_that_takes_no_other_clang(self):
        # (its program is that of the first try, which had the sanitizer)
        text = TRY_BY_ANOTHER_WAY % self.kit
        write(f"{self.kit}/bin/rt", text, 0o755)
        self.slow(READS, READS)

    def test_a_clang_that_can_not_optimise(self):
        self.environment["NEVER_OPTIMISES"] = "yes"
        self.slow(READS, READS)

    def test_parts_that_make_another_text(self):
        self.environment["OPTIMISED"] = self.other_program("echo 0 another line")
        said = "pmu: the optimised program doesn't answer cases/example_wake as it has to: it is thrown away\n"
        self.slow(COMPILES, said, READS)

    def test_parts_that_make_another_exit(self):
        self.environment["OPTIMISED"] = self.other_program('[ "${2%bad*}" = "$2" ] || :', '"$STAND_IN" "$@" || exit 7', "exit 0")
        said = "pmu: the optimised program doesn't answer cases/bad_line_long as it has to: it is thrown away\n"
        self.slow(COMPILES, said, READS)

    def test_no_case_to_compare_with(self):
        for name in os.listdir(f"{self.top}/cases"):
            if name.startswith("example_"):
                os.rename(f"{self.top}/cases/{name}", f"{self.room}/{name}")
        said = "pmu: the optimised program doesn't answer cases/example_wake as it has to: it is thrown away\n"
        self.slow(COMPILES, said, READS)

    def test_a_source_that_has_no_meaning(self):
        status, out, said = self.call(*EXAMPLE, IS_WRONG="yes")
        self.assertEqual((status, out), (125, b""))
        self.assertIn("src/main.rt: a fault\npmu: the program isn't compiled\n", said)
        self.assertEqual((self.kept("unproved"), self.kept("unproved-slow"), os.listdir(self.temporary)), ([], [], []))

    def test_an_interrupted_comparison_leaves_nothing(self):
        self.environment["OPTIMISED"] = self.other_program("sleep 20")
        call = self.begin("optimised", *EXAMPLE)
        call.stderr.readline(), call.stderr.readline()
        os.killpg(call.pid, signal.SIGTERM)
        call.communicate(timeout=60)
        self.assertEqual((call.returncode, self.kept("unproved"), os.listdir(self.temporary)), (143, [], []))

    def test_words_that_have_no_form_compile_nothing(self):
        for words in (("replay",), ("relay", "a", "b"), ("print", "a", "b")):
            status, out, said = self.call(*words)
            self.assertEqual((status, out, said.count("\n")), (1, b"", 1))
        self.assertEqual(self.calls("try"), 0)


# A toolchain that compiles by the clang of its own folder, wherever it is started.
TRY_BY_ANOTHER_WAY = """#!/bin/sh
echo "$1" >>"$TOOLCHAIN_LOG"
case $1 in
    doc) echo %s/page ;;
    try) mkdir "$TMPDIR/made" && cp "$STAND_IN" "$TMPDIR/made/program" && exec "$TMPDIR/made/program" print "$4" ;;
esac
"""


if __name__ == "__main__":
    unittest.main()
