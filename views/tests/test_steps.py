"""The values of the units after each step are those of the closing tables."""

import unittest

import chip as chips
import steps
from common import Case, example, program

# Both masters may do all to each other.
OBJECT = """\
header
section masters
master 1 1 100 257 257
master 7 256 100 257 257
section slaves
slave 11 1 257
slave 46 1 257
section power
power 6 257
power 10 257
section reset
reset 3 257
reset 7 257
section shutdown
shutdown 2 257
"""

# In most of these a processor that sleeps goes off, or one that suspends goes on, and nothing is written of it.
SCRIPTS = {
    "forced off asleep": "boot 7 0\nipi 7 7 7 0 0 0 0\nwfi 7\nipi 1 8 6 1\nboot 7 0\nipi 7 8 10 2\nipi 7 12 0 0\n",
    "shut down asleep": "boot 3 0\nipi 1 7 3 0 0 0 0\nwfi 3\nboot 7 0\nipi 1 12 0 0\nipi 7 12 0 2\ngic 3\n",
    "all shut down": "boot 3 0\nipi 1 7 3 0 0 0 0\nwfi 3\n\nipi 1 12 0 2\ngic 3\nboot 2 0\n",
    "reset asleep": "boot 3 0\nipi 1 7 3 0 0 0 0\nwfi 3\nipi 1 17 3 2\nboot 7 0\nipi 1 17 7 1\n",
    "restarted": "boot 3 0\nipi 1 7 3 0 0 0 0\nwfi 3\nipi 1 12 1 0\nboot 7 0\nipi 7 12 1 2\n",
    "an interrupt of a slave": "ipi 1 11 2 46 1\nipi 1 7 2 0 0 64 0\nirq 46\nipi 1 7 2 0 0 64 0\n# asleep\nwfi 2\ntick 5\nirq 46\n",
    "an interrupt at a processor": "ipi 1 7 2 0 0 64 0\ngic 2\nwfi 2\nipi 1 7 2 0 0 64 0\nwfi 2\ngic 2\n",
    "woken without an answer": "boot 7 0\nipi 7 7 7 0 0 0 0\nipi 1 10 7 1 0 1\nwfi 7\nipi 7 7 7 0 0 0 0\nipi 7 9 100 7\n",
    "a message in a box suspends": "boot 3 0\npost 1 7 3 0 0 0 0\npost 1 21\nserve\nwfi 3\nserve\n",
    "a message in a box forces all": "boot 7 0\npost 7 8 10 2\npost 1 3 2\nserve\nboot 2 0\n",
    "the last one awake forces all": "ipi 1 7 2 0 0 0 0\nwfi 2\nboot 3 0\nipi 1 8 10 2\nboot 2 0\n",
    "served messages": "boot 7 0\npost 7 9 100 7\npost 1 7 2 0 0 0 0\npost 7 8 10 1\nserve\nwfi 2\npost 7 7 7 0 0 0 0\nserve\nserve\n",
    "one message undoes another": "boot 7 0\npost 7 10 2 0 0 2\npost 1 12 0 0\nserve\npost 1 8 6 2\npost 7 1\n# and\nserve",
    "power calls": "smc 2 0xC4000003 1 4096 0\nsmc 3 0x84000002\nsmc 2 0xC4000003 1 0\nsmc 2 0x84000002\nsmc 3 0x84000002\nsmc 2 1\n",
    "timed tasks": "task 0 2\nboot 7 0\npost 7 7 7 0 0 0 0\ntick 3\nserve\ntick 4294967295\nwfi 7\ncancel 0\ntick 2\ncancel 0\n",
    "attached words": "object 8 1\nobject 9\nboot 7 0\npost 7 7 7 0 0 0 0\nipi 7 2 8\nserve\nwfi 7\nobject 8 1\ngic 7\n",
    "a message of no master": "post 8 1\nboot 7 0\npost 6 8 10 2\npost 7 8 10 2\nserve\n",
}


def book_of(table):
    """The values of the book in a closing table that aren't 0."""
    return {unit: value for unit, (value, _) in table.items() if value}


class Steps(Case):
    def values(self, obj, content):
        """After each step the values that aren't 0."""
        told = steps.steps_of(steps.Run(obj, chips.read(), self._room.name), content)
        values, after = {}, [{} for _ in range(len(steps.script_lines(content)) + 1)]
        moments = list(told.moments)
        for line in range(len(after)):
            while moments and moments[0].line == line:
                values.update(moments.pop(0).book)
            after[line] = {unit: value for unit, value in values.items() if value}
        return told, after

    def closing(self, obj, script):
        """The values in the closing table of a script that aren't 0."""
        status, output, _ = program("replay", obj, self.file("part", script))
        self.assertEqual(status, 0)
        return book_of(steps.closing_of(output.decode().splitlines()))

    def check(self, obj, script):
        told, after = self.values(obj, script.encode())
        lines = script.splitlines(keepends=True)
        self.assertEqual(len(after), len(lines) + 1)
        for count, values in enumerate(after):
            self.assertEqual(values, self.closing(obj, "".join(lines[:count])), (script, count))
        self.assertEqual(book_of(told.closing), after[-1])

    def test_the_values_after_each_line_are_those_of_the_closing_table(self):
        status, content, _ = program("build", self.file("text", OBJECT))
        self.assertEqual(status, 0)
        obj = self.file("obj", content)
        for name, script in SCRIPTS.items():
            with self.subTest(name):
                self.check(obj, script)

    def test_the_same_of_the_example_of_the_sleep(self):
        with open(example("sleep.script"), encoding="ascii") as file:
            self.check(example("laboratory.obj"), file.read())

    def test_the_same_of_the_example_of_the_clocks(self):
        with open(example("clocks.script"), encoding="ascii") as file:
            self.check(example("clocks.obj"), file.read())

    def test_clocks_change_once_in_a_line(self):
        script = "boot 7 0\npost 1 36 5\npost 7 36 6\nserve\npost 1 37 5\npost 7 36 5\nserve\npost 1 36 14\npost 7 37 5\nserve\nsmc 2 0x84000008\n"
        self.check(example("clocks.obj"), script)

    def test_the_lines_of_a_script(self):
        self.assertEqual(steps.script_lines(b""), [])
        self.assertEqual(steps.script_lines(b"a\n\nb"), ["a", "", "b"])
        self.assertEqual(steps.script_lines(b"a\n\n"), ["a", ""])


if __name__ == "__main__":
    unittest.main()
