"""What the tests of the views share."""

import glob
import os
import subprocess
import sys
import tempfile
import unittest

import chip as chips
import objects

VIEWS = os.path.dirname(os.path.dirname(os.path.abspath(__file__)))
TOP = os.path.dirname(VIEWS)
EXAMPLES = os.path.join(TOP, "examples")
TOPOLOGIES = os.path.join(TOP, "topologies")

# How the line begins by which a view tells over which topology it judges an object.
JUDGED = b"pmu: the object has records of "


def example(name):
    return os.path.join(EXAMPLES, name)


def examples(ending):
    """The paths of the examples with this ending, by name."""
    found = sorted(glob.glob(os.path.join(EXAMPLES, "*" + ending)))
    assert found, ending
    return found


def board_of(obj):
    """The object of a file over the topology by which a view judges it."""
    found, own = objects.read(obj), chips.read()
    return chips.Board(found, chips.read(chips.PUBLISHED) if chips.published_lines(found, own) else own)


def run(words, folder=None):
    ended = subprocess.run(words, capture_output=True, cwd=folder, stdin=subprocess.DEVNULL, check=False)
    return ended.returncode, ended.stdout, ended.stderr


def program(*words):
    """The exit of the program, what it wrote, and its standard error."""
    return run([os.environ["PMU_PROGRAM"], *words])


def view(*words):
    """The exit of a view, what it wrote, and its standard error."""
    return run([sys.executable, os.path.join(VIEWS, "main.py"), *words])


class Case(unittest.TestCase):
    """A test with a folder of its own, and with the views in the path."""

    def setUp(self):
        self._room = tempfile.TemporaryDirectory()
        self.addCleanup(self._room.cleanup)

    def file(self, name, content):
        """The path of a new file with this content."""
        path = os.path.join(self._room.name, name)
        with open(path, "wb") as made:
            made.write(content if isinstance(content, bytes) else content.encode())
        return path

    def written(self, *words):
        """What a view wrote, if it ended with 0 and wrote nothing to standard error, but for the line about the topology."""
        status, output, errors = view(*words)
        left = [line for line in errors.splitlines() if not line.startswith(JUDGED)]
        self.assertEqual((status, left), (0, []), (words, output[:400]))
        return output

    def text(self, *words):
        return self.written(*words).decode("ascii")

    def refused(self, *words):
        """The one line of a view that can't do what the words ask for: exit 125, nothing on standard output."""
        status, output, errors = view(*words)
        self.assertEqual((status, output), (125, b""), (words, errors))
        lines = errors.decode().splitlines()
        self.assertEqual(len(lines), 1, (words, errors))
        self.assertTrue(lines[0].startswith("pmu: "), lines)
        return lines[0]
