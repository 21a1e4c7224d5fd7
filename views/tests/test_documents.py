"""The examples in the documents of the views are what the views write."""

import importlib.machinery
import importlib.util
import os
import shlex
import shutil
import sys
import unittest

import main as views
from common import TOP, VIEWS, Case

# Each document, and how many examples it has at least.
DOCUMENTS = {"docs/OBJECTS.md": 5, "docs/VIEWS.md": 5, "docs/JSON.md": 1}

# Does what the wrapper does with the words of a view, and with all others.
WRAPPER = """#!/bin/sh
case $1 in
    {words}) exec {python} {views} "$@" ;;
esac
exec {program} "$@"
"""


def checker():
    """docs/check-examples, which reads the examples of a document and runs them."""
    loader = importlib.machinery.SourceFileLoader("check_examples", os.path.join(TOP, "docs", "check-examples"))
    module = importlib.util.module_from_spec(importlib.util.spec_from_loader(loader.name, loader))
    loader.exec_module(module)
    return module


class Documents(Case):
    def prepare(self):
        """A folder with the examples, the topologies and a wrapper."""
        folder = os.path.join(self._room.name, "room")
        for name in ("examples", "topologies"):
            shutil.copytree(os.path.join(TOP, name), os.path.join(folder, name))
        wrapper = os.path.join(folder, "pmu")
        with open(wrapper, "w", encoding="utf-8") as file:
            main, program = os.path.join(VIEWS, "main.py"), os.environ["PMU_PROGRAM"]
            parts = {"python": sys.executable, "views": main, "program": program}
            parts = {name: shlex.quote(part) for name, part in parts.items()}
            file.write(WRAPPER.format(words=" | ".join(views.VIEWS), **parts))
        os.chmod(wrapper, 0o755)
        return folder

    def test_each_example_of_each_document(self):
        check = checker()
        for document in DOCUMENTS:
            folder, count = self.prepare(), 0
            with open(os.path.join(TOP, document), encoding="utf-8") as file:
                blocks = list(check.blocks_of(file.read().splitlines()))
            for number, language, block in blocks:
                if language == "console":
                    count += 1
                    with self.subTest(f"{document}:{number}"):
                        faults = check.faults_of(block, folder)
                        self.assertEqual(faults, [], "\n".join(faults))
            self.assertGreaterEqual(count, DOCUMENTS[document], document)
            shutil.rmtree(folder)


if __name__ == "__main__":
    unittest.main()
