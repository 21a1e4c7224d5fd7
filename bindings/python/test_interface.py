"""The tests of what the binding and pmu.h have in common, and of its example; as those of test_pmu.py, over a shared object."""

from __future__ import annotations

import os
import re
import subprocess
import sys
import unittest
import unittest.mock

HERE = os.path.dirname(os.path.realpath(__file__))
sys.dont_write_bytecode = True
sys.path.insert(0, HERE)

import pmu  # noqa: E402
import pmu_library  # noqa: E402
import pmu_told  # noqa: E402
from test_pmu import TOP, read, setUpModule  # noqa: E402, F401


class Interface(unittest.TestCase):
    """The binding has what pmu.h has."""

    def setUp(self) -> None:
        self.header = read("include/pmu.h").decode()

    def test_each_function(self) -> None:
        text = re.sub(r"/\*.*?\*/", "", self.header, flags=re.S)
        declared = re.findall(r"^(?:static inline )?(?:uint32_t|void|const char \*) ?(pmu_\w+)\(([^)]*)\)", text, re.M)
        counts = {name: words.count(",") + 1 for name, words in declared}
        others = {"pmu_close", "pmu_strerror", "pmu_end", "pmu_version"}
        self.assertEqual(set(counts) - others, set(pmu_library._CALLS))
        for name, words in pmu_library._CALLS.items():
            self.assertEqual(len(words), counts[name], name)

    def test_each_answer(self) -> None:
        declared = dict(re.findall(r"^    PMU_(\w+) = (\d+),? ", self.header, re.M))
        self.assertEqual({name: int(number) for name, number in declared.items()}, {it.name: it.value for it in pmu.Status})
        told = dict(re.findall(r"case PMU_(\w+):\s+return \"([^\"]*)\";", self.header))
        for status in list(pmu.Status)[1:]:
            error = pmu_told.error_of(status)
            named = "".join(word.capitalize() for word in status.name.split("_"))
            said = str(error)[0].lower() + str(error)[1:]
            self.assertEqual((type(error).__name__, error.status, said), (named, status, told[status.name]))
        unknown = pmu_told.error_of(77)
        self.assertEqual((type(unknown), unknown.status, str(unknown)), (pmu.NotDone, 77, "an unknown answer: 77"))

    def test_the_version(self) -> None:
        parts = [int(number) for number in re.findall(r"#define PMU_VERSION_\w+ (\d+)", self.header)]
        self.assertEqual(pmu.version(), parts[0] * 10000 + parts[1] * 100 + parts[2])
        interface = parts[:2] if parts[0] == 0 else parts[:1]
        self.assertEqual(pmu_library.SHARED_OBJECT, ".".join(["libpmu.so", *map(str, interface)]))
        self.assertIn(pmu.version(), pmu_library.VERSIONS)
        with unittest.mock.patch("pmu_library.VERSIONS", range(200, 300)):
            self.assertRaisesRegex(pmu.NoLibrary, " 100, .* 200 to 299", pmu.load)

    def test_a_library_that_is_none(self) -> None:
        self.assertRaises(pmu.NoLibrary, pmu.load, "/no/such/libpmu.so")
        self.assertRaises(pmu.NoLibrary, pmu.load, "libc.so.6")

    def test_the_example(self) -> None:
        words = [sys.executable, "-B", os.path.join(HERE, "board.py"), os.path.join(TOP, "examples", "laboratory.obj")]
        ran = subprocess.run(words, capture_output=True, check=False)
        self.assertEqual((ran.returncode, ran.stderr), (0, b""))
        self.assertEqual(ran.stdout, read("bindings/python/board.expect"))


if __name__ == "__main__":
    unittest.main()
