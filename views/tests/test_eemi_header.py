"""Tests of the interface's constants for C and Python."""

import os
import re
import shutil
import subprocess
import tempfile
import unittest
from typing import Any

import eemi_header
import names
from common import TOP

HEADER = os.path.join(TOP, "include", "pmu_eemi.h")

# A compiler of each language, if there is one, with the standards that the header has to pass.
COMPILERS = [("cc", ("c99", "c11", "c17")), ("c++", ("c++11", "c++17", "c++20"))]


def constants() -> dict[str, int]:
    """Each constant of the header with its number, as its text has them."""
    with open(HEADER, encoding="ascii") as file:
        text = file.read()
    found = re.findall(r"^(?:#define )? *(PMU_(?!EEMI_H)\w+) +(?:= (\d+)|UINT32_C\((0x\w+)\))", text, re.M)
    return {name: int(decimal or sixteen, 0) for name, decimal, sixteen in found}


class EemiHeader(unittest.TestCase):
    def test_is_that_of_the_table_of_names(self) -> None:
        with open(HEADER, encoding="ascii") as file:
            self.assertEqual(file.read(), eemi_header.header())

    def test_the_module_for_python_is_that_of_the_table_of_names(self) -> None:
        path = os.path.join(TOP, "bindings", "python", "pmu_eemi.py")
        with open(path, encoding="ascii") as file:
            text = file.read()
        self.assertEqual(text, eemi_header.module())
        made: dict[str, Any] = {"__name__": "pmu_eemi"}
        exec(compile(text, path, "exec"), made)  # pylint: disable=exec-used
        found = {}
        for kind in [it for it in made.values() if isinstance(it, type) and it.__module__ == "pmu_eemi"]:
            prefix = re.sub("(?<=[a-z])(?=[A-Z])", "_", kind.__name__).upper()
            found.update({f"PMU_{prefix}_{name}": int(it) for name, it in kind.__members__.items()})
        self.assertEqual(found, constants())

    def test_has_each_name_that_the_chip_and_the_profile_have(self) -> None:
        found = constants()
        self.assertEqual(found["PMU_CALL_REQUEST_NODE"], 13)
        self.assertEqual(found["PMU_STATUS_NO_ACCESS"], 2002)
        self.assertEqual(found["PMU_RESET_UART0"], 1034)
        self.assertEqual(found["PMU_PSCI_CPU_ON_64"], 0xC4000003)
        self.assertEqual(found["PMU_CAPABILITY_WAKEUP"], 4)
        for node in names.NODES.values():
            self.assertEqual(found.get("PMU_NODE_" + node.name), None if node.kind == "absent" else node.number)
        for call in names.CALLS.values():
            self.assertEqual("PMU_CALL_" + call.name in found, call.arguments is not None)

    def test_a_compiler_gives_each_constant_its_number(self) -> None:
        for compiler, standards in COMPILERS:
            if shutil.which(compiler) is None:
                print(f"skipped: no {compiler} is here")
                continue
            for standard in standards:
                with self.subTest(standard):
                    self.assertEqual(self.compiled(compiler, standard), constants())

    def compiled(self, compiler: str, standard: str) -> dict[str, int]:
        """Each constant as a program prints it that this compiler makes, without a warning."""
        prints = "".join(f'    printf("{name} %llu\\n", (unsigned long long)({name}));\n' for name in constants())
        with tempfile.TemporaryDirectory() as room:
            source = os.path.join(room, "constants.c" if compiler == "cc" else "constants.cc")
            with open(source, "w", encoding="ascii") as file:
                file.write(f"#include <stdio.h>\n#include <pmu_eemi.h>\nint main(void)\n{{\n{prints}    return 0;\n}}\n")
            made = os.path.join(room, "constants")
            flags = [f"-std={standard}", "-Wall", "-Wextra", "-pedantic", "-Werror", "-I" + os.path.dirname(HEADER)]
            subprocess.run([compiler, *flags, source, "-o", made], check=True)
            printed = subprocess.run([made], check=True, capture_output=True, text=True).stdout
        return {name: int(number) for name, number in map(str.split, printed.splitlines())}


if __name__ == "__main__":
    unittest.main()
