"""What `from-c` makes of a C file, and what it refuses."""

import os
import random
import re
import shutil
import subprocess
import sys
import time
import unittest
import unittest.mock

import from_c
import grammar
import names
import objects
import program as programs
from common import Case, example, program, view

# The words of a small object: one master with one slave.
SMALL = [2, 2, 1, 0x101, 1, 1, 1, 100, 0, 0, 0x102, 1, 33, 0, 1]

PROGRAM_IN_C = """
#include <stdio.h>
#include "pm_cfg_obj.c"
int main(void)
{
    return fwrite(XPm_ConfigObject, sizeof XPm_ConfigObject, 1, stdout) != 1;
}
"""


def array(words):
    return f"const u32 XPm_ConfigObject[] = {{ {', '.join(map(str, words))} }};\n"


def words_of(text):
    return [word for word, _ in from_c.words_of("FILE.c", text)[0]]


class Example(Case):
    def test_the_example_gives_its_object(self):
        made = self.file("made.obj", b"")
        self.assertEqual(self.written("from-c", example("pm_cfg_obj.c"), "-o", made), b"")
        data = programs.read_file(made)
        self.assertEqual(data, programs.read_file(example("pm_cfg_obj.obj")))
        self.assertEqual(program("print", made)[0], 0)

    def test_the_example_has_each_node_and_each_reset_line(self):
        found = objects.load(example("pm_cfg_obj.obj"))
        self.assertEqual([record.node for record in found.records("slave")], [node.number for node in names.NODES.values() if node.kind == "slave"])
        self.assertEqual([record.line for record in found.records("reset")], list(range(1000, 1120)))
        self.assertEqual([len(found.records(kind)) for kind in ("master", "group", "power", "config", "gpo")], [3, 3, 4, 1, 1])

    def test_a_count_that_is_too_low(self):
        content = programs.read_file(example("pm_cfg_obj.c")).replace(b"120U,", b"119U,")
        said = self.refused("from-c", self.file("low.c", content))
        self.assertRegex(said, r"low\.c:\d+: word \d+: no such section: 0x45f \(or a count before it is wrong\) \(fault object 6 \d+\)$")

    @unittest.skipUnless(shutil.which("cc"), "no C compiler is here")
    def test_a_compiler_makes_the_same_bytes(self):
        kinds = ("NODE_", "XILPM_RESET_", "PM_CAP_")
        defined = [f"{name} = {number}" for name, number in published("converter.names").items() if name.startswith(kinds)]
        self.file("pm_defs.h", "enum { " + ", ".join(defined) + " };\n")
        self.file("xil_types.h", "typedef unsigned int u32;\n")
        self.file("pm_cfg_obj.c", programs.read_file(example("pm_cfg_obj.c")))
        source, made = self.file("write.c", PROGRAM_IN_C), self.file("write", b"")
        subprocess.run(["cc", "-Wall", "-Werror", "-o", made, source], check=True)
        written = subprocess.run([made], stdout=subprocess.PIPE, check=True).stdout
        self.assertEqual(written, programs.read_file(example("pm_cfg_obj.obj")))

    def test_the_object_goes_to_standard_output_or_to_a_file(self):
        file, made = self.file("small.c", array(SMALL)), self.file("made.obj", b"")
        self.assertEqual(self.written("from-c", "-o", made, file), b"")
        self.assertEqual(programs.read_file(made), objects.to_bytes(SMALL))
        self.assertEqual(self.written("from-c", file), objects.to_bytes(SMALL))
        for words in ([], [file, made], [file, "-o", made, file]):
            self.assertEqual(self.refused("from-c", *words), "pmu: usage: ./pmu from-c FILE.c [-o FILE.obj]")
        for words in ([file, "-o"], [file, made, "-o"]):
            self.assertIn("-o is the last word", self.refused("from-c", *words))
        self.assertEqual(view("from-c", file + ".no", "-o", made)[:2], (4, b""))
        message = b"/no/folder/made.obj can't be written: No such file or directory\n"
        self.assertEqual(view("from-c", file, "-o", "/no/folder/made.obj"), (5, b"", message))


class Forms(unittest.TestCase):
    def test_forms_of_words(self):
        for form, value in [
            ("17", 17),
            ("0x1F", 31),
            ("017", 15),
            ("0XffffffffUL", 0xFFFFFFFF),
            ("1U << 10U | 1u", 1025),
            ("(1 | 2) << (3)", 24),
            ("1 | 2 << 3", 17),
            ("0xF0 & ~0x30", 0xC0),
            ("7 ^ 2 + 1", 4),
            ("(8/2)", 4),
            ("17 % 5 * 3", 6),
            ("~0", 0xFFFFFFFF),
            ("1 << 31", 0x80000000),
            ("~0U >> 4", 0x0FFFFFFF),
            ("0xFFFFFFFF >> 4", 0x0FFFFFFF),
            ("3U << 31", 0x80000000),
            ("1U - 2", 0xFFFFFFFF),
            ("~(1 << 31) & 0xFF", 0xFF),
            ("6 - 2 * 2 >> 1", 1),
            ("NODE_UART_0", 33),
            ("NODE_OCM_BANK_3", 14),
            ("NODE_PMU", 77),
            ("PM_CAP_ACCESS | PM_CAP_CONTEXT | PM_CAP_WAKEUP", 7),
            ("XILPM_RESET_PCIE_CFG", 1000),
            ("XILPM_RESET_PS_PL3", 1119),
            ("PM_CONFIG_IPI_PSU_CORTEXR5_1_MASK | PM_CONFIG_IPI_PSU_CORTEXA53_0_MASK", 0x201),
            ("PM_CONFIG_GPO_SECTION_ID", 0x108),
            ("SUSPEND_TIMEOUT", 0xFFFFFFFF),
            ("PM_CONFIG_GPO1_MIO_PIN_37_MAP", 1 << 13),
            ("PM_CONFIG_GPO1_BIT_2_MASK", 4),
            ("1 /* one */ | // and\n 2", 3),
            ("1 | \\\n 2", 3),
        ]:
            with self.subTest(form):
                self.assertEqual(words_of(array([form])), [value])

    def test_what_the_file_defines_counts_first(self):
        text = "#define ONE 1U\n#define BOTH (ONE | \\\n 2)\n#define NODE_APU 9\n#undef ONE\n#define ONE 4\n"
        self.assertEqual(words_of(text + array(["BOTH", "NODE_APU", "ONE /* a */"])), [6, 9, 4])
        # (tokens are put in place, not values)
        self.assertEqual(words_of("#define A 1 | 2\n" + array(["A << 1"])), [5])

    def test_the_array_as_the_tools_write_it(self):
        for text in [
            'const u32 XPm_ConfigObject[] __attribute__((used, section(".sys_cfg_data"))) = { 1, 2, };',
            "extern const u32 XPm_ConfigObject[];\nstatic u32 XPm_ConfigObject[2U] = {1,2};",
            "#include <a/b.h>\n#pragma once\nint x = 5;\nconst u32 XPm_ConfigObject[]={\n1\n,\n2\n};int y[] = {3};",
            "#ifdef NO\nconst u32 XPm_ConfigObject[] = { 3 };\n#else\nconst u32 XPm_ConfigObject[] = { 1, 2 };\n#endif",
            "#if defined (__ICCARM__)\n#elif defined __GNUC__ && !defined(NO)\nu32 XPm_ConfigObject[] =\n#else\n#error no\n#endif\n{1, 2};",
            "#if 0\n#if 1\nit's\n#else\n#endif\n#elif 1\nu32 XPm_ConfigObject[] = {1,\r\n2};\r\n#else\n)\n#endif",
        ]:
            with self.subTest(text):
                self.assertEqual(words_of(text), [1, 2])

    def test_what_is_refused_with_its_line(self):
        for text, message in [
            (array(["NODE_UART_2"]), "1: unknown name NODE_UART_2"),
            ("\n\n" + array(["1,\n FOO"]), "4: unknown name FOO"),
            (array(["UART_0"]), "1: unknown name UART_0"),
            (array(["NODE_"]), "1: unknown name NODE_"),
            (array(["1", "", "2"]), "1: a value is missing"),
            (array(["1 |"]), "1: a value is missing"),
            (array(["(1"]), "1: a bracket isn't closed"),
            (array(["(1 2)"]), "1: `2` isn't read here"),
            (array(["(1 ?\n 2 : 3)"]), "1: `?` isn't read here"),
            (array(["(8 /\n 0)"]), "1: a division by 0"),
            (array(["(8 /"]), "1: a bracket isn't closed"),
            (array(["1 2"]), "1: `2` isn't read here"),
            (array(["-1"]), "1: `-` isn't read here"),
            (array(["1 ? 2 : 3"]), "1: `?` isn't read here"),
            (array(["[0] = 1"]), "1: `[` isn't read here"),
            (array(["{1}"]), "1: `{` isn't read here"),
            (array(["'a'"]), "1: `'a'` isn't read here"),
            (array(["1.5"]), "1: `.` isn't read here"),
            (array(["08"]), "1: `08` isn't read here"),
            (array(["0x"]), "1: `0x` isn't read here"),
            (array(["12ab"]), "1: `12ab` isn't read here"),
            (array(["sizeof(int)"]), "1: unknown name sizeof"),
            (array(["1" * 5000]), "1: `" + "1" * 5000 + "` isn't read here"),
            (array(["0x100000000"]), "1: the value doesn't fit 32 bits"),
            (array(["3 << 31"]), "1: the value doesn't fit 32 bits"),
            (array(["1 - 2"]), "1: the value doesn't fit 32 bits"),
            (array(["1 << 32"]), "1: a shift by more than 31"),
            (array(["(" * 60 + "1" + ")" * 60]), "1: more than 50 brackets"),
            ("#define M(x) x\n" + array(["M(1)"]), "2: M is a macro with arguments, which isn't read here"),
            ("#define A B\n#define B A\n" + array(["A"]), "3: A is defined by itself, or by too many others"),
            ("".join(f"#define A{k} A{k + 1}\n" for k in range(60)) + array(["A0"]), "61: A50 is defined by itself, or by too many others"),
            ("#define A\n" + array(["A"]), "2: a value is missing"),
            ("#define 1\n", "1: #define names nothing"),
            ("#if 1\n" + array([1]), "1: a conditional begins and doesn't end"),
            ("#endif\n", "1: #endif without #if"),
            ("#if 1 +\n#endif\n", "1: a value is missing"),
            ("#error no\n" + array([1]), "1: the directive #error isn't read here"),
            ("\n/* a\n", "2: a comment begins and doesn't end"),
            ("int x;\n", "1: no array XPm_ConfigObject is defined"),
            (array([1]) + array([1]), "2: XPm_ConfigObject is defined a second time"),
            ("u32 XPm_ConfigObject[] = {\n1, 2;\n", "1: a bracket isn't closed"),
            ("u32 XPm_ConfigObject[3] = {\n1, 2\n};\n", "3: the array has 2 words, and another length in its brackets"),
        ]:
            with self.subTest(text):
                with self.assertRaises(programs.BadUse) as caught:
                    from_c.words_of("FILE.c", text)
                self.assertEqual(str(caught.exception), "FILE.c:" + message)


UNSURE = "depends on the sign or the width of a type"


class Unsure(unittest.TestCase):
    """What one compiler reads so and another one otherwise is refused with its line."""

    def refusal(self, text):
        with self.assertRaises(programs.BadUse) as caught:
            from_c.words_of("FILE.c", text)
        return str(caught.exception)

    def test_signs_and_widths(self):
        for form in [
            "~0 >> 4", "(1 << 31) >> 3", "~0 > 0", "~0 == 0xFFFFFFFF", "~0 << 4", "~0 + 1", "~0 / 2", "1 << ~0", "0x7FFFFFFF + 1",
            "65536 * 32768", "~0L >> 4", "~0UL >> 4", "(1L << 31) >> 3", "!~4294967295", "2147483647L + 1L > 0",
            "(~0 & ~1) >> 1", "(~0 | 1) > 0", "(~0 ^ 1) >> 1",
        ]:  # fmt: skip
            with self.subTest(form):
                found = self.refusal("\n" + array([f"1,\n{form}"]))
                self.assertTrue(found.startswith("FILE.c:3: what `") and found.endswith(UNSURE), found)
        self.assertEqual(self.refusal(f"#if ~0U >> 4 > 1\n#endif\n{array([1])}"), f"FILE.c:1: what `>>` gives here {UNSURE}")

    def test_names_of_a_compiler(self):
        by = "FILE.c:2: the condition depends on the compiler, by "
        for condition, name in [
            ("if __STDC_VERSION__ >= 199901L", "__STDC_VERSION__"),
            ("if __GNUC__ >= 4", "__GNUC__"),
            ("ifdef _Generic", "_Generic"),
            ("ifndef __x86_64__", "__x86_64__"),
            ("if defined(__clang__) || 1", "__clang__"),
            ("if 1 || linux", "linux"),
            ("if true", "true"),
        ]:
            with self.subTest(condition):
                self.assertEqual(self.refusal(f"\n#{condition}\n#endif\n{array([1])}"), by + name)
        # (the file's own names may look like those of a compiler)
        text = "#define __MINE 2\n#if __MINE > 1 && defined(__MINE)\n#undef __MINE\n#endif\n#ifndef __MINE\n"
        self.assertEqual(words_of(text + array([5]) + "#endif\n"), [5])

    def test_names_of_an_included_file(self):
        for condition in ("if NO == 0", "ifdef NO", "if !defined NO"):
            with self.subTest(condition):
                text = f'#{condition}\n#endif\n#include "a.h"\n'
                self.assertEqual(words_of(text + array([1])), [1])
                self.assertEqual(
                    self.refusal(text + f"#{condition}\n#endif\n" + array([1])),
                    "FILE.c:4: the condition asks for NO, which an included file may define",
                )
                self.assertEqual(words_of(text + f"#undef NO\n#{condition}\n#endif\n" + array([1])), [1])

    def test_macros_within_macros_take_no_long(self):
        for body in ("{0} + {0}", "{0} {0}", "({0} | {0})"):
            macros = "#define A0 1\n" + "".join(f"#define A{k + 1} {body.format(f'A{k}')}\n" for k in range(40))
            begun = time.process_time()
            self.assertEqual(self.refusal(macros + array(["A40"])), "FILE.c:42: the expression has more than 1000 words")
            self.assertLess(time.process_time() - begun, 1)
        empty = "#define A0\n" + "".join(f"#define A{k + 1} A{k} A{k}\n" for k in range(40))
        self.assertIn("has more than 1000 words", self.refusal(empty + array(["A40"])))


class Compiler(Case):
    """Random expressions: each that is read has the value that GCC gives it."""

    NUMBERS = ["0", "1", "2", "3", "31", "32", "0xFF", "017", "0x7FFFFFFF", "0x80000000", "0xFFFFFFFF", "2147483647", "2147483648", "4294967295"]
    ENDS = ["", "", "", "U", "u", "L", "UL", "lu", "LL", "ull"]
    SIGNS = ["|", "|", "&", "^", "<<", "<<", ">>", ">>", "+", "-", "*", "/", "%", "==", "!=", "<", ">", "<=", ">=", "&&", "||"]

    def expression(self, dice, depth):
        kind = dice.random()
        if depth == 0 or kind < 0.2:
            return dice.choice(self.NUMBERS) + dice.choice(self.ENDS)
        if kind < 0.4:
            return dice.choice("~~!") + "(" * 1 + self.expression(dice, depth - 1) + ")"
        parts = self.expression(dice, depth - 1), dice.choice(self.SIGNS), self.expression(dice, depth - 1)
        return " ".join(parts) if kind < 0.6 else "(" + " ".join(parts) + ")"

    def compiled(self, text):
        """The words that a C file writes, as GCC compiles it."""
        source, made = self.file("words.c", "#include <stdio.h>\n" + text), self.file("words", b"")
        subprocess.run(["gcc", "-w", "-o", made, source], check=True)
        return subprocess.run([made], stdout=subprocess.PIPE, check=True).stdout.decode().split()

    def accepted(self, form):
        """A random expression, and the words of a file with it in this form, until enough are read."""
        dice, found, refused = random.Random(7), [], 0
        while len(found) < 1500:
            expression = self.expression(dice, dice.randint(1, 3))
            try:
                found.append((expression, words_of(form.format(expression))[0]))
            except programs.BadUse:
                refused += 1
        # (neither is nearly everything read nor nearly nothing)
        self.assertLess(len(found) / 10, refused)
        self.assertLess(refused, 10 * len(found))
        return found

    @unittest.skipUnless(shutil.which("gcc"), "no gcc is here")
    def test_each_expression_that_is_read_has_the_value_that_gcc_gives_it(self):
        found = self.accepted("const u32 XPm_ConfigObject[] = {{ {0} }};")
        array_of_all = "static const unsigned all[] = {" + ",\n".join(text for text, _ in found) + "};\n"
        loop = "int main(void) { for (unsigned k = 0; k < sizeof all / sizeof *all; k++) printf(\"%u\\n\", all[k]); }\n"
        self.compare(found, self.compiled(array_of_all + loop))

    @unittest.skipUnless(shutil.which("gcc"), "no gcc is here")
    def test_each_condition_that_is_read_holds_if_gcc_says_so(self):
        found = self.accepted("#if {0}\nu32 XPm_ConfigObject[] = {{ 1 }};\n#else\nu32 XPm_ConfigObject[] = {{ 0 }};\n#endif\n")
        branches = "".join(f"#if {text}\nputs(\"1\");\n#else\nputs(\"0\");\n#endif\n" for text, _ in found)
        self.compare(found, self.compiled(f"int main(void) {{\n{branches}}}\n"))

    def compare(self, found, words):
        differ = [(text, value, int(word)) for (text, value), word in zip(found, words) if value != int(word)]
        self.assertEqual((differ[:5], len(words)), ([], len(found)))


class Refused(Case):
    def test_a_refused_file_leaves_the_object_as_it_was(self):
        made = self.file("made.obj", b"before")
        file = self.file("bad.c", "\n" + array(["NODE_NO"]))
        self.assertEqual(self.refused("from-c", file, "-o", made), f"pmu: {file}:2: unknown name NODE_NO")
        self.assertEqual(programs.read_file(made), b"before")

    def test_what_is_no_object_is_found_in_the_c_file(self):
        for words, line, fault in [
            (SMALL[:6] + [3] + SMALL[7:], 7, "10 6"),
            (SMALL[:-1], 15, "3 14"),
            (SMALL + [9], 16, "12 15"),
            ([], 1, "3 0"),
        ]:
            file = self.file("bad.c", "u32 XPm_ConfigObject[] = {" + ",\n".join(map(str, words)) + "\n" * (words != []) + "};")
            made = self.file("made.obj", b"before")
            message = self.refused("from-c", file, "-o", made)
            self.assertTrue(message.startswith(f"pmu: {file}:{line}: ") and message.endswith(f"(fault object {fault})"), message)
            self.assertEqual(programs.read_file(made), b"before")

    def test_no_program_is_needed(self):
        file, made = self.file("small.c", array(SMALL)), self.file("made.obj", b"")
        with unittest.mock.patch.dict(os.environ, {"PMU_PROGRAM": ""}):
            self.assertEqual(self.written("from-c", file, "-o", made), b"")


def published(name):
    """The names of a published source with their numbers."""
    with open(os.path.join(os.path.dirname(os.path.abspath(__file__)), name), encoding="ascii") as file:
        rows = [line.split() for line in file if not line.startswith("#")]
    return {name: int(number) for name, number in rows}


class Names(Case):
    def test_each_name_of_the_converter_of_u_boot_has_its_number(self):
        wanted = published("converter.names")
        self.assertEqual({name: from_c.value_of(name) for name in wanted}, wanted)
        self.assertEqual((len(wanted), wanted["XILPM_RESET_GPIO5_EMIO_95"], wanted["NODE_UNKNOWN"]), (217, 1119, 0))

    @unittest.skipUnless(os.environ.get("U_BOOT"), "the environment's U_BOOT names no unpacked source of U-Boot")
    def test_the_list_and_the_object_are_those_of_the_converter(self):
        converter = os.path.join(os.environ["U_BOOT"], "tools/zynqmp_pm_cfg_obj_convert.py")
        with open(converter, encoding="utf-8") as file:
            rows = re.findall(r"^    '(\w+)' *: *(.*),$", file.read(), re.MULTILINE)
        words = {name: words_of(array([value]))[0] for name, value in rows}
        self.assertEqual(words, published("converter.names"))
        made = self.file("made.obj", b"")
        subprocess.run([sys.executable, converter, example("pm_cfg_obj.c"), made], stdout=subprocess.DEVNULL, check=True)
        self.assertEqual(programs.read_file(made), programs.read_file(example("pm_cfg_obj.obj")))

    def test_each_name_of_the_device_tree_bindings_has_its_number(self):
        wanted = published("bindings.names")
        found = {name: names.number_of("node" if name.startswith("PD_") else "line", name) for name in wanted}
        self.assertEqual(found, {name: number + 1000 * name.startswith("ZYNQMP_RESET_") for name, number in wanted.items()})
        self.assertEqual((wanted["PD_R5_0_ATCM"], wanted["ZYNQMP_RESET_PS_PL3"]), (15, 119))

    def test_each_published_name(self):
        for node in names.NODES.values():
            self.assertEqual(from_c.value_of("NODE_" + node.name), node.number)
        for number, name in names.RESETS.items():
            self.assertEqual(from_c.value_of("XILPM_RESET_" + name), number)
        self.assertEqual(from_c.value_of("PM_CAP_WAKEUP"), 4)

    def test_the_section_identifiers_are_those_of_the_object(self):
        found = {value for name, value in from_c.DEFINED.items() if name.endswith("_SECTION_ID")}
        self.assertEqual(found, set(grammar.SECTIONS))


if __name__ == "__main__":
    unittest.main()
