"""What `./pmu --install` puts below a folder, by programs in C and C++ over it, and what `--uninstall` leaves."""
import os
import shutil
import subprocess
import sys
import unittest

from common import EXAMPLE, HERE, PROGRAMS, Tree, read, write

PROGRAM_FILES = {"bin/pmu", "lib/pmu/pmu", "lib/pmu/program", "lib/pmu/version", "lib/pmu/installed", "lib/pmu/wrapper/kept.sh", "lib/pmu/views/run.py"}
LIBRARY_FILES = {"lib/libpmu.a", "lib/libpmu_memory.a", "lib/libpmu.so", "lib/libpmu.so.0.1", "lib/libpmu.so.0.1.0", "lib/pkgconfig/pmu.pc"}
ALWAYS = {"include/pmu.h", "include/pmu_eemi.h", "share/man/man1/pmu.1", "share/man/man3/pmu.3", "lib/pmu/python/pmu.py", "lib/pmu/python/pmu_eemi.py", "share/doc/pmu/docs/FORMATS.md", "share/doc/pmu/examples/two-masters.obj"}


class Install(Tree):
    def setUp(self):
        super().setUp()
        self.prefix = f"{self.room}/prefix"
        self.environment["PMU_LIBRARY"] = f"{self.room}/library"

    def files(self):
        """The files and links below the prefix."""
        found = (os.path.join(folder, name) for folder, _, names in os.walk(self.prefix) for name in names)
        return {os.path.relpath(path, self.prefix) for path in found}

    def make_library(self):
        """Builds the archives of a library that stands for the real one."""
        if not (shutil.which("cc") and shutil.which("ar")):
            self.skipTest("no C compiler is in the path")
        os.mkdir(f"{self.room}/library")
        write(f"{self.room}/memory.c", "int of_the_memory;\n")
        for name, source in (("pmu", f"{HERE}/library.c"), ("pmu_memory", f"{self.room}/memory.c")):
            made = f"{self.room}/{name}.o"
            subprocess.run(["cc", "-fPIC", "-c", f"-I{self.top}/include", source, "-o", made], check=True)
            subprocess.run(["ar", "rc", f"{self.room}/library/lib{name}.a", made], check=True)

    def install(self, **more):
        """Installs, and gives what was said."""
        self.call("--prove")
        status, out, said = self.call("--install", self.prefix, **more)
        self.assertEqual((status, out), (0, b""), said)
        return said

    def test_only_the_proved_program_is_installed(self):
        said = "pmu: the program isn't proved for the sources as they are: ./pmu --prove proves it\n"
        for more in ({}, {"PMU_PROGRAM": PROGRAMS[0]}):
            self.assertEqual(self.call("--install", self.prefix, **more), (125, b"", said))
        self.call(*EXAMPLE)
        self.assertEqual(self.call("--install", self.prefix), (125, b"", said))
        self.assertEqual(self.files(), set())

    def test_the_installed_program_answers_without_the_checkout(self):
        said = self.install()
        self.assertIn(f"pmu: the library isn't installed, only its headers: {self.room}/library has no archives", said)
        self.assertEqual(self.files() & LIBRARY_FILES, set())
        self.assertLessEqual(PROGRAM_FILES | ALWAYS, self.files())
        examples, wanted = f"{self.room}/examples", self.call(*EXAMPLE)
        version = self.call("--version")
        shutil.move(f"{self.top}/examples", examples)
        shutil.rmtree(self.top)
        os.unlink(f"{self.room}/bin/rt")

        def installed(*words):
            ran = subprocess.run([f"{self.prefix}/bin/pmu", *words], cwd=self.room, env=self.environment, stdin=subprocess.DEVNULL, capture_output=True, check=False)
            return ran.returncode, ran.stdout, ran.stderr.decode()

        self.assertEqual(installed(*EXAMPLE), wanted)
        self.assertEqual(wanted[::2], (0, ""))
        self.assertEqual(installed("--version"), version)
        self.assertEqual(installed("--names", *EXAMPLE)[::2], (0, ""))
        self.assertEqual(installed("lint", "examples/laboratory.obj")[0], 0)
        self.assertEqual(installed("--prove"), (0, b"", "pmu: this is an installed copy, whose program is proved\n"))
        self.assertEqual(installed("--install", self.prefix)[0], 125)
        status, _, said = installed("--uninstall", self.prefix)
        self.assertEqual((status, self.files(), os.path.exists(self.prefix)), (0, set(), True), said)

    def test_programs_over_the_installed_library(self):
        self.make_library()
        self.assertNotIn("no shared object", self.install())
        self.assertEqual(self.files() & LIBRARY_FILES, LIBRARY_FILES)
        shutil.copy(f"{HERE}/user.c", f"{self.room}/user.cc")
        built = 0
        for compiler, source, standard in (("cc", f"{HERE}/user.c", "-std=c99"), ("c++", f"{self.room}/user.cc", "-std=c++11")):
            if not shutil.which(compiler):
                continue
            for name, words in (("shared", self.flags()), ("static", [f"-I{self.prefix}/include", f"{self.prefix}/lib/libpmu.a"])):
                made = f"{self.room}/{compiler}.{name}"
                subprocess.run([compiler, standard, "-Wall", "-Wextra", "-Werror", source, *words, "-o", made], check=True)
                ran = subprocess.run([made], env={"LD_LIBRARY_PATH": f"{self.prefix}/lib"}, capture_output=True, check=False)
                self.assertEqual((ran.returncode, ran.stdout, ran.stderr), (0, b"0.1.0 1 reply 1 0 65537 0 0\n", b""))
                built += 1
        self.assertGreater(built, 1)
        os.unlink(f"{self.prefix}/lib/libpmu.so.0.1")
        ran = subprocess.run([f"{self.room}/cc.shared"], env={"LD_LIBRARY_PATH": f"{self.prefix}/lib"}, capture_output=True, check=False)
        self.assertIn(b"libpmu.so.0.1:", ran.stderr)

    def test_the_binding_for_python_loads_the_installed_library(self):
        self.make_library()
        self.install()
        # (the one that stands for the real one lacks what it doesn't use)
        load = "import pmu\ntry:\n    pmu.load()\nexcept pmu.NoLibrary as fault:\n    print(fault)"
        ran = subprocess.run([sys.executable, "-Bc", load], env={"PYTHONPATH": f"{self.prefix}/lib/pmu/python"}, capture_output=True, check=False)
        self.assertEqual((ran.returncode, ran.stderr), (0, b""))
        self.assertIn(f"{os.path.realpath(self.prefix)}/lib/".encode(), os.path.normpath(ran.stdout))
        self.assertIn(b"undefined symbol: pmu_replay", ran.stdout)

    def flags(self):
        """What the file for pkg-config says, read by itself if that is there."""
        if shutil.which("pkg-config"):
            words = ["pkg-config", "--cflags", "--libs", "pmu"]
            said = subprocess.run(words, env={**os.environ, "PKG_CONFIG_PATH": f"{self.prefix}/lib/pkgconfig"}, stdout=subprocess.PIPE, check=True)
            return said.stdout.decode().split()
        values = {}
        for line in read(f"{self.prefix}/lib/pkgconfig/pmu.pc").decode().splitlines():
            name, _, value = line.replace(": ", "=", 1).partition("=")
            for known, put in values.items():
                value = value.replace(f"${{{known}}}", put)
            values[name] = value
        return [*values["Cflags"].split(), *values["Libs"].split()]

    def test_a_second_one_replaces_the_first(self):
        self.install()
        before = self.files()
        write(f"{self.prefix}/lib/pmu/of_the_user", "")
        write(f"{self.prefix}/lib/pmu/views/run.py", "an older one")
        self.install()
        self.assertEqual(self.files(), before | {"lib/pmu/of_the_user"})
        self.assertEqual(read(f"{self.prefix}/lib/pmu/views/run.py"), read(f"{self.top}/views/run.py"))
        status, _, said = self.call("--uninstall", self.prefix)
        self.assertEqual((status, said), (0, f"pmu: what was installed below {self.prefix} is removed\n"))
        self.assertEqual(self.files(), {"lib/pmu/of_the_user"})
        self.assertEqual(self.call("--uninstall", self.prefix), (125, b"", f"pmu: nothing is installed below {self.prefix}\n"))

    def test_a_folder_of_packagers(self):
        self.make_library()
        self.call("--prove")
        said = self.call("--install", "/usr", DESTDIR=self.prefix)
        self.assertEqual((said[0], os.path.exists(f"{self.prefix}/usr/bin/pmu")), (0, True), said)
        self.assertIn(b"prefix=/usr\n", read(f"{self.prefix}/usr/lib/pkgconfig/pmu.pc"))
        for file in self.files():
            self.assertNotIn(self.prefix.encode(), read(f"{self.prefix}/{file}"), file)

    def test_manual_pages(self):
        self.install()
        page = read(f"{self.prefix}/share/man/man1/pmu.1").decode()
        self.assertTrue(page.startswith('.TH pmu 1 "" "pmu 0.1.0"\n.SH NAME\npmu \\- the power management core'), page[:200])
        self.assertIn("./pmu replay OBJ SCRIPT", page)
        self.assertIn("policy \\-\\-repair ", page)
        self.assertIn("pmu_is_beyond", read(f"{self.prefix}/share/man/man3/pmu.3").decode())
        if shutil.which("man"):
            ran = subprocess.run(["man", "-l", f"{self.prefix}/share/man/man1/pmu.1"], capture_output=True, env={**os.environ, "LC_ALL": "C", "MANPAGER": "cat"}, check=False)
            self.assertEqual((ran.returncode, b"--uninstall PREFIX" in ran.stdout), (0, True), ran.stderr)

    def test_a_folder_that_can_not_be_written(self):
        write(self.prefix, "a file")
        self.call("--prove")
        status, out, said = self.call("--install", self.prefix)
        self.assertEqual((status, out), (125, b""))
        self.assertEqual(read(self.prefix), b"a file")
        self.assertEqual(self.call("--install", "relative")[0], 125)
        self.assertEqual(self.call("--install"), (125, b"", "pmu: --install is followed by one folder\n"))


if __name__ == "__main__":
    unittest.main()
