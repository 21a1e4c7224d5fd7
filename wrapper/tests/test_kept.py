"""Where programs are kept, and what is wanted of the machine."""
import os
import shutil
import subprocess
import unittest

from common import COMPILES, EXAMPLE, NOTICE, Tree, write


class Keep(Tree):
    def test_a_full_disk_leaves_nothing_that_counts(self):
        # (no file may grow past 4 KB, and the program is larger)
        for words, kind in ((EXAMPLE, "unproved"), (("--prove",), "proved")):
            limited = ["sh", "-c", 'ulimit -f 8; exec ./pmu "$@"', "pmu", *words]
            ran = subprocess.run(limited, cwd=self.top, env=self.environment, stdin=subprocess.DEVNULL, capture_output=True, timeout=60)
            self.assertEqual((ran.returncode, ran.stdout), (125, b""), ran.stderr)
            self.assertEqual((self.kept(kind), os.listdir(self.temporary)), ([], []))
        self.answers(COMPILES, NOTICE)

    def test_a_disk_that_gets_full_leaves_nothing_that_counts(self):
        copy = 'case $2 in */out/*.new) head -c 4096 "$1" >"$2"; echo "cp: no space left" >&2; exit 1 ;; esac\nexec %s "$@"\n'
        write(f"{self.room}/bin/cp", "#!/bin/sh\n" + copy % shutil.which("cp"), 0o755)
        for words, kind in ((EXAMPLE, "unproved"), (("--prove",), "proved")):
            status, out, said = self.call(*words)
            self.assertEqual((status, out), (125, b""))
            self.assertIn("pmu: the program can't be kept in ", said)
            self.assertEqual((self.kept(kind), os.listdir(self.temporary)), ([], []))
        os.unlink(f"{self.room}/bin/cp")
        self.answers(COMPILES, NOTICE)

    def test_no_toolchain(self):
        os.unlink(f"{self.room}/bin/rt")
        found = [f"{folder}/{name}" for folder in ("/usr/bin", "/bin") for name in os.listdir(folder)]
        for path in found:
            if not os.path.lexists(f"{self.room}/bin/{os.path.basename(path)}"):
                os.symlink(path, f"{self.room}/bin/{os.path.basename(path)}")
        status, out, said = self.call(*EXAMPLE, PATH=f"{self.room}/bin")
        self.assertEqual((status, out), (125, b""))
        self.assertIn("the toolchain's rt", said)

    def test_no_python(self):
        os.mkdir(f"{self.room}/tools")
        for name in ("sh", "dirname", "readlink"):
            os.symlink(shutil.which(name), f"{self.room}/tools/{name}")
        for words in (EXAMPLE, ("lint", "examples/laboratory.obj"), ("--names", *EXAMPLE)):
            self.assertEqual(self.call(*words, PATH=f"{self.room}/tools"), (125, b"", "pmu: python3 isn't in the path: see README.md\n"))

    def test_a_checkout_that_can_not_be_written(self):
        # (a file in place of the folder keeps root too from writing there)
        write(f"{self.top}/out", "")
        self.answers(COMPILES, NOTICE)
        self.answers(NOTICE)
        self.assertEqual(self.calls("try"), 1)
        self.assertEqual(len(self.cached("unproved")), 1)
        self.assertEqual(self.call("--prove")[0], 0)
        self.answers()
        self.assertEqual(self.call("--program")[1].decode(), f"{self.room}/cache/pmu/{self.cached('proved')[0]}\n")

    def test_the_cache_has_the_programs_of_several_checkouts(self):
        write(f"{self.top}/out", "")
        for count in (1, 2, 3, 4, 4):
            self.answers(COMPILES, NOTICE)
            self.assertEqual(len(self.cached("unproved")), count)
            self.change_a_source()

    def test_no_folder_can_be_written(self):
        write(f"{self.top}/out", "")
        write(f"{self.room}/cache", "")
        status, out, said = self.call(*EXAMPLE)
        self.assertEqual((status, out), (125, b""))
        self.assertEqual(said, f"pmu: no program is kept, and none can be: {self.top}/out can't be written, nor can {self.room}/cache/pmu\n")
        self.environment.pop("HOME", None)
        said = self.call(*EXAMPLE, XDG_CACHE_HOME="")[2]
        self.assertEqual(said, f"pmu: no program is kept, and none can be: {self.top}/out can't be written\n")

    def test_the_home_has_the_cache_if_none_is_named(self):
        write(f"{self.top}/out", "")
        self.environment.update(XDG_CACHE_HOME="relative", HOME=f"{self.room}/home")
        self.assertEqual(self.call(*EXAMPLE)[0], 125)
        self.environment.pop("XDG_CACHE_HOME")
        self.answers(COMPILES, NOTICE)
        self.assertEqual(len(os.listdir(f"{self.room}/home/.cache/pmu")), 2)

    def cached(self, kind):
        """The programs of a kind that the user's cache has."""
        return [name for name in os.listdir(f"{self.room}/cache/pmu") if name.startswith(f"{kind}.") and not name.endswith((".lock", ".room"))]


if __name__ == "__main__":
    unittest.main()
