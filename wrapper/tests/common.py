"""What the tests of the wrapper share."""
import os
import shutil
import signal
import subprocess
import sys
import tempfile
import time
import unittest

HERE = os.path.dirname(os.path.realpath(__file__))
TOP = os.path.dirname(os.path.dirname(HERE))
sys.path.insert(0, os.path.join(TOP, "views"))

# The programs that are tested, the first of which stands for the proved one.
PROGRAMS = []
# What is said beside the answer of a program before its proof, of that which isn't optimised, and while one is compiled.
NOTICE = "pmu: this answer is the program's before its proof: ./pmu --prove proves and builds it\n"
SLOW = "pmu: this answer is the program's before its proof, and slow, since it isn't optimised: ./pmu --prove proves and builds it\n"
READS = "pmu: compiling the program, before its proof: reading the sources\n"
COMPARES = "pmu: comparing the program with cases\n"
COMPILES = READS + COMPARES
EXAMPLE = ("replay", "examples/laboratory.obj", "examples/sleep.script")

TOOLCHAIN = """#!/bin/sh
# Stands for the toolchain's rt: it 'compiles' and 'proves' the program $STAND_IN, and notes that it was called.
echo "$1" >>"$TOOLCHAIN_LOG"
kit=$(dirname "$(dirname "$(readlink -f "$0")")")
case $1 in
    version) echo 'a toolchain' ;;
    doc) echo "$kit/page" ;;
    try)
        sleep "${SECONDS_OF_WORK:-0}"
        [ -z "$IS_WRONG" ] || { echo 'src/main.rt: a fault'; exit 2; }
        mkdir "$TMPDIR/made" && "$kit/toolchain/bin/clang" -c module.bc -O0 -fsanitize=address -o "$TMPDIR/made/program" &&
            exec "$TMPDIR/made/program" print "$4"
        ;;
    ci)
        for crate in $(ls crates | head -n 10); do echo "rt: $crate proved"; done
        sleep "${SECONDS_OF_WORK:-0}"
        for crate in $(ls crates | tail -n +11); do echo "rt: $crate is kept: .."; done
        [ -z "$REFUSES" ] || { echo 'rt: pm_core NOT PROVED'; exit 1; }
        mkdir crates/pm_cli/out && cp "$STAND_IN" crates/pm_cli/out/pm_cli
        ;;
esac
"""

CLANG = """#!/bin/sh
# Stands for the toolchain's clang: the program that it makes is $STAND_IN, or, optimised, $OPTIMISED where that is set.
case " $* " in
    *' -O1 '*' -fsanitize'*) exit 1 ;;
    *' -O1 '*) made=${OPTIMISED:-$STAND_IN}; echo optimised >>"$TOOLCHAIN_LOG"; [ -z "$NEVER_OPTIMISES" ] || exit 1 ;;
    *) made=$STAND_IN ;;
esac
for word; do last=$word; done
cp "$made" "$last" && chmod 755 "$last"
"""


def as_a_shell_starts_it():
    """The signals end a call, also where whoever runs the tests ignores them."""
    for it in (signal.SIGHUP, signal.SIGINT, signal.SIGTERM):
        signal.signal(it, signal.SIG_DFL)


def read(path):
    with open(path, "rb") as file:
        return file.read()


def write(path, data, mode=None):
    with open(path, "wb") as file:
        file.write(data if isinstance(data, bytes) else data.encode())
    if mode:
        os.chmod(path, mode)


class Tree(unittest.TestCase):
    """A copy of the repository with no program, with a script for the toolchain, which needs no definitions or proofs."""

    LEFT_OUT = ["out", ".git", "must-fail", "more-edits", "__pycache__", "specs", "proofs"]

    def setUp(self):
        self.room = tempfile.mkdtemp()
        self.addCleanup(shutil.rmtree, self.room)
        self.top = os.path.join(self.room, "tree")
        self.temporary = os.path.join(self.room, "temporary")
        shutil.copytree(TOP, self.top, ignore=shutil.ignore_patterns(*self.LEFT_OUT))
        os.mkdir(self.temporary)
        self.kit = os.path.join(self.room, "kit")
        for folder in (f"{self.room}/bin", f"{self.kit}/bin", f"{self.kit}/c", f"{self.kit}/toolchain/bin"):
            os.makedirs(folder)
        write(f"{self.kit}/bin/rt", TOOLCHAIN, 0o755)
        write(f"{self.kit}/toolchain/bin/clang", CLANG, 0o755)
        for part in ("page", "bin/rtlib.py", "c/asan.a"):
            write(f"{self.kit}/{part}", "")
        os.symlink(f"{self.kit}/bin/rt", f"{self.room}/bin/rt")
        self.environment = {
            **os.environ,
            "PATH": f"{self.room}/bin:{os.environ['PATH']}",
            "STAND_IN": PROGRAMS[0],
            "TOOLCHAIN_LOG": f"{self.room}/log",
            "TMPDIR": self.temporary,
            "XDG_CACHE_HOME": f"{self.room}/cache",
        }
        self.environment.pop("PMU_PROGRAM", None)

    def start(self, *words, **more):
        how = {"cwd": self.top, "env": {**self.environment, **more}, "stdin": subprocess.DEVNULL}
        how.update(stdout=subprocess.PIPE, stderr=subprocess.PIPE, start_new_session=True, preexec_fn=as_a_shell_starts_it)
        return subprocess.Popen(["./pmu", *words], **how)

    def call(self, *words, **more):
        """The exit, the output and what was said on standard error of a call."""
        call = self.start(*words, **more)
        out, said = call.communicate(timeout=900)
        return call.returncode, out, said.decode()

    def kept(self, kind):
        """The programs that are kept of a kind."""
        folder = f"{self.top}/out"
        names = os.listdir(folder) if os.path.isdir(folder) else []
        return [name for name in names if name.startswith(f"{kind}.") and not name.endswith((".lock", ".room"))]

    def calls(self, verb):
        """How often the toolchain was called for this."""
        return read(f"{self.room}/log").decode().split().count(verb) if os.path.exists(f"{self.room}/log") else 0

    def begin(self, verb, *words):
        """A call that has just begun to work by the toolchain, for long."""
        before, until = self.calls(verb), time.monotonic() + 60
        call = self.start(*words, SECONDS_OF_WORK="20")
        while self.calls(verb) == before and time.monotonic() < until:
            time.sleep(0.1)
        return call

    def answers(self, *more_said):
        """Whether the example is answered as the program answers it, with this said beside it."""
        status, out, said = self.call(*EXAMPLE)
        wanted = subprocess.run([PROGRAMS[0], *EXAMPLE], cwd=self.top, stdout=subprocess.PIPE).stdout
        self.assertEqual((status, out), (0, wanted))
        self.assertEqual(said, "".join(more_said))

    def count_of_crates(self):
        """How many crates the program is made of: its own, and those that it reaches by the lines of crates.txt."""
        uses = {}
        for line in read(f"{self.top}/crates.txt").decode().splitlines():
            crate, colon, below = line.partition("#")[0].partition(":")
            uses[crate.strip()] = below.split() if colon else []
        found, left = set(), ["pm_cli"]
        while left:
            crate = left.pop()
            if crate in uses and crate not in found:
                found.add(crate)
                left += uses[crate]
        return len(found)

    def change_a_source(self):
        with open(f"{self.top}/crates/pm_core/src/lib.rt", "a") as file:
            file.write("// another line\n")


def run(command, folder):
    how = {"cwd": folder, "stdin": subprocess.DEVNULL, "stdout": subprocess.PIPE, "stderr": subprocess.DEVNULL}
    ran = subprocess.run(command, timeout=120, **how)
    return ran.returncode, ran.stdout


class Named(unittest.TestCase):
    """Calls over a program that is named: nothing is compiled."""

    def setUp(self):
        self.top = TOP
        self.folder = tempfile.mkdtemp()
        self.addCleanup(shutil.rmtree, self.folder)
        self.environment = {**os.environ, "PMU_PROGRAM": PROGRAMS[0]}
        for name in ("laboratory.obj", "laboratory.txt", "sleep.script", "two-masters.obj"):
            shutil.copy(f"{TOP}/examples/{name}", self.folder)

    def call(self, *words, given=b"", **how):
        ran = subprocess.run(
            [f"{self.top}/pmu", *words], cwd=self.folder, env=self.environment, input=given, capture_output=True, timeout=60, **how
        )
        return ran.returncode, ran.stdout, ran.stderr.decode()
