"""The views over a device that fails: what the book says and what the device took are those of the program.

Each example, and scripts that are made by chance with lines about the device among them, run through the steps, the dump and
the comparison. The last values are those of the closing table, in the book and at the device, and the units that differ are those
that `isolate` lists.
"""

import os
import random
import time
import unittest

import chip as chips
import diff
import moves
import outages
import permits
import picture
import program as programs
import split
import steps
import wave_signals
import waveform
from common import TOPOLOGIES, Case, board_of, example, examples, program
from steps import Unit

# How many scripts are made, and how long their test may take: a slow program runs fewer of them.
MOST, FEWEST, SECONDS = 300, 6, 30

LINES = 14

# An object in which each master may do much, and reset processors too.
MUCH = """header
section masters
master 1 1 100 6 6
master 7 2 50 5 5
master 8 4 4294967295 1 1
section slaves
slave 28 0 7
slave 33 1 3
slave 15 0 6
section prealloc
group 2
prefer 15 0 0 3
section power
power 10 2
power 6 1
power 7 5
section reset
reset 2 2
reset 7 1
reset 8 3
reset 33 7
section shutdown
shutdown 2 1
"""

# A script over laboratory.obj in which the device keeps APU_0 on, and the book has it off.
KEPT_ON = "ipi 1 21\nboot 7 0\nbreak 2\nipi 7 8 10 2\nipi 7 3 2\n"


def some_slaves(chance, board):
    """A few slaves that an object has records of: so few that a script often meets one again."""
    return chance.sample([it.node for it in board.found.records("slave") if board.chip.is_kind(it.node, "slave")], 2)


def one_line(chance, board, slaves):
    """A line of a script by chance, over these slaves."""
    chip, masters = board.chip, list(permits.masters(board))
    procs = [proc for master in masters for proc in chip.owners[master][:2]]
    master, proc, slave, power = (chance.choice(it) for it in (masters, procs, slaves, chip.of_kind("power")))
    lines = [record.line for record in board.found.records("reset") if record.line in chip.lines] or list(chip.lines)
    send = chance.choice(["ipi", "ipi", "ipi", "post"])
    forms = [
        f"{send} {master} 21",
        f"{send} {master} 13 {slave} {chance.choice([1, 1, 2, 3])} 0 {chance.choice([1, 2, 3])}",
        f"{send} {master} 14 {slave}",
        f"{send} {master} 15 {slave} {chance.choice([0, 1, 2])} 0 2",
        f"{send} {master} 7 {proc} 0 0 {16 * chance.randrange(9)} 0",
        f"{send} {master} 8 {chance.choice([power, proc])} {chance.choice([1, 2, 3])}",
        f"{send} {master} 9 100 {proc}",
        f"{send} {master} 10 {proc} {chance.choice([0, 4097])} 0 2",
        f"{send} {master} 11 {proc} {slave} 1",
        f"{send} {master} 12 {chance.choice([0, 1])} {chance.choice([0, 0, 1, 2])}",
        f"{send} {master} 17 {chance.choice(lines)} {chance.choice([0, 1, 2, 2])}",
        f"{send} {master} 5 {chance.choice([slave, power])} 1 0 1",
        f"{send} {master} 6 {chance.choice([*procs, *masters])} 2 0 0",
        f"boot {proc} 0",
        f"wfi {proc}",
        f"gic {proc}",
        f"irq {slave}",
        "serve",
        f"tick {chance.choice([1, 50, 200])}",
        f"smc {chance.choice(procs)} {chance.choice([0x84000002, 0xC4000003, 0x84000008, 0x84000009])} {chance.randrange(3)} 0",
    ]
    devices = [f"break {chance.choice([slave, slave, power, proc])}", f"break {slave}", f"mend {chance.choice([slave, power, proc])}"]
    devices += [f"break {chance.choice([slave, power])} for {chance.randrange(1, 4)}", f"fail {slave} once"]
    return chance.choice(devices if chance.random() < 0.35 else forms)


class Devices(Case):
    def run_of(self, board, path):
        """Over what a script runs."""
        return steps.Run(path, board.chip, self._room.name)

    def last_values(self, board, run):
        """The last value of each signal of the dump of some steps, and of each unit of a row of the comparison."""
        script = run.replay.numbers[-1] if run.replay.numbers else 0
        dump = picture.read("\n".join(waveform.dump(board.chip, run, [""] * script)))
        last = {(signal.scope, signal.name): signal.changes[-1][1] for signal in dump.signals if signal.width}
        named = {signal: last[path, wave_signals.name_of(signal.unit)] for path, those in wave_signals.scopes(board.chip) for signal in those}
        return named

    def check_closing(self, board, path, content):
        """The last values of the steps and of the dump are those of the closing table."""
        run = steps.steps_of(self.run_of(board, path), content)
        values = {}
        for line in moves.of_lines(run, max(moment.line for moment in run.moments)):
            for unit, each in line.items():
                kept = [value for value in each.device if not isinstance(value, moves.Refused)][-1]
                values[unit] = (each.book[-1], each.book[-1] if unit.kind == "clock" else kept)
        values = {unit: pair for unit, pair in values.items() if pair != (0, 0)}
        self.assertEqual(values, run.closing, content)
        for signal, value in self.last_values(board, run).items():
            self.assertEqual(value, run.closing.get(signal.unit, (0, 0))[int(signal.of_device)], (signal, content))
        return run

    def transitions(self, run):
        """The units with the lines after which they have another value in the book."""
        lines = moves.of_lines(run, max(moment.line for moment in run.moments))
        found = {(line, unit, each.book[0], each.book[-1]) for line, those in enumerate(lines) for unit, each in those.items()}
        return {move for move in found if move[2] != move[3] and move[1].kind != "clock"}

    def check_isolate(self, board, path, content, node, run):
        """The units that move otherwise without a master's messages are those that `isolate` lists."""
        script = self.file("all.script", outages.plain(content))
        second, silenced = diff.without_messages(content, node)
        if not silenced:
            return 0
        status, compared, _ = program("isolate", path, script, str(node), *board.chip.words())
        self.assertEqual(status, 0, content)
        wanted = {" ".join(line.split()[1:]) for line in compared.decode().splitlines() if line.startswith("differ")}
        other = steps.steps_of(self.run_of(board, path), second)
        units = {unit for _, unit, _, _ in self.transitions(run) ^ self.transitions(other)}
        self.assertEqual({f"{diff.title(board.chip, diff.Subject(*unit)).split()[0]} {unit.number}" for unit in units}, wanted, (node, content))
        return len(wanted)

    def check(self, board, path, content, nodes):
        """All of it, for a script; gives how many units differ without the messages of a master."""
        run = self.check_closing(board, path, content)
        return sum(self.check_isolate(board, path, content, node, run) for node in nodes)

    def test_each_script_of_the_examples(self):
        count = 0
        for script in examples(".script"):
            path = example("clocks.obj" if "clocks" in script else "laboratory.obj")
            with self.subTest(os.path.basename(script)):
                board = board_of(path)
                count += self.check(board, path, programs.read_file(script), permits.masters(board))
        self.assertGreater(count, 40)

    def test_each_object_of_the_examples_over_a_script_with_failures(self):
        content = programs.read_file(example("domains.script")) + b"break 6\nipi 1 8 6 2\nbreak 33\nipi 1 13 33 1 0 2\nmend 6\n"
        for path in examples(".obj"):
            with self.subTest(os.path.basename(path)):
                board = board_of(path)
                self.check(board, path, content, list(permits.masters(board))[:1])

    def test_scripts_by_chance(self):
        much = self.file("much.obj", program("build", self.file("much.txt", MUCH))[1])
        boards = {path: board_of(path) for path in (much, *map(example, ("laboratory.obj", "three-masters.obj", "clocks.obj")))}
        chance, begin, count, failed, differ = random.Random(63), time.monotonic(), 0, 0, 0
        while count < MOST and (count < FEWEST or time.monotonic() - begin < SECONDS):
            path = chance.choice(list(boards))
            board = boards[path]
            slaves = some_slaves(chance, board)
            lines = ["boot 7 0", *(one_line(chance, board, slaves) for _ in range(chance.randrange(1, LINES)))]
            place = chance.randrange(len(lines))
            lines[place:place] = ["ipi 1 21", f"break {slaves[0]}", f"ipi {chance.choice([1, 7])} 13 {slaves[0]} 1 0 2"]
            content = "".join(line + "\n" for line in lines).encode()
            run = self.check_closing(board, path, content)
            failed += any(not command.is_taken for moment in run.moments for command in moment.commands)
            if count % 3 == 0:
                differ += self.check_isolate(board, path, content, chance.choice(list(permits.masters(board))), run)
            count += 1
        self.assertGreaterEqual(failed, count // 10)
        self.assertGreaterEqual(differ, count // 10)

    def test_the_book_goes_on_while_the_device_stays(self):
        path = example("laboratory.obj")
        board = board_of(path)
        run = self.check_closing(board, path, KEPT_ON.encode())
        self.assertEqual([run.closing.get(Unit("node", node)) for node in (1, 2, 10)], [(0, 1), (0, 1), (0, 1)])
        self.assertEqual(self.check_isolate(board, path, KEPT_ON.encode(), 7, run), 3)
        text = self.text("diff", path, self.file("kept.script", KEPT_ON), "RPU_0")
        rows = [" ".join(line.split()) for line in text.splitlines()]
        for row in (
            "proc APU_0 active -> off | -",
            "device proc APU_0 on -> off refused | -",
            "power FPD on -> off | -",
            "device power FPD stays on | -",
        ):
            self.assertIn(row, rows)
        dump = picture.read(self.text("--vcd", "replay", path, self.file("kept.script", KEPT_ON)))
        scope = ("FPD", "APU")
        self.assertEqual(dump.named("APU_0", scope).changes, [(0, 1), (4000, 0)])
        self.assertEqual(dump.named("APU_0", ("device", *scope)).changes, [(0, 0), (4, 1), (4001, None), (4002, 1), (5001, None), (5002, 1)])
        self.assertEqual(dump.named("refused").texts[4:], [(4000, "APU_0 off"), (5000, "APU_0 off")])

    def test_a_device_that_is_mended_follows(self):
        script = "ipi 1 21\nbreak 33\nipi 1 13 33 1 0 2\nmend 33\n"
        path, unit = example("laboratory.obj"), Unit("node", 33)
        run = self.check_closing(board_of(path), path, script.encode())
        lines = [line.get(unit) for line in moves.of_lines(run, 4)]
        self.assertEqual(lines[1:], [([1, 0], [1, 0]), None, ([0, 1], [0, moves.Refused(1)]), ([1], [0, 1])])

    def test_topologies_of_other_chips(self):
        topology = os.path.join(TOPOLOGIES, "zynqmp-resets.topology")
        path = example("pm_cfg_obj.obj")
        board = chips.Board(board_of(path).found, chips.read(topology))
        script = b"ipi 1 21\nboot 7 0\nipi 7 17 1034 2\nbreak 7\nipi 1 17 1054 1\nipi 1 17 1071 1\nmend 7\nipi 1 18 1054\n"
        self.assertGreater(self.check(board, path, script, [1, 7]), 0)

    def test_a_script_without_lines_that_break(self):
        self.assertEqual(steps.unbroken(["ipi 1 21", " break 2 # a", "mend\t3", "breaks", ""]), ["ipi 1 21", "", "", "breaks", ""])
        self.assertEqual(split.first_word("\tbreak 2"), "break")


if __name__ == "__main__":
    unittest.main()
