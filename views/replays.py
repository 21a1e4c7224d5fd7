"""A script over an object and a chip, and what the program writes of it."""

import os
from typing import NamedTuple, Optional, Sequence

import faults
import outages
from chip import Chip
from forms import BAD_LINE
from program import Failed, run_text, write_file


class Unit(NamedTuple):
    """A unit of the chip, or a clock."""

    kind: str  # node, line or clock
    number: int


class Run(NamedTuple):
    """Over what a script runs."""

    obj: str  # the file of the object
    chip: Chip
    room: str  # a folder for files

    def written(self, content: bytes, name: Optional[str] = None) -> list[str]:
        """What the program writes of a script in its own lines; `name` is that of the script's file, if it has one."""
        path = os.path.join(self.room, "script")
        write_file(path, content)
        topology = self.chip.words()
        return run_text(["replay", self.obj, path, *topology], ["replay", self.obj, name or path, *topology])

    def turned(self, content: bytes, name: Optional[str] = None) -> tuple[outages.Turned, list[str]]:
        """The lines of the program for a script, and what it writes of them. What it says of a fault is of the script's own lines."""
        if not outages.may_have_any(content):
            script = script_lines(content)
            return outages.Turned(script, list(range(1, len(script) + 1))), self.written(content, name)
        tries: list[outages.Turned] = []

        def run(made: outages.Turned) -> list[str]:
            """What the program writes of a try."""
            tries.append(made)
            return self.written(content_of(made.lines), name)

        try:
            return outages.run_by(outages.lines_of(content), run)
        except Failed as failed:
            raise by_own_lines(failed, tries[-1].numbers, content, faults.name_of(name or "script")) from None

    def lines_of(self, content: bytes, name: Optional[str] = None) -> list[str]:
        """The lines of the replay of a script, by the numbers of its own lines."""
        made, written = self.turned(content, name)
        return outages.by_lines(written, made.numbers)


def by_own_lines(failed: Failed, numbers: Sequence[int], content: bytes, name: str) -> Failed:
    """A fault of the program over the lines that a script was turned into, told by the script's own lines."""
    output = "".join(line + "\n" for line in outages.by_lines(failed.output.decode("latin-1").splitlines(), numbers))
    found = outages.first_fault(content) if failed.status == BAD_LINE else None
    said = f"{name}:{found[0]}: {found[2]}" if found else failed.sentence
    return Failed(output.encode("latin-1"), failed.status, said)


def script_lines(content: bytes) -> list[str]:
    """The lines of a script without their ends; the last one may lack its line feed."""
    lines = content.decode("latin-1").split("\n")
    return [line.removesuffix("\r") for line in (lines[:-1] if lines[-1] == "" else lines)]


def content_of(script: list[str]) -> bytes:
    """The content of a script of these lines."""
    return "".join(line + "\n" for line in script).encode("latin-1")


def master_masks(lines: list[str]) -> dict[int, int]:
    """The mask of each master of the text of an object."""
    records = [list(map(int, line.split()[1:])) for line in lines if line.startswith("master ")]
    return {node: mask for node, mask, *_ in records}


def closing_of(lines: list[str]) -> dict[Unit, tuple[int, int]]:
    """The closing table: the value of each unit in the book, of a processor its mode, and that at the device; of a clock that
    runs 1 in both."""
    table = {}
    for line in lines:
        step, kind, *words = line.split()
        if step == "end" and kind == "clock":
            table[Unit(kind, int(words[0]))] = (1, 1)
        elif step == "end":
            table[Unit("line" if kind == "line" else "node", int(words[0]))] = (int(words[1]), int(words[2]))
    return table
