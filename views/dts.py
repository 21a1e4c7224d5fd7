"""`dts OBJ TREE`: what Linux will ask for its devices by a device tree, and what an object refuses.

A device's `power-domains` are requested when it is probed, its `resets` and `clocks` when its driver wants them, and a
`wakeup-source` wants its domain's slave to wake. Each of these messages is sent by the program, for each master of the
object from its load on, and the answers are the program's.
"""

import os
import tempfile
import textwrap
from typing import NamedTuple, Optional

import chip as chips
import device_source
import device_tree
import faults
import findings
import names
import objects
import published
import replays
from forms import FOUND
from lines import count
from program import BadUse, read_file, run_text, write_file

USAGE = "dts takes an OBJ and a device TREE, with a TOPO behind or not, and --master NODE before if it isn't APU's tree"
FIRMWARE, RESET, CLOCK = "xlnx,zynqmp-firmware", "xlnx,zynqmp-reset", "xlnx,zynqmp-clk"
# What a property of a device names: how many cells follow a provider, and which provider is the firmware's.
ASKS = {
    "power-domains": ("#power-domain-cells", FIRMWARE),
    "resets": ("#reset-cells", RESET),
    "clocks": ("#clock-cells", CLOCK),
}
WAKEUP = 4
GRANTED = (0, 2004)  # (in use by the caller already)


class Thing(NamedTuple):
    """What a device asks for."""

    kind: str  # slave, wake, processor, line, clock
    number: int

    @property
    def name(self) -> str:
        """By its name."""
        if self.kind == "line":
            return names.line_name(self.number)
        if self.kind == "clock":
            return f"clock {names.clock_name(self.number)}"
        return names.node_name(self.number) + " to wake" * (self.kind == "wake")

    def message(self, master: int) -> str:
        """The message that asks for it."""
        words = {
            "slave": (13, self.number, 0, 0, 2),
            "wake": (13, self.number, WAKEUP, 0, 2),
            "processor": (10, self.number, 0, 0, 2),
            "line": (17, self.number, 0),
            "clock": (36, self.number),
        }[self.kind]
        return " ".join(map(str, ("ipi", master, *words)))

    def undone(self, master: int) -> str:
        """The message that gives it back, or an empty line."""
        call = {"slave": 14, "wake": 14, "clock": 37}.get(self.kind)
        return f"ipi {master} {call} {self.number}" if call else ""


class Device(NamedTuple):
    """A device that asks for something."""

    name: str
    things: list[Thing]


class Asked(NamedTuple):
    """What the devices of a tree ask for."""

    devices: list[Device]
    unknown: list[str]  # clocks that this core hasn't, once for each device

    def things(self) -> list[Thing]:
        """Each thing once."""
        return list(dict.fromkeys(thing for device in self.devices for thing in device.things))


def tree_of(path: str) -> device_tree.Tree:
    """The device tree of a file, a blob or a source."""
    content, name = read_file(path), faults.name_of(path)
    if device_tree.is_blob(content):
        return device_tree.of_blob(content, name)
    return device_source.of_source(path, name)


def numbers_asked(tree: device_tree.Tree, node: device_tree.Node, name: str) -> list[int]:
    """The numbers by which a property asks the firmware for something."""
    cells, firmware = ASKS[name]
    if (node.path(), name) in tree.unknown:
        raise BadUse(f"the device {node.path()} has a name in its {name} that isn't known: {tree.unknown[node.path(), name]}")
    found = tree.references(node, name, cells)
    return [it.cells[0] for it in found if firmware in it.provider.texts("compatible") and it.cells]


def domains_to_wake(tree: device_tree.Tree, node: device_tree.Node) -> list[int]:
    """The domains by which a wake-up source wakes: its own, else those of what it hangs on, else of its GPIOs."""
    above: Optional[device_tree.Node] = node
    while above is not None:
        found = numbers_asked(tree, above, "power-domains")
        if found:
            return found
        above = above.parent
    return [number for it in tree.references(node, "gpios", "#gpio-cells") for number in numbers_asked(tree, it.provider, "power-domains")]


def things_of(tree: device_tree.Tree, node: device_tree.Node, chip: chips.Chip, unknown: list[str]) -> list[Thing]:
    """What a device asks for. A clock that this core hasn't goes to the unknown ones."""
    domains = numbers_asked(tree, node, "power-domains")
    things = [Thing("processor" if chip.is_kind(number, "processor") else "slave", number) for number in domains]
    things += [Thing("line", names.FIRST_RESET + number) for number in numbers_asked(tree, node, "resets")]
    for number in numbers_asked(tree, node, "clocks"):
        if number in published.OURS:
            things.append(Thing("clock", published.OURS[number]))
        else:
            unknown.append(published.name_of(number))
    if "wakeup-source" in node.properties:
        things += [Thing("wake", number) for number in domains_to_wake(tree, node)]
    return things


def asked(tree: device_tree.Tree, chip: chips.Chip) -> Asked:
    """What the devices of a tree that aren't switched off ask for."""
    found = Asked([], [])
    for node in tree.root.every():
        if node.is_on():
            things = things_of(tree, node, chip, found.unknown)
            if things:
                name = node.name if "@" in node.name or node.parent is None else f"{node.parent.name}/{node.name}".lstrip("/")
                found.devices.append(Device(name, list(dict.fromkeys(things))))
    return found


class Answers(NamedTuple):
    """What the program answers to a master: of each thing a status and what the answer says."""

    status: dict[Thing, int]
    said: dict[Thing, str]


def said_status(status: int, word: int) -> str:
    """A status in words; of a node in use by whom."""
    return names.status_words(status) + f" by {names.node_name(word)}" * (status == 2007)


def answers_of(path: str, board: chips.Board, master: int, things: list[Thing], room: str) -> Answers:
    """Asks the program, as a master that has just started."""
    script = [f"boot {board.chip.owners[master][0]} 0"]
    for thing in sorted(things, key=lambda it: it.kind == "processor"):
        script += [thing.message(master), thing.undone(master)]
    file = os.path.join(room, f"script.{master}")
    write_file(file, replays.content_of(script))
    answers = Answers({}, {})
    order = sorted(things, key=lambda it: it.kind == "processor")
    for line in run_text(["replay", path, file, *board.chip.words()]):
        step, kind, *words = line.split()
        if kind == "reply" and step not in ("0", "end") and int(step) % 2 == 0:
            thing = order[int(step) // 2 - 1]
            answers.status[thing] = int(words[1])
            answers.said[thing] = said_status(int(words[1]), int(words[2]))
    return answers


def refusal(thing: Thing, master: int, answers: dict[int, Answers]) -> str:
    """What is refused to a master, why, and who may."""
    others = [names.node_name(it) for it in answers if it != master and answers[it].status.get(thing) in GRANTED]
    who = f"{' and '.join(others)} may" if others else "nobody may"
    return f"{thing.name} ({answers[master].said.get(thing, 'no answer')}; {who})"


def shown(found: Asked, master: int, answers: dict[int, Answers]) -> tuple[list[str], int]:
    """The devices with what they ask for and what is refused, and how much is refused."""
    said, refused = [], 0
    for device in found.devices:
        wrong = [thing for thing in device.things if answers[master].status.get(thing) not in GRANTED]
        refused += len(wrong)
        said.append(f"{device.name}: {', '.join(thing.name for thing in device.things)}")
        said += [f"  refused: {refusal(thing, master, answers)}" for thing in wrong]
    return said, refused


def all_things(chip: chips.Chip) -> list[Thing]:
    """All that a master can be permitted: slaves, the published reset lines, and clocks."""
    lines = [number for number in chip.lines if number >= names.FIRST_RESET]
    clocks = [number for number in names.CLOCKS if not names.is_root(number)]
    return [Thing(kind, number) for kind, numbers in (("slave", chip.of_kind("slave")), ("line", lines), ("clock", clocks)) for number in numbers]


def left_over(found: Asked, master: int, answers: dict[int, Answers], chip: chips.Chip) -> dict[str, list[str]]:
    """What is permitted to a master and no device asks for, by kinds."""
    wanted = {(thing.kind.replace("wake", "slave"), thing.number) for thing in found.things()}
    left: dict[str, list[str]] = {"slave": [], "line": [], "clock": []}
    for thing in all_things(chip):
        if thing not in wanted and answers[master].status.get(thing) in GRANTED:
            left[thing.kind].append(thing.name.replace("clock ", ""))
    return left


def unasked(left: dict[str, list[str]]) -> list[str]:
    """What no device asks for, in lines."""
    titles = {"slave": "slaves", "line": "reset lines", "clock": "clocks"}
    said = [f"{titles[kind]}: {', '.join(found)}" for kind, found in left.items() if found]
    return [textwrap.fill(line, 118, initial_indent="  ", subsequent_indent="    ") for line in said]


def thing_in_json(thing: Thing, answers: dict[int, Answers]) -> dict[str, object]:
    """A thing that a device asks for, and who gets it."""
    to = {names.node_name(it): answers[it].said.get(thing, "no answer") for it in answers}
    may = [names.node_name(it) for it in answers if answers[it].status.get(thing) in GRANTED]
    return {**findings.unit(thing.kind, thing.number), "permitted": may, "answers": to}


def in_json(found: Asked, master: int, answers: dict[int, Answers], chip: chips.Chip) -> dict[str, object]:
    """All of a report for a program."""
    devices = [{"name": it.name, "asks": [thing_in_json(thing, answers) for thing in it.things]} for it in found.devices]
    left = left_over(found, master, answers, chip)
    return {"master": names.node_name(master), "devices": devices, "unknown_clocks": sorted(set(found.unknown)), "unasked": left}


def report(found: Asked, master: int, answers: dict[int, Answers], chip: chips.Chip) -> tuple[list[str], int]:
    """All that is written, and the exit."""
    said, refused = shown(found, master, answers)
    name = names.node_name(master)
    much = count(sum(len(device.things) for device in found.devices), "thing")
    who = count(len(found.devices), "device") + (" asks" if len(found.devices) == 1 else " ask")
    said.append(f"{who} for {much}; refused to {name}: {refused}")
    if found.unknown:
        said.append(f"not judged: {count(len(found.unknown), 'clock')} that this core hasn't ({len(set(found.unknown))} different)")
    left = unasked(left_over(found, master, answers, chip))
    said += [f"permitted to {name}, and no device asks for it:", *left] if left else []
    return said, FOUND if refused else 0


def master_of(words: list[str], board: chips.Board) -> int:
    """The master whose tree it is, which is taken out of the words."""
    masters = [record.node for record in board.found.records("master")]
    word = words[1] if words[:1] == ["--master"] else "APU"
    number = names.number_of("node", word)
    number = number if number is not None else int(word) if word.isdecimal() and len(word) < 4 else None
    if number not in masters:
        raise BadUse(f"the object has no master {word}: it has {', '.join(map(names.node_name, masters))}")
    return number


def main(words: list[str]) -> int:
    """`dts [--json] [--master NODE] OBJ TREE [TOPO]`."""
    is_json = "--json" in words
    words = [word for word in words if word != "--json"]
    rest = words[2:] if words[:1] == ["--master"] else words
    if len(rest) not in (2, 3):
        raise BadUse(USAGE)
    path, file, *topology = rest
    tree = tree_of(file)
    board = chips.chosen(path, objects.load(path), topology)
    master, found = master_of(words, board), asked(tree, board.chip)
    if not topology and any(it.kind == "line" and it.number not in board.chip.lines for it in found.things()):
        board = chips.chosen(path, board.found, [chips.PUBLISHED])
    if not found.devices:
        raise BadUse(f"no device of {faults.name_of(file)} asks the firmware of the chip for anything")
    things = list(dict.fromkeys([*found.things(), *all_things(board.chip)]))
    with tempfile.TemporaryDirectory() as room:
        answers = {it.node: answers_of(path, board, it.node, things, room) for it in board.found.records("master")}
    said, status = report(found, master, answers, board.chip)
    if is_json:
        print(findings.whole("dts", status, **in_json(found, master, answers, board.chip)), end="")
    else:
        print("".join(line + "\n" for line in said), end="")
    return status
