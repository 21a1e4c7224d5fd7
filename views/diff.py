"""`diff [--json] OBJ SCRIPT NODE [TOPO]`: a script with the messages of the master NODE and without them, side by side.

In the second run each message of NODE, and each power call if NODE is the master that they are sent as, is an empty line, so
that lines keep their numbers. By step it shows what differs: units with the values from and to, starts, answers, callbacks and
late replies. A unit has its values in the book; if the device didn't go through the same, as when it is broken or a line is
pulsed, it has a row of its own with what it took and refused. What is NODE's own comes after the rest: its processors, what no
other master may use, and what it is told, but for the answers to its messages.
"""

import re
import tempfile
from typing import Iterator, NamedTuple, Sequence

import annotate
import chip as chips
import findings
import lines as texts
import moves
import names
import objects
import options
import permits
import program
import replay_meanings
import split
import steps
import to_names
from chip import Board, Chip

USAGE = "usage: ./pmu diff [--json] OBJ SCRIPT NODE [TOPO]"
OPTIONS = {"--json": False}

NODE_USED, ACKNOWLEDGE = 2007, 31

# The words that a comparison has for units.
WORDS = {"processor": "proc", "power": "power", "slave": "slave"}

# What each line of a replay that says something is about.
KINDS = {"run": "run", "reply": "answer", "call": "call", "drop": "answer"}

TITLES = {"answer": "answer to", "call": "callback to", "run": "start of"}
SAID = {"answer": "answer", "call": "callback", "run": "start"}
REMARKS = ("DENIED", "REFUSED", "NOT HEARD")


class Subject(NamedTuple):
    """What a row is about: a unit; or a start, an answer or a callback with the processor or the master that it is to."""

    kind: str  # node, line or clock; run, answer or call
    number: int
    is_of_device: bool = False  # whether it is a unit as the device has it


class Row(NamedTuple):
    """What differs in a step: the two texts, empty if there is nothing."""

    subject: Subject
    with_it: str
    without: str
    remark: str


# A line of the script with its rows, and the units that move in a line.
Rows = tuple[int, list[Row]]
Moved = dict[steps.Unit, moves.Moves]


def is_call(line: str) -> bool:
    """Whether a line is a power call."""
    return split.first_word(line) == "smc"


def is_from(line: str, node: int) -> bool:
    """Whether a line is a message of a master, or a power call that is sent as messages of it."""
    message = texts.message_of(line)
    return message[0] == node if message else node == split.CALLER and is_call(line)


def without_messages(content: bytes, node: int) -> tuple[bytes, list[int]]:
    """A script in numbers with an empty line in place of each message and power call of a master, and the numbers of
    those lines."""
    lines, silenced = content.decode("latin-1").split("\n"), []
    for place, line in enumerate(lines):
        if is_from(line, node):
            lines[place] = ""
            silenced.append(place + 1)
    return "\n".join(lines).encode("latin-1"), silenced


# What is said in one run.


class Word(NamedTuple):
    """A start, an answer or a callback."""

    raw: str  # as the program writes it, without its step
    place: int  # of its line in the replay


# What is said in a line, by what it is about.
Words = dict[Subject, list[Word]]


class Said(NamedTuple):
    """What is said in a run."""

    meanings: replay_meanings.Meanings
    lines: list[list[Word]]  # of the load and of each line of the script

    def words(self, line: int) -> Words:
        """What is said in a line, by what it is about."""
        found: Words = {}
        for word in self.lines[line]:
            kind, number, *_ = word.raw.split()
            found.setdefault(Subject(KINDS[kind], int(number)), []).append(word)
        return found

    def shown(self, word: Word) -> str:
        """A start, an answer or a callback in words."""
        kind, *numbers = word.raw.split()
        if kind == "run":
            return f"starts at {int(numbers[-1]):#x}"
        if kind == "drop":
            return "not heard"
        said = self.meanings.of(word.place).split(": ", 1)[1]
        return f"{numbers[1]} {said}" if kind == "reply" else said


def status_of(word: Word) -> int:
    """The status of a reply or of an acknowledgement, or -1."""
    kind, *words = word.raw.split()
    if kind == "reply":
        return int(words[1])
    return int(words[3]) if kind == "call" and int(words[1]) == ACKNOWLEDGE else -1


def said_in(chip: Chip, run: steps.Steps, node: int, count: int) -> Said:
    """Of each line the starts, answers and callbacks. What the master is told by a message of its own, which the other run
    lacks, is left out."""
    told, numbers, own = run.replay, [0, *run.replay.numbers], str(node)
    found = Said(replay_meanings.Meanings(chip, told.cores, told.script), [[] for _ in range(count + 1)])
    for place, line in enumerate(told.cores):
        step, kind, words = line.split(" ", 2)
        if kind not in KINDS or step == "end":
            continue
        is_of_node = kind != "run" and words.split(" ", 1)[0] == own
        if not (is_of_node and replay_meanings.message_at(told.script, int(step))[:1] == (node,)):
            found.lines[numbers[int(step)]].append(Word(f"{kind} {words}", place))
    return found


# Two runs side by side.


def joined(words: Sequence[Word], shown: Sequence[str], beside: Sequence[str]) -> str:
    """What is shown of starts, answers or callbacks: the program's own words if those of the others look the same."""
    return "; ".join([word.raw for word in words] if shown == beside else shown)


def remark_of(words: Sequence[Word], others: Sequence[Word]) -> str:
    """What became of a message that succeeds without the messages of the master, and doesn't with them."""
    statuses = list(map(status_of, words))
    given = list(map(status_of, others))
    if 0 not in given or 0 in statuses:
        return ""
    denied, refused, unheard = REMARKS
    if NODE_USED in statuses:
        return denied
    return refused if any(status > 0 for status in statuses) else unheard if words else ""


def rows_of_units(chip: Chip, ours: Moved, theirs: Moved) -> Iterator[Row]:
    """What differs in the values of units: in the book; and at the device, if it didn't follow the book."""
    for unit in {**ours, **theirs} if ours != theirs else ():
        pair = ours.get(unit), theirs.get(unit)
        first, second = (each.book_text(chip, unit) if each else "" for each in pair)
        if first != second:
            yield Row(Subject(*unit), first, second, "")
        if any(each and not each.is_followed(chip, unit) for each in pair):
            first, second = (each.device_text(chip, unit) if each else "" for each in pair)
            if first != second:
                yield Row(Subject(*unit, True), first, second, "")


def rows_of_words(runs: tuple[Said, Said], line: int) -> Iterator[Row]:
    """What differs in starts, answers and callbacks."""
    if [word.raw for word in runs[0].lines[line]] == [word.raw for word in runs[1].lines[line]]:
        return
    words, others = runs[0].words(line), runs[1].words(line)
    for about in {**words, **others}:
        ours, theirs = words.get(about, []), others.get(about, [])
        if [word.raw for word in ours] != [word.raw for word in theirs]:
            shown, beside = list(map(runs[0].shown, ours)), list(map(runs[1].shown, theirs))
            yield Row(about, joined(ours, shown, beside), joined(theirs, beside, shown), remark_of(ours, theirs))


def rows_of_steps(chip: Chip, runs: tuple[steps.Steps, steps.Steps], node: int, count: int) -> Iterator[list[Row]]:
    """Of each line, what differs."""
    ours, theirs = (moves.of_lines(run, count) for run in runs)
    said = said_in(chip, runs[0], node, count), said_in(chip, runs[1], node, count)
    for line in range(count + 1):
        yield [*rows_of_units(chip, ours[line], theirs[line]), *rows_of_words(said, line)]


# What belongs to the master.


def users(board: Board, number: int) -> set[int]:
    """The masters that have a processor, may use a slave, or do so below a power node."""
    chip = board.chip
    if chip.is_kind(number, "power"):
        return {user for node in chip.below(number) for user in users(board, node)}
    if chip.is_kind(number, "processor"):
        owner = permits.owner(board, number)
        return set() if owner is None else {owner}
    return {node for node, record in permits.masters(board).items() if number in permits.slaves_of(board, record.mask)}


def is_own(board: Board, node: int, subject: Subject) -> bool:
    """Whether a unit is of the master alone, or an answer or callback is to it."""
    kind, number, _ = subject
    if kind in ("answer", "call"):
        return number == node
    if kind == "line":
        targets = board.chip.resets[number]
        return bool(targets) and all(users(board, target) == {node} for target in targets)
    return users(board, names.CLOCKS[number].node if kind == "clock" else number) == {node}


def own_of(board: Board, node: int, rows: Sequence[list[Row]]) -> dict[Subject, bool]:
    """Of each unit, answer and callback of some rows, whether it is of the master alone."""
    return {subject: is_own(board, node, subject) for subject in {row.subject for of_step in rows for row in of_step}}


# The text.


def title(chip: Chip, subject: Subject) -> str:
    """What a row is about, with the words that a comparison has for units."""
    kind, number, is_of_device = subject
    if is_of_device:
        return f"device {title(chip, Subject(kind, number))}"
    if kind == "line":
        return f"line {names.line_name(number)}"
    if kind == "clock":
        return f"clock {names.clock_name(number)}"
    if kind == "node":
        kind = WORDS[chip.nodes[number].kind]
    return f"{TITLES.get(kind, kind)} {names.node_name(number)}"


def step_title(step: int, script: Sequence[str]) -> str:
    """A step by its number and its line, with names."""
    if step == 0:
        return "step 0: the load"
    return f"step {step}: {to_names.line_in_names(script[step - 1], {}) or 'no event'}"


def table(chip: Chip, steps_with_rows: Sequence[Rows], script: Sequence[str]) -> Iterator[str]:
    """The rows of each step, in columns."""
    rows = [row for _, of_step in steps_with_rows for row in of_step]
    titles = {subject: title(chip, subject) for subject in {row.subject for row in rows}}
    first = max(map(len, titles.values()), default=0)
    second = max([len(row.with_it) for row in rows] + [1])
    third = max([len(row.without) for row in rows] + [1])
    for step, of_step in steps_with_rows:
        yield step_title(step, script)
        for row in of_step:
            cells = f"  {titles[row.subject]:<{first}}  {row.with_it or '-':<{second}} | {row.without or '-':<{third}}"
            yield f"{cells}  {row.remark}".rstrip()


def part(chip: Chip, name: str, steps_with_rows: Sequence[Rows], script: Sequence[str]) -> list[str]:
    """One of the two parts of the text."""
    return [name + (":" if steps_with_rows else ": nothing differs"), *table(chip, steps_with_rows, script)]


def text(board: Board, node: int, rows: Sequence[list[Row]], script: Sequence[str], silenced: Sequence[int]) -> Iterator[str]:
    """The text: of others, and then of the master itself."""
    is_of_node = own_of(board, node, rows)
    others: list[Rows] = []
    own: list[Rows] = []
    for step, of_step in enumerate(rows):
        for kept, part_of in ((others, False), (own, True)):
            ours = [row for row in of_step if is_of_node[row.subject] == part_of]
            if ours:
                kept.append((step, ours))
    name = names.node_name(node)
    calls = sum(is_call(script[number - 1]) for number in silenced)
    messages = f"{len(silenced) - calls} messages" + f" and {calls} power calls" * (calls > 0)
    yield f"with the {messages} of {name} | without them"
    yield from part(board.chip, "of others", others, script)
    yield from part(board.chip, f"of {name} alone", own, script)
    remarks = [row.remark for _, of_step in others for row in of_step]
    counts = [f"{remarks.count(remark)} {remark.lower()}" for remark in REMARKS]
    yield f"successes that others lose: {', '.join(counts)}"


# As JSON.


def in_subject(chip: Chip, subject: Subject) -> dict[str, object]:
    """What a row is about, as keys and values."""
    kind, number, is_of_device = subject
    if kind in SAID:
        return {"of": SAID[kind], **findings.unit("processor" if kind == "run" else "master", number)}
    return {"of": "device" if is_of_device else "book", **findings.unit(chip.nodes[number].kind if kind == "node" else kind, number)}


def in_row(chip: Chip, row: Row, is_of_node: bool) -> dict[str, object]:
    """A row as keys and values."""
    values = {"with": row.with_it or None, "without": row.without or None, "lost": row.remark.lower() or None}
    return {**in_subject(chip, row.subject), "own": is_of_node, **values}


def in_json(board: Board, node: int, rows: Sequence[list[Row]], script: Sequence[str], silenced: Sequence[int]) -> dict[str, object]:
    """What differs, by the lines of the script, as keys and values."""
    found: list[dict[str, object]] = []
    is_of_node = own_of(board, node, rows)
    for number, of_step in enumerate(rows):
        if of_step:
            text_of = to_names.line_in_names(script[number - 1], {}) if number else "load"
            shown = [in_row(board.chip, row, is_of_node[row.subject]) for row in of_step]
            found.append({"line": number, "text": text_of, "rows": shown})
    calls = sum(is_call(script[number - 1]) for number in silenced)
    return {"master": names.node_name(node), "messages": len(silenced) - calls, "power_calls": calls, "lines": found}


def main(words: Sequence[str]) -> int:
    """Compares a script with itself without the messages of a master."""
    given, words = options.taken(words, OPTIONS, USAGE)
    if len(words) not in (3, 4):
        raise program.BadUse(USAGE)
    path, file, word, *topology = words
    board = chips.chosen(path, objects.load(path), topology)
    with tempfile.TemporaryDirectory() as room:
        content, script = annotate.translated(file, room)
        # (it judges all three, and what it says of a fault is handed on)
        judged = ["isolate", path, script, annotate.node_in_numbers(word), *board.chip.words()]
        program.run(judged, ["isolate", path, file, word, *board.chip.words()])
        node = annotate.number_of_node(word)
        first = re.sub(rb"\r(?=\n|\Z)", b"", content)
        second, silenced = without_messages(first, node)
        over = steps.Run(path, board.chip, room)
        runs = steps.steps_of(over, first), steps.steps_of(over, second)
    lines = steps.script_lines(first)
    rows = list(rows_of_steps(board.chip, runs, node, len(lines)))
    if given:
        print(findings.whole("diff", 0, **in_json(board, node, rows, lines, silenced)), end="")
    else:
        print("".join(line + "\n" for line in text(board, node, rows, lines, silenced)), end="")
    return 0
