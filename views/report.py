"""`report OBJ [SCRIPT]`: one page of HTML about an object, and about a script over it.

The page says who can reach whom, and by what; what a policy finds; the wave of the script, and each of its lines in names
with all that it writes; and the object in names. It loads nothing, and can be kept or sent as it is.
"""

import re
import tempfile
from html import escape
from typing import Iterator, Optional

import annotate
import breaches
import chip as chips
import faults
import idle
import meanings
import names
import objects
import options
import page
import permits
import picture
import replay_meanings
import rules
import steps
import testing
import to_names
import to_numbers
import waveform
from forms import BROKEN, NOT_JUDGED
from lines import count
from program import BadUse, read_file, run_text
from replays import script_lines

USAGE = "report takes an OBJ, a SCRIPT or none, and --policy FILE and --topology TOPO before them, and -o names the page"
OPTIONS = {"--policy": True, "--topology": True}

# So many lines of a script are shown, and so many are drawn.
MOST_SHOWN, MOST_DRAWN = 5_000, 400

KINDS = {"slave": "Slaves", "power": "Power domains", "line": "Reset lines"}
SHORT = {"use": "may use it", "force": "may force it down", "reset": "may reset it", "above": "has something below it"}


# Who can reach whom.


def cell(said: Optional[str], detail: str = "") -> str:
    """A cell of a table of reaches: why, or nothing."""
    return page.tag("td", page.text(said), title=detail) if said else page.tag("td", "–", class_="no")


def meaning(member: permits.Member) -> str:
    """A member of a reach in words."""
    return meanings.meaning_of_reached(str(member))


def of_masters(reaches: dict[int, list[permits.Member]]) -> str:
    """Which master leads to which."""
    rows = []
    for start, members in reaches.items():
        found = {member.number: member for member in members if member.kind == permits.MASTER}
        cells = []
        for other in reaches:
            member = found.get(other)
            said = None if member is None else "itself" if other == start else meanings.WHY_MASTER[member.why].split(",")[0]
            way = "" if member is None or len(member.path) < 3 else f" (by {', '.join(map(names.node_name, member.path[1:-1]))})"
            cells.append(cell(said and said + way, meaning(member) if member else ""))
        rows.append(page.row(names.node_name(start), cells))
    return page.table(["Master", *(f"reaches {names.node_name(it)}" for it in reaches)], rows)


def of_units(reaches: dict[int, list[permits.Member]], chip: chips.Chip, kind: str) -> Iterator[str]:
    """The rows of the units of a kind that a master reaches. Those of several masters are marked."""
    members = {(start, it.number): it for start, found in reaches.items() for it in found if it.kind == kind}
    for unit_kind, number in permits.units(chip):
        of_unit = [members.get((start, number)) for start in reaches]
        if unit_kind == kind and any(of_unit):
            cells = []
            for member in of_unit:
                by = names.node_name(member.path[-1]) if member and len(member.path) > 1 else ""
                cells.append(cell(member and (f"by {by}: " * bool(by) + SHORT[member.why]), meaning(member) if member else ""))
            yield page.row(meanings.named(kind, number), cells, "shared" if sum(it is not None for it in of_unit) > 1 else "")


def of_reaches(path: str, board: chips.Board) -> str:
    """The section of reaches."""
    reaches = {master: permits.checked_reach(path, board, master) for master in permits.masters(board)}
    parts = [
        "<p>A master reaches another if a message of it can stop, start or change that one, or what it may do; each cell has the first "
        "reason. For what it can't reach it is as if it sent nothing. Shaded units are reached by more than one master.</p>",
        of_masters(reaches),
    ]
    for kind, title in KINDS.items():
        rows = list(of_units(reaches, board.chip, kind))
        shared = sum('class="shared"' in row for row in rows)
        summary = f"{title}: {len(rows)} can be reached" + f", {shared} by more than one master" * bool(shared)
        content = page.table(["Unit", *map(names.node_name, reaches)], rows) if rows else "<p>None.</p>"
        parts.append(page.folded(page.text(summary), content, kind == "slave"))
    return parts[0] + parts[1] + page.tag("div", "\n".join(parts[2:]), class_="fold")


# The policy.


def of_policy(path: str, board: chips.Board, file: str) -> str:
    """The section of a policy: what it finds."""
    found = breaches.judged(path, board, rules.read(file, board))
    verdict = {BROKEN: ("A rule is broken.", "bad"), NOT_JUDGED: ("All rules hold; some records are not judged by any.", "")}
    head = page.tag("p", page.text(*verdict.get(found.status, ("All rules hold.", "good"))))
    text = page.tag("pre", escape(read_file(file).decode("utf-8", "replace")))
    return head + page.tag("pre", escape("\n".join(found.lines()))) + page.tag("div", page.folded("The rules", text), class_="fold")


# The script.


def told_by_line(run: steps.Steps, chip: chips.Chip) -> dict[str, list[tuple[str, str]]]:
    """What each line writes, with its meaning, by the number of the line; `end` has the closing table."""
    told: dict[str, list[tuple[str, str]]] = {}
    for line, meant in zip(run.replay.lines, replay_meanings.meanings_of_replay(chip, run.replay)):
        told.setdefault(line.split()[0], []).append((line, meant))
    return told


def list_of(told: list[tuple[str, str]]) -> str:
    """What a line writes, with what it means."""
    return page.tag("pre", "\n".join(escape(said) + (page.text(f"   {meant}", "faint") if meant else "") for said, meant in told))


def answer_of(told: list[tuple[str, str]]) -> tuple[str, str]:
    """The answer among what a line writes, or its last part, and how it is shown."""
    if not told:
        return "", ""
    said, meant = next((it for it in reversed(told) if it[0].split()[1] in ("reply", "drop", "smc", "busy")), told[-1])
    kind, status = said.split()[1], said.split()[3:4]
    refused = kind in ("fail", "linefail", "drop") or kind == "reply" and status != ["0"]
    return meant, "bad" if refused else "good" if kind == "reply" else "faint"


def script_line(number: int, line: str, comment: str, told: list[tuple[str, str]], idle_for: str) -> str:
    """A line of a script, which unfolds to all that it writes; `idle_for` is why it does nothing, if it does."""
    head = page.text(str(number), "number") + page.tag("code", escape(line)) + page.text(*answer_of(told))
    head += " " + page.text(comment, "faint") if comment else ""
    head += " " + page.text(idle_for, "bad") if idle_for else ""
    failed = any(said.split()[1] in ("fail", "linefail") for said, _ in told)
    head += " " + page.text("the device refused a command", "bad") if failed else ""
    return page.folded(head, list_of(told)) if told else page.tag("div", head, class_="plain")


def of_lines(board: chips.Board, script: list[str], numbers: list[str], told: dict[str, list[tuple[str, str]]]) -> str:
    """The section of the lines of a script, in names."""
    silent = {it.line: it.message for it in idle.idle(board, numbers, script) if it.check == idle.SILENT}
    parts = [page.folded(page.text("0", "number") + "the load", list_of(told.get("0", [])))]
    for number, (line, numbered) in enumerate(zip(script[:MOST_SHOWN], numbers), 1):
        comment = re.search(r"(?:^|[ \t])#[ \t]*(.*)$", line)
        named, written = to_names.line_in_names(numbered, {}), told.get(str(number), [])
        parts.append(script_line(number, named, comment[1] if comment else "", written, silent.get(number, "")))
    parts.append(page.folded("What is on at the end, in the book and at the device", list_of(told.get("end", []))))
    left = f"<p>The first {MOST_SHOWN} of {count(len(script), 'line')} are shown.</p>" if len(script) > MOST_SHOWN else ""
    buttons = '<p><button type="button" value="1">Unfold all</button><button type="button" value="0">Fold all</button></p>'
    return left + buttons + page.tag("div", "\n".join(parts), class_="fold lines")


def of_wave(run: steps.Steps, chip: chips.Chip, numbers: list[str]) -> str:
    """The wave of a script."""
    if len(numbers) > MOST_DRAWN:
        return f"<p>The script has {count(len(numbers), 'line')}, and {MOST_DRAWN} at most are drawn here: ./pmu --vcd makes a dump for a viewer.</p>"
    drawn = "\n".join(picture.drawn(picture.read("\n".join(waveform.dump(chip, run, numbers)))))
    svg = re.sub(r"^\s*<\?xml[^>]*>\s*", "", drawn)
    return page.tag("div", svg, class_="wide picture", tabindex="0")


def of_expectations(over: steps.Run, script: str) -> str:
    """What is expected of a script and whether it is met, if anything is."""
    found = testing.outcome(over, script)
    if not found.clauses:
        return ""
    said = page.tag("p", page.text(found.sentence, "bad" if found.differences else "good"))
    return said + "".join(page.tag("p", page.tag("code", escape(it))) for it in found.differences)


def of_script(path: str, board: chips.Board, script: str) -> Iterator[tuple[str, str, str]]:
    """The sections of a script: its wave, and its lines."""
    content, chip = read_file(script), board.chip
    numbered = to_numbers.in_numbers(content, script)
    numbers = script_lines(numbered)
    with tempfile.TemporaryDirectory() as room:
        over = steps.Run(path, chip, room)
        run = steps.steps_of(over, numbered, script)
        yield "wave", "The run", of_expectations(over, script) + of_wave(run, chip, numbers)
    yield "lines", "Line by line", of_lines(board, script_lines(content), numbers, told_by_line(run, chip))


def of_object(path: str, chip: chips.Chip) -> str:
    """The section of the object's text."""
    text = run_text(["print", path])
    shown = annotate.put_together(text, meanings.meanings_of_text(chip, text))
    return page.tag("div", page.folded("Its records", page.tag("pre", escape("\n".join(shown)))), class_="fold")


def sections_of(path: str, board: chips.Board, script: Optional[str], file: Optional[str]) -> Iterator[tuple[str, str, str]]:
    """The sections of the page: an anchor, a title and the content. FILE is that of a policy."""
    yield "reach", "Who can reach whom", of_reaches(path, board)
    if file is not None:
        yield "policy", "The policy", of_policy(path, board, file)
    if script is not None:
        yield from of_script(path, board, script)
    yield "object", "The object in names", of_object(path, board.chip)


def facts(path: str, board: chips.Board, script: Optional[str]) -> str:
    """What the page is about."""
    masters = ", ".join(map(names.node_name, permits.masters(board)))
    topology = chips.shown(board.chip.source)
    said = f"Configuration object {faults.name_of(path)}: masters {masters}; over {topology}."
    return page.tag("p", escape(said + (f" Script {faults.name_of(script)}." if script else "")), class_="faint")


def main(words: list[str]) -> int:
    """`report [--policy FILE] [--topology TOPO] OBJ [SCRIPT]`."""
    given, others = options.taken(words, OPTIONS, USAGE)
    if len(others) not in (1, 2):
        raise BadUse(USAGE)
    path, script = others[0], others[1] if others[1:] else None
    topology = [given["--topology"]] if "--topology" in given else []
    board = chips.chosen(path, objects.load(path), topology)
    found = list(sections_of(path, board, script, given.get("--policy")))
    title = faults.name_of(path).rpartition("/")[2] + (f" and {faults.name_of(script).rpartition('/')[2]}" if script else "")
    content = facts(path, board, script) + "".join(page.section(*part) for part in found)
    print(page.whole(title, content, [(anchor, name) for anchor, name, _ in found]), end="")
    return 0
