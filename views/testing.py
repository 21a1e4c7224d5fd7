"""`test OBJ SCRIPT..`: runs scripts, and judges each run by what its comments and the file SCRIPT.expect expect.

The first thing that is otherwise in each script is told. `--all` tells all, `--tap` writes as a robot reads it (Test
Anything Protocol, version 13), `--junit FILE` writes the same as a file of JUnit, and `--topology TOPO` runs over another
topology. `--json` writes all in JSON.
"""

import os
import tempfile
from typing import NamedTuple, Optional
from xml.sax.saxutils import quoteattr

import chip as chips
import expectations
import faults
import findings
import judged
import objects
import options
import to_names
import to_numbers
from chip import Chip
from forms import NOT_JUDGED, UNEXPECTED
from lines import count
from program import BadUse, Failed, Unread, read_file
from replays import Run, content_of, script_lines
from target import Target
from told import in_one_line, tell

USAGE = "test takes an OBJ and one SCRIPT or more, as in ./pmu test --help"
# The options, and whether a word follows each.
OPTIONS = {"--tap": False, "--all": False, "--json": False, "--junit": True, "--topology": True}


class Outcome(NamedTuple):
    """What became of a script."""

    name: str
    clauses: list[tuple[expectations.Clause, Optional[str]]]  # each expectation, with what is in its place, or None if it is met
    failed: Optional[Failed] = None  # the program's own exit, if it couldn't run the script

    @property
    def differences(self) -> list[str]:
        """What is otherwise than is expected."""
        return [told for _, told in self.clauses if told]

    @property
    def status(self) -> int:
        """The exit for this script alone."""
        if self.failed:
            return self.failed.status
        return UNEXPECTED if self.differences else 0 if self.clauses else NOT_JUDGED

    @property
    def sentence(self) -> str:
        """What became of it, in one line."""
        if self.failed:
            return self.failed.sentence or f"{self.name}: the program ended with {self.failed.status}"
        if not self.clauses:
            return f"{self.name}: nothing is expected of it"
        met = len(self.clauses) - len(self.differences)
        wanted = count(len(self.clauses), "expectation")
        return f"{self.name}: {wanted} met" if not self.differences else f"{self.name}: {met} of {wanted} met"


def expected_of(content: bytes, script: list[str], path: str) -> list[expectations.Clause]:
    """What is expected of a script: by its comments, and by the file beside it."""
    found = expectations.in_comments(script_lines(content), faults.name_of(path))
    beside = path + ".expect"
    if os.path.exists(beside):
        found += expectations.in_file(read_file(beside), faults.name_of(beside), len(script))
    return sorted(found, key=lambda clause: clause.step)


def told(clause: expectations.Clause, instead: str, script: list[str]) -> str:
    """A difference, with the line of the script in names."""
    of_line = to_names.line_in_names(script[clause.step - 1], {}) if clause.step else "the load"
    return f"{clause.place}: expected {clause.text}, and {instead}: {of_line}"


def outcome(over: Run, path: str) -> Outcome:
    """Runs a script over an object and a chip, and judges the run."""
    name = faults.name_of(path)
    try:
        content = read_file(path)
    except Unread as fault:
        return Outcome(name, [], Failed(b"", fault.status, str(fault)))
    script = script_lines(to_numbers.in_numbers(content, path))
    clauses = expected_of(content, script, path)
    try:
        written = over.lines_of(content_of(script), path)
    except Failed as failed:
        return Outcome(name, [], failed)
    run = judged.Run(over.chip, script, written, lambda step: over.lines_of(content_of(script[:step]), path))
    run.tables[len(script)] = judged.table_of(written)
    judgements = [(clause, judged.difference(run, clause)) for clause in clauses]
    return Outcome(name, [(clause, instead and told(clause, instead, script)) for clause, instead in judgements])


def plainly(outcomes: list[Outcome], is_whole: bool) -> None:
    """Writes the outcomes as lines."""
    for it in outcomes:
        print(it.sentence)
        differences = it.differences if is_whole else it.differences[:1]
        print("".join(f"  {difference}\n" for difference in differences), end="")
        if len(it.differences) > len(differences):
            print(f"  and {len(it.differences) - 1} more (--all tells them)")


def as_tap(outcomes: list[Outcome]) -> None:
    """Writes the outcomes in the Test Anything Protocol. Of a script of which nothing is expected nothing is ok."""
    print(f"TAP version 13\n1..{len(outcomes)}")
    for number, it in enumerate(outcomes, 1):
        print(f"{'not ok' if it.status else 'ok'} {number} - {it.sentence}")
        for difference in it.differences:
            print(f"# {in_one_line(difference)}")


def as_json(outcomes: list[Outcome]) -> list[dict[str, object]]:
    """The outcomes for a program: each expectation with what is in its place, or null if it is met."""
    return [
        {
            "script": it.name,
            "exit": it.status,
            "said": it.sentence,
            "expectations": [
                {"line": clause.step, "place": clause.place, "expected": clause.text, "difference": instead} for clause, instead in it.clauses
            ],
        }
        for it in outcomes
    ]


def as_junit(outcomes: list[Outcome], obj: str) -> str:
    """The outcomes as a file of JUnit: a suite for each script, and a case for each expectation."""
    suites = []
    for it in outcomes:
        cases = [case(it.name, f"line {clause.step}: {clause.text}", instead) for clause, instead in it.clauses]
        if it.failed or not it.clauses:
            cases.append(case(it.name, "run", it.sentence, "error" if it.failed else "failure"))
        failures = len(it.differences) + (not it.clauses and not it.failed)
        head = f'<testsuite name={quoteattr(it.name)} tests="{len(cases)}" failures="{failures}" errors="{int(bool(it.failed))}">'
        suites.append(head + "\n" + "".join(cases) + "</testsuite>\n")
    return f'<?xml version="1.0" encoding="UTF-8"?>\n<testsuites name={quoteattr(obj)}>\n{"".join(suites)}</testsuites>\n'


def case(of: str, name: str, instead: Optional[str], kind: str = "failure") -> str:
    """A case of a file of JUnit."""
    head = f"  <testcase classname={quoteattr(of)} name={quoteattr(name)}"
    return f"{head}><{kind} message={quoteattr(in_one_line(instead))}/></testcase>\n" if instead else head + "/>\n"


def status_of(outcomes: list[Outcome]) -> int:
    """The exit: that of the first script which can't run, then a difference, then a script of which nothing is expected."""
    failed = [it.status for it in outcomes if it.failed]
    others = [it.status for it in outcomes]
    return failed[0] if failed else UNEXPECTED if UNEXPECTED in others else NOT_JUDGED if NOT_JUDGED in others else 0


def chip_of(obj: str, topology: list[str]) -> Chip:
    """The chip that scripts run over, as for each view of an object. Of an object that the program refuses it says so."""
    try:
        return chips.chosen(obj, objects.load(obj), topology).chip
    except Failed:
        return chips.read(*topology)


def main(words: list[str]) -> int:
    """`test [--all | --tap | --json] [--junit FILE] [--topology TOPO] OBJ SCRIPT..`."""
    given, others = options.taken(words, OPTIONS, USAGE)
    if len(others) < 2:
        raise BadUse(USAGE)
    obj, *scripts = others
    chip = chip_of(obj, [given["--topology"]] if "--topology" in given else [])
    target = Target(given["--junit"]) if "--junit" in given else None
    try:
        with tempfile.TemporaryDirectory() as room:
            outcomes = [outcome(Run(obj, chip, room), path) for path in scripts]
        if target:
            target.put(as_junit(outcomes, faults.name_of(obj)).encode("utf-8", "replace"))
    finally:
        if target:
            target.drop()
    if "--tap" in given:
        as_tap(outcomes)
    elif "--json" in given:
        print(findings.whole("test", status_of(outcomes), scripts=as_json(outcomes)), end="")
    else:
        plainly(outcomes, "--all" in given)
    for it in outcomes:
        if it.failed and "--tap" in given:
            tell(it.sentence)
    return status_of(outcomes)
