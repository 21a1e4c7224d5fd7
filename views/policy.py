"""`policy [--repair] [--json | --sarif] OBJ FILE [TOPO]`: whether an object keeps the rules of a file.

`rules.py` has the rules, and `breaches.py` how they are judged. The view ends with BROKEN if a rule is broken, and else with
NOT_JUDGED if a record wasn't judged and isn't allowed. With `--repair` it tells the fewest records to change instead.
"""

import struct
from typing import Iterator, Sequence

import breaches
import chip as chips
import faults
import findings
import names
import objects
import options
import permits
import program
import repair
import rules
from breaches import Judgement
from findings import ERROR, WARNING, Finding, Place

USAGE = "usage: ./pmu policy [--repair] [--json | --sarif] OBJ FILE [TOPO]"
OPTIONS = {"--repair": False, "--json": False, "--sarif": False}

# The rules of SARIF.
BROKEN, UNJUDGED, TO_CHANGE, UNMET = "broken-rule", "not-judged", "record-to-change", "no-repair"
ABOUT = {
    BROKEN: "A rule of the policy that a master breaks",
    UNJUDGED: "A record that gives a master something of which the topology doesn't say what it is",
    TO_CHANGE: "One of the fewest records to change so that all rules hold",
    UNMET: "A rule that no change of records makes hold",
}


def in_record(record: objects.Record) -> dict[str, object]:
    """A record of an object as keys and values."""
    return {"record": str(record), "word": record.place}


# A judgement.


def in_rule(rule: rules.Rule, found: Judgement) -> dict[str, object]:
    """A rule, and by whom it is broken."""
    broken = [{"master": names.node_name(it.master), "paths": it.paths()} for it in found.breaches if it.rule == rule]
    return {**findings.in_place(rule.place), "rule": rule.text, "holds": not broken, "broken_by": broken}


def in_steps(found: Judgement) -> Iterator[dict[str, object]]:
    """The steps of the paths, each with the records that give it."""
    for (master, end), reasons in found.steps.reasons.items():
        given: list[dict[str, object]] = [{"why": it.why, **in_record(it.record), "detail": it.detail} for it in reasons]
        yield {"from": names.node_name(master), "to": end, "reasons": given}


def in_unjudged(one: breaches.Unjudged, left: Sequence[breaches.Unjudged]) -> dict[str, object]:
    """A record that isn't judged, with the masters for whom it is allowed and for whom it isn't."""
    refused = [node for it in left if it.record == one.record for node in it.masters]
    allowed = [node for node in one.masters if node not in refused]
    names_of = [list(map(names.node_name, nodes)) for nodes in (allowed, refused)]
    return {**in_record(one.record), "act": one.act, "name": one.name, "allowed": names_of[0], "not_judged": names_of[1]}


def in_json(found: Judgement) -> str:
    """A judgement as JSON."""
    of_rules = [in_rule(rule, found) for rule in found.rules]
    records = [in_unjudged(one, found.left) for one in found.unjudged]
    return findings.whole("policy", found.status, rules=of_rules, steps=list(in_steps(found)), unknown_records=records)


def reasons_of(breach: breaches.Breach, found: Judgement, path: str) -> list[tuple[Place, str]]:
    """The records that give the steps of a breach."""
    steps = {step for way in breach.paths() for step in zip(way, way[1:])}
    pairs = [((names.node_name(a), end), it) for (a, end), reasons in found.steps.reasons.items() for it in reasons]
    return [(Place(path, word=it.record.place), f"{' > '.join(step)}: {it.why}: {it.record}: {it.detail}") for step, it in pairs if step in steps]


def as_findings(found: Judgement, path: str) -> Iterator[Finding]:
    """What SARIF has of a judgement: each breach at its rule, and each record that isn't judged."""
    for breach in found.breaches:
        said = f"broken by {names.node_name(breach.master)}: " + "; ".join(map(" > ".join, breach.paths()))
        yield Finding(BROKEN, ERROR, breach.rule.place, breach.rule.text, said, reasons_of(breach, found, path))
    for one in found.left:
        said = f"{permits.listed(one.masters)} may {one.act} {one.name}, and no rule judges it"
        yield Finding(UNJUDGED, WARNING, Place(path, word=one.record.place), str(one.record), said)


# A repair.


def unit_named(asked: repair.Question) -> str:
    """The unit of a question."""
    return f"{asked.kind} {breaches.name_of(asked.kind, asked.unit)}"


def repair_in_lines(made: repair.Repair) -> Iterator[str]:
    """The fewest records to change, each as the text before and after."""
    for it in made.unmet:
        yield f"no change of records takes {unit_named(it)} out of the reach of {names.node_name(it.master)}"
    if not made.unmet:
        yield f"the fewest records to change so that all rules hold: {len(made.changes)}"
    for change in made.changes:
        yield f"- {change.before}  # word {change.before.place}"
        yield f"+ {change.after}  # {change.lost}"


def repair_in_json(made: repair.Repair, status: int) -> str:
    """A repair as JSON."""
    changes: list[dict[str, object]] = [{**in_record(it.before), "after": str(it.after), "change": it.lost} for it in made.changes]
    unmet: list[dict[str, object]] = [{"master": names.node_name(it.master), **findings.unit(it.kind, it.unit)} for it in made.unmet]
    return findings.whole("policy", status, changes=changes, unmet=unmet)


def repair_as_findings(made: repair.Repair, path: str) -> Iterator[Finding]:
    """What SARIF has of a repair: each record to change, with its new words."""
    for it in made.changes:
        place = Place(path, word=it.before.place)
        content = struct.pack(f"<{len(it.after.words)}I", *it.after.words)
        yield Finding(TO_CHANGE, ERROR, place, str(it.before), it.lost, (), findings.Change(place, content, f"{it.after}: {it.lost}"))
    for asked in made.unmet:
        said = f"no change of records takes it out of the reach of {names.node_name(asked.master)}"
        yield Finding(UNMET, ERROR, Place(path), unit_named(asked), said)


def main(words: Sequence[str]) -> int:
    """Judges an object by the rules of a file, and gives the status."""
    given, rest = options.taken(words, OPTIONS, USAGE)
    form = options.form_of(given, USAGE)
    if len(rest) not in (2, 3):
        raise program.BadUse(USAGE)
    path, file, *topology = rest
    board = chips.chosen(path, objects.load(path), topology)
    policy = rules.read(file, board)
    found = breaches.judged(path, board, policy)
    made = repair.repair(board, breaches.questions_of(policy, board)) if "--repair" in given else None
    name = faults.name_of(path)
    if form == "--sarif":
        said = findings.in_sarif("pmu policy", ABOUT, list(as_findings(found, name) if made is None else repair_as_findings(made, name)))
    elif form == "--json":
        said = in_json(found) if made is None else repair_in_json(made, found.status)
    else:
        said = "".join(line + "\n" for line in (found.lines() if made is None else repair_in_lines(made)))
    print(said, end="")
    return found.status
