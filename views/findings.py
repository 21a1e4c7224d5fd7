"""What a view has found: each finding with its check and its place, as lines, as JSON, and as SARIF for a robot.

The JSON of each view is one object. docs/JSON.md says what is in it.
"""

import base64
import json
import os
import urllib.parse
from typing import NamedTuple, Optional, Sequence

import names

# The format of OASIS in which code reviews take findings.
SARIF = "https://json.schemastore.org/sarif-2.1.0.json"

ERROR, WARNING, NOTE = "error", "warning", "note"


class Place(NamedTuple):
    """Where something is: in a line of a file that has lines, or at a word of an object."""

    file: str
    line: Optional[int] = None
    word: Optional[int] = None  # of four bytes, counted from 0

    def __str__(self) -> str:
        """The file, with its line if it has lines."""
        return f"{self.file}:{self.line}" if self.line else self.file


class Change(NamedTuple):
    """What to change in a file so that something isn't found any more: other bytes in place of as many from a word on."""

    place: Place
    content: bytes
    about: str


class Finding(NamedTuple):
    """Something that is to be said of a record, a rule or a line of a script."""

    check: str
    level: str
    place: Place
    text: str  # the record or the line of a script
    message: str
    related: Sequence[tuple[Place, str]] = ()  # other places, each with what is there
    change: Optional[Change] = None

    def __str__(self) -> str:
        """In a line, with its place first."""
        at = f"{self.place}: {self.text}" + f" (word {self.place.word})" * (not self.place.line)
        return f"{at}: {self.message} [{self.check}{', note' * (self.level == NOTE)}]"

    def as_json(self) -> dict[str, object]:
        """The finding with its place as keys and values."""
        return {"check": self.check, "level": self.level, **in_place(self.place), "text": self.text, "message": self.message}

    def as_result(self) -> dict[str, object]:
        """The finding as a result of SARIF."""
        result: dict[str, object] = {"ruleId": self.check, "level": self.level, "message": {"text": f"{self.text}: {self.message}"}}
        result["locations"] = [location_of(self.place)]
        if self.related:
            result["relatedLocations"] = [{"id": k, **location_of(place), "message": {"text": text}} for k, (place, text) in enumerate(self.related, 1)]
        if self.change:
            result["fixes"] = [fix_of(self.change)]
        return result


def in_place(place: Place) -> dict[str, object]:
    """A place as keys and values."""
    return {key: value for key, value in place._asdict().items() if value is not None}


def unit(kind: str, number: int) -> dict[str, object]:
    """A unit, a reset line or a clock as keys and values."""
    name_of = {"line": names.line_name, "clock": names.clock_name}.get(kind, names.node_name)
    return {"kind": kind, "number": number, "name": name_of(number)}


def artifact_of(file: str) -> dict[str, str]:
    """A file as SARIF names it: by a reference in the form of a URI."""
    return {"uri": urllib.parse.quote(os.fsencode(file), safe="/")}


def region_of(place: Place, length: int = 4) -> dict[str, int]:
    """A line, or some bytes of an object from a word on."""
    return {"startLine": place.line} if place.line else {"byteOffset": 4 * (place.word or 0), "byteLength": length}


def location_of(place: Place) -> dict[str, object]:
    """A place as a location of SARIF; it is the file if nothing more is known."""
    where: dict[str, object] = {"artifactLocation": artifact_of(place.file)}
    if place.line or place.word is not None:
        where["region"] = region_of(place)
    return {"physicalLocation": where}


def fix_of(change: Change) -> dict[str, object]:
    """A change as a fix of SARIF."""
    content = base64.b64encode(change.content).decode("ascii")
    replacement = {"deletedRegion": region_of(change.place, len(change.content)), "insertedContent": {"binary": content}}
    changed = {"artifactLocation": artifact_of(change.place.file), "replacements": [replacement]}
    return {"description": {"text": change.about}, "artifactChanges": [changed]}


def in_lines(found: Sequence[Finding]) -> str:
    """A line each."""
    return "".join(f"{finding}\n" for finding in found)


def in_json(value: dict[str, object]) -> str:
    """An object as JSON, which a robot reads."""
    return json.dumps(value, indent=1) + "\n"


def whole(view: str, status: int, **parts: object) -> str:
    """The JSON of a view: its first word, the exit that it ends with, and its own parts."""
    return in_json({"view": view, "exit": status, **parts})


def in_sarif(tool: str, rules: dict[str, str], found: Sequence[Finding]) -> str:
    """The findings of a tool as SARIF, with what each of its rules is about."""
    listed = [{"id": rule, "shortDescription": {"text": text}} for rule, text in rules.items()]
    run = {"tool": {"driver": {"name": tool, "rules": listed}}, "results": [finding.as_result() for finding in found]}
    return in_json({"$schema": SARIF, "version": "2.1.0", "runs": [run]})
