"""An object by the file that a user edits: the object itself, its text, or the C file of the vendor's tools.

Each record knows its place: in a text or a C file the line, in an object the word.
"""

import os
from typing import NamedTuple, Optional

import faults
import from_c
import grammar
import lines as texts
import objects
import program
import to_numbers
from findings import Place


class Source(NamedTuple):
    found: objects.Object
    file: str  # what the file is called
    path: str  # that of a file with the bytes of the object
    lines: Optional[dict[int, int]]  # of a file with lines: that of each record, by the byte at which the record begins

    def place(self, record: objects.Record) -> Place:
        """Where a record is."""
        if self.lines is None:
            return Place(self.file, word=record.place)
        return Place(self.file, line=self.lines[record.offset])


def records_of(found: objects.Object) -> list[objects.Record]:
    """All records of an object, in their order."""
    return [record for section in found.sections for record in section.records]


def of_c(path: str, data: bytes, made: str) -> Source:
    """The object of a C file; each word has a line there."""
    name = faults.name_of(path)
    words, last = from_c.words_of(name, data.decode("latin-1"))
    data = from_c.judged(name, words, last)
    program.write_file(made, data)
    return Source(objects.decode(data), name, made, {objects.WORD * place: line for place, (_, line) in enumerate(words)})


def of_text(path: str, data: bytes, made: str) -> Source:
    """The object of a text, as the program builds it. Each record has a line of its own, in the order of the object."""
    if not os.environ.get("PMU_PROGRAM"):
        raise program.BadUse(f"{faults.name_of(path)}: this is the text of an object: ./pmu build makes the object")
    program.write_file(made, to_numbers.in_numbers(data, path))
    built = program.run(["build", made], ["build", path])
    program.write_file(made, built)
    found = objects.decode(built)
    first_words = [(texts.words_of(line) or [""])[0] for line in data.split(b"\n")]
    numbers = [number for number, word in enumerate(first_words, 1) if word in grammar.RECORDS]
    by_record = {record.offset: number for record, number in zip(records_of(found), numbers)}
    return Source(found, faults.name_of(path), made, by_record)


def read(path: str, room: str) -> Source:
    """The object of a file of any of the kinds; `room` is a folder for files."""
    data, made = program.read_file(path), os.path.join(room, "object")
    kind = faults.kind_of(data)
    if kind == "is a C file":
        return of_c(path, data, made)
    if kind == "is the text of an object":
        return of_text(path, data, made)
    return Source(objects.read(path), faults.name_of(path), path, None)
