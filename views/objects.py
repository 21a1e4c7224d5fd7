"""The configuration object: its bytes as sections of records, and back.

docs/FORMATS.md has the format and its faults. Each record knows at which byte of the file it begins, so that what is
said of it can be found in a dump of the file.
"""

import struct
from dataclasses import dataclass
from typing import Sequence

import faults
import grammar
import object_faults
import program

WORD = 4
LONGEST = 16384  # bytes
TYPE_BASE = 1

# The words of a record, by what it is called in the text of an object.
FIELDS = {kind: tuple(words) for kind, words in grammar.RECORDS.items()}

MASTERS = 0x101
PREALLOC = 0x103

# Flags of a slave, and of a preallocation.
SHAREABLE = 1
IN_USE = 2


@dataclass(frozen=True)
class Record:
    """A record, by the name and with the words that it has in the text of an object. `record.mask` is a word of it."""

    kind: str
    offset: int  # of its first word, in bytes
    words: tuple[int, ...]

    @property
    def place(self) -> int:
        """Its first word in the object, counted from 0."""
        return self.offset // WORD

    def __getattr__(self, name: str) -> int:
        """A word by what it is called in the text of an object."""
        if name in FIELDS[self.kind]:
            return self.words[FIELDS[self.kind].index(name)]
        raise AttributeError(f"a {self.kind} has no {name}")

    def __str__(self) -> str:
        """As a line of the text of an object."""
        return " ".join([self.kind, *map(str, self.words)])


@dataclass(frozen=True)
class Section:
    """A section with its records. In the preallocations a group is before its own."""

    identifier: int
    offset: int
    records: tuple[Record, ...]


@dataclass(frozen=True)
class Object:
    """A configuration object."""

    extra: tuple[int, ...]  # the words of the header after the type
    sections: tuple[Section, ...]

    def records(self, kind: str) -> list[Record]:
        """All records of a kind, in their order."""
        return [record for section in self.sections for record in section.records if record.kind == kind]

    def groups(self) -> list[tuple[Record, list[Record]]]:
        """The preallocations: each group with its records."""
        groups: list[tuple[Record, list[Record]]] = []
        for section in self.sections:
            if section.identifier == PREALLOC:
                groups += _grouped(section.records)
        return groups


def _grouped(records: Sequence[Record]) -> list[tuple[Record, list[Record]]]:
    """Groups with the records behind each."""
    groups: list[tuple[Record, list[Record]]] = []
    for record in records:
        if record.kind == "group":
            groups.append((record, []))
        else:
            groups[-1][1].append(record)
    return groups


class Fault(program.BadUse):
    """The first fault of bytes that are no object, as the program tells it: its cause, and the word where it is."""

    def __init__(self, cause: int, place: int, data: bytes) -> None:
        """The fault of these bytes."""
        super().__init__(f"{object_faults.object_sentence(cause, place, data)} (fault object {cause} {place})")
        self.cause, self.place = cause, place


class _Reader:
    """Takes words from the front, and tries each rule as soon as its word is there."""

    def __init__(self, data: bytes) -> None:
        """A reader at the begin of these bytes, of which the length is judged."""
        self.data, self.place = data, 0
        if len(data) > LONGEST:
            raise self.fault(2, LONGEST // WORD)
        if len(data) % WORD != 0:
            raise self.fault(1, len(data) // WORD)
        self.words = struct.unpack(f"<{len(data) // WORD}I", data)

    def fault(self, cause: int, place: int) -> Fault:
        """A fault of the bytes, by its cause and its word."""
        return Fault(cause, place, self.data)

    @property
    def offset(self) -> int:
        """Where the next word is, in bytes."""
        return WORD * self.place

    def word(self) -> int:
        """Takes a word."""
        if self.place == len(self.words):
            raise self.fault(3, self.place)
        self.place += 1
        return self.words[self.place - 1]

    def take(self, count: int) -> tuple[int, ...]:
        """Takes as many words."""
        return tuple(self.word() for _ in range(count))

    def judge(self, holds: bool, cause: int) -> None:
        """A rule of the word that was taken last."""
        if not holds:
            raise self.fault(cause, self.place - 1)

    def new(self, seen: set[int]) -> int:
        """A word that none of these is."""
        word = self.word()
        self.judge(word not in seen, 11)
        seen.add(word)
        return word

    def records(self, kind: str) -> list[Record]:
        """The records behind a count; no two have the same first word."""
        seen: set[int] = set()
        records = []
        for _ in range(self.word()):
            offset = self.offset
            records.append(Record(kind, offset, (self.new(seen), *self.take(len(FIELDS[kind]) - 1))))
        return records

    def header(self) -> tuple[int, tuple[int, ...]]:
        """The number of sections, and the words after the type."""
        count = self.word()
        self.judge(count >= 2, 4)
        words = self.take(count)
        if words[1] != TYPE_BASE:
            raise self.fault(5, 2)
        if words[0] == 0:
            raise self.fault(8, self.place)
        return words[0], words[2:]

    def master(self, nodes: set[int], bits: set[int]) -> Record:
        """A master after those with these nodes and bits."""
        offset, node = self.offset, self.word()
        split = node in (7, 8)
        self.judge(node in (1, 6) or split, 9)
        self.judge(not (split and 6 in nodes or node == 6 and bool(nodes & {7, 8})), 9)
        self.judge(node not in nodes, 11)
        mask = self.word()
        self.judge(bin(mask).count("1") == 1 and mask not in bits, 10)
        nodes.add(node)
        bits.add(mask)
        return Record("master", offset, (node, mask, *self.take(3)))

    def masters(self) -> list[Record]:
        """The masters, of which there is one at least."""
        count = self.word()
        self.judge(count > 0, 8)
        nodes: set[int] = set()
        bits: set[int] = set()
        return [self.master(nodes, bits) for _ in range(count)]

    def groups(self) -> list[Record]:
        """The groups of the preallocations, each with its records behind it."""
        records = []
        for _ in range(self.word()):
            records.append(Record("group", self.offset, (self.word(),)))
            records += self.records("prefer")
        return records

    def section(self, before: set[int]) -> Section:
        """A section after those with these identifiers."""
        offset, identifier = self.offset, self.word()
        self.judge(identifier in grammar.SECTIONS, 6)
        self.judge(identifier not in before, 7)
        self.judge(bool(before) or identifier == MASTERS, 8)
        before.add(identifier)
        kind = grammar.SECTIONS[identifier].kind
        if identifier == MASTERS:
            records = self.masters()
        elif identifier == PREALLOC:
            records = self.groups()
        elif kind in grammar.SINGLE:
            records = [Record(kind, self.offset, self.take(len(FIELDS[kind])))]
        else:
            records = self.records(kind)
        return Section(identifier, offset, tuple(records))


def decode(data: bytes) -> Object:
    """The object of these bytes."""
    reader = _Reader(data)
    before: set[int] = set()
    count, extra = reader.header()
    sections = tuple(reader.section(before) for _ in range(count))
    if reader.place != len(reader.words):
        raise reader.fault(12, reader.place)
    return Object(extra, sections)


def _section_words(section: Section) -> list[int]:
    """The words of a section, with its identifier and its counts."""
    kind = grammar.SECTIONS[section.identifier].kind
    words = [section.identifier]
    if section.identifier == PREALLOC:
        groups = _grouped(section.records)
        words.append(len(groups))
        for group, records in groups:
            words += [group.mask, len(records)]
            words += [word for record in records for word in record.words]
        return words
    if kind not in grammar.SINGLE:
        words.append(len(section.records))
    return words + [word for record in section.records for word in record.words]


def encode(found: Object) -> bytes:
    """The bytes of an object."""
    words = [2 + len(found.extra), len(found.sections), TYPE_BASE, *found.extra]
    for section in found.sections:
        words += _section_words(section)
    return to_bytes(words)


def to_bytes(words: Sequence[int]) -> bytes:
    """The bytes of these words."""
    return struct.pack(f"<{len(words)}I", *words)


def is_text(data: bytes) -> bool:
    """Whether these bytes are lines that people can read. No object is: its first words are small numbers."""
    return data.isascii() and bytes(data).decode().replace("\n", "").replace("\t", "").replace("\r", "").isprintable()


def read(path: str) -> Object:
    """The object of a file. What is wrong with it is told with the file."""
    data = program.read_file(path)
    try:
        return decode(data)
    except Fault as fault:
        is_said = "this is a text, and no object: ./pmu build or ./pmu from-c makes one of it" if data and is_text(data) else str(fault)
        raise program.BadUse(f"{faults.name_of(path)}: {is_said}") from None


def load(path: str) -> Object:
    """The object of a file that the program takes. Where it doesn't, what it says is handed on."""
    program.run(["print", path])
    return read(path)
