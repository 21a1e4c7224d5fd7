"""The source of a device tree, as far as it says what a device asks for.

Read are nodes, labels, references, properties, deletions, includes of files, and names of the bindings of power domains,
resets and clocks (include/dt-bindings of Linux). Another name in a cell counts as 0; `Tree.unknown` says which there are.
"""

import os
import re
import struct
from typing import NamedTuple, Optional, TypeVar

import names
import published
from device_tree import Node, Tree
from lines import number_of
from program import BadUse, read_file

COMMENT = re.compile(r"/\*.*?\*/|//[^\n]*|(\"(?:\\.|[^\"\\])*\")", re.S)
INCLUDE = re.compile(r'^[ \t]*(?:#[ \t]*include|/include/)[ \t]*(?:"([^"]*)"|<([^>]*)>)[ \t]*;?[ \t]*$', re.M)
DEFINE = re.compile(r"^[ \t]*#[ \t]*define[ \t]+(\w+)[ \t]+(\w+)[ \t]*$", re.M)
DIRECTIVE = re.compile(r"^[ \t]*#[ \t]*(if|ifdef|ifndef|else|elif|endif|undef|define)\b.*$", re.M)
SPACE = re.compile(r"\s*")
LABEL = re.compile(r"([A-Za-z_]\w*)\s*:")
NAME = re.compile(r"[\w,.+*#?@-]+")
REFERENCE = re.compile(r"&(?:([A-Za-z_]\w*)|\{([^}]*)\})")
STRING = re.compile(r'"((?:\\.|[^"\\])*)"')
CELL = re.compile(r"\w+|'(?:\\.|[^'])'")
DEEPEST = 8

Member = TypeVar("Member")


class Fix(NamedTuple):
    """A cell that is the phandle of a node which a reference names, by its label or its path."""

    node: Node
    name: str  # of the property
    place: int  # of the cell, in bytes
    label: Optional[str]
    path: Optional[str]


def with_includes(path: str, depth: int = 0) -> str:
    """A source without comments and with the files that it includes. Headers in <> are those of the bindings."""
    if depth > DEEPEST:
        raise BadUse(f"{path}: files include one another more than {DEEPEST} deep")
    text = read_file(path).decode("utf-8", "replace")
    text = COMMENT.sub(lambda found: found[1] or "\n" * found[0].count("\n") or " ", text)
    folder = os.path.dirname(path)
    return INCLUDE.sub(lambda found: with_includes(os.path.join(folder, found[1]), depth + 1) if found[1] else "", text)


class Source:
    """A reader over the text of a source."""

    def __init__(self, text: str, name: str) -> None:
        """A reader over a text of this name, which has no directive left but for plain definitions."""
        self.defines: dict[str, str] = dict(DEFINE.findall(text))
        text = DEFINE.sub("", text)
        directive = DIRECTIVE.search(text)
        if directive:
            raise BadUse(f"{name}: the line '{directive[0].strip()}' isn't read: give what the C preprocessor makes of it, or the blob")
        self.text, self.name, self.place = text, name, 0
        self.root = Node("")
        self.labels: dict[str, Node] = {}
        self.fixes: list[Fix] = []
        self.unknown: dict[tuple[Node, str], str] = {}  # the names that aren't known, by node and property

    def space(self) -> int:
        """The place behind the spaces that come next."""
        found = SPACE.match(self.text, self.place)
        return found.end() if found else self.place

    def fault(self, wanted: str) -> BadUse:
        """What is wrong at the place of the reader."""
        found = " ".join(self.text[self.place : self.place + 30].split()) or "the end"
        return BadUse(f"{self.name}: {wanted} is wanted in the device tree, not '{found}'")

    def take(self, pattern: re.Pattern[str]) -> Optional[re.Match[str]]:
        """What is next, if it has this form."""
        self.place = self.space()
        found = pattern.match(self.text, self.place)
        if found:
            self.place = found.end()
        return found

    def has(self, text: str) -> bool:
        """Whether this is next, which is taken then."""
        self.place = self.space()
        if not self.text.startswith(text, self.place):
            return False
        self.place += len(text)
        return True

    def want(self, text: str) -> None:
        """Takes what has to be next."""
        if not self.has(text):
            raise self.fault(f"'{text}'")

    def read(self) -> Tree:
        """The tree."""
        while self.space() < len(self.text):
            if self.has("/dts-v1/"):
                self.want(";")
            elif self.has("/plugin/"):
                raise BadUse(f"{self.name}: an overlay has no whole tree: give the tree that it is put into")
            elif self.has("/memreserve/") or self.has("/delete-node/"):
                self.place = self.text.index(";", self.place) + 1
            else:
                self.top_node()
        return self.finished()

    def top_node(self) -> None:
        """The root, or a node that is named by a reference."""
        while label := self.take(LABEL):
            self.labels[label[1]] = self.root
        reference = self.take(REFERENCE)
        if reference:
            self.body(self.referred(reference[1], reference[2]))
        elif self.has("/"):
            self.body(self.root)
        else:
            raise self.fault("a node")

    def referred(self, label: Optional[str], path: Optional[str]) -> Node:
        """The node of a label or a path."""
        node = self.labels.get(label) if label else self.root
        for part in (path or "").strip("/").split("/"):
            node = node.children.get(part) if node and part else node
        if node is None:
            raise BadUse(f"{self.name}: the device tree has no node '{label or path}'")
        return node

    def body(self, node: Node) -> None:
        """The properties and nodes between braces."""
        self.want("{")
        while not self.has("}"):
            if self.has("/delete-node/"):
                self.delete(node.children)
            elif self.has("/delete-property/"):
                self.delete(node.properties)
            else:
                self.member(node)
        self.want(";")

    def delete(self, members: dict[str, Member]) -> None:
        """Deletes a member by its name."""
        name = self.take(NAME)
        if not name:
            raise self.fault("a name")
        if name[0] in members:
            del members[name[0]]
        self.want(";")

    def member(self, node: Node) -> None:
        """A property or a node."""
        self.has("/omit-if-no-ref/")
        labels = []
        while label := self.take(LABEL):
            labels.append(label[1])
        name = self.take(NAME)
        if not name:
            raise self.fault("a property or a node")
        if self.has("="):
            node.properties[name[0]] = self.values(node, name[0])
            self.want(";")
        elif self.has(";"):
            node.properties[name[0]] = b""
        else:
            child = node.children.setdefault(name[0], Node(name[0], node))
            self.labels.update({label: child for label in labels})
            self.body(child)

    def values(self, node: Node, name: str) -> bytes:
        """The value of a property."""
        self.fixes = [fix for fix in self.fixes if (fix.node, fix.name) != (node, name)]
        self.unknown.pop((node, name), None)
        value = b""
        while True:
            while self.take(LABEL):
                pass
            if self.has("/bits/"):
                self.place = self.text.index("<", self.place)
            if found := self.take(STRING):
                value += found[1].encode() + b"\0"
            elif self.has("<"):
                value = self.cells(node, name, value)
            elif self.has("["):
                end = self.text.index("]", self.place)
                value += bytes.fromhex("".join(self.text[self.place : end].split()))
                self.place = end + 1
            elif found := self.take(REFERENCE):
                value += b"&\0"
            else:
                raise self.fault("a value")
            if not self.has(","):
                return value

    def cells(self, node: Node, name: str, value: bytes) -> bytes:
        """The cells up to the bracket, behind a value."""
        while not self.has(">"):
            cell = 0
            if found := self.take(REFERENCE):
                self.fixes.append(Fix(node, name, len(value), found[1], found[2]))
            elif self.has("("):
                self.skip_brackets()
                self.unknown.setdefault((node, name), "(..)")
            elif found := self.take(CELL):
                cell = self.cell(node, name, found[0])
            else:
                raise self.fault("a cell")
            value += struct.pack(">I", cell & 0xFFFFFFFF)
        return value

    def skip_brackets(self) -> None:
        """Goes behind the bracket that closes the one before."""
        depth = 1
        while depth and self.place < len(self.text):
            depth += {"(": 1, ")": -1}.get(self.text[self.place], 0)
            self.place += 1

    def cell(self, node: Node, name: str, word: str) -> int:
        """The value of a word of a cell."""
        word = self.defines.get(word, word)
        value = number_of(word.rstrip("uUlL").lower() if word[0].isdigit() else word)
        if value is None and word.startswith("PD_"):
            value = names.number_of("node", word)
        elif value is None and word.startswith("ZYNQMP_RESET_"):
            line = names.number_of("reset", word)
            value = None if line is None else line - names.FIRST_RESET
        elif value is None:
            value = published.NUMBERS.get(word)
        if value is None:
            self.unknown.setdefault((node, name), word)
        return value or 0

    def finished(self) -> Tree:
        """The tree, with a phandle for each node that a cell names."""
        given = 0
        for node, name, place, label, path in self.fixes:
            target = self.referred(label, path)
            if not target.cells("phandle"):
                given += 1
                target.properties["phandle"] = struct.pack(">I", given)
            value = node.properties.get(name, b"")
            if len(value) >= place + 4:
                node.properties[name] = value[:place] + target.properties["phandle"] + value[place + 4 :]
        tree = Tree(self.root)
        tree.unknown = {(node.path(), name): word for (node, name), word in self.unknown.items()}
        return tree


def of_source(path: str, name: str) -> Tree:
    """The tree of a source."""
    try:
        return Source(with_includes(path), name).read()
    except (ValueError, RecursionError):
        raise BadUse(f"{name}: the device tree ends within a node or a value, or is no device tree") from None
