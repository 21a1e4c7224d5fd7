"""Device trees: their nodes, from a flattened blob (Devicetree Specification 0.3, chapter 5) or from a source.

A node has its properties as bytes, as a blob has them. `device_source.py` reads sources.
"""

import struct
from typing import Iterator, NamedTuple, Optional

from program import BadUse

MAGIC = 0xD00DFEED
BEGIN, END, PROPERTY, NOP, LAST = 1, 2, 3, 4, 9


class Node:
    """A node of a device tree."""

    def __init__(self, name: str, parent: Optional["Node"] = None) -> None:
        """A node without properties and nodes below."""
        self.name, self.parent = name, parent
        self.properties: dict[str, bytes] = {}
        self.children: dict[str, Node] = {}

    def path(self) -> str:
        """The full name, from the root on."""
        return "/" if self.parent is None else self.parent.path().rstrip("/") + "/" + self.name

    def every(self) -> Iterator["Node"]:
        """The node and all below it."""
        yield self
        for child in self.children.values():
            yield from child.every()

    def cells(self, name: str) -> list[int]:
        """A property as 32-bit cells; none if the node hasn't it."""
        value = self.properties.get(name, b"")
        return list(struct.unpack(f">{len(value) // 4}I", value[: len(value) // 4 * 4]))

    def texts(self, name: str) -> list[str]:
        """A property as strings."""
        return [text.decode("utf-8", "replace") for text in self.properties.get(name, b"").split(b"\0") if text]

    def is_on(self) -> bool:
        """Whether its status, and that of each node above, lets an operating system use it."""
        status = self.texts("status") or ["okay"]
        return status[0] in ("okay", "ok") and (self.parent is None or self.parent.is_on())


class Reference(NamedTuple):
    """What a property of a device names: a provider, and the cells behind it."""

    provider: Node
    cells: list[int]


class Tree:
    """A device tree: its nodes by their phandles."""

    def __init__(self, root: Node) -> None:
        """The tree of a root."""
        self.root = root
        self.unknown: dict[tuple[str, str], str] = {}  # names in cells that aren't known, by path and property
        self.handles = {node.cells("phandle")[0]: node for node in root.every() if node.cells("phandle")}

    def references(self, node: Node, name: str, count: str) -> list[Reference]:
        """The providers that a property names; `count` is the property that says how many cells follow each."""
        cells, found = node.cells(name), []
        while cells:
            provider = self.handles.get(cells.pop(0))
            if provider is None:
                continue
            length = (provider.cells(count) or [0])[0]
            found.append(Reference(provider, cells[:length]))
            del cells[:length]
        return found


def word_at(content: bytes, place: int) -> int:
    """The 32-bit word at a place of a blob."""
    if place + 4 > len(content):
        raise ValueError("it ends within a word")
    return struct.unpack_from(">I", content, place)[0]


def text_at(content: bytes, place: int) -> str:
    """The text that begins at a place of a blob."""
    end = content.find(b"\0", place)
    if end < 0:
        raise ValueError("it ends within a name")
    return content[place:end].decode("utf-8", "replace")


def nodes_of(content: bytes) -> Node:
    """The root of a blob, or ValueError."""
    structure, strings = word_at(content, 8), word_at(content, 12)
    place = structure
    node: Optional[Node] = None
    root: Optional[Node] = None
    while True:
        token = word_at(content, place)
        place += 4
        if token == BEGIN:
            name = text_at(content, place)
            place += (len(name.encode("utf-8", "replace")) + 4) & ~3
            child = Node(name, node)
            if node:
                node.children[name] = child
            node, root = child, root or child
        elif token == END and node:
            node = node.parent
        elif token == PROPERTY and node:
            length, name = word_at(content, place), text_at(content, strings + word_at(content, place + 4))
            node.properties[name] = content[place + 8 : place + 8 + length]
            place += 8 + ((length + 3) & ~3)
        elif token == LAST and root and node is None:
            return root
        elif token != NOP:
            raise ValueError(f"a token {token:#x} is out of place at byte {place - 4}")


def is_blob(content: bytes) -> bool:
    """Whether a file begins as a flattened tree does."""
    return len(content) >= 40 and word_at(content, 0) == MAGIC


def of_blob(content: bytes, name: str) -> Tree:
    """The tree of a blob."""
    try:
        return Tree(nodes_of(content))
    except (ValueError, RecursionError) as fault:
        raise BadUse(f"{name}: the device tree can't be read: {fault}") from None
