"""`names [--json]`: each name with its number, a line `KIND NUMBER NAME` each."""

from typing import Iterator, NamedTuple

import findings
import names
from program import BadUse


def written(kind: str, number: int) -> str:
    """A number as it is written beside its name: that of a function of PSCI in hexadecimal."""
    return f"{number:#x}" if kind == "function" else str(number)


class Row(NamedTuple):
    """A name with its number, and what else is known of it."""

    kind: str  # one word
    number: int
    name: str
    more: str  # with the comma or the colon before it

    def __str__(self) -> str:
        """The line of the name."""
        return f"{self.kind} {written(self.kind, self.number)} {self.name}{self.more}"


def rows() -> Iterator[Row]:
    """Each name with its kind and its number."""
    for node in names.NODES.values():
        yield Row("node", node.number, node.name, ", not in the table of the chip" * (node.kind == "absent"))
    for number in names.RESETS:
        yield Row("line", number, names.line_name(number), ", not in the table of the chip")
    for kind, table in (("call", names.CALLS), ("callback", names.CALLBACKS)):
        for call in table.values():
            arguments = ", not served" if call.arguments is None else ": " * bool(call.arguments) + ", ".join(call.arguments)
            yield Row(kind, call.number, call.name, arguments)
    for number, clock in names.CLOCKS.items():
        yield Row("clock", number, names.clock_name(number), ": " + (", ".join(map(names.clock_name, clock.parents)) or "a root"))
    for kind, words in names.WORDS.items():
        for number, name in words.items():
            yield Row(kind.replace(" ", "-"), number, name, "")


def lines() -> Iterator[str]:
    """A line each."""
    return map(str, rows())


def in_json() -> list[dict[str, object]]:
    """Each name as keys and values."""
    return [{**row._asdict(), "more": row.more.lstrip(",: ")} for row in rows()]


def main(words: list[str]) -> int:
    """Writes each name on a line of its own, or all as a list for a robot, and gives the exit."""
    if words not in ([], ["--json"]):
        raise BadUse("names takes no words but --json: search what it writes")
    print(findings.whole("names", 0, names=in_json()) if words else "".join(line + "\n" for line in lines()), end="")
    return 0
