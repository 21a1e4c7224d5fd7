"""The constants of the interface for C and for Python, from the table of names that all views use.

After a change of that table `python3 views/eemi_header.py > include/pmu_eemi.h` writes the header anew, and
`python3 views/eemi_header.py --python > bindings/python/pmu_eemi.py` the module.
"""

import sys
from typing import NamedTuple

import names

HEAD = """\
/* The constants of the interface, for programs that use pmu.h: what messages and answers are made of. Numbers of calls,
 * callbacks, statuses, nodes, published reset lines and arguments follow Xilinx UG1200 and UG1137, power calls Arm
 * DEN0022; clocks have numbers of this project's own.
 *
 * Written from the table of names of the views, which a test compares with it. Each group is one enumeration.
 */
#ifndef PMU_EEMI_H
#define PMU_EEMI_H

#include <stdint.h>
"""


PYTHON_HEAD = '''\
"""The constants of the interface, for programs that use pmu.py: what messages and answers are made of. Numbers of calls,
callbacks, statuses, nodes, published reset lines and arguments follow Xilinx UG1200 and UG1137, power calls Arm DEN0022;
clocks have numbers of this project's own.

Written from the table of names of the views, which a test compares with it. Each group is one enumeration.
"""

from enum import IntEnum, IntFlag
'''


class Group(NamedTuple):
    """Numbers of a kind by their names, with a sentence that says what they are."""

    comment: str
    prefix: str
    table: dict[int, str]


def _enumeration(group: Group) -> str:
    """A group in C."""
    width = max(len(name) for name in group.table.values())
    rows = [f"    PMU_{group.prefix}_{name:{width}} = {number}" for number, name in group.table.items()]
    return f"\n/* {group.comment} */\nenum {{\n" + ",\n".join(rows) + "\n};\n"


def _class(group: Group) -> str:
    """A group in Python: of capabilities, which are bits, a set of flags."""
    name = "".join(word.capitalize() for word in group.prefix.split("_"))
    kind, form = ("IntFlag", "d") if group.prefix == "CAPABILITY" else ("IntEnum", "#x" if group.prefix == "PSCI" else "d")
    rows = "".join(f"    {word} = {number:{form}}\n" for number, word in group.table.items())
    comment = group.comment.replace("PMU_STATUS_", "Status.")
    return f'\n\nclass {name}({kind}):\n    """{comment}"""\n\n{rows}'


def _power_calls() -> str:
    """The functions of PSCI, which need not fit an enumeration."""
    functions = names.WORDS["function"]
    width = max(map(len, functions.values()))
    rows = [f"#define PMU_PSCI_{name:{width}} UINT32_C({number:#010X})".replace("0X", "0x") for number, name in functions.items()]
    return "\n/* Functions of PSCI: the second argument of a power call, the word behind `smc P` in a script. */\n" + "\n".join(rows) + "\n"


def _groups() -> list[Group]:
    """The groups that fit an enumeration of C."""
    masters = {number: names.node_name(number) for number in names.MASTERS}
    served = {call.number: call.name for call in names.CALLS.values() if call.arguments is not None}
    callbacks = {call.number: call.name[: -len("_CB")] for call in names.CALLBACKS.values()}
    clocks = {number: names.clock_name(number) for number in names.CLOCKS}
    nodes = {node.number: node.name for node in names.NODES.values() if node.kind != "absent"}
    modes = {number: name.upper() for number, name in names.MODES.items()}
    groups: list[tuple[str, str, dict[int, str]]] = [
        ("Masters: who sends a message.", "MASTER", masters),
        ("Calls that this profile serves; any other number is answered PMU_STATUS_NO_FEATURE.", "CALL", served),
        ("Callbacks: the first word of what the core sends to a master by itself.", "CALLBACK", callbacks),
        ("Statuses: the first word of an answer.", "STATUS", names.STATUSES),
        ("Nodes: power nodes, processors and slaves.", "NODE", nodes),
        ("Modes of a processor.", "MODE", modes),
        ("Capabilities: bits of a requirement and of a state.", "CAPABILITY", names.CAPABILITIES),
        ("Acknowledge kinds: how a call is answered.", "ACK", names.WORDS["ack"]),
        ("What GET_OP_CHARACTERISTIC asks for.", "CHARACTERISTIC", names.WORDS["characteristic"]),
        ("Events of a node.", "EVENT", names.WORDS["event"]),
        ("Reasons of ABORT_SUSPEND.", "ABORT", names.WORDS["abort reason"]),
        ("Types of SYSTEM_SHUTDOWN.", "SHUTDOWN_TYPE", names.WORDS["shutdown type"]),
        ("Its subtypes.", "SHUTDOWN_SUBTYPE", names.WORDS["shutdown subtype"]),
        ("Actions of RESET_ASSERT.", "RESET_ACTION", names.WORDS["reset action"]),
        ("Published reset lines, which a topology has to have. Without one, line n resets node n.", "RESET", names.RESETS),
        ("Clocks; the first five are roots.", "CLOCK", clocks),
    ]
    return [Group(*group) for group in groups]


def header() -> str:
    """The text of the header."""
    return HEAD + "".join(map(_enumeration, _groups())) + _power_calls() + "\n#endif\n"


def module() -> str:
    """The text of the module for Python."""
    functions = Group("Functions of PSCI: the second argument of a power call.", "PSCI", names.WORDS["function"])
    return PYTHON_HEAD + "".join(map(_class, [*_groups(), functions]))


if __name__ == "__main__":
    print(module() if sys.argv[1:] == ["--python"] else header(), end="")
