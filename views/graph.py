"""`--dot [--all] [--json] reach OBJ NODE [TOPO]`: the reach of a master as a graph, for Graphviz.

An arrow from a master to another says why the one leads to the other, and an arrow from a master to slaves or reset
lines why it can change them; each is that of the reach, which names the first reason alone. With `--all` each master of the
reach has an arrow to all that it reaches by a record of its own, with all reasons. A frame is a power domain of the reach.
Masters beyond the reach are dotted, and what else is beyond isn't drawn.
"""

import sys
from typing import Callable, Iterator, NamedTuple, Optional, Sequence

import annotate
import chip as chips
import findings
import names
import objects
import options
import permits
from chip import Board, Chip
from program import BadUse, run

USAGE = "--dot is followed by reach OBJ NODE [TOPO], with --all or --json before it or not"
OPTIONS = {"--all": False, "--json": False}

COLUMN = 8  # names in one column of a box

# What each word of an arrow means, in the order of the legend.
MEANINGS = {
    "suspend": "may suspend the other master",
    "wake": "may wake the other master",
    "use": "may use the slaves",
    "force": "may force a power node above down",
    "reset": "may reset by a line",
    "shutdown": "may shut down all",
    "config": "may set the configuration",
}


class Arrow(NamedTuple):
    """Why a master leads to another, or can change a unit."""

    start: int
    why: str  # words with commas between them


class Graph(NamedTuple):
    """A reach as it is drawn."""

    board: Board
    members: list[permits.Member]
    masters: dict[int, list[Arrow]]  # of each master in the reach, what leads to it
    units: dict[tuple[str, int], tuple[Arrow, ...]]  # of each slave and reset line, what can change it


def quoted(text: str) -> str:
    """A text of a graph."""
    return '"' + text.replace("\\", "\\\\").replace('"', '\\"').replace("\n", "\\n") + '"'


def attributes(**given: str) -> str:
    """The attributes of a node or an arrow."""
    return " [" + ", ".join(f"{name}={quoted(value)}" for name, value in given.items()) + "]"


def listed(numbers: Sequence[int], name: Callable[[int], str]) -> str:
    """The names of units, a few on a line, so that a box of many stays legible."""
    said = [name(number) for number in numbers]
    wide = -(-len(said) // COLUMN)
    return "\n".join(", ".join(said[begin : begin + wide]) for begin in range(0, len(said), max(wide, 1)))


def words_of(reasons: Sequence[permits.Reason]) -> str:
    """The words of reasons, each once."""
    return ", ".join(dict.fromkeys(reason.why for reason in reasons))


def graph_of(board: Board, members: list[permits.Member], has_all: bool) -> Graph:
    """The reach with the first reason of each member, or with all reasons of all masters of it."""
    reached = [member.number for member in members if member.kind == permits.MASTER]
    masters, units = {}, {}
    for kind, number, why, path in members:
        if kind == permits.MASTER:
            reasons = {a: permits.leads(board, a, number) for a in reached if has_all and a != number}
            arrows = [Arrow(a, words_of(given)) for a, given in reasons.items() if given]
            masters[number] = arrows if has_all else [Arrow(path[-2], why)] if len(path) > 1 else []
        elif kind != permits.POWER:
            reasons = {a: permits.brings(board, a, kind, number) for a in reached if has_all}
            arrows = [Arrow(a, words_of(given)) for a, given in reasons.items() if given]
            units[kind, number] = tuple(arrows) if has_all else (Arrow(path[-1], why),)
    return Graph(board, members, masters, units)


def groups_of(graph: Graph, kind: str, domain: Optional[int]) -> dict[tuple[Arrow, ...], list[int]]:
    """The members of a kind directly below a power node by what can change them, in the order of the reach."""
    groups: dict[tuple[Arrow, ...], list[int]] = {}
    for (member, number), arrows in graph.units.items():
        if member == kind and (kind == permits.LINE or graph.board.chip.nodes[number].parent == domain):
            groups.setdefault(arrows, []).append(number)
    return groups


def box_name(kind: str, domain: Optional[int], arrows: Sequence[Arrow]) -> str:
    """The name of a box: its kind, its domain, and the masters and reasons of its arrows."""
    parts = [f"{arrow.start}_{arrow.why.replace(', ', '_')}" for arrow in arrows]
    return "_".join([kind, *([] if domain is None else [str(domain)]), *parts])


def master_lines(graph: Graph, start: int) -> Iterator[str]:
    """The masters, and what leads to each."""
    for master in permits.masters(graph.board):
        style = {} if master in graph.masters else {"style": "dotted", "fontcolor": "gray40"}
        bold = {"style": "bold"} if master == start else {}
        label = f"{names.node_name(master)}\nmaster {master}" + "\nbeyond" * (master not in graph.masters)
        yield f"  master_{master}" + attributes(shape="box", label=label, **style, **bold) + ";"
    for master, arrows in graph.masters.items():
        for arrow in arrows:
            yield f"  master_{arrow.start} -> master_{master}" + attributes(label=arrow.why, style="bold") + ";"


def box(numbers: Sequence[int], style: str) -> str:
    """A box with the names of nodes."""
    return attributes(shape="box", style=style, fillcolor="white", label=listed(numbers, names.node_name))


def processors_of(graph: Graph, domain: int) -> dict[int, int]:
    """The processors directly below a power node whose master is in the reach, each with it."""
    chip = graph.board.chip
    found: dict[int, int] = {}
    for master in graph.masters:
        for proc in chip.owners[master]:
            if chip.nodes[proc].parent == domain:
                found.setdefault(proc, master)
    return found


def powers(chip: Chip, parent: Optional[int]) -> list[int]:
    """The power nodes directly below one, or those without a parent."""
    return [number for number in sorted(chip.nodes) if chip.is_kind(number, "power") and chip.nodes[number].parent == parent]


def domain_lines(domain: int, graph: Graph, indent: str) -> list[str]:
    """The frame of a power node that has something of the reach in it, and so is in the reach too, with what is in it."""
    inner = [line for child in powers(graph.board.chip, domain) for line in domain_lines(child, graph, indent + "  ")]
    for arrows, numbers in groups_of(graph, permits.SLAVE, domain).items():
        inner.append(f"{indent}  {box_name('slaves', domain, arrows)}{box(numbers, 'rounded,filled')};")
    procs = processors_of(graph, domain)
    if procs:
        inner.append(f"{indent}  procs_{domain}{box(list(procs), 'filled')};")
    if not inner:
        return []
    style = f'label={quoted(names.node_name(domain))}; style="filled"; fillcolor="gray90";'
    return [f"{indent}subgraph cluster_{domain} {{", f"{indent}  {style}", *inner, f"{indent}}}"]


def line_boxes(graph: Graph) -> Iterator[str]:
    """The boxes of the reset lines."""
    for arrows, numbers in groups_of(graph, permits.LINE, None).items():
        label = "reset lines\n" + listed(numbers, names.line_name)
        yield f"  {box_name('lines', None, arrows)}" + attributes(shape="note", label=label) + ";"


def arrow_lines(graph: Graph) -> Iterator[str]:
    """The arrows from masters to their slaves, reset lines and processors."""
    domains = [number for number in graph.board.chip.nodes if graph.board.chip.is_kind(number, "power")]
    ends: list[tuple[str, Optional[int], tuple[Arrow, ...]]] = []
    ends += [("slaves", domain, arrows) for domain in domains for arrows in groups_of(graph, permits.SLAVE, domain)]
    ends += [("lines", None, arrows) for arrows in groups_of(graph, permits.LINE, None)]
    for kind, domain, arrows in ends:
        for arrow in arrows:
            yield f"  master_{arrow.start} -> {box_name(kind, domain, arrows)}" + attributes(label=arrow.why) + ";"
    for domain in domains:
        for master in sorted(set(processors_of(graph, domain).values())):
            yield f"  master_{master} -> procs_{domain}" + attributes(label="runs on", style="dashed") + ";"


def legend(graph: Graph, has_all: bool) -> str:
    """A box that says what is drawn, with the words that are there."""
    arrows = [arrow for found in [*graph.masters.values(), *graph.units.values()] for arrow in found]
    used = {word for arrow in arrows for word in arrow.why.split(", ")}
    said = ["thick arrow: leads to the other master", "thin arrow: can change the units", "dashed arrow: has its processors there"]
    said += ["frame: power domain"]
    said += ["bold box: where the reach begins"]
    beyond = set(permits.masters(graph.board)) - set(graph.masters)
    said += ["dotted box: a master beyond the reach"] if beyond else []
    said += [f"{word}: {meaning}" for word, meaning in MEANINGS.items() if word in used]
    said += ["each arrow has all its reasons" if has_all else "each member has its first reason alone"]
    text = "\\l".join(line.replace('"', '\\"') for line in said) + "\\l"
    return f'  legend [shape="box", style="filled", fillcolor="lightyellow", fontsize="9", label="{text}"];'


def lines_of(graph: Graph, start: int, has_all: bool) -> Iterator[str]:
    """The lines of the graph of a reach."""
    yield f"digraph {quoted('reach of ' + names.node_name(start))} {{"
    yield '  rankdir=LR; fontname="sans-serif"; fontsize=12;'
    yield '  node [fontname="sans-serif", fontsize=11];'
    yield '  edge [fontname="sans-serif", fontsize=10];'
    yield legend(graph, has_all)
    yield from master_lines(graph, start)
    for power in powers(graph.board.chip, None):
        yield from domain_lines(power, graph, "  ")
    yield from line_boxes(graph)
    yield from arrow_lines(graph)
    yield "}"


def arrows_in_json(graph: Graph) -> Iterator[dict[str, object]]:
    """The arrows, each from a master to what it leads to, can change, or has."""
    ends: list[tuple[str, int, Sequence[Arrow]]] = [(permits.MASTER, number, arrows) for number, arrows in graph.masters.items()]
    ends += [(kind, number, arrows) for (kind, number), arrows in graph.units.items()]
    for kind, number, arrows in ends:
        for arrow in arrows:
            yield {"from": names.node_name(arrow.start), "to": findings.unit(kind, number), "why": arrow.why.split(", ")}
    for domain in graph.board.chip.of_kind("power"):
        for proc, master in processors_of(graph, domain).items():
            yield {"from": names.node_name(master), "to": findings.unit("processor", proc), "why": ["runs on"]}


def in_json(graph: Graph, start: int) -> dict[str, object]:
    """The graph as keys and values: the masters, the frames, and the arrows."""
    chip = graph.board.chip
    masters: list[dict[str, object]] = [{**findings.unit(permits.MASTER, node), "in_reach": node in graph.masters} for node in permits.masters(graph.board)]
    drawn = [number for number in chip.of_kind("power") if domain_lines(number, graph, "")]
    units = [(kind, number) for kind, number in graph.units if kind == permits.SLAVE]
    units += [("processor", proc) for domain in drawn for proc in processors_of(graph, domain)]
    inside = [(kind, number, chip.nodes[number].parent) for kind, number in [*((permits.POWER, it) for it in drawn), *units]]
    frames: list[dict[str, object]] = [{**findings.unit(kind, number), "in": None if parent is None else names.node_name(parent)} for kind, number, parent in inside]
    return {"master": names.node_name(start), "masters": masters, "frames": frames, "arrows": list(arrows_in_json(graph))}


def main(words: Sequence[str]) -> int:
    """Writes the graph of a reach."""
    given, rest = options.taken(words, OPTIONS, USAGE)
    has_all = "--all" in given
    if len(rest) not in (3, 4) or rest[0] != "reach":
        raise BadUse(USAGE)
    _, obj, word, *topology = rest
    board = chips.chosen(obj, objects.load(obj), topology)
    node = annotate.node_in_numbers(word)
    # (it judges the node, and what it says of a fault is handed on)
    run(["reach", obj, node, *board.chip.words()], ["reach", obj, word, *board.chip.words()])
    start = annotate.number_of_node(node)
    members = permits.checked_reach(obj, board, start)
    graph = graph_of(board, members, has_all)
    if "--json" in given:
        print(findings.whole("--dot", 0, **in_json(graph, start)), end="")
    else:
        sys.stdout.writelines(line + "\n" for line in lines_of(graph, start, has_all))
    return 0
