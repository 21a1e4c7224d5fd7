"""A page of HTML in one file: its style, and the parts that pages are made of. Nothing outside is loaded."""

from html import escape
from typing import Iterable, Optional

STYLE = """\
:root { color-scheme: light dark; --ground: #fff; --text: #1c1c1e; --faint: #5c5f66; --line: #d5d8de; --band: #f4f5f8;
  --link: #0a58b5; --device: #a50; --good: #10693c; --bad: #b3261e; --strong: #e6effb; }
@media (prefers-color-scheme: dark) {
  :root { --ground: #16181c; --text: #e8e9ec; --faint: #a3a8b2; --line: #3a3e47; --band: #1f2229; --link: #8ab8ff;
    --device: #f0a860; --good: #6fd39b; --bad: #ff8b80; --strong: #20304a; } }
* { box-sizing: border-box; }
body { margin: 0 auto; max-width: 76rem; padding: 1rem 1rem 4rem; background: var(--ground); color: var(--text);
  font: 16px/1.5 system-ui, sans-serif; overflow-wrap: break-word; }
h1 { font-size: 1.6rem; margin: .5rem 0 .25rem; } h2 { font-size: 1.25rem; margin: 2.2rem 0 .5rem; }
h3 { font-size: 1rem; margin: 1.2rem 0 .4rem; }
p { margin: .4rem 0; } .faint { color: var(--faint); } .good { color: var(--good); } .bad { color: var(--bad); font-weight: 600; }
a { color: var(--link); } nav a { margin-right: 1rem; display: inline-block; }
code, pre { font: .86rem/1.45 ui-monospace, monospace; } pre { margin: 0; white-space: pre-wrap; }
.wide { overflow-x: auto; border: 1px solid var(--line); border-radius: 6px; margin: .5rem 0; }
table { border-collapse: collapse; width: 100%; font-size: .92rem; }
th, td { text-align: left; vertical-align: top; padding: .3rem .6rem; border-bottom: 1px solid var(--line); }
thead th { background: var(--band); white-space: nowrap; } tbody th { font-weight: 600; white-space: nowrap; }
tr:last-child > * { border-bottom: 0; } td.no { color: var(--faint); } tr.shared > * { background: var(--strong); }
details { border-bottom: 1px solid var(--line); } details > *:not(summary, .wide) { padding: .2rem .6rem .6rem 1.6rem; }
summary { padding: .3rem .4rem; cursor: pointer; } summary:hover { background: var(--band); }
summary:focus-visible { outline: 2px solid var(--link); outline-offset: -2px; }
.number { display: inline-block; min-width: 2.6rem; color: var(--faint); font-variant-numeric: tabular-nums; }
.lines code { margin-right: .8rem; } .plain { padding: .3rem .4rem .3rem 1.45rem; border-bottom: 1px solid var(--line); }
details > .wide { margin: 0 .6rem .6rem 1.6rem; padding: 0; }
.fold { border: 1px solid var(--line); border-radius: 6px; margin: .5rem 0; } .fold > details:last-child, .fold > .plain:last-child { border-bottom: 0; }
button { font: inherit; padding: .2rem .7rem; margin-right: .5rem; border: 1px solid var(--line); border-radius: 6px;
  background: var(--band); color: var(--text); cursor: pointer; }
.picture svg text { fill: var(--text); } .picture svg .grid { stroke: var(--line); } .picture svg .wave { stroke: var(--link); }
.picture svg .box { fill: var(--strong); stroke: var(--link); } .picture svg .zero { fill: var(--ground); stroke: var(--link); }
.picture svg rect:not([class]) { fill: var(--ground); } .picture svg .device { stroke: var(--device); } .picture svg .refused { stroke: var(--bad); }
.picture svg { display: block; max-width: none; }
@media print { body { max-width: none; } button, nav { display: none; } }
"""

# Folds and unfolds all lines; a page does without it.
SCRIPT = "document.querySelectorAll('button').forEach(b => b.onclick = () => document.querySelectorAll('.lines details').forEach(d => d.open = b.value > 0));"


def tag(name: str, content: str, **attributes: str) -> str:
    """An element; its content is HTML already."""
    given = "".join(f' {key.rstrip("_")}="{escape(value)}"' for key, value in attributes.items() if value)
    return f"<{name}{given}>{content}</{name}>"


def text(words: str, kind: str = "") -> str:
    """Words in the page, of a kind or none."""
    return tag("span", escape(words), class_=kind) if kind else escape(words)


def folded(summary: str, content: str, is_open: bool = False) -> str:
    """A part that can be unfolded; both are HTML."""
    return f"<details{' open' * is_open}><summary>{summary}</summary>{content}</details>"


def table(heads: Iterable[str], rows: Iterable[str]) -> str:
    """A table that can be moved sideways if it is too wide."""
    head = tag("thead", tag("tr", "".join(tag("th", escape(word), scope="col") for word in heads)))
    return tag("div", tag("table", head + tag("tbody", "\n".join(rows))), class_="wide", tabindex="0")


def row(name: str, cells: Iterable[str], kind: str = "") -> str:
    """A row of a table: its name in words, and its cells as HTML."""
    return tag("tr", tag("th", escape(name), scope="row") + "".join(cells), class_=kind)


def section(anchor: str, title: str, content: str) -> str:
    """A section with its heading."""
    return f'<section id="{anchor}">\n{tag("h2", escape(title))}\n{content}\n</section>\n'


def whole(title: str, content: str, sections: Optional[Iterable[tuple[str, str]]] = None) -> str:
    """The page; the sections are those that its head leads to, by anchor and title."""
    links = "".join(tag("a", escape(name), href="#" + anchor) for anchor, name in sections or ())
    return (
        '<!DOCTYPE html>\n<html lang="en">\n<head>\n<meta charset="utf-8">\n'
        '<meta name="viewport" content="width=device-width, initial-scale=1">\n'
        f"<title>{escape(title)}</title>\n<style>\n{STYLE}</style>\n</head>\n<body>\n"
        f"<header>{tag('h1', escape(title))}{tag('nav', links)}</header>\n<main>\n{content}</main>\n"
        f"<script>{SCRIPT}</script>\n</body>\n</html>\n"
    )
