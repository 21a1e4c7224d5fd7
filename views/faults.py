"""A fault in words: what is wrong if the exit of the program isn't 0, and in which file, line or word.

The numbers are the program's own: of a bad object those of `print`, of a bad text those of `build`. Which line of a
script is bad is looked for in the script, by the same table of lines and causes, since a run can be long.
"""

import errno
import os
import stat
import subprocess
from typing import TYPE_CHECKING, Optional, Sequence

import outages
from forms import (
    BAD_LINE, BAD_OBJECT, BAD_TEXT, FORMS, LIMITS, MOST_LINES, NO_MEMORY, TOO_LARGE, UNREADABLE, UNWRITABLE, USAGE, files_of, form_of,
    forms_of,
)  # fmt: skip
from grammar import SCRIPT, TOPOLOGY
from lines import count, first_fault, like, number_of, reader_of, words_of
from object_faults import object_sentence, text_cause

if TYPE_CHECKING:
    from target import Target

STANDARD_INPUT = "/dev/stdin"
HELP = "./pmu --help has the forms"
# The first words that the wrapper takes besides those of the program.
OTHER_WORDS = (
    "--prove", "--proved", "--help", "--version", "--program", "--names", "--numbers", "--vcd", "--svg", "--dot", "from-c", "lint",
    "policy", "diff", "compare", "names", "import", "test", "dts", "report", "--install", "--uninstall",
)  # fmt: skip


class Run:
    """A run of the program that failed: its words as they were given to it, and as the caller wrote them."""

    def __init__(self, program: str, words: Sequence[str], written: Sequence[str]) -> None:
        """A run of the program with these words; `written` are the caller's."""
        self.program, self.words, self.written = program, words, written
        self.files = [(words[k], name_of(written[k]), kind) for k, kind in files_of(words)]

    def file(self, wanted: str) -> tuple[str, str]:
        """The path and the name of the file of this kind."""
        return next((path, name) for path, name, kind in self.files if kind == wanted)

    def has(self, wanted: str) -> bool:
        """Whether a file of this kind is named."""
        return wanted in (form_of(self.words) or ())

    def word(self, wanted: str) -> str:
        """The word that is of this kind."""
        return self.words[1 + (form_of(self.words) or ()).index(wanted)]


def name_of(word: str) -> str:
    """What a file is called in what is said of it."""
    return "standard input" if word in ("-", STANDARD_INPUT) else word


def content(path: str, limit: int) -> Optional[bytes]:
    """The first bytes of a file; None if it can't be read, or only once, as a pipe."""
    try:
        if stat.S_ISFIFO(os.stat(path).st_mode):
            return None
        with open(path, "rb") as file:
            return file.read(limit)
    except OSError:
        return None


def written_by(program: str, *words: str) -> bytes:
    """What the program writes for these words."""
    # (a file among them may be one that is open here alone)
    given = [program, *words]
    return subprocess.run(given, stdout=subprocess.PIPE, stderr=subprocess.DEVNULL, close_fds=False, check=False).stdout


def last_line(program: str, *words: str) -> list[str]:
    """The words of the last line that the program writes for these words."""
    return written_by(program, *words)[-100:].decode("latin-1").strip().rpartition("\n")[2].split()


def first_words(data: bytes) -> list[str]:
    """The words of the first line of a text that has any."""
    return next(filter(None, (words_of(line) for line in data[:4096].split(b"\n"))), [])


def kind_of(data: bytes) -> Optional[str]:
    """What a file of bytes looks like, in words, or None."""
    word = (first_words(data) or [""])[0]
    if not data:
        return "is empty"
    if data.startswith(b"\x7fELF"):
        return "is an ELF file"
    if b"XPm_ConfigObject" in data:
        return "is a C file"
    if word == "fault" and len(data) < 40:
        return f"has nothing but the fault line of an earlier run, '{data.decode('latin-1').strip()}'"
    if len(data) >= 8 and data[4:8] == b"\x01\x00\x00\x00" or data[8:12] == b"\x01\x00\x00\x00":
        return "is an object"
    if word in ("header", "section", "master"):
        return "is the text of an object"
    if word in TOPOLOGY:
        return "is the text of a topology"
    if word in SCRIPT or word == "fail":
        return "is a script"
    if all(byte in b"\t\n\r" or 0x20 <= byte <= 0x7E for byte in data[:256]):
        return "is a text"
    return None


def misplaced(name: str, data: bytes, wanted: str) -> Optional[str]:
    """The sentence for a file of another kind than is wanted, or None."""
    kind = kind_of(data)
    word = "-" if name == name_of(STANDARD_INPUT) else name
    advice = {
        ("is the text of an object", "an object"): f": ./pmu build {word} -o FILE makes its object",
        ("is an object", "the text of an object"): f": ./pmu print {word} writes its text",
        ("is a C file", "an object"): f": ./pmu from-c {word} -o FILE makes its object",
        ("is an object", "a script"): "; the object comes before the script",
        ("is a script", "an object"): "; the object comes before the script",
    }
    if not kind or kind == f"is {wanted}":
        return None
    return f"{name} {kind}, and {wanted} is wanted" + advice.get((kind, wanted), "")


def usage(run: Run) -> str:
    """What is wrong with words that have no form."""
    written = run.written
    if not written:
        return f"no words are given: {HELP}"
    first = written[0]
    if first not in FORMS:
        return f"no form begins with '{first}'{like(first, (*FORMS, *OTHER_WORDS))}: {HELP}"
    if form_of(written) is not None:
        return "the program reads no word that isn't UTF-8: " + next(word for word in written if any("\udc80" <= it <= "\udcff" for it in word))
    given = len(written) - 1
    return f"'{first}' takes {taken_by(first)}, and {given} {'is' if given == 1 else 'are'} given"


def taken_by(first: str) -> str:
    """What the words after a first one name, and how many they are."""
    forms = forms_of(first)
    names = " ".join(forms[0])
    if len(forms) == 2:
        return f"{names} [TOPO], which is {len(forms[0])} or {count(len(forms[1]), 'word')}"
    return f"{names}, which is {count(len(forms[0]), 'word')}" if names else "no word after it"


def bad_object(run: Run) -> str:
    """What is wrong with an object."""
    path, name = run.file("OBJ")
    data = content(path, LIMITS["OBJ"] + 1)
    if data is None:
        return f"{name}: the object has no reading, as the fault line says (it can't be read again for more)"
    said = last_line(run.program, "print", path)
    if said[:2] != ["fault", "object"] or len(said) != 4:
        return f"{name}: the object had no reading, and has one now"
    cause, offset = int(said[2]), int(said[3])
    other = misplaced(name, data, "an object")
    if other:
        return other
    return f"{name}: {object_sentence(cause, offset, data)}"


def bad_line(run: Run) -> str:
    """What is wrong with the first line of a script that has no meaning."""
    path, name = run.file("SCRIPT")
    data = content(path, LIMITS["SCRIPT"] + 1)
    found = first_fault(data) if data else None
    if data is None or not found:
        return f"{name}: a line has no meaning, as the fault line says (the script can't be read again for more)"
    number, cause, sentence = found
    kind = kind_of(data)
    if cause in (4, 5) and kind in ("is an object", "is an ELF file") or cause == 1 and kind in ("is a C file", "is the text of an object"):
        return misplaced(name, data, "a script") or sentence
    words = words_of(data.split(b"\n")[number - 1])
    if cause in outages.CAUSES.values() and outages.is_outage(words):
        sentence = outages.wrong_words(words) or f"'{' '.join(words)}' is a line for the views: ./pmu --names replay takes it"
    if number == 1 and data.startswith(b"\xef\xbb\xbf"):
        sentence = "the file begins with a byte order mark, and only ASCII is read"
    return f"{name}:{number}: {sentence}"


def unread(path: str, name: str) -> Optional[str]:
    """Why a file can't be read, or None if it can."""
    if name == path and not os.path.lexists(path):
        folder, wanted = os.path.split(path)
        try:
            near = like(wanted, os.listdir(folder or "."))
        except OSError:
            near = ""
        return f"no file {name or repr(name)}{near}"
    try:
        if stat.S_ISFIFO(os.stat(path).st_mode):
            return None
        with open(path, "rb") as file:
            file.read(1)
    except IsADirectoryError:
        return f"{name} is a folder, and no file"
    except OSError as fault:
        return f"{name} can't be read: {fault.strerror}"
    return None


def unreadable(run: Run) -> str:
    """Which input can't be read, and why."""
    whys = [unread(path, name) for path, name, _ in run.files]
    path, name, _ = run.files[0]
    if whys[0] and number_of(path) is not None and "NODE" in FORMS[run.words[0]]:
        return f"no file {name}: '{run.words[0]}' takes {' '.join(FORMS[run.words[0]])}, in this order"
    return next(filter(None, whys), f"{' or '.join(name for _, name, _ in run.files)} couldn't be read to its end")


def unwritable(target: Optional["Target"]) -> Optional[str]:
    """Why the output couldn't be written: a write of nothing new tells it, if it still can't be. None if whoever read it
    has gone, as `head` does once it has its lines."""
    name = target.name if target else "standard output"
    try:
        os.write(target.number if target else 1, b"\n" if target or not os.isatty(1) else b"")
    except OSError as fault:
        return None if fault.errno == errno.EPIPE else not_written(name, fault)
    return f"{name} couldn't be written to its end"


def not_written(name: str, fault: OSError) -> str:
    """What is said of an output by the fault of a write."""
    return f"{name} can't be written: {fault.strerror}"


def too_large(run: Run) -> str:
    """Which script is too long."""
    path, name = run.file("SCRIPT")
    return f"{name}: the script has more than {LIMITS['SCRIPT']} bytes"


def no_master(run: Run) -> str:
    """What is wrong with the word for a master."""
    path, name = run.file("OBJ")
    lines = (words_of(line) for line in written_by(run.program, "print", path).split(b"\n"))
    nodes = [words[1] for words in lines if words[:1] == ["master"]]
    has = f"{name} (it has {' and '.join([', '.join(nodes[:-1]), nodes[-1]] if nodes[1:] else nodes)})" if nodes else name
    node = number_of(run.word("NODE"))
    if node is None or node >= 1 << 32:
        return f"'{run.word('NODE')}' is no number of a master of {has}{reader_of(run.word('NODE'))}"
    return f"node {node} is no master of {has}"


def topology_text_cause(number: int, cause: int, lines: Sequence[bytes]) -> str:
    """The sentence of a cause of a bad text of a topology at a line."""
    if number == 0:
        return f"it has more than {LIMITS['TOPO']} bytes"
    words = words_of(lines[number - 1]) if number <= len(lines) else []
    first = words[0] if words else ""
    if cause == 1 and first not in TOPOLOGY:
        return f"no line begins with '{first}'{like(first, TOPOLOGY)}"
    if cause == 1:
        return f"the line takes {first} {TOPOLOGY[first]}, numbers within their limits"
    if cause == 2:
        return f"the line is out of place: the kinds come in the order {', '.join(TOPOLOGY)}, and each state after its slave"
    return f"{words[2] if len(words) > 2 else 'the parent'} is the node of no 'power' line before this one"


# The rule that an entry of a topology breaks, by the number of the cause.
TOPOLOGY_RULES = {
    1: "its number is that of an earlier entry",
    2: "its parent isn't an earlier power node",
    3: "the slave has no state",
    4: "its last state lacks a capability of an earlier one, or has a latency",
    5: "it is past the limit of its list, or has more than 4 states",
    6: "the line's target is no processor and no slave",
    7: "the owner is no master, or has a processor that isn't there, that it may not have, or that it has twice",
    8: "one of the masters 1, 6, 7 and 8 has no 'owner' line",
    9: "the owner has a processor of an earlier one",
}


def bad_topology(run: Run, said: Sequence[str]) -> str:
    """What is wrong with the text of a topology, by the words of its fault line."""
    path, name = run.file("TOPO")
    data = content(path, LIMITS["TOPO"] + 1)
    cause, number = (int(said[2]), int(said[3])) if said[1] == "topology" else (int(said[3]), int(said[2]))
    other = misplaced(name, data, "the text of a topology") if data is not None else None
    if other and data is not None and kind_of(data) != "is a text":
        return other
    if said[1] == "topology":
        return f"{name}: the entry at place {number} of its list, counted from 0: {TOPOLOGY_RULES[cause]}"
    if data is None:
        return f"{name}: the text has no meaning, as the fault line says (it can't be read again for more)"
    lines = data.split(b"\n")
    return f"{name}{f':{number}' if number else ''}: {topology_text_cause(number, cause, lines)}"


def bad_word(run: Run) -> str:
    """What is wrong with the topology or the word of a master."""
    if run.has("TOPO"):
        said = last_line(run.program, "reach", run.file("OBJ")[0], "none", run.file("TOPO")[0])
        if said[:1] == ["fault"] and said[1:2] in (["text"], ["topology"]) and len(said) == 4:
            return bad_topology(run, said)
        if not run.has("NODE"):
            return f"{run.file('TOPO')[1]}: the topology was refused, and is accepted now"
    return no_master(run)


def bad_text(run: Run) -> str:
    """What is wrong with the text of an object."""
    path, name = run.file("TEXT")
    data = content(path, LIMITS["TEXT"] + 1)
    if data is None:
        return f"{name}: the text has no meaning, as the fault line says (it can't be read again for more)"
    said = last_line(run.program, "build", path)
    if said[:2] != ["fault", "text"] or len(said) != 4:
        return f"{name}: the text had no meaning, and has one now"
    number, cause = int(said[2]), int(said[3])
    kind = kind_of(data)
    if number == 0:
        return f"{name}: the text has more than {LIMITS['TEXT']} bytes"
    if cause == 1 and kind in ("is an object", "is an ELF file", "is a C file", "is a script") or kind == "is empty":
        return misplaced(name, data, "the text of an object") or f"{name} is no text of an object"
    if cause == 1 and number == 1 and data.startswith(b"\xef\xbb\xbf"):
        return f"{name}:1: the file begins with a byte order mark, and only ASCII is read"
    lines = data.split(b"\n")
    if not lines[-1]:
        lines.pop()
    is_end = number > len(lines)
    line = b"" if is_end else lines[number - 1]
    where = f"{name}:{number}{' (its end)' if is_end else ''}"
    return f"{where}: {text_cause(cause, lines[: number - 1], line, is_end)}"


def sentence(program: str, words: Sequence[str], written: Sequence[str], status: int, target: Optional["Target"]) -> Optional[str]:
    """What is wrong, in one line, after a run of the program with these words that ended so."""
    run = Run(program, words, written)
    if status == UNWRITABLE:
        return unwritable(target)
    if status == NO_MEMORY:
        return "there isn't enough memory"
    if status == BAD_TEXT and form_of(words) and words[0] == "make":
        return f"'{words[1]}' is no number of lines: 1 to {MOST_LINES} are"
    if status == BAD_TEXT and form_of(words) and words[0] != "build":
        return bad_word(run)
    tell = {
        USAGE: usage, BAD_OBJECT: bad_object, BAD_LINE: bad_line, UNREADABLE: unreadable, TOO_LARGE: too_large,
        BAD_TEXT: bad_text,
    }  # fmt: skip
    return tell[status](run) if status in tell else f"the program ended with {status}, which is none of its exits"


def told(program: str, words: Sequence[str], written: Sequence[str], status: int, target: Optional["Target"]) -> Optional[str]:
    """That sentence, or, if it can't be found, that the program ended so; None if nothing is to be said."""
    try:
        return sentence(program, words, written, status, target)
    except Exception:  # pylint: disable=broad-except
        # (what is said of a fault is no reason for another exit than the program's)
        return f"the program ended with {status}, and why can't be told"
