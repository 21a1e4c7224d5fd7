"""The views of the program's output: the first word says which one.

The wrapper `pmu` calls this with PMU_PROGRAM, the absolute path of the program, and PMU_TOP, the top of the
repository, in the environment. Where the program itself fails its exit is handed on, and a line on standard error says
why; so it is if a file can't be read or written. What the program wrote before it failed is handed on by `--names`
alone, which has the program's own lines: another view, and JSON, is whole or isn't written. All else that a view can't
do, a fault of its own too, is one line on standard error and the exit 125. A file `-` is standard input, and `-o FILE`
names a file for the output.
"""

import oldest

oldest.check()

# pylint: disable=wrong-import-position
import importlib
import sys

import files
import program
from forms import NOT_RUN
from target import Refused, take_words
from told import tell

# The first word, and the file of this folder whose `main` takes the words after it.
VIEWS = {
    "--names": "annotate",
    "--numbers": "to_numbers",
    "--vcd": "waveform",
    "--svg": "picture",
    "--dot": "graph",
    "from-c": "from_c",
    "lint": "lint",
    "policy": "policy",
    "diff": "diff",
    "compare": "compare",
    "names": "name_list",
    "import": "import_log",
    "test": "testing",
    "dts": "dts",
    "report": "report",
}

# The exit of a view that is interrupted.
INTERRUPTED = 130


def view(words: list[str]) -> int:
    """Runs a view, and gives its exit status."""
    name = take_words(words)
    if not words or words[0] not in VIEWS:
        raise program.BadUse(f"no such view: {words[0] if words else 'no word'}")
    run = importlib.import_module(VIEWS[words[0]]).main
    return files.run(run, words[1:], name)


def refused(why: str, status: int) -> int:
    """Tells why nothing was done, if there is something to say. What isn't the program's exit is this script's to say."""
    if why:
        tell(f"pmu: {why}" if status == NOT_RUN else why)
    return status


def main(words: list[str]) -> int:
    """Runs a view, however that ends, and gives the exit status."""
    try:
        return view(words)
    except (program.BadUse, Refused) as why:
        return refused(str(why), why.status)
    except program.Failed as failed:
        return handed_on(failed, failed.output if words[0] == "--names" and "--json" not in words else b"")
    except KeyboardInterrupt:
        return INTERRUPTED
    except Exception as fault:  # pylint: disable=broad-exception-caught
        return refused(f"a fault of this view: {type(fault).__name__}: {fault}", NOT_RUN)


def handed_on(failed: program.Failed, output: bytes) -> int:
    """Hands on what the program wrote before it failed, as far as it is to be handed on, and its exit."""
    try:
        files.write_out(output)
    except Refused as why:
        return refused(str(why), why.status)
    if failed.sentence:
        tell(failed.sentence)
    return failed.status


if __name__ == "__main__":
    sys.exit(main(sys.argv[1:]))
