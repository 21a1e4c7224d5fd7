"""The files that the words of a view name otherwise: `-` is standard input, and that of `-o FILE` takes the output."""

import contextlib
import errno
import io
import os
import sys
from typing import Callable, Optional

import faults
from forms import DONE, UNWRITABLE
from program import BadUse
from target import Refused, Target

View = Callable[[list[str]], int]


def input_to_read_again(words: list[str]) -> list[str]:
    """The words with `/dev/stdin` in place of `-`: a file from now on, which has what standard input had."""
    inputs = [k for k, word in enumerate(words) if word == "-"]
    if len(inputs) > 1:
        raise BadUse("standard input can be only one of the files")
    if not inputs:
        return words
    number = os.memfd_create("input")
    try:
        with open(number, "wb", closefd=False) as file:
            while piece := os.read(0, 1 << 20):
                file.write(piece)
    except OSError as fault:
        raise BadUse(f"standard input can't be read: {fault.strerror}") from None
    os.dup2(number, 0)
    os.close(number)
    return [faults.STANDARD_INPUT if k in inputs else word for k, word in enumerate(words)]


def write_out(output: bytes) -> None:
    """Writes to standard output, whole."""
    try:
        if sys.stdout is None:  # (it was closed when Python began)
            raise OSError(errno.EBADF, os.strerror(errno.EBADF))
        # (with PYTHONUNBUFFERED a write may take a part alone, if the output is full or whoever read it goes)
        left = memoryview(output)
        while left:
            left = left[sys.stdout.buffer.write(left) :]
        sys.stdout.buffer.flush()
    except OSError as fault:
        # (Python writes what is left at its end: let that go nowhere)
        os.dup2(os.open(os.devnull, os.O_WRONLY), 1)
        # (nothing is said if whoever read it has gone, as `head` does)
        why = "" if fault.errno == errno.EPIPE else faults.not_written("standard output", fault)
        raise Refused(why, UNWRITABLE) from None


def output_of(view: View, words: list[str]) -> tuple[int, bytes]:
    """The exit of a view, and what it writes. A name of a file that isn't UTF-8 is written as it is."""
    written = io.BytesIO()
    file = io.TextIOWrapper(written, "utf-8", "surrogateescape", newline="\n")
    with contextlib.redirect_stdout(file):
        status = view(words)
    file.flush()
    return status, written.getvalue()


def write_to(name: str, view: View, words: list[str]) -> int:
    """Runs a view, and puts what it writes into a file if it has done its work. If not, the file stays as it was."""
    target = Target(name)
    try:
        status, output = output_of(view, words)
        if status in DONE:
            target.put(output)
    finally:
        target.drop()
    if status not in DONE:
        write_out(output)
    return status


def run(view: View, words: list[str], name: Optional[str]) -> int:
    """Runs a view over its words; what it writes goes to the file of this name, if it isn't None."""
    words = input_to_read_again(words)
    if name is not None:
        return write_to(name, view, words)
    status, output = output_of(view, words)
    if output:
        write_out(output)
    return status
