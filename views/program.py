"""Runs the program whose output a view shows."""

import contextlib
import os
import subprocess
from typing import Iterator, Optional, Sequence

import faults
from forms import NOT_RUN, UNREADABLE, files_of


class BadUse(Exception):
    """Words or a content of a file that a view can't take: one line on standard error, exit 125."""

    status = NOT_RUN


class Unread(BadUse):
    """A file can't be read: the exit is the program's for that."""

    status = UNREADABLE


class Failed(Exception):
    """The program ended with another status than 0: its output and its status are handed on, with a line in words."""

    def __init__(self, output: bytes, status: int, sentence: Optional[str]) -> None:
        """A run that ended so; nothing is said if whoever read it has gone."""
        super().__init__(status)
        self.output, self.status, self.sentence = output, status, sentence


@contextlib.contextmanager
def readable(words: Sequence[str]) -> Iterator[list[str]]:
    """The words with an open file in place of each file whose name isn't UTF-8: the program reads no such word."""
    made, numbers = list(words), []
    try:
        for k, _ in files_of(made):
            if not is_utf8(made[k]):
                numbers.append(open_number(made[k]))
                made[k] = f"/dev/fd/{numbers[-1]}"
        yield made
    finally:
        for number in numbers:
            os.close(number)


def is_utf8(word: str) -> bool:
    """Whether a word of the command line is UTF-8; bytes that aren't are kept apart in it."""
    return not any("\udc80" <= letter <= "\udcff" for letter in word)


def open_number(name: str) -> int:
    """The number of a file that is opened to be read, here and in what is run from here."""
    try:
        number = os.open(name, os.O_RDONLY)
    except OSError as fault:
        raise unread(name, fault) from None
    os.set_inheritable(number, True)
    return number


def unread(name: str, fault: OSError) -> Unread:
    """Why a file can't be read, as it is told of the program's own inputs."""
    said = faults.unread(name, faults.name_of(name))
    return Unread(said or f"{faults.name_of(name)} can't be read: {fault.strerror}")


def run(words: Sequence[str], written: Optional[Sequence[str]] = None) -> bytes:
    """What the program writes, as bytes. It runs in the caller's folder, and its standard error is the caller's. A
    fault is told by the words as they were written, if those that the program gets are others."""
    program = os.environ.get("PMU_PROGRAM")
    if not program:
        raise BadUse("no program: PMU_PROGRAM names none")
    with readable(words) as given:
        try:
            ended = subprocess.run([program, *given], stdout=subprocess.PIPE, close_fds=False, check=False)
        except OSError as fault:
            raise BadUse(f"the program can't be run: {fault.strerror}: {program}") from None
        if ended.returncode != 0:
            status = ended.returncode if ended.returncode > 0 else 128 - ended.returncode
            raise Failed(ended.stdout, status, faults.told(program, given, list(written or words), status, None))
    return ended.stdout


def run_text(words: Sequence[str], written: Optional[Sequence[str]] = None) -> list[str]:
    """What the program writes, as lines."""
    return run(words, written).decode("ascii").splitlines()


def write_file(name: str, content: bytes) -> None:
    """Writes a file of a view's own, among the temporary files."""
    try:
        with open(name, "wb") as file:
            file.write(content)
    except OSError as fault:
        raise BadUse(f"{name} can't be written: {fault.strerror}") from None


def read_file(name: str) -> bytes:
    """The bytes of a file."""
    try:
        with open(name, "rb") as file:
            return file.read()
    except OSError as fault:
        raise unread(name, fault) from None
