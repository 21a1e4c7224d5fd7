"""views/run.py PROGRAM WORDS..

Runs the program with these words, in the caller's folder and with its exit status. Of the words, `-o FILE` has the
output go to FILE, and a file `-` is standard input. If the exit isn't 0, a line on standard error says what is wrong.
Words that have no form are refused here; if PROGRAM is empty nothing else is done. The program has the caller's own
input and output, so that a large run takes no longer for it.
"""
import oldest

oldest.check()

# pylint: disable=wrong-import-position
import os
import signal
import stat
import sys
from typing import Optional

from forms import LIMITS, NOT_RUN, USAGE, files_of, form_of
from target import Refused, Target, take_words
from told import tell

# The signals that are handed on to the program.
HANDED = (signal.SIGHUP, signal.SIGINT, signal.SIGQUIT, signal.SIGTERM)


def open_input(word: str) -> Optional[int]:
    """The number of the open input that a word names, if it can be read only once: always that of `-`, and else that of a pipe or a terminal."""
    if word == "-":
        return 0
    folder, _, name = ("/dev/fd/0" if word == "/dev/stdin" else word).rpartition("/")
    if folder not in ("/dev/fd", "/proc/self/fd") or not name.isdecimal():
        return None
    try:
        return None if stat.S_ISREG(os.fstat(int(name)).st_mode) else int(name)
    except (OSError, OverflowError):
        return None


def keep(number: int, piece: bytes) -> None:
    """Writes all of these bytes to a file of this program's own."""
    left = memoryview(piece)
    try:
        while left:
            left = left[os.write(number, left) :]
    except OSError as fault:
        raise Refused(f"the input can't be kept: {fault.strerror}") from None


def spooled(given: int, limit: int) -> str:
    """An open input, up to a byte past the limit, as a file that can be read again."""
    number, left = os.memfd_create("input"), limit + 1
    while left:
        try:
            piece = os.read(given, min(left, 1 << 20))
        except OSError:
            # (the program finds the same, and says so)
            return f"/dev/fd/{given}"
        if not piece:
            break
        keep(number, piece)
        left -= len(piece)
    os.set_inheritable(number, True)
    return f"/dev/fd/{number}"


def take_input(words: list[str]) -> None:
    """Puts files that can be read again in the place of open inputs that can't."""
    inputs = {k: open_input(words[k]) for k, _ in files_of(words)}
    if list(inputs.values()).count(0) > 1:
        raise Refused("standard input can be only one of the files")
    for k, kind in files_of(words):
        number = inputs[k]
        if number is not None:
            words[k] = spooled(number, LIMITS[kind])


def run(program: str, words: list[str], target: Optional[Target]) -> int:
    """The exit status of the program with these words; that of a signal is below 0."""
    to = [(os.POSIX_SPAWN_DUP2, target.number, 1)] if target else []
    # (a signal that comes while the program is started waits until it can be handed on)
    mask = signal.pthread_sigmask(signal.SIG_BLOCK, HANDED)
    # (python ignores these two, and the program would too)
    heard = [signal.SIGPIPE, signal.SIGXFSZ]
    try:
        child = os.posix_spawn(program, [program, *words], os.environ, file_actions=to, setsigdef=heard, setsigmask=mask)
    except OSError as fault:
        raise Refused(f"the program {program} can't be run: {fault.strerror}") from fault
    for it in HANDED:
        if signal.getsignal(it) != signal.SIG_IGN:
            signal.signal(it, lambda number, _: os.kill(child, number))
    signal.pthread_sigmask(signal.SIG_SETMASK, mask)
    _, status = os.waitpid(child, 0)
    return -os.WTERMSIG(status) if os.WIFSIGNALED(status) else os.WEXITSTATUS(status)


def end_by(number: int) -> int:
    """Ends as the program did, by a signal."""
    if number in (*HANDED, signal.SIGPIPE):
        signal.signal(number, signal.SIG_DFL)
        os.kill(os.getpid(), number)
    tell(f"the program was ended by signal {number}")
    return 128 + number


def judge(words: list[str]) -> None:
    """Refuses words that have no form of the program's."""
    # (bytes of a word that are no UTF-8 are such characters)
    is_text = not any("\udc80" <= it <= "\udcff" for word in words for it in word)
    if form_of(words) is None or not is_text:
        from faults import Run, usage

        raise Refused(usage(Run("", words, words)), USAGE)


def main(program: str, words: list[str]) -> int:
    """Judges the words, runs the program if one is named, and gives the exit."""
    target = None
    try:
        name = take_words(words)
        judge(words)
        if not program:
            return 0
        target = None if name is None else Target(name)
        written = [*words]
        take_input(words)
        status = run(program, words, target)
        if status > 0:
            from faults import told

            why = told(program, words, written, status, target)
            if why:
                tell(why)
        elif not status and target:
            target.take()
    except Refused as why:
        tell(f"pmu: {why}" if why.status == NOT_RUN else str(why))
        status = why.status
    finally:
        if target:
            target.drop()
    return status if status >= 0 else end_by(-status)


if __name__ == "__main__":
    sys.exit(main(sys.argv[1], sys.argv[2:]))
