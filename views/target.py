"""The options of the output, `-o FILE` and its kin, and the file: it takes what was written only if the work is done."""

import os
import stat
from typing import Optional

from forms import NOT_RUN, UNWRITABLE


class Refused(Exception):
    """Why nothing is run or put into the file, and the exit for it."""

    def __init__(self, sentence: str, status: int = NOT_RUN) -> None:
        """A refusal in one line, with the exit of it."""
        super().__init__(sentence)
        self.status = status


class Target:
    """The file of `-o`: written beside its name, and moved there at the end."""

    def __init__(self, name: str) -> None:
        """Opens what is written to, beside the file of this name; or refuses it."""
        # (a link stays, and what it names is replaced)
        self.name, self.path = name, os.path.realpath(name)
        self.beside: Optional[str] = None
        if name == "-":
            raise Refused("standard output is written without -o (a file of that name is ./-)")
        if not name:
            raise Refused("-o is followed by an empty name")
        try:
            mode = os.stat(name).st_mode if os.path.exists(name) else stat.S_IFREG | 0o666 & ~umask()
            if stat.S_ISDIR(mode):
                raise Refused(f"{name} is a folder, and no file can be written there", UNWRITABLE)
            if name.endswith("/"):
                raise Refused(f"{name} ends with / and is no folder", UNWRITABLE)
            if stat.S_ISREG(mode):
                import tempfile  # (which takes a moment)

                # (the name beside it isn't longer than any that a folder takes)
                self.number, self.beside = tempfile.mkstemp(prefix=".pmu.", dir=os.path.dirname(self.path))
                os.fchmod(self.number, stat.S_IMODE(mode))
            else:
                # (a device or a pipe can't be replaced: what was written is copied to it)
                self.path, self.number = name, os.memfd_create("output")
        except OSError as fault:
            self.drop()
            raise self.unwritable(fault) from fault

    def put(self, data: bytes) -> None:
        """Puts these bytes where they belong."""
        try:
            with open(self.number, "wb", closefd=False) as file:
                file.write(data)
        except OSError as fault:
            raise self.unwritable(fault) from fault
        self.take()

    def take(self) -> None:
        """Puts what was written where it belongs."""
        try:
            if self.beside:
                os.fsync(self.number)
                os.rename(self.beside, self.path)
                self.beside = None
            else:
                with open(self.path, "wb") as file, open(self.number, "rb", closefd=False) as written:
                    written.seek(0)
                    file.write(written.read())
        except OSError as fault:
            raise self.unwritable(fault) from fault

    def drop(self) -> None:
        """Removes what was written, if it isn't where it belongs."""
        if self.beside and os.path.lexists(self.beside):
            os.unlink(self.beside)

    def unwritable(self, fault: OSError) -> Refused:
        """Why the file can't be written, by the fault of a call."""
        return Refused(f"{self.name} can't be written: {fault.strerror}", UNWRITABLE)


def umask() -> int:
    """The permissions that a new file hasn't. They can be asked for by setting them alone."""
    mask = os.umask(0)
    os.umask(mask)
    return mask


def take_words(words: list[str]) -> Optional[str]:
    """Takes the options of the output out of the words: `-o FILE`, `-oFILE`, `--output FILE`, `--output=FILE`. Gives FILE,
    or None if there is none. Behind the first `--`, which goes too, no word is an option: one that begins with - is a file."""
    names: list[str] = []
    kept: list[str] = []
    rest = iter(words)
    for word in rest:
        if word == "--":
            kept += [f"./{it}" if it.startswith("-") and it != "-" else it for it in rest]
        elif word in ("-o", "--output"):
            name = next(rest, None)
            if name is None:
                raise Refused(f"{word} is the last word, and no file follows it")
            names.append(name)
        elif word.startswith("--output="):
            names.append(word.removeprefix("--output="))
        elif word.startswith("-o"):
            names.append(word.removeprefix("-o"))
        else:
            kept.append(word)
    if len(names) > 1:
        raise Refused("-o is given more than once (a file of that name is ./-o)")
    words[:] = kept
    return names[0] if names else None
