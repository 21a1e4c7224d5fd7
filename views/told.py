"""What is said to people: one line on standard error."""

import os


def in_one_line(sentence: str) -> str:
    """A sentence with no byte in it that a terminal would act on: a name may have line feeds, escapes, and bytes that are no UTF-8."""
    return "".join(it if it.isprintable() else escaped(it) for it in sentence)


def escaped(character: str) -> str:
    """A character that isn't printed as it is."""
    if "\udc80" <= character <= "\udcff":
        return f"\\x{ord(character) - 0xDC00:02x}"
    return character.encode("unicode_escape").decode()


def tell(sentence: str) -> None:
    """Writes a line to standard error, if that is open."""
    try:
        os.write(2, (in_one_line(sentence) + "\n").encode())
    except OSError:
        pass
