"""The options of a view, which may come anywhere among its words."""

from typing import Mapping, Sequence

from program import BadUse


def taken(words: Sequence[str], known: Mapping[str, bool], usage: str) -> tuple[dict[str, str], list[str]]:
    """The options among the words, each with the word behind it if it takes one, and the other words. `known` says of each option
    whether it takes one."""
    given: dict[str, str] = {}
    others: list[str] = []
    ahead = list(words)
    while ahead:
        word = ahead.pop(0)
        if word not in known:
            others.append(word)
        elif word in given:
            raise BadUse(usage)
        elif not known[word]:
            given[word] = word
        elif ahead:
            given[word] = ahead.pop(0)
        else:
            raise BadUse(f"{word} is the last word, and no file follows it")
    return given, others


def form_of(given: Mapping[str, str], usage: str) -> str:
    """Which form a robot wants: --json, --sarif, or none of them; both is a fault."""
    found = [form for form in ("--json", "--sarif") if form in given]
    if len(found) > 1:
        raise BadUse(usage)
    return "".join(found)
