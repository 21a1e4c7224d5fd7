"""The tokens of a C file, after as much of the preprocessor as a generated object needs.

Comments of both kinds, lines that go on after a backslash, `#define` and `#undef` of names without arguments, and the
conditionals. `#include` and `#pragma` are passed over, so no other file is read. Of the compiler's own names it is
known of a few whether GCC defines them for C; a condition that asks for another one is refused, and so is one that
asks for a name which an included file may define.
"""

import re
from typing import Callable, Iterator, Optional

import c_expression
import program
from c_expression import Token


class Refused(program.BadUse):
    """A form that isn't read, with its file and line."""

    def __init__(self, file: str, line: int, message: str) -> None:
        """What is said of a form, with its file and line."""
        super().__init__(f"{file}:{line}: {message}")


# Names of compilers: those that GCC defines, each with another value, and those that it never defines for C.
DEFINED = ("__GNUC__",)
UNDEFINED = ("__ICCARM__", "__CC_ARM", "__ARMCC_VERSION", "__cplusplus")

# What a compiler may define or read as a word of its own.
OF_COMPILER = re.compile(r"__\w*|_[A-Z]\w*|unix|linux|i386|true|false|defined")

_FORMS = re.compile(
    r"""(?P<space> [ \t\r\f\v]+ | \\\r?\n )
      | (?P<newline> \n )
      | (?P<comment> //(?: \\\r?\n | [^\n] )* | /\* .*? \*/ )
      | (?P<open> /\* )
      | (?P<name> [A-Za-z_]\w* )
      | (?P<number> \d\w* )
      | (?P<string> "(?: [^"\\\n] | \\. )*" | '(?: [^'\\\n] | \\. )*' )
      | (?P<mark> << | >> | && | \|\| | [=!<>]= | [-+*/%&|^~!<>=()\[\]{},;\#] )
      | (?P<other> . )""",
    re.VERBOSE | re.DOTALL | re.ASCII,
)


def _lines(file: str, text: str) -> Iterator[list[Token]]:
    """The tokens, line by line. A line that goes on after a backslash, or within a comment, is one line."""
    number = 1
    tokens: list[Token] = []
    for found in _FORMS.finditer(text):
        kind = found.lastgroup or ""
        if kind == "open":
            raise Refused(file, number, "a comment begins and doesn't end")
        if kind == "newline":
            yield tokens
            tokens = []
        elif kind not in ("space", "comment"):
            tokens.append(Token(kind, found.group(), number, found.start(), found.end()))
        number += found.group().count("\n")
    yield tokens


class Source:
    """A C file: its tokens but for the directives, and the names that it defines."""

    def __init__(self, file: str, text: str) -> None:
        """Reads the text of a file of this name, to its end."""
        self.file = file
        self.defines: dict[str, Optional[list[Token]]] = {}
        self.tokens: list[Token] = []
        self._undefined: set[str] = set()
        self._includes = False
        # of each conditional: whether its lines count, whether a branch was taken, and its line
        self._branches: list[tuple[bool, bool, int]] = []
        for tokens in _lines(file, text):
            if tokens and tokens[0].text == "#":
                self._directive(tokens[0], tokens[1:])
            elif self._counts():
                self.tokens += tokens
        if self._branches:
            raise Refused(file, self._branches[-1][2], "a conditional begins and doesn't end")

    def _counts(self) -> bool:
        """Whether a line here counts: each conditional around it holds."""
        return all(counts for counts, _, _ in self._branches)

    def _directive(self, mark: Token, tokens: list[Token]) -> None:
        """A line of the preprocessor, by the tokens behind its mark."""
        word = tokens[0].text if tokens else ""
        rest = tokens[1:]
        if word in ("if", "ifdef", "ifndef"):
            counts = self._counts() and self._condition(word, mark, rest)
            self._branches.append((counts, counts, mark.line))
        elif word in ("elif", "else", "endif"):
            self._go_on(word, mark, rest)
        elif self._counts():
            self._define(word, mark, rest)

    def _go_on(self, word: str, mark: Token, rest: list[Token]) -> None:
        """A further branch of a conditional, or its end."""
        if not self._branches:
            raise Refused(self.file, mark.line, f"#{word} without #if")
        _, taken, line = self._branches.pop()
        if word == "endif":
            return
        counts = not taken and self._counts() and (word == "else" or self._condition("if", mark, rest))
        self._branches.append((counts, taken or counts, line))

    def _condition(self, word: str, mark: Token, rest: list[Token]) -> bool:
        """Whether the condition of a branch holds."""
        if word != "if":
            return self._is_defined(self._name(word, mark, rest)) == (word == "ifdef")
        try:
            return c_expression.holds(mark._replace(text="#if"), self.expanded(self._without_defined(rest)), self._of_condition)
        except c_expression.Unread as fault:
            raise Refused(self.file, fault.line or mark.line, str(fault)) from None

    def _is_defined(self, name: Token) -> bool:
        """Whether a name is defined here, for each compiler alike."""
        if name.text in self.defines:
            return True
        if name.text in self._undefined or name.text in UNDEFINED:
            return False
        if name.text in DEFINED:
            return True
        self._refuse_unsure(name)
        return False

    def _of_condition(self, name: Token) -> int:
        """The value of a name that the file doesn't define, in a condition: 0, if no other defines it."""
        if name.text not in self._undefined and name.text not in UNDEFINED:
            self._refuse_unsure(name)
        return 0

    def _refuse_unsure(self, name: Token) -> None:
        """Refuses a name that the compiler or an included file may define."""
        if OF_COMPILER.fullmatch(name.text):
            raise Refused(self.file, name.line, f"the condition depends on the compiler, by {name.text}")
        if self._includes:
            raise Refused(self.file, name.line, f"the condition asks for {name.text}, which an included file may define")

    def _without_defined(self, tokens: list[Token]) -> list[Token]:
        """A condition in which each `defined NAME` is 1 or 0."""
        made, place = [], 0
        while place < len(tokens):
            token = tokens[place]
            place += 1
            if token.text == "defined":
                in_brackets = tokens[place : place + 1] != [] and tokens[place].text == "("
                name = self._name("if", token, tokens[place + in_brackets :])
                place += 1 + in_brackets
                if in_brackets and (place == len(tokens) or tokens[place].text != ")"):
                    raise Refused(self.file, token.line, "a bracket isn't closed")
                place += in_brackets
                token = token._replace(kind="number", text=str(int(self._is_defined(name))))
            made.append(token)
        return made

    def _define(self, word: str, mark: Token, rest: list[Token]) -> None:
        """A directive that is no conditional."""
        if word in ("define", "undef"):
            name = self._name(word, mark, rest)
            self.defines.pop(name.text, None)
            self._undefined.add(name.text)
        if word == "define":
            # (a bracket right after the name begins the arguments of a macro)
            has_arguments = len(rest) > 1 and rest[1].text == "(" and rest[1].begin == name.end
            self.defines[name.text] = None if has_arguments else rest[1:]
        elif word == "include":
            self._includes = True
        elif word not in ("undef", "pragma", ""):
            raise Refused(self.file, mark.line, f"the directive #{word} isn't read here")

    def _name(self, word: str, mark: Token, tokens: list[Token]) -> Token:
        """The name behind a directive."""
        if not tokens or tokens[0].kind != "name":
            raise Refused(self.file, mark.line, f"#{word} names nothing")
        return tokens[0]

    def expanded(self, tokens: list[Token]) -> Iterator[Token]:
        """The tokens with what the file defines put in place of its names."""
        ahead: list[tuple[Token, tuple[str, ...]]] = [(token, ()) for token in reversed(tokens)]
        taken = 0
        while ahead:
            token, within = ahead.pop()
            taken += 1
            if taken > c_expression.LONGEST:
                raise self._too_long(token)
            if token.kind != "name" or token.text not in self.defines:
                yield token
                continue
            body = self.defines[token.text]
            if body is None:
                raise Refused(self.file, token.line, f"{token.text} is a macro with arguments, which isn't read here")
            if len(ahead) + len(body) > c_expression.LONGEST:
                raise self._too_long(token)
            if token.text in within or len(within) == c_expression.DEPTH:
                raise Refused(self.file, token.line, f"{token.text} is defined by itself, or by too many others")
            ahead += [(part._replace(line=token.line), (*within, token.text)) for part in reversed(body)]

    def _too_long(self, token: Token) -> Refused:
        """The fault of an expression that grows without end."""
        return Refused(self.file, token.line, f"the expression has more than {c_expression.LONGEST} words")

    def value(self, tokens: list[Token], line: int, value_of: Callable[[str], Optional[int]]) -> int:
        """The value of an expression. `value_of` gives that of a name which the file doesn't define, or None."""
        try:
            return c_expression.value(self.expanded(tokens), lambda name: value_of(name.text))
        except c_expression.Unread as fault:
            raise Refused(self.file, fault.line or line, str(fault)) from None
