"""The value of a C expression of whole numbers, as a word of 32 bits without a sign.

A value is read if it is the same on each processor of the chip and with each compiler: 32 bits have `int` and
`unsigned`, 32 or 64 all that is `long`. Where the sign or the width of a type would decide, the expression is refused.
"""

import enum
import operator
import re
from typing import Callable, Iterable, NamedTuple, Optional

MOST = 0xFFFFFFFF

# How many brackets may be open at once, and the most tokens of an expression, names that stand for nothing with them.
DEPTH, LONGEST = 50, 1000


class Kind(enum.IntEnum):
    """The types of values, by the usual conversions: of two operands the result has the later one."""

    INT = 0
    UNSIGNED = 1
    WIDE = 2  # `long`, or with no sign if `long` has 32 bits
    WIDE_UNSIGNED = 3


# The greatest value that is the same in each type of a kind.
LIMITS = {Kind.INT: MOST >> 1, Kind.UNSIGNED: MOST, Kind.WIDE: MOST >> 1, Kind.WIDE_UNSIGNED: MOST}


class Value(NamedTuple):
    """A value, as far as it is the same for each compiler."""

    bits: int  # the low 32 bits
    kind: Kind
    is_sure: bool = True  # whether the bits are the whole value, so that it has no sign and no higher bits


class Token(NamedTuple):
    """A word or a mark of a C file."""

    kind: str  # name, number, string, mark, or other
    text: str
    line: int
    begin: int  # its place in the text
    end: int


class Unread(Exception):
    """Something that isn't read as a number; the line is 0 at the end of the expression."""

    def __init__(self, message: str, line: int = 0) -> None:
        """What is said of it, with its line."""
        super().__init__(message)
        self.line = line


# The operators between two values, those that bind least first.
_LEVELS = [
    {"||": lambda a, b: a or b},
    {"&&": lambda a, b: a and b},
    {"|": operator.or_},
    {"^": operator.xor},
    {"&": operator.and_},
    {"==": operator.eq, "!=": operator.ne},
    {"<": operator.lt, ">": operator.gt, "<=": operator.le, ">=": operator.ge},
    {"<<": operator.lshift, ">>": operator.rshift},
    {"+": operator.add, "-": operator.sub},
    {"*": operator.mul, "/": operator.floordiv, "%": operator.mod},
]

_NUMBER = re.compile(r"(0[xX][0-9a-fA-F]+|0[0-7]*|[1-9][0-9]*)(?:([uU])?([lL]|ll|LL)?|([lL]|ll|LL)([uU]))")


def number(text: str) -> Optional[Value]:
    """The value of a number as C has it, decimal, hexadecimal or octal, or None. It may have too many bits."""
    found = _NUMBER.fullmatch(text)
    # (Python reads no more than 4,300 decimal digits)
    if not found or len(text) > 100:
        return None
    digits, is_unsigned = found.group(1), bool(found.group(2) or found.group(5))
    is_wide = bool(found.group(3) or found.group(4))
    base = 10 if digits[0] != "0" else 16 if digits[:2] in ("0x", "0X") else 8
    value = int(digits, base)
    if value > LIMITS[Kind.INT] and not is_unsigned and not is_wide:
        # (only in hexadecimal and octal such a number may be `unsigned`)
        is_unsigned, is_wide = base != 10, base == 10
    return Value(value, Kind(is_unsigned + 2 * is_wide))


def truth(value: Value, token: Token) -> bool:
    """Whether a value isn't 0."""
    if value.bits == 0:
        all_sure(token, value)
    return value.bits != 0


def all_sure(token: Token, *values: Value) -> None:
    """Refuses an operator whose result would need more of a value than its low bits."""
    if not all(value.is_sure for value in values):
        raise Unread(f"what `{token.text}` gives here depends on the sign or the width of a type", token.line)


def bitwise(token: Token, left: Value, right: Value) -> Value:
    """`|`, `^`, `&`, which give low bits by low bits alone."""
    bits = _operator(token)(left.bits, right.bits)
    is_sure = left.is_sure and right.is_sure or token.text == "&" and (left.is_sure or right.is_sure)
    return Value(bits, max(left.kind, right.kind), is_sure)


def shifted(token: Token, left: Value, right: Value) -> Value:
    """`<<` and `>>`."""
    all_sure(token, left, right)
    if right.bits > 31:
        raise Unread("a shift by more than 31", token.line)
    return fitted(token, _operator(token)(left.bits, right.bits), left.kind, token.text == "<<")


def arithmetic(token: Token, left: Value, right: Value) -> Value:
    """`+`, `-`, `*`, `/` and `%`."""
    all_sure(token, left, right)
    if token.text in "/%" and right.bits == 0:
        raise Unread("a division by 0", token.line)
    return fitted(token, _operator(token)(left.bits, right.bits), max(left.kind, right.kind))


def fitted(token: Token, whole: int, kind: Kind, is_bit_31_kept: bool = False) -> Value:
    """The value of a result. `unsigned` has the rest by 2 to the 32nd; bit 31 of another kind may be its sign."""
    if kind == Kind.UNSIGNED:
        return Value(whole & MOST, kind)
    if not 0 <= whole <= MOST:
        raise Unread("the value doesn't fit 32 bits", token.line)
    value = Value(whole, kind, whole <= LIMITS[kind])
    if not is_bit_31_kept:
        all_sure(token, value)
    return value


def compared(token: Token, left: Value, right: Value) -> Value:
    """The comparisons, which give 1 or 0."""
    all_sure(token, left, right)
    return Value(int(_operator(token)(left.bits, right.bits)), Kind.INT)


def decided(token: Token, left: Value, right: Value) -> Value:
    """`&&` and `||`."""
    return Value(int(_operator(token)(truth(left, token), truth(right, token))), Kind.INT)


def complement(value: Value) -> Value:
    """`~`, which may give a sign to a value that had none."""
    return Value(MOST - value.bits, value.kind, value.is_sure and value.kind == Kind.UNSIGNED)


def _operator(token: Token) -> Callable[[int, int], int]:
    """What an operator does with two whole numbers."""
    return next(level[token.text] for level in _LEVELS if token.text in level)


# What does each level of operators.
_JUDGES = [decided, decided, bitwise, bitwise, bitwise, compared, compared, shifted, arithmetic, arithmetic]


class _Parser:
    """Reads an expression from the front."""

    def __init__(self, tokens: list[Token], value_of: Callable[[Token], Optional[int]], is_condition: bool) -> None:
        """A reader at the first of these tokens."""
        self.tokens, self.value_of, self.is_condition = tokens, value_of, is_condition
        self.place = self.depth = 0

    def next(self) -> Optional[Token]:
        """The token that comes next, or None at the end."""
        return self.tokens[self.place] if self.place < len(self.tokens) else None

    def take(self) -> Token:
        """Takes the next token, which has to be there."""
        token = self.next()
        if token is None:
            raise Unread("a value is missing")
        self.place += 1
        return token

    def binary(self, level: int = 0) -> Value:
        """Values with the operators of this level, or of one that binds more, between them."""
        if level == len(_LEVELS):
            return self.unary()
        found = self.binary(level + 1)
        while (token := self.next()) is not None and token.text in _LEVELS[level]:
            self.take()
            found = _JUDGES[level](token, found, self.binary(level + 1))
        return found

    def unary(self) -> Value:
        """A value with the operators before it."""
        token = self.take()
        if token.text == "(":
            return self.bracket(token)
        if token.text == "~":
            return complement(self.deeper(token, self.unary))
        if token.text == "!":
            return Value(int(not truth(self.deeper(token, self.unary), token)), Kind.INT)
        return self.single(token)

    def bracket(self, token: Token) -> Value:
        """An expression and the bracket behind it; the token is the one before."""
        found = self.deeper(token, self.binary)
        end = self.next()
        if end is None:
            raise Unread("a bracket isn't closed", token.line)
        if end.text != ")":
            raise unread(end)
        self.take()
        return found

    def deeper(self, token: Token, read: Callable[[], Value]) -> Value:
        """Reads what is within a bracket or behind an operator, unless too many are open."""
        self.depth += 1
        if self.depth > DEPTH:
            raise Unread(f"more than {DEPTH} brackets", token.line)
        found = read()
        self.depth -= 1
        return found

    def single(self, token: Token) -> Value:
        """A number or a name."""
        if token.kind == "name":
            known = self.value_of(token)
            if known is None:
                raise Unread(f"unknown name {token.text}", token.line)
            # (whether a name of a header has a sign is the header's)
            found = Value(known, Kind.INT if known <= LIMITS[Kind.INT] else Kind.UNSIGNED)
        else:
            read = number(token.text) if token.kind == "number" else None
            if read is None:
                raise unread(token)
            found = read
        if found.bits > MOST:
            raise Unread("the value doesn't fit 32 bits", token.line)
        # (a preprocessor has no type but the widest)
        is_unsigned = self.is_condition and found.kind in (Kind.UNSIGNED, Kind.WIDE_UNSIGNED)
        return found if not self.is_condition else found._replace(kind=Kind.WIDE_UNSIGNED if is_unsigned else Kind.WIDE)


def unread(token: Token) -> Unread:
    """The fault of a token that has no place here."""
    return Unread(f"`{token.text}` isn't read here", token.line)


def _whole(tokens: Iterable[Token], value_of: Callable[[Token], Optional[int]], is_condition: bool) -> Value:
    """The value of an expression behind which nothing is left."""
    parser = _Parser(list(tokens), value_of, is_condition)
    found = parser.binary()
    left = parser.next()
    if left is not None:
        raise unread(left)
    return found


def value(tokens: Iterable[Token], value_of: Callable[[Token], Optional[int]]) -> int:
    """The word that these tokens give. `value_of` gives the value of a name, or None if it is unknown."""
    return _whole(tokens, value_of, False).bits


def holds(mark: Token, tokens: Iterable[Token], value_of: Callable[[Token], Optional[int]]) -> bool:
    """Whether these tokens, the condition of a preprocessor's line, give another value than 0."""
    return truth(_whole(tokens, value_of, True), mark)
