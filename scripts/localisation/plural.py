"""Plural expressions: reading them, their value at a count, and when two rules are one.

Catalogs of one language write one rule in many ways. Merging them asks whether two expressions
have the same value at every count. That is decided, not sampled, where the count itself is only
compared with numbers or divided for a remainder; other rules are one only if their trees are.
"""

from __future__ import annotations

import math
import re
from dataclasses import dataclass

from localisation.faults import Fault

TOKEN = re.compile(r"[ \t-\r]*(?:([0-9]+)|(n)|(\|\||&&|[!=<>]=|[-+*/%<>!?:()]))")
LEVELS = (("||",), ("&&",), ("==", "!="), ("<", "<=", ">", ">="), ("+", "-"), ("*", "/", "%"))
COMPARISONS = (*LEVELS[2], *LEVELS[3])
WORD = 1 << 64
# Two rules whose remainders repeat after more counts than this aren't compared.
MOST_COUNTS = 100_000

N = ("n",)
Tree = tuple
# From which count on a value repeats, and after how many counts.
Way = tuple[int, int]


@dataclass(frozen=True)
class Rule:
    """The text of a rule, its tree, and the number of plurals, if the header has one."""

    text: str
    tree: Tree
    bound: int | None = None

    def form(self, count: int) -> int | None:
        """The number of the form for a count; none where it has no value or isn't a form's."""
        number = value(self.tree, count)
        if number is None or (self.bound is not None and number >= self.bound):
            return None
        return number


DEFAULT_TREE = ("?", ("==", N, ("number", 1)), ("number", 0), ("number", 1))
DEFAULT = Rule("the default rule", DEFAULT_TREE)


def rule_of(plural_forms: str) -> Rule | None:
    """The rule of a `Plural-Forms` field; none where it has no expression."""
    pieces = dict[str, str]()
    for piece in plural_forms.split(";"):
        name, equals, text = piece.partition("=")
        if equals:
            key = name.strip()
            pieces["nplurals" if key == "n_plurals" else key] = text.strip()
    if "plural" not in pieces:
        return None
    number = pieces.get("nplurals", "")
    bound = int(number) if re.fullmatch(r"\+?[0-9]+", number) and int(number) < WORD else None
    return Rule(plural_forms.strip(), parsed(pieces["plural"]), bound)


def parsed(text: str) -> Tree:
    """The tree of an expression in C's levels; parentheses leave no node."""
    tokens, place = list[str](), 0
    while rest := text[place:].strip(" \t\n\v\f\r"):
        token = TOKEN.match(text, place)
        if token is None:
            raise Fault(f"plural expression {text!r}: {rest[0]!r} isn't understood")
        tokens.append(next(group for group in token.groups() if group))
        place = token.end()
    reader = _Reader(text, tokens[::-1])
    tree = reader.condition()
    if reader.tokens:
        raise reader.fault()
    return tree


@dataclass
class _Reader:
    """Reads tokens from the back of a list."""

    text: str
    tokens: list[str]

    def fault(self) -> Fault:
        return Fault(f"plural expression {self.text!r}: no expression")

    def took(self, *wanted: str) -> str | None:
        return self.tokens.pop() if self.tokens and self.tokens[-1] in wanted else None

    def condition(self) -> Tree:
        test = self.level(0)
        if not self.took("?"):
            return test
        chosen = self.condition()
        if not self.took(":"):
            raise self.fault()
        return ("?", test, chosen, self.condition())

    def level(self, number: int) -> Tree:
        if number == len(LEVELS):
            return self.unary()
        tree = self.level(number + 1)
        while sign := self.took(*LEVELS[number]):
            tree = (sign, tree, self.level(number + 1))
        return tree

    def unary(self) -> Tree:
        if self.took("!"):
            return ("!", self.unary())
        if self.took("("):
            tree = self.condition()
            if not self.took(")"):
                raise self.fault()
            return tree
        if self.took("n"):
            return N
        if self.tokens and self.tokens[-1].isdigit():
            return ("number", int(self.tokens.pop()))
        raise self.fault()


def value(tree: Tree, n: int) -> int | None:
    """The value at a count, over unsigned numbers of 64 bits; none past a division by zero."""
    sign, *parts = tree
    if sign == "n":
        return n
    if sign == "number":
        return parts[0]
    first = value(parts[0], n)
    if first is None:
        return None
    if sign == "!":
        return int(not first)
    if sign == "?":
        return value(parts[1] if first else parts[2], n)
    if sign in ("&&", "||") and bool(first) == (sign == "||"):
        return int(bool(first))
    second = value(parts[1], n)
    return None if second is None else _joined(sign, first, second)


def _joined(sign: str, a: int, b: int) -> int | None:
    """The value of a binary operator whose parts are both needed."""
    if sign in ("/", "%"):
        return None if b == 0 else a // b if sign == "/" else a % b
    if sign in ("+", "-", "*"):
        return (a + b if sign == "+" else a - b if sign == "-" else a * b) % WORD
    if sign in ("&&", "||"):
        return int(bool(b))
    tests = {"==": a == b, "!=": a != b, "<": a < b, "<=": a <= b, ">": a > b, ">=": a >= b}
    return int(tests[sign])


def same(first: Rule, second: Rule) -> bool:
    """Whether two rules give the same form at every count."""
    if (first.tree, first.bound) == (second.tree, second.bound):
        return True
    way = _all([_repeats(first.tree), _repeats(second.tree)])
    if way is None or sum(way) > MOST_COUNTS:
        return False
    return all(first.form(n) == second.form(n) for n in range(sum(way) + 1))


def _repeats(tree: Tree) -> Way | None:
    """From which count on the value repeats, and after how many counts; none where unknown."""
    sign, *parts = tree
    if sign == "n":
        return None
    if sign == "number":
        return 0, 1
    if sign == "%" and parts[0] == N and parts[1][0] == "number" and parts[1][1]:
        return 0, parts[1][1]
    if sign in COMPARISONS and N in parts:
        other = parts[1 - parts.index(N)]
        return (other[1] + 1, 1) if other[0] == "number" else None
    # As a truth the count changes once, behind 0.
    truths = len(parts) if sign in ("!", "&&", "||") else 1 if sign == "?" else 0
    return _all([(1, 1) if p == N and i < truths else _repeats(p) for i, p in enumerate(parts)])


def _all(ways: list[Way | None]) -> Way | None:
    """How values repeat together."""
    known = [way for way in ways if way]
    if len(known) < len(ways):
        return None
    return max(bound for bound, _ in known), math.lcm(*(length for _, length in known))
