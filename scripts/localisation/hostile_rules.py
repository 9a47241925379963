"""Plural expressions of a height of 63, 64 and 65, by each operator.

A leaf has height 1; an operator, or a pair of parentheses, is 1 higher than its highest part. At
most 64 is read. Each expression is built with its text, its height and its value, part by part.
"""

from __future__ import annotations

from collections.abc import Callable, Iterator
from dataclasses import dataclass

MOST = 64
HEIGHTS = (MOST - 1, MOST, MOST + 1)
COUNT = 3
WORD = 1 << 64

# The levels of the grammar, from the loosest, and the operators of those between `? :` and `!`.
CHOICE, UNARY, ATOM = 0, 7, 8
LEVELS: dict[str, int] = {
    "||": 1, "&&": 2, "==": 3, "!=": 3, "<": 4, "<=": 4, ">": 4, ">=": 4,
    "+": 5, "-": 5, "*": 6, "/": 6, "%": 6,
}
# What an operator makes of two numbers; a division by zero has no value.
VALUES: dict[str, Callable[[int, int], int | None]] = {
    "==": lambda a, b: int(a == b),
    "!=": lambda a, b: int(a != b),
    "<": lambda a, b: int(a < b),
    "<=": lambda a, b: int(a <= b),
    ">": lambda a, b: int(a > b),
    ">=": lambda a, b: int(a >= b),
    "+": lambda a, b: (a + b) % WORD,
    "-": lambda a, b: (a - b) % WORD,
    "*": lambda a, b: a * b % WORD,
    "/": lambda a, b: a // b if b else None,
    "%": lambda a, b: a % b if b else None,
}


@dataclass(frozen=True)
class Part:
    """An expression: its level in the grammar, its height, and its value at COUNT if it has one."""

    text: str
    level: int
    height: int
    value: int | None


N = Part("n", ATOM, 1, COUNT)


def number(value: int) -> Part:
    return Part(str(value), ATOM, 1, value)


def inside(part: Part) -> Part:
    return Part(f"({part.text})", ATOM, part.height + 1, part.value)


def negated(part: Part) -> Part:
    assert part.level >= UNARY
    value = None if part.value is None else int(part.value == 0)
    return Part("!" + part.text, UNARY, part.height + 1, value)


def between(left: Part, operator: str, right: Part) -> Part:
    """Operators of one level associate to the left."""
    level = LEVELS[operator]
    assert left.level >= level and right.level > level
    text = left.text + operator + right.text
    height = max(left.height, right.height) + 1
    return Part(text, level, height, _value(left.value, operator, right.value))


def _value(left: int | None, operator: str, right: int | None) -> int | None:
    if left is None:
        return None
    if operator in ("||", "&&"):
        # The right side is looked at only where the left one leaves it open.
        fixed = bool(left) == (operator == "||")
        return int(bool(left)) if fixed else None if right is None else int(bool(right))
    return None if right is None else VALUES[operator](left, right)


def choice(condition: Part, first: Part, second: Part) -> Part:
    assert condition.level > CHOICE
    text = f"{condition.text}?{first.text}:{second.text}"
    height = max(condition.height, first.height, second.height) + 1
    chosen = None if condition.value is None else first.value if condition.value else second.value
    return Part(text, CHOICE, height, chosen)


def grown(part: Part, height: int, step: Callable[[Part], Part]) -> Part:
    """The part with the step taken until it has that height; `!` makes up for steps of two."""
    if (height - part.height) % (step(part).height - part.height):
        part = negated(part)
    while part.height < height:
        part = step(part)
    assert part.height == height
    return part


def tall(height: int) -> Part:
    return grown(N, height, negated)


def shapes_of(operator: str) -> dict[str, Callable[[int], Part]]:
    """The operator over itself, and once over a tall part, on either side."""
    two = number(2)
    return {
        "in itself on the left": lambda height: grown(
            N, height, lambda part: between(part, operator, two)
        ),
        "in itself on the right": lambda height: grown(
            N, height, lambda part: between(two, operator, inside(part))
        ),
        "with a tall left side": lambda height: between(tall(height - 1), operator, two),
        "with a tall right side": lambda height: between(two, operator, tall(height - 1)),
    }


def shapes_of_choice() -> dict[str, Callable[[int], Part]]:
    one, two = number(1), number(2)
    return {
        "in its own condition": lambda height: grown(
            N, height, lambda part: choice(inside(part), two, one)
        ),
        "in its own first part": lambda height: grown(
            N, height, lambda part: choice(N, part, one)
        ),
        "in its own last part": lambda height: grown(
            N, height, lambda part: choice(number(0), one, part)
        ),
        "with a tall condition": lambda height: choice(tall(height - 1), two, one),
        "with a tall first part": lambda height: choice(N, tall(height - 1), one),
        "with a tall last part": lambda height: choice(number(0), one, tall(height - 1)),
    }


def shapes() -> Iterator[tuple[str, dict[str, Callable[[int], Part]]]]:
    yield "parentheses and !", {
        "parentheses": lambda height: grown(N, height, inside),
        "!": tall,
        "both in turn": lambda height: grown(N, height, lambda part: inside(negated(part))),
    }
    yield "? :", shapes_of_choice()
    for operator in LEVELS:
        yield operator, shapes_of(operator)


def rows() -> Iterator[tuple[object, object]]:
    for name, made in shapes():
        heading = f"hostile expressions: heights of 63, 64 and 65 by {name}"
        yield heading, heading
        for shape in made.values():
            for height in HEIGHTS:
                part = shape(height)
                if height > MOST:
                    yield ["gettext::Ast::parse", part.text], {"refused": "PluralParsing"}
                else:
                    yield ["gettext::Resolver::resolve", part.text, COUNT], part.value
