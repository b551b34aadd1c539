"""What is found in a source: statements, declarations, and parts with statements in them.

Each is equal to itself alone, so that lists of thousands are searched at once.
"""
from __future__ import annotations

from dataclasses import dataclass, field

from .tokens import Token, squeeze


@dataclass(eq=False)
class Statement:
    """`left sign right`: an assignment, a row of a table, a reset or a state of a diagram.

    It is `under` a condition or not; `where` is equations, state or with. Of a state, `right` are
    the first tokens of its transitions.
    """
    first: Token
    left: list[Token]
    sign: Token
    right: list[Token]
    last: Token
    under: bool = False
    where: str = ''

    @property
    def enables(self) -> bool:
        return self.first is not self.left[0]

    @property
    def extension(self) -> str:
        return self.left[-1].word if self.left[-1].kind == 'ext' else ''

    @property
    def bare(self) -> list[Token]:
        """That without !, too."""
        return [x for x in self.named if x.text != '!']

    @property
    def label(self) -> str:
        return squeeze([*self.left, self.sign, *self.right])

    @property
    def named(self) -> list[Token]:
        """The target without its extension."""
        return self.left[:-1] if self.extension else self.left


@dataclass(eq=False)
class Part:
    """A section or a declaration; `owner` is `IN device`, if it is that of one of several.

    `left sign right` is the header of a table, which is `double` if it has :> and -> both; `left`
    are the registers of a diagram, and its `rows` are resets.
    """
    kind: str
    first: Token
    last: Token
    owner: list[Token] = field(default_factory=list)
    left: list[Token] = field(default_factory=list)
    right: list[Token] = field(default_factory=list)
    sign: str = ''
    double: bool = False
    rows: list[Statement] = field(default_factory=list)
    states: list[Statement] = field(default_factory=list)


@dataclass(eq=False)
class Declaration(Part):
    """The keyword, of its kind, is `tokens[at]`; `names` stand before it."""
    tokens: list[Token] = field(default_factory=list)
    at: int = 0
    names: list[str] = field(default_factory=list)
    digits: list[Token] = field(default_factory=list)
    numbers: list[int | None] = field(default_factory=list)
    tail: list[Token] = field(default_factory=list)
    values: list[list[Token]] = field(default_factory=list)


@dataclass(eq=False)
class Signal:
    """`words` are its attributes; `plcc` its pin of the 28-pin package, if it had one."""
    pin: int | None
    node: bool
    words: set[str]
    declaration: Declaration
    token: Token
    low: bool = False
    plcc: int | None = None


@dataclass(eq=False)
class Macro:
    """Its body is the flat list of what is between its braces, `opened` and `last`."""
    name: Token
    parameters: list[str]
    opened: Token
    last: Token
    body: list[Token] = field(default_factory=list)
    calls: list[Token] = field(default_factory=list)
