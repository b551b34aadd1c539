"""What is declared, and what names stand for."""
from __future__ import annotations

import re
from functools import cached_property
from typing import TYPE_CHECKING, Iterable

from .records import Declaration, Macro, Signal, Statement
from .tables import CONTROLS, DECLARING, INPUTS
from .text import Report, Text
from .tokens import Token, number, split

if TYPE_CHECKING:
    from .module import Module

DEEP = 20                     # constants through which a name is followed
WIDE = 1000                   # names or numbers of a range
RANGE = re.compile(r'(.*?)(\d{1,4})$')


def span(first: int, last: int) -> range:
    """All numbers from the first up or down to the last."""
    step = 1 if first <= last else -1
    return range(first, last + step, step)[:WIDE]


def expand(tokens: list[Token]) -> list[tuple[str, Token]] | None:
    """The names of a declaration or a set; None if there is something else."""
    found: list[tuple[str, Token]] = []
    for part in filter(None, split(x for x in tokens if x.text != '!')):
        x, first, last = part[0], RANGE.match(part[0].text), RANGE.match(part[-1].text)
        if x.kind == 'id' and len(part) == 1:
            found.append((x.text, x))
        elif x.kind == 'id' and part[1].text == '..' and len(part) == 3 and first and last:
            found += [(first[1] + str(n), x) for n in span(int(first[2]), int(last[2]))]
        else:
            return None
    return found


class Names(Text):
    """`assignments` are those of the module and of its macros."""
    module: Module
    macros: dict[str, Macro]

    def __init__(self, text: str, path: str, report: Report) -> None:
        super().__init__(text, path, report)
        self.signals: dict[str, Signal] = {}
        self.constants: dict[str, list[Token]] = {}
        self.specials: dict[str, str] = {}
        self.renamed: set[str] = set()
        self.held: set[str] = set()          # as their complements
        self.device = ''
        self.assignments: list[Statement] = []

    def members(self, tokens: list[Token], deep: int = 0) -> list[str] | None:
        """The signals of a target, in their order; None if it isn't just names."""
        tokens = [x for x in tokens if x.text not in ('!', '(', ')')]
        if tokens and tokens[0].text == '[' and tokens[-1].text == ']':
            tokens = [x for x in tokens if x.text not in ('[', ']')]
        names = expand(tokens)
        if names is None or deep > DEEP:
            return None
        found: list[str] = []
        for name, _ in names:
            if name in self.constants and name not in self.signals:
                more = self.members(self.constants[name], deep + 1)
                if more is None or len(found) > WIDE:
                    return None
                found += more
            else:
                found.append(name)
        return found

    def targets(self, assignment: Statement) -> list[str]:
        return self.members(assignment.named) or []

    def reads(self, tokens: list[Token], seen: frozenset[str] = frozenset()) -> set[str]:
        """The signals that are read, also through constants."""
        found: set[str] = set()
        for i, x in enumerate(tokens):
            if x.kind != 'id':
                continue
            wide = i + 2 < len(tokens) and tokens[i + 1].text == '..'
            for name, _ in (expand(tokens[i:i + 3]) or []) if wide else [(x.text, x)]:
                if name in self.signals:
                    found.add(name)
                elif name in self.constants and name not in seen and len(seen) < DEEP:
                    found |= self.reads(self.constants[name], seen | {name})
        return found

    def value(self, tokens: list[Token], deep: int = 0) -> int | None:
        """The value of a number, a constant or a set of these."""
        tokens = [x for x in tokens if x.text not in ('(', ')')]
        if len(tokens) == 1 and tokens[0].text in self.constants and deep < DEEP:
            return self.value(self.constants[tokens[0].text], deep + 1)
        if len(tokens) == 1:
            return number(tokens[0]) if tokens[0].kind == 'num' else None
        bits = [self.value([x], deep + 1) for x in tokens[1:-1] if x.text != ',']
        if not tokens or tokens[0].text != '[' or None in bits:
            return None
        return sum((bit or 0) << k for k, bit in enumerate(reversed(bits)))

    def declare(self, d: Declaration) -> None:
        places, d.tail = expand(d.tokens[:d.at]) or [], d.tokens[d.at:]
        d.names = [name for name, _ in places]
        if d.kind in ('PIN', 'NODE'):
            self.number_pins(d)
            for pin, (name, x) in zip(d.numbers + [None] * len(places), places):
                low = x.at > 0 and self.t[x.at - 1].text == '!'
                self.signals.setdefault(name, Signal(pin, d.kind == 'NODE', set(), d, x, low))
        elif d.kind == 'STATE_REGISTER':
            self.signals.update((n, Signal(None, True, {'reg'}, d, x)) for n, x in places)
        elif d.kind == '=':
            d.values = [value for value in split(d.tail[1:]) if value]
            for name, value in zip(d.names, d.values):
                self.constants[name] = value
                if len(value) == 1 and value[0].kind == 'spec':
                    self.specials[name] = value[0].word
                elif len(value) == 1 and value[0].text in self.specials:
                    self.specials[name] = self.specials[value[0].text]
        for signal in [self.signals[n] for n in d.names if n in self.signals]:
            if d.kind in DECLARING:
                signal.words |= {w for x in d.tail if x.kind == 'str'
                                 for w in re.findall(r'\w+', x.text.lower())}

    def number_pins(self, d: Declaration) -> None:
        rest = d.tail[1:]
        if len(rest) > 1 and rest[0].word == 'IN' and 'IN' not in self.renamed:
            d.owner, rest = rest[:2], rest[2:]
        end = next((k for k, x in enumerate(rest) if x.kind not in ('num', 'dir')
                    and x.text not in (',', '..')), len(rest))
        d.digits, d.tail = rest[:end], rest[end:]
        for part in filter(None, split(d.digits)):
            first, last = (number(x) if x.kind == 'num' else None for x in (part[0], part[-1]))
            d.numbers += [first] if first is None or last is None else [*span(first, last)]

    def before(self, extension: Token) -> list[Token]:
        """What an extension stands behind: a name or a set."""
        first = last = max(0, extension.at - 1)
        while self.t[last].text == ']' and first and self.t[first].text != '[':
            first -= 1
        return self.t[first:extension.at]

    def on(self, pin: int) -> str | None:
        return next((n for n, s in self.signals.items() if s.pin == pin and not s.node), None)

    def inverts(self, names: Iterable[str]) -> set[bool]:
        return {'invert' in self.signals[n].words for n in names if n in self.signals}

    def extended(self, *extensions: str) -> list[Statement]:
        return [a for a in self.assignments if a.extension in extensions]

    @cached_property
    def enabled(self) -> set[str]:
        return {n for a in self.assignments if a.enables or a.extension == '.OE'
                for n in self.targets(a)}

    @cached_property
    def data(self) -> list[Statement]:
        return [a for a in self.assignments if not a.enables and a.extension not in CONTROLS]

    @cached_property
    def registers(self) -> set[str]:
        found = {n for n, s in self.signals.items()
                 if any(w.startswith('reg') or w == 'latch' for w in s.words)}
        for a in self.data:
            if a.sign.text in (':=', '?:=') or a.extension in INPUTS | {'.D'}:
                found |= set(self.targets(a))
            found |= {x.text for x, y in zip(a.left, a.left[1:]) if y.word in INPUTS}
        for table in self.module.of('TRUTH_TABLE'):
            found |= set(self.members(table.right) or [] if table.sign == ':>' else [])
        for diagram in self.module.of('STATE_DIAGRAM'):
            found |= set(self.members(diagram.left) or [])
        return {n for n in found if n not in self.signals or 'com' not in self.signals[n].words}

    @cached_property
    def combinational(self) -> set[str]:
        """The names that are assigned, and no registers."""
        found = {n for a in self.data for n in self.targets(a)}
        found |= {n for t in self.module.of('TRUTH_TABLE') for n in self.members(t.right) or []}
        return found - self.registers

    def uses(self, name: str) -> list[Token]:
        """Tokens that name it outside of declarations of pins, nodes and attributes."""
        declared = {x.at for d in self.module.declarations if d.kind in ('PIN', 'NODE', 'ISTYPE')
                    for x in d.tokens}
        return [x for x in self.t if x.text == name and x.kind == 'id' and x.out
                and x.at not in declared]

    def equation(self, text: str, after: Token) -> None:
        """Adds an equation to the first section of equations behind this token."""
        sections = [x for x in self.module.sections if x.at > after.at and x.out]
        for x in sections:
            if x.word == 'EQUATIONS':
                x.after += ' ' + text
                return
        x = (sections + [self.module.end])[0]
        x.before = f'equations {text} {x.before}'

    def statement(self, a: Statement) -> list[Token]:
        return self.between(a.first, a.last)
