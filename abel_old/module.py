"""A module: its declarations, sections, statements and transitions."""
from __future__ import annotations

from typing import Iterator

from .names import Names
from .records import Declaration, Part, Statement
from .tables import FIRST, HEADERS, HINTS, KINDS, NO_STATEMENT, RESERVED, SECTIONS
from .tokens import SIGNS, Stop, Token


class Module:
    """Reads the list `flat` past whatever it doesn't know; `end` is what follows the list."""

    def __init__(self, source: Names, flat: list[Token], end: Token) -> None:
        self.source, self.flat, self.end, self.p = source, flat, end, 0
        self.assignments: list[Statement] = []
        self.declarations: list[Declaration] = []
        self.parts: list[Part] = []
        self.sections: list[Token] = []
        self.arguments: list[Token] = []
        self.options: list[list[Token]] = []     # those before TITLE

    def of(self, kind: str) -> list[Part]:
        return [part for part in self.parts if part.kind == kind]

    def ahead(self, k: int) -> Token:
        return self.flat[self.p + k] if 0 <= self.p + k < len(self.flat) else self.end

    @property
    def here(self) -> Token:
        return self.ahead(0)

    @property
    def at_section(self) -> bool:
        x = self.here
        return x.kind == 'eof' or x.kind == 'id' and x.word in SECTIONS and not (
            x.word in RESERVED and x.word in self.source.renamed)

    def turns(self, *words: str) -> Iterator[None]:
        """The turns of a loop up to one of the words, otherwise up to a section.

        Each turn passes at least one token.
        """
        while self.here.kind != 'eof':
            if self.here.word in words if words else self.at_section:
                return
            start = self.p
            yield
            self.p += self.p == start

    def until(self, *words: str) -> list[Token]:
        """Passes the tokens up to one of these words outside of brackets."""
        start, depth = self.p, 0
        while self.here.kind != 'eof' and (depth or self.here.word not in words):
            depth += (self.here.text in ('(', '[')) - (self.here.text in (')', ']'))
            self.p += 1
        return self.flat[start:self.p]

    def past(self, *words: str) -> list[Token]:
        """Passes the word too."""
        found = self.until(*words)
        self.p += 1
        return found

    def eat(self, *words: str) -> Token | None:
        if self.here.word not in words:
            return None
        self.p += 1
        return self.ahead(-1)

    def loose(self, what: str) -> None:
        """Takes a ; away that the grammar doesn't have."""
        while self.here.text == ';':
            self.here.out = ''
            self.source.say.change(self.here, '; after ' + what, 'nothing')
            self.p += 1

    def owner(self) -> list[Token]:
        if self.here.word != 'IN' or 'IN' in self.source.renamed:
            return []
        self.p += 2
        return [self.ahead(-2), self.ahead(-1)]

    def call(self) -> bool:
        """A call of a macro as a whole statement."""
        x, after = self.here, self.ahead(1)
        macro = self.source.macros.get(x.text) if x.kind == 'id' else None
        if not macro or after.text in SIGNS or after.text in (',', '.') or after.kind == 'ext':
            return False
        self.p += 1
        if macro.parameters and self.eat('('):
            self.past(')')
        self.eat(';')
        return True

    def statement(self, under: bool = False, where: str = 'equations') -> None:
        if self.call():
            return
        if self.here.text == ';':
            self.loose('a statement')
        elif self.eat('{'):
            for _ in self.turns('}'):
                self.statement(under, where)
            self.p += 1
            self.eat(';')
        elif self.eat('WHEN'):
            self.past('THEN', ';')
            self.statement(True, where)
            if self.eat('ELSE'):
                self.statement(True, where)
        elif self.here.word == 'LIBRARY' and self.ahead(1).kind == 'str':
            self.source.library(self.here)
            self.past(';')
        else:
            self.assignment(under, where)

    def assignment(self, under: bool, where: str) -> None:
        first, after = self.here, self.ahead(1)
        if first.word == 'ENABLE' and after.text not in SIGNS and after.kind != 'ext':
            self.p += 1
        start = self.p
        left = self.until(';', *SIGNS)
        if self.here.text not in SIGNS or not left:
            if not self.eat(';') and self.p == start:
                self.p += 1
            return
        sign = self.here
        self.p += 1
        right = self.until(';', *HEADERS)
        last = self.eat(';') or self.ahead(-1)
        if right:
            self.assignments.append(Statement(first, left, sign, right, last, under, where))

    def read(self) -> None:
        if self.here.word != 'MODULE':
            raise Stop(f'{self.here.line}: no MODULE')
        self.p += 2
        start = self.p
        if self.eat('('):
            self.past(')')
            self.arguments = self.flat[start:self.p]
        self.eat(';')
        head: list[list[Token]] = []
        while self.here.word in ('FLAG', 'OPTIONS', 'TITLE'):
            start = self.p
            self.p += 1
            while self.here.kind == 'str' or self.here.text == ',':
                self.p += 1
            self.eat(';')
            head.append(self.flat[start:self.p])
        titles = [k for k, tokens in enumerate(head) if tokens[0].word == 'TITLE']
        self.options = [head[k] for k in range(max(titles, default=0)) if k not in titles]
        self.declare()
        for _ in self.turns('END', 'MODULE'):
            if self.at_section:
                self.section()
            else:
                self.statement()
        self.end = self.here

    def declare(self) -> None:
        while self.here.kind != 'eof' and (not self.at_section or self.here.word in HINTS):
            first = self.here
            if first.text == ';':
                self.loose('a declaration')
            elif self.at_section:
                self.past(';')
                self.parts.append(Part(first.word, first, self.ahead(-1)))
            elif not self.call():
                tokens = self.until(';', *HEADERS)
                if not tokens:
                    return
                last = self.eat(';')
                if last:
                    self.declaration(Declaration('', first, last, tokens=tokens))

    def declaration(self, found: Declaration) -> None:
        depth = 0
        for i, x in enumerate(found.tokens):
            depth += (x.text in ('(', '[')) - (x.text in (')', ']'))
            if depth == 0 and x.kind in ('id', 'op') and x.word in (KINDS if i else FIRST):
                found.kind, found.at = x.word, i
                break
        self.declarations.append(found)
        self.source.declare(found)

    def section(self) -> None:
        first = self.here
        self.sections.append(first)
        self.p += 1
        part = Part(first.word, first, first)
        if first.word == 'DECLARATIONS':
            self.loose('DECLARATIONS')
            return self.declare()
        if first.word in ('TRUTH_TABLE', 'TEST_VECTORS'):
            self.table(part)
        elif first.word == 'STATE_DIAGRAM':
            self.diagram(part)
        elif first.word == 'EQUATIONS':
            part.owner = self.owner()
            self.loose('EQUATIONS')
            for _ in self.turns():
                self.statement()
        elif first.word == 'TRACE':
            self.until(';', *SECTIONS)
            self.eat(';')
        else:
            for _ in self.turns():
                self.p += 1
        part.last = self.ahead(-1)
        self.parts.append(part)

    def table(self, found: Part) -> None:
        self.p += self.here.kind == 'str'
        owner = self.owner()
        self.p += self.here.kind == 'str'
        if not self.eat('('):
            return
        found.owner = owner
        found.left, found.sign = self.past('->', ':>', ')'), self.ahead(-1).text
        found.right, found.double = self.until(')', '->'), self.here.text == '->'
        self.past(')')
        self.loose('the header')
        for _ in self.turns():
            first = self.here
            if first.text == ';':
                self.loose('a row')
            elif not self.call():
                left, sign = self.until('->', ':>', ';', *HEADERS), self.eat('->', ':>')
                right = self.until(';', *HEADERS) if sign else []
                last = self.eat(';') or self.ahead(-1)
                if sign:
                    found.rows.append(Statement(first, left, sign, right, last))

    def diagram(self, found: Part) -> None:
        found.owner = self.owner()
        found.left = self.until(';', 'STATE', 'ASYNC_RESET', 'SYNC_RESET', '->', *SECTIONS)
        if self.here.text == '->':
            self.source.say.cant(self.here, "STATE_DIAGRAM with '->': write the outputs as "
                                            'statements of the states')
            self.until(';', 'STATE', *SECTIONS)
        self.loose('the header')
        for _ in self.turns():
            first = self.here
            if self.eat('ASYNC_RESET', 'SYNC_RESET'):
                state, sign = self.until(':', ';'), self.eat(':') or self.here
                value = self.past(';')
                found.rows.append(Statement(first, state, sign, value, self.ahead(-1)))
            elif self.eat('STATE'):
                state, colon = self.until(':', ';'), self.eat(':') or self.ahead(-1)
                found.states.append(Statement(first, state, colon, [], colon))
                self.loose('STATE')
            elif first.word in ('IF', 'CASE', 'GOTO'):
                if found.states:
                    found.states[-1].right.append(first)
                self.arm(False)
                self.eat(';')
            else:
                self.statement(True, 'state')

    def arm(self, in_case: bool) -> None:
        """A transition, or what stands in its place in an IF or a CASE."""
        if self.eat('IF'):
            self.past('THEN', ';')
            self.arm(in_case)
            self.p += self.here.text == ';' and self.ahead(1).word == 'ELSE'
            if self.eat('ELSE'):
                self.arm(in_case)
        elif self.eat('CASE'):
            self.loose('CASE')
            for _ in self.turns('ENDCASE', 'STATE', 'END'):
                self.until(':', 'ENDCASE', 'STATE')
                if not self.eat(':'):
                    break
                self.arm(True)
                self.eat(';')
            self.eat('ENDCASE')
        else:
            self.eat('GOTO')
            self.until('WITH', ';', 'ELSE', 'ENDCASE', 'STATE', 'IF', 'CASE', 'GOTO', *SECTIONS)
            if self.eat('WITH'):
                self.with_(in_case)

    def with_(self, in_case: bool) -> None:
        """What follows a WITH; where ENDWITH is missing it is written behind one statement."""
        first, ends = self.here, self.here.text == '{' or self.has_end()
        for _ in self.turns('ENDWITH'):
            self.statement(True, 'with')
            if first.text == '{' or not ends:
                break
        if not ends:
            end = 'ENDWITH;' if in_case and self.here.word != 'ELSE' else 'ENDWITH'
            self.ahead(-1).after += ' ' + end
            self.source.say.change(first, 'WITH without ENDWITH', end + ' after its statement')
        self.eat('ENDWITH')

    def has_end(self) -> bool:
        """Whether an ENDWITH comes before anything that can't stand in a WITH."""
        whens = 0
        for k in range(self.p, len(self.flat)):
            x = self.flat[k]
            if x.word == 'ELSE' and whens:
                whens -= 1
            elif x.word == 'WHEN':
                whens += 1
            elif x.word == 'ENDWITH' or x.word in NO_STATEMENT:
                return x.word == 'ENDWITH'
        return False
