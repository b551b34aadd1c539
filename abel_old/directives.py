"""Directives and macros, and the flat list of what is left."""
from __future__ import annotations

import re

from .records import Macro
from .tables import BLOCKS, COMPARISONS, DIRECTIVES, STAY
from .text import Text
from .tokens import Stop, Token, number, raw, squeeze, written


def definition(text: Text, name: Token) -> Macro:
    """The macro of this name, whose definition begins here; its body isn't filled."""
    at, parameters = name.at + 2, []
    if text.look(at).text == '(':
        end = text.close(at)
        parameters = [x.text for x in text.t[at:end] if x.kind == 'id']
        at = end + 1
    if text.look(at).text != '{':
        raise Stop(f'{name.line}: macro {name.text} has no block')
    return Macro(name, parameters, text.t[at], text.t[text.close(at)])


class Walk:
    """Puts into `flat` what isn't a directive or a macro's definition."""

    def __init__(self, text: Text) -> None:
        self.text, self.say, self.t = text, text.say, text.t
        self.macros: dict[str, Macro] = {}
        self.all: list[Macro] = []
        self.constants: set[str] = set()
        self.switches: list[Token] = []
        self.alternate, self.radix, self.depth = False, 10, 0

    def run(self, i: int, stop: Token, flat: list[Token]) -> None:
        """From i up to the token `stop`, which an include moves on."""
        while i < stop.at:
            x = self.t[i]
            x.alternate, x.radix = self.alternate, self.radix
            if x.kind == 'dir':
                i = max(i + 1, self.directive(x, flat))
            elif x.kind == 'id' and self.text.next(x).word == 'MACRO':
                i = self.macro(x)
            else:
                if x.text in self.macros and x.kind == 'id':
                    self.macros[x.text].calls.append(x)
                flat.append(x)
                i += 1

    def macro(self, name: Token) -> int:
        found = definition(self.text, name)
        self.block(found.opened.at, found.body)
        self.macros[name.text] = found
        self.all.append(found)
        return self.text.ending(found.last).at + 1

    def block(self, at: int, flat: list[Token]) -> int:
        """What is between the braces of which the first is here; the index of what is next."""
        last = self.t[self.text.close(at)]
        self.depth += 1
        self.run(at + 1, last, flat)
        self.depth -= 1
        return last.at + 1

    def to(self, i: int, text: str) -> int:
        while self.t[i].kind != 'eof' and self.t[i].text != text:
            i += 1
        return i

    def directive(self, first: Token, flat: list[Token]) -> int:
        """Does what the directive says; the index of what is next."""
        word, after = first.word, self.text.next(first)
        if word in DIRECTIVES:
            return self.without_effect(first)
        if word in ('@INCLUDE', '@LIBRARY'):
            return self.text.include(first)
        if word in COMPARISONS:
            return self.compare(first, flat)
        if word in BLOCKS:
            return self.with_block(first, flat)
        if word == '@EXPR':
            flat.append(first)
            at = self.text.close(after.at) + 1 if after.text == '{' else after.at
            return self.arithmetic(at, ';') + 1
        if word == '@RADIX':
            after.radix = self.radix
            self.radix = number(after) or self.radix
            return self.to(first.at, ';') + 1
        if word == '@CONST':
            self.constants.add(after.text)
            return self.arithmetic(first.at, ';') + 1
        if word in STAY:
            return self.text.ending(first).at + 1
        if word == '@EXIT' and self.depth:
            self.say.note(first, '@EXIT stays: where ABEL would stop with an error, abel refuses '
                                 'the word')
        elif word == '@EXIT':
            self.say.cant(first, '@EXIT: ABEL stops here with an error; take it out')
        else:
            self.say.cant(first, f'{first.text} is no directive that I know')
        return first.at + 1

    def without_effect(self, first: Token) -> int:
        more, why, note = DIRECTIVES[first.word]
        last = self.t[self.to(first.at, ';')] if more is None else \
            self.text.ending(self.text.look(first.at + more))
        if first.word in ('@ALTERNATE', '@STANDARD'):
            self.alternate = first.word == '@ALTERNATE'
            self.switches.append(first)
        if note:
            self.say.note(first, note)
        self.text.drop(first, last, why)
        return last.at + 1

    def arithmetic(self, i: int, text: str) -> int:
        """Passes an expression of a directive up to this text."""
        end = self.to(i, text)
        found = [x for x in self.t[i:end] if x.text in ('*', '/', '+')]
        if self.alternate and found:
            self.say.note(found[0], f'after @ALTERNATE, {found[0].text} in a directive is left as '
                                    'arithmetic: check')
        return end

    def with_block(self, first: Token, flat: list[Token]) -> int:
        """A directive that abel has too; @IRPC as @IRP with the characters one by one."""
        name, known = self.text.next(first).text, {*self.constants, *self.macros}
        opened = (self.arithmetic if first.word in ('@IF', '@REPEAT') else self.to)(first.at, '{')
        if first.word in ('@IFDEF', '@IFNDEF') and name not in known \
                and any(x.text == name for x in flat):
            self.say.note(first, f'{first.text} {name}: only macros and names of @CONST count '
                                 'here; the name is declared')
        if first.word == '@IRPC':
            opened = self.characters(first) + 1
        return self.block(opened, flat)

    def compare(self, first: Token, flat: list[Token]) -> int:
        """Compares texts: leaves the block, or nothing."""
        at, blank = first.at + 1, first.word in ('@IFB', '@IFNB')
        if self.text.look(at).text != '(':
            self.say.cant(first, f'{first.text} without ( )')
            return at
        closed = self.text.close(at)
        opened, last = self.t[closed + 1], self.t[self.text.close(closed + 1)]
        text = raw(self.t[at + 1:closed])
        parts = [x.strip() for x in text.split(',')]
        yes = parts == [''] if blank else len(parts) == 2 and parts[0] == parts[1]
        if '?' in text:
            self.say.cant(first, f'{first.text} asks for an argument of a macro: write what it '
                                 'would give (REFUSALS.md, Unsupported)')
            return self.block(opened.at, flat)
        if yes == (first.word in ('@IFNB', '@IFNIDEN')):
            self.text.drop(first, last, 'never true')
            return last.at + 1
        self.say.change(first, squeeze(self.text.between(first, opened)) + ' .. }',
                        'its block: always true')
        self.text.comment(first, opened)
        self.text.comment(last, last)
        self.run(opened.at + 1, last, flat)
        return last.at + 1

    def characters(self, first: Token) -> int:
        """Puts commas between the characters of an @IRPC; the index of their )."""
        at = self.to(first.at, '(')
        closed = self.text.close(at)
        tokens = self.t[at + 1:closed]
        text, shown = raw(tokens), self.t[first.at:closed + 1]
        if at != first.at + 2 or not text or re.search(r"[\s,()\[\]'\"{}?]", text):
            self.say.cant(first, "@IRPC over characters that @IRP can't take one by one")
        else:
            self.text.blank(tokens)
            first.out, tokens[0].out = first.text[:-1], ','.join(text)
            self.say.change(first, squeeze(shown), written(shown))
        return closed
