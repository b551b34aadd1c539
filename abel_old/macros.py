"""Macros that ask about their arguments, and those under both sets of operators."""
from __future__ import annotations

import re

from .directives import Walk, definition
from .records import Macro
from .tables import COMPARISONS, OPERATORS
from .text import Text
from .tokens import Stop, Token, cut, joined, raw, split, squeeze, written

ROUNDS, TOO_MANY = 8, 100000


def asking(text: Text, behind: Token) -> dict[str, Macro]:
    """The macros that are defined once and ask for a text of their arguments."""
    found: dict[str, list[Macro]] = {}
    for x in text.t[:behind.at]:
        if x.kind == 'id' and x.out and text.next(x).word == 'MACRO' \
                and text.look(x.at + 2).text == '(':
            found.setdefault(x.text, []).append(definition(text, x))
    return {name: macros[0] for name, macros in found.items()
            if not macros[1:] and macros[0].last.at < behind.at and asks(text, macros[0])}


def asks(text: Text, macro: Macro) -> bool:
    for x in text.between(macro.opened, macro.last):
        if x.word in COMPARISONS or x.word == '@IRPC':
            header = ''.join(y.text for y in text.t[x.at + 1:x.at + 12]).partition(')')[0]
            if set(re.findall(r'\?([\w~]+)', header)) & set(macro.parameters):
                return True
    return False


def put_in(text: Text, macro: Macro, call: Token, behind: Token) -> bool:
    """Puts the macro's text in place of a call, unless the call has other arguments."""
    closed = text.close(call.at + 1)
    was = text.t[call.at:closed + 1]
    given = [raw(part) for part in split(was[2:-1])]
    if len(given) != len(macro.parameters) or closed >= behind.at:
        return False
    text.say.change(call, squeeze(was), 'the text of the macro, which asks about its arguments')
    texts = dict(zip(macro.parameters, given))
    line = ''.join((' ' if x.blanks else '') + re.sub(r'\s*\n\s*', ' ', x.text)
                   for x in text.t[macro.opened.at + 1:macro.last.at])
    tokens = cut(re.sub(r'\?([\w~]+)', lambda found: texts.get(found[1], found[0]), line))[:-1]
    for k, x in enumerate(tokens):
        x.line, x.file, x.blanks = call.line, call.file, x.blanks if k else call.blanks
    after = text.look(closed + 1)
    after.blanks = ''.join(x.blanks + x.text for x in was[1:]).count('\n') * '\n' + after.blanks
    text.t[call.at:closed + 1] = tokens
    text.number()
    return True


def fix_asking(text: Text, behind: Token) -> None:
    """Puts their texts in place of calls; a definition without other calls becomes a comment."""
    done: dict[str, bool] = {}
    for _ in range(ROUNDS):
        macros = asking(text, behind)
        calls = [x for x in text.t if x.text in macros and x.at > macros[x.text].last.at
                 and x.kind == 'id' and x.out and text.next(x).text == '(']
        for x in reversed(calls):
            if len(text.t) > TOO_MANY:
                raise Stop(f'{x.line}: macro {x.text} is called too often')
            done[x.text] = put_in(text, macros[x.text], x, behind) and done.get(x.text, True)
        if not any(done.get(x.text) for x in calls):
            break
    for macro in reversed([*asking(text, behind).values()]):
        if done.get(macro.name.text):
            last = text.ending(macro.last)
            text.comment(macro.name, last)
            after = text.next(last)
            after.blanks = macro.name.blanks + written(text.between(macro.name, last)) \
                + after.blanks
            del text.t[macro.name.at:last.at + 1]
            text.number()


def fix_operators(text: Text, walk: Walk) -> None:
    """Writes operators of the alternate set in the standard set."""
    both: list[Macro] = []
    alternate = {x.at: x.alternate for x in text.t}
    for macro in walk.all:
        sets = {x.alternate for x in macro.calls} or {macro.name.alternate}
        if len(sets) > 1 and any(x.text in OPERATORS for x in macro.body):
            both.append(macro)
        here = macro.name.alternate if len(sets) > 1 else True in sets
        alternate.update((x.at, here) for x in macro.body)
    lines: dict[tuple[str, int], list[Token]] = {}
    for x in text.t:
        if alternate[x.at] and x.kind == 'op' and x.text in OPERATORS and x.untouched:
            x.out = OPERATORS[x.text]
            lines.setdefault((x.file, x.line), []).append(x)
    for macro in both:
        define_anew(text, walk, macro)
    for found in lines.values():
        text.say.change(found[0], ' '.join(dict.fromkeys(x.text for x in found)),
                        ' '.join(dict.fromkeys(x.out for x in found)))


def define_anew(text: Text, walk: Walk, macro: Macro) -> None:
    """A macro that is called under both sets is defined anew where the set changes."""
    name = macro.name.text
    if sum(m.name.text == name for m in walk.all) > 1:
        return text.say.cant(macro.name, f'macro {name} is defined twice, and called under '
                                         '@ALTERNATE and without it')
    body = {x.at for x in macro.body if x.kind == 'op'}
    for switch in walk.switches:
        if switch.at >= macro.last.at:
            table = OPERATORS if switch.word == '@ALTERNATE' else {}
            new = joined(text.between(macro.name, macro.last), lambda x:
                         table.get(x.text, x.text) if x.at in body else x.text)
            switch.after += ' ' + re.sub(r'\s*\n\s*', ' ', new) + ';'
            text.say.change(switch, f'macro {name}, called under both sets of operators',
                            'defined anew here')
