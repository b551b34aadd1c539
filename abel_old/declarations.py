"""Attributes, pins of ground and supply, numbers of nodes, and declarations that go."""
from __future__ import annotations

import re

from .names import Names
from .records import Declaration
from .tables import ATTRIBUTES, DECLARING, EITHER, NODES, PARTIAL, PARTS, UNCONNECTED, V10, WIDE
from .tokens import Token, split, squeeze


def fix_parts(s: Names) -> None:
    """What isn't supported, and what has no effect."""
    for part in [*s.module.declarations, *s.module.parts]:
        if part.kind in PARTS:
            s.drop(part.first, part.last, *PARTS[part.kind])
    for d in s.module.declarations:
        if d.kind in PARTIAL:
            s.say.cant(d.first, f'{squeeze(d.tokens)}: write one module with all of it (MANUAL.md, '
                                'Old sources)')
        elif d.kind == 'LIBRARY' and [x.kind for x in d.tokens[1:2]] == ['str']:
            s.library(d.first)


def fix_attributes(s: Names) -> None:
    for d in s.module.declarations:
        if d.kind in DECLARING:
            for x, after in zip(d.tail, d.tail[1:]):
                if x.text == '=' and after.kind == 'str':
                    x.out = 'istype' if x.blanks else ' istype '
                    s.say.change(x, '= ' + after.text, 'istype ' + after.text)
            for x in d.tail:
                if x.kind == 'str':
                    fix_string(s, d, x)


def fix_string(s: Names, d: Declaration, string: Token) -> None:
    old = [w for w in re.split(r'[,\s]+', string.text.strip("'")) if w]
    new: dict[str, None] = {}
    for word in old:
        look(s, d, string, word)
        now = ATTRIBUTES.get(word.lower(), word)
        new[word if now == word.lower() else now] = None
    new.pop('', None)
    if [*new] == old:
        return
    if new or sum(x.kind == 'str' for x in d.tail) > 1:
        string.out = f"'{','.join(new)}'"
    elif d.kind == 'ISTYPE':
        s.comment(d.first, d.last)
    else:
        key = s.t[string.at - 1]
        s.blank([key, string])
        key.join()
    s.say.change(string, string.text, string.out or 'nothing')


def look(s: Names, d: Declaration, string: Token, word: str) -> None:
    """Says what there is to say of an attribute."""
    lower, names = word.lower(), set(d.names)
    if lower in ('latch', 'reg_l'):
        s.say.cant(string, f'{string.text}: these devices have no latches (HAZARDS.md, Latches)')
    elif lower not in ATTRIBUTES:
        s.say.cant(string, f'{word} in {string.text}: no attribute that I know')
    elif lower in ('neg', 'pos') and s.device in EITHER:
        now = 'invert' if lower == 'neg' else 'buffer'
        for name in d.names:
            if name in s.registers and name in s.signals \
                    and not s.signals[name].words & {'buffer', 'invert'}:
                s.say.note(string, f"{name}: '{lower}' is ignored; if the level after power-up or "
                                   f"reset counts, say '{now}'")
    elif lower in ('reg_t', 'reg_jk', 'reg_sr'):
        if names & {n for x in s.module.of('STATE_DIAGRAM') for n in s.members(x.left) or []}:
            s.say.note(string, f'{lower} of a diagram: where no transition is taken the registers '
                               'go to 0')


def take_out(s: Names, d: Declaration, places: list[int]) -> bool:
    """Takes names and their numbers or values out of a declaration."""
    names = [part for part in split(d.tokens[:d.at]) if part]
    values = d.values or [part for part in split(d.digits) if part]
    if len(names) != len(values) or max(places) >= len(names):
        return False
    for parts in (names, values):
        for part in [parts[k] for k in places]:
            s.blank(part)
            before, after = s.t[part[0].at - 1], s.next(part[-1])
            if after.text == ',' and after.out:
                after.out = ''
            elif before.text == ',' and before.out:
                before.out = ''
                part[0].join()
        kept = [part for k, part in enumerate(parts) if k not in places]
        if kept and 0 in places:
            kept[0][0].join()
    return True


def fix_pins(s: Names) -> None:
    for d in s.module.declarations:
        if d.kind == 'PIN' and d.numbers and len(d.names) == len(d.numbers):
            supplies(s, d)
        elif d.kind == 'NODE' and d.numbers:
            nodes(s, d)


def supplies(s: Names, d: Declaration) -> None:
    size = 24 if s.device in WIDE else 20
    dead = [k for k, name in enumerate(d.names) if name in s.signals and (
        s.signals[name].pin in (size // 2, size) or s.signals[name].plcc in UNCONNECTED)]
    if not dead:
        return
    names = [d.names[k] for k in dead]
    kept = [n for n in names if s.uses(n)]
    if len(dead) == len(d.names):
        s.comment(d.first, d.last)
    elif not take_out(s, d, dead):
        return s.say.cant(d.first, 'pins of ground and supply in a range: write the others alone')
    constants = f", but the constant {', '.join(kept)}" if kept else ''
    s.say.change(d.first, f"{', '.join(names)}, ground or supply", 'no pin' + constants)
    if kept:
        levels = ','.join('1' if s.signals[n].pin == size else '0' for n in kept)
        d.last.after += f" {','.join(kept)} = {levels};"
    for n in names:
        s.constants[n] = []
        s.signals.pop(n, None)


def nodes(s: Names, d: Declaration) -> None:
    inputs = {name: NODES[value] for name, value in zip(d.names, d.numbers)
              if s.device in V10 and value in NODES}
    if inputs and len(inputs) < len(d.names):
        s.say.cant(d.first, 'nodes 25 and 26 beside others: declare them alone')
    elif inputs:
        s.comment(d.first, d.last)
        register = next((n for n in s.signals if n in s.registers and n not in inputs), None)
        for name, extension in inputs.items():
            reset_node(s, d, name, register, extension)
    else:
        numbers = squeeze(d.digits)
        s.say.note(d.first, f'node numbers {numbers}: nodes have none here')
        s.say.change(d.digits[0], f'node {numbers}', 'node')
        s.blank(d.digits)
        d.digits[0].blanks = ''


def reset_node(s: Names, d: Declaration, name: str, register: str | None, extension: str) -> None:
    """The node of the reset or preset: its equation becomes one of the first register."""
    word = 'reset' if extension == '.AR' else 'preset'
    if not register:
        return s.say.cant(d.first, f'node of the {word}, and no register')
    for a in s.assignments:
        if [x.text for x in a.bare] == [name] and a.extension in ('', '.RE', '.PR', '.AR', '.SP'):
            s.blank(a.left[-1:])
            a.bare[0].out = register + extension
            a.sign.out = a.sign.text.replace(':', '')
    s.say.change(d.first, f'{name}, the node of the {word}',
                 f'{register}{extension}, which counts for all registers')
    for x in s.uses(name):
        if x.out == name:
            s.say.cant(x, f'{name} is read: write its expression')
