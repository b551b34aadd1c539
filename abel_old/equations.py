"""ENABLE, the extensions of names, and inputs of registers that are data here."""
from __future__ import annotations

import re

from .names import Names
from .records import Statement
from .tables import BY_COMPLEMENT, EITHER, EXTENSIONS, INPUTS, NO_EXTENSIONS, PRESETS, RESETS
from .tokens import Token, squeeze, written


def fix_enables(s: Names) -> None:
    for a in s.assignments:
        if a.enables:
            was = squeeze([a.first] + a.left)
            a.left[0].join()
            a.first.out = ''
            a.left[-1].after += '.OE'
            s.say.change(a.first, was + ' =', written(a.left) + ' =')


def fix_extensions(s: Names) -> None:
    targets = {a.left[-1].at: a for a in s.assignments}
    for x in s.t:
        if x.kind == 'ext' and x.untouched:
            fix_extension(s, x, targets.get(x.at))
    for a in s.assignments:
        if a.extension in ('.CE', '.SR', '.CLR', '.SET'):
            fix_control(s, a)
        elif a.extension in ('.CLK', '.C'):
            signs = [x for x in a.right if x.text not in ('(', ')') and x.kind != 'id']
            if signs or any(s.signals[n].pin not in (1, None) for n in s.reads(a.right)):
                s.say.cant(a.first, f'{a.label}: pin 1 is the clock of every register '
                                    '(MANUAL.md, Old sources)')


def fix_extension(s: Names, x: Token, assigned: Statement | None) -> None:
    """An extension of another name, or one that only other devices have."""
    gal, word, name = s.device in EITHER, x.word, squeeze(s.before(x))
    old, same = name + x.text, ''
    if word in EXTENSIONS and (gal or word == '.C'):
        x.out = EXTENSIONS[word] if x.text.isupper() else EXTENSIONS[word].lower()
        s.say.change(x, old, name + x.out)
    elif word in EXTENSIONS or word in ('.AR', '.SP') and not gal and s.device:
        s.say.cant(x, f'{old}: a {s.device} has no reset and no preset (DEVICES.md)')
    elif word in PRESETS and assigned and gal and preset_as_reset(s, assigned):
        s.say.note(x, f'{name}: the pin is high after power-up too')
    elif word in NO_EXTENSIONS:
        s.say.cant(x, f'{old}: these devices have {NO_EXTENSIONS[word]}')
    elif word == '.COM' and assigned:
        same = name
    elif word == '.COM':
        s.say.cant(x, f'{old}: no column carries what goes into a register')
    elif word == '.PIN' and not assigned and name in s.registers and gal:
        if name in s.enabled:
            s.say.cant(x, f"{old}: the pin of a register can't be read (LANGUAGE.md, What a name "
                          'reads)')
        else:
            same = name + ', which is the same: it always drives'
    elif word == '.FB' and name in s.signals and name in s.combinational:
        same = name
        if name in s.enabled:
            s.say.note(x, f"{name} reads the pin, also while the cell doesn't drive it")
    if same:
        x.out = ''
        s.say.change(x, old, same)


def single(s: Names, a: Statement) -> bool:
    """Whether the value is one operand, also after expansion."""
    return len(a.right) == 1 and '?' not in a.right[0].text and a.right[0].text not in s.macros


def fix_control(s: Names, a: Statement) -> None:
    """Clock enables, resets and presets at the clock: .CE, .SR, .CLR and .SET."""
    names, label = s.members(a.named), a.label
    if names is None or a.under or a.left[0].text == '!':
        return s.say.cant(a.first, label + ': under a condition: write it as data')
    inverts = s.inverts(names)
    if len(inverts) > 1:
        return s.say.cant(a.first, label + ': registers of both polarities')
    own = set(names)
    data = [b for b in s.assignments if b is not a and not b.enables
            and b.extension in INPUTS | {'', '.D'} and assigns(s, b) & own]
    tabled = any(set(s.members(tokens) or []) & own for tokens in [
        *(t.right for t in s.module.of('TRUTH_TABLE')),
        *(d.left for d in s.module.of('STATE_DIAGRAM'))])
    of_q, enables = any(b.extension == '.D' for b in data), a.extension == '.CE'
    adds = not enables and (a.extension == '.SET') != any(inverts)
    if adds and not of_q and not tabled:
        a.left[-1].out, a.sign.out = '', ':='
        return s.told(s.statement(a), label)
    plain = data and not tabled and all(
        b.extension in ('', '.D') and assigns(s, b) <= own and b.left[0].text != '!'
        and b.where == 'equations' for b in data)
    if not plain or adds or of_q and not enables and any(inverts):
        return s.say.cant(a.first, label + ': write it as data: when .. then .. (MANUAL.md, Old '
                                           'sources)')
    value = re.sub(r'\s+', ' ', written(a.right))
    value = value if single(s, a) else f'({value})'
    for b in data:      # by a condition and not by &, which would cut numbers to one bit
        was = squeeze(s.statement(b))
        b.first.before = f"{'{' if b.under else ''}when {'' if enables else '!'}{value} then " \
            + b.first.before
        b.last.after += '}' if b.under else ''
        s.told(s.statement(b), was)
    if not enables:
        return s.drop(a.first, a.last, 'part of the data')
    a.left[-1].out, a.sign.out = '.D' if of_q else '', ':='
    a.first.before = f'when !{value} then ' + a.first.before
    s.blank(a.right)
    a.right[0].out = squeeze(a.named) + ('.Q' if of_q else '')
    s.told(s.statement(a), label)


def assigns(s: Names, b: Statement) -> set[str]:
    return set(s.members(b.named) or [x.text for x in b.left])


def preset_as_reset(s: Names, a: Statement) -> bool:
    """A preset at once, where the registers may be held as their complements: then it resets."""
    names, others = set(s.targets(a)), s.extended(*RESETS, *PRESETS)
    presets = {n for b in others if b.extension in PRESETS for n in s.targets(b)}
    resets = {n for b in others if b.extension in RESETS for n in s.targets(b)}
    plain = names and not a.under and a.where == 'equations' and a.left[0].text != '!'
    if not plain or not names <= s.registers & set(s.signals) \
            or any(s.signals[n].words & {'buffer', 'invert'} for n in names):
        return False
    if len({squeeze(b.right) for b in others}) > 1 or presets & resets or any(s.inverts(resets)):
        return False
    if any(x.kind == 'ext' and x.word in BY_COMPLEMENT
           and names & set(s.members(s.before(x)) or []) for x in s.t):
        return False
    was, x = a.label, a.left[-1]
    x.out = '.AR' if x.text.isupper() else '.ar'
    for n in dict.fromkeys(s.targets(a)):
        if n not in s.held:
            s.held.add(n)
            s.signals[n].declaration.last.after += f" {n} istype 'invert';"
    s.say.change(a.first, was, f'{squeeze(a.named)}{x.out} = {squeeze(a.right)}, of a register '
                               "that is held as its complement: istype 'invert'")
    return True
