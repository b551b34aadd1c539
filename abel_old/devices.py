"""The device's name, and the pins of its package."""
from __future__ import annotations

import re

from .names import Names
from .tables import COUNTERPARTS, DEVICES, PLCC, REGISTERED, UNCONNECTED, V10
from .tokens import Token, numeral, squeeze


def fix_device(s: Names) -> None:
    token = next((x for d in s.module.declarations if d.kind == 'DEVICE' for x in d.tokens
                  if x.kind == 'str'), None)
    if token is None:
        return
    given = token.text.strip("'").upper()
    old = re.sub(r'[\s_/]', '', given)
    s.device = old if given in DEVICES else counterpart(s, token, old)
    if s.device == 'P22V10':
        s.device = 'GAL22V10'
    if s.device in V10:
        package(s, token, old)


def counterpart(s: Names, token: Token, old: str) -> str:
    """Writes the device's name here; nothing if there is none."""
    part = re.match(r'([A-Z]*?)(\d\d[A-Z]{1,2}\d{1,2})(.*)$', old)
    maker, core, tail = part.groups() if part else ('', '', '')
    name = said = ''
    if core == '16V8':
        name = mode(s, token, tail if maker == 'P' else '')
        if not name:
            return ''
    for pattern, new, why in COUNTERPARTS:
        found = re.fullmatch(pattern, f'{maker} {core}')
        if found and not name:
            name, said = found.expand(new), why.replace('%s', token.text.strip("'"))
    if not name:
        s.say.cant(token, f'device {token.text}: no counterpart here (MANUAL.md, Old sources; '
                          'DEVICES.md)')
        return ''
    if said and name == 'GAL22V10':
        pal24(s, token, core)
    token.out = f"'{name}'"
    s.say.change(token, token.text, token.out + (': ' + said if said else ''))
    return name


def mode(s: Names, token: Token, tail: str) -> str:
    """The mode of a 16V8: by its letter, otherwise by the registers."""
    letter = re.match(r'[A-DZ]?([CRS])$', tail)
    pins = {s.signals[n].pin for n in s.registers if n in s.signals and not s.signals[n].node}
    if not pins:
        if letter and letter[1] == 'S':
            s.say.note(token, 'complex mode has seven product terms an output, simple mode eight')
        return 'GAL16V8C'
    if letter and letter[1] in 'CS':
        s.say.cant(token, f'{token.text} has no registers, and the source has some')
        return ''
    name = next((name for name, room in REGISTERED.items() if pins <= {None, *room}), '')
    if not name:
        s.say.cant(token, 'registers on other pins than 12 to 19')
        return ''
    for n, signal in s.signals.items():
        if signal.pin in REGISTERED[name] and n not in s.registers:
            s.say.cant(signal.token, f'{n}: pin {signal.pin or 0} of a {name} is always a '
                                     'register: move it (MANUAL.md, Old sources)')
    if not s.on(11):
        s.say.note(token, 'pin 11 enables the registers while it is low')
    return name


def pal24(s: Names, token: Token, core: str) -> None:
    """A PAL20 on a GAL22V10: its registers invert, and pin 13 enables them."""
    registers = [n for n in s.signals if n in s.registers]
    bare = [n for n in registers if not s.signals[n].words & {'invert', 'buffer'}]
    if bare:
        last = s.module.declarations[-1].last
        last.after += f" {','.join(bare)} istype 'invert';"
        s.say.change(last, f'registers of a {core}, whose pins are high after power-up',
                     "istype 'invert'")
    free = [n for n in registers if n not in s.enabled]
    names, enable = ','.join(free), s.on(13)
    if names and enable:
        value = f"{'' if s.signals[enable].low else '!'}{enable};"
        s.equation(f'[{names}].OE = {value}' if free[1:] else f'{names}.OE = {value}',
                   s.signals[enable].declaration.last)
        s.say.change(s.signals[enable].token, f'pin 13 enables the registers of a {core}',
                     f'{names}.OE = {value}')
    elif names:
        s.say.note(token, 'pin 13 enabled the registers while it was low; here they always drive')


def package(s: Names, token: Token, old: str) -> None:
    """Numbers of the 28-pin package become those of the 24-pin one."""
    pins = {signal.pin: n for n, signal in s.signals.items() if signal.pin and not signal.node}
    small = [p for p in pins if p in UNCONNECTED and not re.match(r'(?i)nc', pins[p])]
    if small or not pins:
        return
    if not any(24 < (p or 0) <= 28 for p in pins):
        if re.match(r'P22V10[A-Z]?[CIJ]$', old):
            s.say.note(token, f'{token.text} may mean the 28-pin package: are pins '
                       f"{', '.join(str(p) for p in sorted(filter(None, pins)))} those of the "
                       '24-pin one?')
        return
    for d in s.module.declarations:
        if d.kind == 'PIN' and d.numbers:
            was = squeeze(d.digits)
            s.blank(d.digits)
            d.digits[0].out = ','.join(numeral(PLCC.get(n or 0, 0), d.digits[0]) for n in d.numbers)
            s.say.change(d.digits[0], f'pin {was} of the 28-pin package', d.digits[0].out)
            for name, pin in zip(d.names, d.numbers):
                s.signals[name].pin, s.signals[name].plcc = PLCC.get(pin or 0), pin
    if s.module.of('TEST_VECTORS'):
        s.say.note(token, 'fuse files number the pins of the 24-pin package')
