"""Symbolic states, and the resets of diagrams."""
from __future__ import annotations

from .names import Names
from .records import Declaration, Part, Statement
from .tables import EITHER
from .tokens import numeral, squeeze, written


class States:
    """`codes` of the names of states, and how many bits each symbolic register has."""

    def __init__(self, s: Names) -> None:
        self.s = s
        self.codes: dict[str, int] = {}
        self.bits: dict[str, int] = {}

    def run(self) -> None:
        declarations = self.s.module.declarations
        registers = [d for d in declarations if d.kind == 'STATE_REGISTER']
        states = [d for d in declarations if d.kind == 'STATE']
        names = [name for d in states for name in d.names]
        for d in registers:
            if len(d.names) == 1:
                self.register(d, names, len(registers) == 1)
            else:
                self.s.say.cant(d.first, f'{squeeze(d.tokens[:d.at])}: declare one STATE_REGISTER '
                                         'at a time')
        for d in states:
            self.constants(d)
        for diagram in self.s.module.of('STATE_DIAGRAM'):
            self.resets(diagram)

    def register(self, d: Declaration, names: list[str], alone: bool) -> None:
        """The registers of a symbolic one, and the codes of its states, 0 for the first."""
        s, name = self.s, d.names[0]
        token = s.signals[name].token
        diagrams = [x for x in s.module.of('STATE_DIAGRAM')
                    if [y.text for y in x.left[:1]] == [name]]
        listed = {y.left[0].text for x in diagrams for y in x.states if y.left}
        mine = [n for n in names if alone or n in listed]
        starts = [r.left[0].text for x in diagrams for r in x.rows
                  if r.first.word == 'ASYNC_RESET' and r.left] + mine[:1]
        bits = self.bits[name] = max(1, (len(mine) - 1).bit_length())
        down = 'invert' in s.signals[name].words or s.device not in ('', *EITHER)
        for k, n in enumerate(sorted(mine, key=lambda n: n != starts[0])):
            self.codes[n] = 2 ** bits - 1 - k if down else k
        stem = s.free(name[:28], '_', [str(k) for k in range(bits)])
        token.out = f'{stem}0' if bits == 1 else f'{stem}{bits - 1}..{stem}0'
        key = d.tokens[d.at]
        key.out = 'pin'
        if not any(x.word == 'ISTYPE' for x in d.tokens):
            key.after += " istype 'reg,buffer'" if s.device in EITHER else " istype 'reg'"
        d.last.after += f' {name} = [{token.out}];'
        s.say.change(token, squeeze(d.tokens),
                     f'{bits} registers, on pins that are free (see list)')

    def constants(self, d: Declaration) -> None:
        """The names of states, as constants."""
        s, key = self.s, d.tokens[d.at]
        codes = {name: self.codes.get(name) for name in d.names}
        missing = ', '.join(name for name in d.names if codes[name] is None)
        if len(d.tail) > 1:
            s.say.cant(d.first, f'{squeeze(d.tokens)}: write constants')
        elif missing or not codes:
            s.say.cant(d.first, f'state {missing}: of which register?')
        else:
            key.out = '= ' + ','.join(numeral(self.codes[name], key) for name in d.names)
            s.say.change(d.first, squeeze(d.tokens), 'constants: ' + ', '.join(
                f'{name} = {codes[name]}' for name in d.names))

    def resets(self, diagram: Part) -> None:
        at_once = [r for r in diagram.rows if r.first.word == 'ASYNC_RESET']
        for reset in at_once:
            self.at_once(diagram, reset, len(at_once) == 1)
        at_clock = [r for r in diagram.rows if r.first.word == 'SYNC_RESET']
        before = ''.join(f'IF ({written(r.right)}) THEN {written(r.left)} ELSE ' for r in at_clock)
        for state in diagram.states if before else []:
            for first in state.right:
                first.before = before + first.before
            if not state.right:
                state.last.after += ' ' + before[:-len(' ELSE ')] + ';'
        for reset in at_clock:
            self.s.drop(reset.first, reset.last, before.strip() + ' before each transition')

    def at_once(self, diagram: Part, reset: Statement, alone: bool) -> None:
        """A reset of all registers at once, if the state has the code that it leaves."""
        s, name = self.s, squeeze(diagram.left)
        members = s.members(diagram.left) or []
        code = self.codes.get(squeeze(reset.left), s.value(reset.left))
        inverts = s.inverts(members)
        wanted = 2 ** self.bits.get(name, len(members)) - 1 if inverts == {True} else 0
        if s.device not in EITHER or not alone or code != wanted or len(inverts) > 1:
            return s.say.cant(reset.first, f'{squeeze(s.between(reset.first, reset.last))}: a '
                              'reset at once makes every register of a 22V10 0 (DEVICES.md)')
        register = members[-1] if members and name not in self.bits else name
        equation = f'{register}.AR = {written(reset.right)};'
        diagram.first.before = f'equations {equation} {diagram.first.before}'
        s.drop(reset.first, reset.last, equation)
