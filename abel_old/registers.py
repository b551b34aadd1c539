"""T, JK and SR registers: their equations in place where that is exact, by nodes where not."""
from __future__ import annotations

from .equations import single
from .names import Names
from .records import Statement
from .tables import BY_NODES, IN_PLACE, INPUTS, PARTNERS
from .tokens import Token, squeeze


class Registers:
    """`nodes` has the names of nodes; `noded` the registers that need them."""

    def __init__(self, s: Names) -> None:
        self.s = s
        self.inputs = [(a, s.members(a.named) or [squeeze(a.bare)])
                       for a in s.extended(*INPUTS)]
        self.uses: dict[str, list[Statement]] = {}
        for a, names in self.inputs:
            for name in names:
                self.uses.setdefault(name, []).append(a)
        self.nodes: dict[str, dict[str, str]] = {}
        self.noded = {name for name, uses in self.uses.items() if self.needs_nodes(uses)}

    def run(self) -> None:
        members = self.find_members()
        size = -1
        while size < len(self.noded):
            size = len(self.noded)
            for _, names in self.inputs:
                if self.noded & set(names):
                    self.noded.update(names)
        for a, names in self.inputs:
            if self.noded & set(names):
                self.by_node(a, names)
            else:
                self.in_place(a, names)
        for x, names, before in members:
            if x.untouched:
                was = squeeze(before + [x])
                self.write_nodes(before, names, x)
                self.s.say.change(x, was, before[0].out)
        for name in self.nodes:
            self.declare(name)

    def find_members(self) -> list[tuple[Token, list[str], list[Token]]]:
        """Inputs that aren't targets, as in [q.J,q.K] or in a constant."""
        targets = {a.left[-1].at for a, _ in self.inputs}
        found: list[tuple[Token, list[str], list[Token]]] = []
        for x in self.s.t:
            if x.kind == 'ext' and x.word in INPUTS and x.at not in targets and x.untouched:
                before = self.s.before(x)
                names = self.s.members(before)
                if names:
                    found.append((x, names, before))
                    self.noded |= set(names)
                else:
                    self.s.say.cant(x, f'{squeeze(before[-1:])}{x.text}: which register?')
        return found

    def needs_nodes(self, uses: list[Statement]) -> bool:
        """K, R and T may be given once and under no condition, J and S so without a partner.

        An equation of the complement may be given once, and under no condition.
        """
        extensions = [a.extension for a in uses]
        negative = [a.extension for a in uses if a.left[0].text == '!']
        for a in uses:
            once, within = a.extension not in ('.J', '.S'), a.under or a.where != 'equations'
            alone = not once and PARTNERS[a.extension] not in extensions
            if once and (within or extensions.count(a.extension) > 1) or alone and within \
                    or '?' in a.sign.text or negative.count(a.extension) > 1 \
                    or within and a.left[0].text == '!':
                return True
        return False

    def write_nodes(self, tokens: list[Token], names: list[str], extension: Token) -> None:
        self.s.blank(tokens)
        new, letter = [], extension.word[1:]
        for name in names:
            mine = self.nodes.setdefault(name, {})
            if letter not in mine:
                mine[letter] = self.s.free(name, '_' + letter)
            new.append(mine[letter])
        tokens[0].out = f"[{','.join(new)}]" if new[1:] else new[0]
        extension.out = ''

    def by_node(self, a: Statement, names: list[str]) -> None:
        was = squeeze(self.s.statement(a))
        if any('?' in n for n in names):
            self.s.say.cant(a.first, was + ': write the equation of the register (MANUAL.md, Old '
                                           'sources)')
        elif a.bare:
            self.write_nodes(a.bare, names, a.left[-1])
            a.sign.out = a.sign.text.replace(':', '')
            self.s.told(self.s.statement(a), was)

    def in_place(self, a: Statement, names: list[str]) -> None:
        was, extension, negative = squeeze(self.s.statement(a)), a.extension, a.left[0].text == '!'
        partner = PARTNERS.get(extension)
        has = {any(b.extension == partner for b in self.uses[n]) for n in names}
        if len(has) > 1:
            return self.s.say.cant(a.first, f'{was}: some of these registers have {partner} and '
                                            'some not')
        of_q = extension != '.T' and any(self.s.inverts(names))
        held = squeeze(a.bare) + ('.Q' if of_q else '')
        a.left[-1].out = '.D' if of_q else ''
        a.sign.out = '?:=' if '?' in a.sign.text else ':='
        no, right = IN_PLACE[extension, True in has]
        if negative:
            a.left[0].out, no = '', '' if no else '!'
        if no or right:
            one = single(self.s, a)
            a.right[0].before = no + ('' if one else '(') + a.right[0].before
            a.right[-1].after += ('' if one else ')') + right.replace('%s', held)
        self.s.told(self.s.statement(a), was)

    def declare(self, name: str) -> None:
        """Declares the nodes of a register, and writes its equation."""
        s, mine = self.s, self.nodes[name]
        kinds = ''.join(e for e in 'TJKSR' if e in mine)
        if name not in s.signals:
            return s.say.cant(s.t[0], f'{name}: not declared')
        signal = s.signals[name]
        if kinds not in BY_NODES:
            return s.say.cant(signal.token, f"{name}: a register with {' and '.join(kinds)}")
        signal.declaration.last.after += f" {','.join(mine[e] for e in kinds)} node;"
        inverts = 'invert' in signal.words and kinds != 'T'
        value = BY_NODES[kinds].format(q=name + '.Q' if inverts else name, **mine)
        equation = f"{name}{'.D' if inverts else ''} := {value};"
        s.equation(equation, signal.declaration.last)
        s.say.change(signal.token, f"{name}, a register with .{' .'.join(kinds)}",
                     equation + ' with nodes')
