"""Specials in test vectors, and constants that name them."""
from __future__ import annotations

from .declarations import take_out
from .names import Names
from .records import Declaration, Part, Statement
from .tables import EDGES
from .tokens import Token, joined


def special(s: Names, x: Token) -> str:
    if x.kind == 'id' and x.text not in s.signals:
        return s.specials.get(x.text, '')
    return x.word if x.kind == 'spec' else ''


def is_heavy(kind: str) -> bool:
    """A preload or a test voltage, which no fuse file has."""
    return kind == '.P.' or kind.startswith('.SV')


def fix_vectors(s: Names) -> None:
    first = True
    for table in s.module.of('TEST_VECTORS'):
        stop = ''
        for row in table.rows:
            stop = fix_row(s, table, row, first, stop)
            first = False
    for x in s.t:
        if x.word == '.F.' and x.kind == 'spec' and x.untouched:
            x.out = '.X.'
            s.say.change(x, x.text, '.X.')
    for d in s.module.declarations:
        if d.kind == '=' and not d.first.out.startswith('"'):
            fix_constants(s, d)


def fix_row(s: Names, table: Part, row: Statement, first: bool, stop: str) -> str:
    """Why later rows go; nothing if they stay."""
    kinds = {special(s, x) for x in row.left + row.right}
    heavy = sorted(filter(is_heavy, kinds))
    edges = sorted(kinds & set(EDGES))
    preloads = set(s.members(table.left) or []) & s.registers
    why = ''
    if heavy == ['.P.'] and first and not preloads and not edges:
        for x in row.left:
            if special(s, x) == '.P.':
                x.out = '0'
        s.say.change(row.first, 'a preload before the first vector',
                     '0: it tests the level after power-up')
        s.say.note(row.first, 'if this vector disagrees, the state after power-up is another')
    elif heavy:
        why, stop = 'a preload or test voltage', stop or heavy[0]
    elif stop:
        why = f'it follows from the {stop} above'
    elif len(edges) > 1 or edges and '.C.' in kinds:
        why = 'pulses of two kinds at once'
    elif edges:
        several(s, row, edges[0])
    if why:
        s.drop(row.first, row.last, why, lost=True)
        s.say.vectors_lost += 1
    return stop


def several(s: Names, row: Statement, edge: str) -> None:
    """A row with an edge, as a row for each level, of which the last is tested."""
    hits = {x.at for x in row.left if special(s, x) == edge}
    levels, before = EDGES[edge], ''
    for level in levels[:-1]:
        before += joined(s.t[row.first.at:row.sign.at],
                         lambda x: level if x.at in hits else x.text) + ' -> .X.; '
    for x in row.left:
        if x.at in hits:
            x.out = levels[-1]
    row.first.before = before.replace('\n', ' ') + row.first.before
    s.say.change(row.first, f'a vector with {edge}',
                 f"{len(levels)} vectors with {', '.join(levels)}")


def fix_constants(s: Names, d: Declaration) -> None:
    """Takes out names of specials that aren't here, if nothing reads them."""
    gone = {k: name for k, name in enumerate(d.names[:len(d.values)])
            if s.specials.get(name) in EDGES or is_heavy(s.specials.get(name, ''))}
    declared = {x.at for x in d.tokens}
    left = [x for x in s.t if x.text in gone.values() and x.kind == 'id' and x.untouched
            and x.at not in declared] if gone else []
    if left:
        s.say.cant(left[0], f'{left[0].text}: no such level here')
    elif gone and len(gone) == len(d.names):
        s.drop(d.first, d.last, 'not used')
    elif gone and take_out(s, d, [*gone]):
        s.say.change(d.first, ', '.join(f'{n} = {s.specials[n]}' for n in gone.values()),
                     'nothing: not used')
