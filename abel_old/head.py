"""Modules and devices of a file, reserved words as names, and the head of a module."""
from __future__ import annotations

import re

from .names import Names
from .records import Declaration, Part
from .tables import RESERVED
from .tokens import Stop, Token, squeeze


def modules(s: Names) -> list[tuple[Token, Token]]:
    """For each module its first token, and the token behind it."""
    depth = 0
    found: list[tuple[Token, Token]] = []
    for x in s.t[:-1]:
        depth += (x.text == '{') - (x.text == '}')
        if x.kind != 'id' or depth > 0:
            continue
        if x.word == 'MODULE' and s.next(x).kind == 'id':
            found.append((x, s.t[-1]))
        elif x.word == 'END' and found and found[-1][1] is s.t[-1] \
                and s.t[x.at - 1].text not in ('[', ',', '='):
            name = s.next(x)
            named = name.kind == 'id' and name.word != 'MODULE' and (
                name.text == s.next(found[-1][0]).text or '\n' not in name.blanks)
            found[-1] = found[-1][0], s.next(s.ending(name if named else x))
    if not found:
        raise Stop('1: no MODULE')
    return found


def one_module(s: Names, wanted: str | None, elsewhere: bool) -> tuple[Token, Token]:
    """Makes comments of all but one module; its first token, and the one behind it."""
    found = modules(s)
    names = [s.next(first).text for first, _ in found]
    lower = [name.lower() for name in names]
    if wanted and wanted.lower() not in lower:
        raise Stop(f'no module {wanted}')
    pick = lower.index(wanted.lower()) if wanted else 0
    first, behind = found[pick]
    if names[1:] and not elsewhere:
        others = ', '.join(names[:pick] + names[pick + 1:])
        s.say.lost(found[0 if pick else 1][0], f'module {others}: a comment here; run again with '
                                               '-m for a source of its own')
    if first.at:
        s.say.change(s.t[0], 'text before MODULE', 'comments')
        s.slashes(0, first.at)
    if behind.kind != 'eof':
        if not names[1:]:
            s.say.change(behind, 'text after END', 'comments')
        s.slashes(behind.at, len(s.t) - 1)
    return first, behind


def fix_reserved_names(s: Names) -> None:
    """Names that are reserved words here, renamed wherever they stand."""
    places: dict[str, list[Token]] = {}
    for x in s.t[:-1]:
        if x.kind == 'id' and x.word in RESERVED:
            places.setdefault(x.word, []).append(x)
            before = s.t[x.at - 1] if x.at else x
            apart = before.text in (';', ',', '!') or '\n' in x.blanks and before.kind != 'id'
            if apart and s.next(x).word in (',', 'PIN', 'NODE', '=', 'ISTYPE'):
                s.renamed.add(x.word)
    for word in s.renamed:
        new = {text: s.free(text, '_') for text in dict.fromkeys(x.text for x in places[word])}
        for x in places[word]:
            x.out = new[x.text]
        first = places[word][0]
        s.say.change(first, f'the name {first.text}, a reserved word', first.out)


def fix_head(s: Names) -> None:
    module = s.module
    for tokens in module.options:
        s.drop(tokens[0], tokens[-1], 'before TITLE it is no syntax, and it has no effect')
    if module.arguments:
        s.say.change(module.arguments[0], squeeze(module.arguments),
                     'nothing: a module has no arguments')
        s.blank(module.arguments)
    bound = {name for macro in s.macros.values() for name in macro.parameters}
    for name in [x.text for x in module.arguments if x.kind == 'id' and x.text not in bound]:
        for x in s.t:
            if '?' + name in x.text and x.out:
                s.say.cant(x, f'?{name}, an argument of the module: run with -a {name}=TEXT')


def defaults(text: str) -> list[str]:
    """Arguments of a module of which it asks by @IFB or @IFNB whether they are given."""
    lists = re.findall(r'\bmodule\s+[\w~]+\s*\(([^)]*)', text, re.I)
    asked = ' '.join(re.findall(r'@ifn?b\s*\(\s*(\?[\w~]+)', text, re.I))
    return [n for names in lists for n in re.findall(r'[\w~]+', names)
            if re.search(r'\?%s(?![\w~])' % re.escape(n), asked)]


def devices(s: Names) -> list[str]:
    return [d.first.text for d in s.module.declarations if d.kind == 'DEVICE']


def fix_devices(s: Names, chosen: str | None, elsewhere: bool) -> None:
    """Makes comments of the parts of all devices but one, and of constants that name these."""
    module, names = s.module, devices(s)
    wanted = chosen or ''.join(names[:1])
    if chosen and chosen not in names:
        raise Stop(f'no device {chosen}')
    found = [d for d in module.declarations if d.kind == 'DEVICE']
    others: set[Part] = {d for d in found if d.first.text != wanted}
    if len(found) > 1 and not elsewhere:
        s.say.lost(found[1].first, f"device {', '.join(n for n in names if n != wanted)}: a "
                                   'comment here; run again with -d for a source of its own')
    for d in others:
        s.comment(d.first, d.last)
    gone: set[str] = set()
    for part in [*module.declarations, *module.parts]:
        if part.owner and part.owner[1].text == wanted:
            s.say.change(part.owner[0], 'in ' + wanted, 'nothing: there is one device')
            s.blank(part.owner)
            part.owner[0].join()
        elif part.owner:
            s.drop(part.first, part.last, 'of device ' + part.owner[1].text)
            others.add(part)
            gone.update(part.names if isinstance(part, Declaration) else ())
    more = [d for d in module.declarations if foreign(d, gone) and d not in others]
    while more:
        for d in more:
            s.drop(d.first, d.last, 'of another device')
            gone |= foreign(d, gone)
        others.update(more)
        more = [d for d in module.declarations if foreign(d, gone) and d not in others]
    for name in gone:
        s.signals.pop(name, None)
    module.declarations = [d for d in module.declarations if d not in others]
    module.parts = [part for part in module.parts if part not in others]
    s.assignments = [a for a in s.assignments
                     if not any(p.first.at <= a.first.at <= p.last.at for p in others)]


def foreign(d: Declaration, gone: set[str]) -> set[str]:
    """The names of a constant or of ISTYPE that stand for what another device has."""
    if d.kind == 'ISTYPE':
        return set(d.names) & gone
    return {n for n, value in zip(d.names, d.values) if {x.text for x in value} & gone}
