"""A source, the order of its rewritings, and what abel will refuse of it."""
from __future__ import annotations

from .declarations import fix_attributes, fix_parts, fix_pins
from .devices import fix_device
from .directives import Walk
from .equations import fix_enables, fix_extensions
from .head import fix_devices, fix_head, fix_reserved_names, one_module
from .macros import fix_asking, fix_operators
from .module import Module
from .names import Names
from .registers import Registers
from .states import States
from .tables import EITHER, PRESETS, RESETS, UNREAD
from .text import Report
from .tokens import SIGNS, Token
from .vectors import fix_vectors


class Source(Names):
    """Read in full before anything but directives is rewritten."""

    def __init__(self, text: str, path: str, report: Report, module: str | None = None,
                 elsewhere: bool = False) -> None:
        super().__init__(text, path, report)
        self.elsewhere = elsewhere
        first, behind = one_module(self, module, elsewhere)
        fix_asking(self, behind)
        fix_reserved_names(self)
        self.walk = Walk(self)
        self.macros = self.walk.macros
        flat: list[Token] = []
        self.walk.run(first.at, behind, flat)
        end = Token('eof', '', '', behind.line, behind.file)
        end.at = behind.at
        self.module = Module(self, flat, end)
        self.module.read()
        self.assignments = [*self.module.assignments]
        for macro in self.walk.all:
            if any(x.text == ';' or x.text in SIGNS for x in macro.body):
                inside = Module(self, macro.body, self.t[-1])
                conditions = any(x.word == 'WHEN' for x in macro.body)
                for _ in inside.turns(''):
                    inside.statement(conditions)
                self.assignments += inside.assignments

    def rewrite(self, device: str | None = None) -> str:
        fix_head(self)
        fix_operators(self, self.walk)
        fix_devices(self, device, self.elsewhere)
        fix_device(self)
        fix_parts(self)
        fix_pins(self)
        fix_attributes(self)
        fix_enables(self)
        fix_extensions(self)
        Registers(self).run()
        fix_vectors(self)
        States(self).run()
        look(self)
        return self.text()


def look(s: Names) -> None:
    """Says what abel will refuse, by the lines of the old source."""
    loops(s)
    unread(s)
    if s.device in EITHER:
        other_resets(s)
    for table in s.module.of('TRUTH_TABLE'):
        if table.double:
            s.say.cant(table.first, 'a table with :> and ->: write two tables')


def loops(s: Names) -> None:
    """Equations that read themselves; those of macros are not looked at."""
    reads: dict[str, set[str]] = {}
    places: dict[str, Token] = {}
    kept, done = set(s.assignments), s.registers
    for a in s.module.assignments:
        if a in kept and a.sign.text in ('=', '?=') and not a.enables \
                and a.extension in ('', '.COM'):
            names = s.targets(a)
            same = s.members([x for x in a.right if x.kind != 'ext']) or []
            each = [{n} for n in same] if len(same) == len(names) else [s.reads(a.right)]
            for name, read in zip(names, each if len(each) == len(names) else []):
                reads.setdefault(name, set()).update(read)
                places.setdefault(name, a.first)
    for name in reads:
        path: set[str] = set()
        more = {name} - done
        while more:
            path |= more
            more = {r for n in more for r in reads[n] if r in reads} - s.registers - path
        if any(name in reads[n] for n in path):
            s.say.cant(places[name], f'{name} reads itself without a clock, as a latch does '
                                     '(HAZARDS.md, Latches)')
            done = done | path


def unread(s: Names) -> None:
    """Pins that have no way into the array, or must not be read."""
    values = [a.right for a in s.assignments] + [t.left for t in s.module.of('TRUTH_TABLE')]
    read = {name for value in values for name in s.reads(value)}
    for pin in UNREAD.get(s.device, ()):
        name = s.on(pin)
        if name in read and name:
            s.say.cant(s.signals[name].token, f"{name}: pin {pin} of a {s.device} can't be read: "
                                              'move it (DEVICES.md)')


def other_resets(s: Names) -> None:
    resets = s.extended(*RESETS, *(PRESETS if s.held else ()))
    named = {n for a in resets for n in s.targets(a)}
    left = sorted(n for n in s.registers - named if n in s.signals)
    if named and left:
        first = next(a for a in reversed(resets) if s.targets(a)).first
        s.say.note(first, 'the reset is that of all registers, so also of ' + ', '.join(left))
