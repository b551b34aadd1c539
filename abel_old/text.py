"""The text of a source, its edits, and the report of them."""
from __future__ import annotations

import os
import re
from typing import Sequence, TextIO

from .tables import GONE
from .tokens import APART, Stop, Token, cut, raw, squeeze, written

LONGEST = 31                  # bytes of a name
TOO_LONG = 500000             # tokens, with all that is included


class Report:
    """`level` is the largest status so far; `vectors_lost` counts test vectors."""

    def __init__(self) -> None:
        self.level, self.vectors_lost = 0, 0
        self.lines: dict[tuple[bool, str, int, int, str], None] = {}

    def put(self, token: Token, text: str, level: int = 0) -> None:
        self.level = max(self.level, level)
        self.lines[token.file != '', token.file, token.line, token.at, text] = None

    def change(self, token: Token, was: str, now: str) -> None:
        self.put(token, f'{was} / {now}')

    def note(self, token: Token, text: str) -> None:
        self.put(token, 'note ' + text)

    def lost(self, token: Token, text: str) -> None:
        self.put(token, 'lost ' + text, 1)

    def cant(self, token: Token, text: str) -> None:
        self.put(token, "can't " + text, 2)

    def show(self, out: TextIO) -> None:
        for _, file, line, _, text in sorted(self.lines, key=lambda entry: entry[:4]):
            out.write(f'{file}:{line}: {text}\n' if file else f'{line}: {text}\n')


class Text:
    """The tokens of a source; `say` is the report."""

    def __init__(self, text: str, path: str, report: Report) -> None:
        self.path, self.say, self.t = path, report, cut(text)
        self.included: list[str] = []
        self.used: set[str] = set()
        self.number()

    def number(self) -> None:
        for i, x in enumerate(self.t):
            x.at = i
        self.used |= {x.text for x in self.t}

    def look(self, i: int) -> Token:
        """The token at i, or the end."""
        return self.t[i] if i < len(self.t) else self.t[-1]

    def next(self, token: Token) -> Token:
        return self.look(token.at + 1)

    def ending(self, last: Token) -> Token:
        """The ; behind a token, otherwise the token."""
        return self.next(last) if self.next(last).text == ';' else last

    def between(self, first: Token, last: Token) -> list[Token]:
        return self.t[first.at:last.at + 1]

    def close(self, i: int) -> int:
        """The index of the bracket that closes the one at i."""
        opener = self.look(i).text
        closer = {'(': ')', '[': ']', '{': '}'}.get(opener)
        depth = 0
        for k in range(i, len(self.t) if closer else i):
            if self.t[k].kind == 'op':
                depth += (self.t[k].text == opener) - (self.t[k].text == closer)
                if depth == 0:
                    return k
        raise Stop(f"{self.look(i).line}: a {opener or 'block'} without its end")

    def drop(self, first: Token, last: Token, why: str = GONE, lost: bool = False) -> None:
        """Makes a comment of it, and says so."""
        was = squeeze(self.between(first, last))
        self.comment(first, last)
        if lost:
            self.say.lost(first, f'{was}: {why}')
        else:
            self.say.change(first, was, 'a comment: ' + why)

    def comment(self, first: Token, last: Token) -> None:
        """Makes comments of it, one for each run between line ends and comments."""
        i = first.at
        while i <= last.at:
            end = i + 1
            while end <= last.at and not APART.search(self.t[end].blanks):
                end += 1
            text = raw(self.t[i:end]).replace('"', "'").replace('\n', '"\n"')
            self.blank(self.t[i:end])
            self.t[i].out = f'"{text}"'
            i = end

    def blank(self, tokens: Sequence[Token]) -> None:
        """Leaves nothing of these but line ends and comments."""
        for k, x in enumerate(tokens):
            x.before = x.out = x.after = ''
            if k:
                x.join()

    def slashes(self, first: int, end: int) -> None:
        """Makes line comments of the tokens from first up to end."""
        tokens = self.t[first:end]
        lines = raw(tokens).split('\n')
        for k, x in enumerate(tokens):
            x.out, x.blanks = '', '' if k else x.blanks
        tokens[0].out = '\n'.join(
            '// ' + s if s.strip() and not s.lstrip().startswith('//') else s for s in lines)
        if end < len(self.t) - 1 and '\n' not in self.t[end].blanks:
            tokens[-1].after = '\n'

    def include(self, first: Token) -> int:
        """Puts the text of a file behind its @INCLUDE; the index of what is next."""
        name = self.next(first)
        last = self.ending(name)
        was = squeeze(self.between(first, last))
        base = name.text.strip("'").replace('\\', '/').split('/')[-1]
        folder = os.path.dirname(self.path) or '.'
        paths = [path for file in sorted(os.listdir(folder)) if file.lower() == base.lower()
                 and os.path.isfile(path := os.path.join(folder, file))]
        if not paths:
            self.say.cant(first, f'{was}: no such file beside {os.path.basename(self.path)}')
            return last.at + 1
        if len(self.t) > TOO_LONG or self.included.count(base) > 20:
            raise Stop(f'{first.line}: {base} includes itself')
        self.say.change(first, was, 'its text')
        self.comment(first, last)
        last.after += '\n'
        self.included.append(base)
        with open(paths[0], encoding='latin-1', newline='') as opened:
            text = opened.read().replace('\r\n', '\n').rstrip('\x1a')
        more, after = cut(text, base), self.next(last)
        rest = more.pop().blanks.rstrip('\x1a')
        after.blanks = (rest.rstrip('\n') if rest.strip('\r\n') else '') + after.blanks
        self.t[last.at + 1:last.at + 1] = more
        self.number()
        return last.at + 1

    def library(self, first: Token) -> None:
        """A comment, if a file of this name is included."""
        name = self.next(first)
        base = name.text.strip("'")
        if base.lower() in [x.lower().split('.')[0] for x in self.included]:
            self.drop(first, self.ending(name), 'its text is here already')
        else:
            self.say.cant(first, f'{squeeze([first, name])}: put the text of {base}.inc here')

    def told(self, tokens: list[Token], was: str) -> None:
        """Says what was written in place of a statement."""
        now = re.sub(r'"[^"]*"', ' ', written(tokens))
        self.say.change(tokens[0], was, re.sub(r'\s+', ' ', now).strip())

    def free(self, name: str, ending: str, digits: Sequence[str] = ('',)) -> str:
        """What begins so and, with each of the digits behind it, is a new name."""
        room = LONGEST - max(map(len, digits))
        while True:
            new = name[:room - len(ending)] + ending
            names = {new + digit for digit in digits}
            if not names & self.used:
                self.used |= names
                return new
            ending += '_'

    def text(self) -> str:
        return ''.join(x.blanks + x.before + x.out + x.after for x in self.t)
