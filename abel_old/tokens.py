"""The text as tokens, each with the blanks and comments before it."""
from __future__ import annotations

import re
from typing import Callable, Iterable

TOKEN = re.compile(r"""(?P<blanks>(?:[ \t\r\n\f\x1a]+|"[^"\n]*"?|//[^\n]*)*)(?:
  (?P<str>'(?:\\.|[^'\\])*'?)
| (?P<dir>@[A-Za-z_]\w*)
| (?P<spec>\.[Ss][Vv]\d\.|\.[A-Za-z]\.)
| (?P<op>\?:=|:\+:|:\*:|\?=|:=|->|:>|!\$|==|!=|<=|>=|<<|>>|\.\.)
| (?P<ext>\.(?:[A-Za-z_~]|\?[A-Za-z_])[\w~?]*)
| (?P<num>\^[bodhBODH][\w?]+|\d(?:\w|\?[A-Za-z_])*)
| (?P<id>(?:[A-Za-z_~]|\?[A-Za-z_~])(?:[\w~]|\?[A-Za-z_~])*)
| (?P<one>.)
| (?P<eof>\Z))
""", re.X | re.S | re.A)
COMMENT = re.compile(r'"[^"\n]*"?|//[^\n]*')
APART = re.compile(r'["\n]|//')          # blanks with a line end or a comment in them
SIGNS = {'=', ':=', '?=', '?:='}


class Stop(Exception):
    """The source can't be read on."""


class Token:
    """`text` is never changed; `before`, `out` and `after` are what is written in its place."""
    __slots__ = ('kind', 'text', 'word', 'blanks', 'line', 'file', 'before', 'out', 'after',
                 'alternate', 'radix', 'at')

    def __init__(self, kind: str, text: str, blanks: str, line: int, file: str = '') -> None:
        self.kind, self.text, self.blanks, self.line, self.file = kind, text, blanks, line, file
        self.word = text.upper() if kind in ('id', 'ext', 'dir', 'spec') else text
        self.before, self.out, self.after = '', text, ''
        self.alternate, self.radix, self.at = False, 10, 0

    @property
    def untouched(self) -> bool:
        return self.out == self.text

    def join(self) -> None:
        """Takes the blanks before it away, unless a line end or a comment is in them."""
        if not APART.search(self.blanks):
            self.blanks = ''


def cut(text: str, file: str = '') -> list[Token]:
    """The tokens, of which the last is the end."""
    tokens: list[Token] = []
    line = 1
    for found in TOKEN.finditer(text):
        kind = found.lastgroup or ''
        line += found['blanks'].count('\n')
        tokens.append(Token('op' if kind == 'one' else kind, found[kind], found['blanks'], line,
                            file))
        line += found[kind].count('\n')
        if kind == 'eof':
            break
    return tokens


def joined(tokens: Iterable[Token], text: Callable[[Token], str]) -> str:
    """The texts of the tokens, without the blanks before the first."""
    return ''.join((x.blanks if k else '') + text(x) for k, x in enumerate(tokens))


def raw(tokens: Iterable[Token]) -> str:
    """The old text."""
    return joined(tokens, lambda x: x.text)


def written(tokens: Iterable[Token]) -> str:
    """The new text."""
    return joined(tokens, lambda x: x.before + x.out + x.after)


def squeeze(tokens: Iterable[Token]) -> str:
    """The old text as the report shows it: in one line, without comments, not too long."""
    text = raw(tokens)
    text = re.sub(r'\s+', ' ', text if "'" in text else COMMENT.sub(' ', text)).strip()
    return text if len(text) <= 90 else text[:60] + ' .. ' + text[-24:]


def number(token: Token) -> int | None:
    """The value of a number in the radix that holds at it."""
    try:
        if token.text[:1] == '^':
            return int(token.text[2:], {'b': 2, 'o': 8, 'd': 10, 'h': 16}[token.text[1].lower()])
        return int(token.text, token.radix)
    except ValueError:
        return None


def numeral(value: int, token: Token) -> str:
    """The value as a number that is read alike in the radix that holds at the token."""
    return str(value) if value < 2 or token.radix == 10 else f'^d{value}'


def split(tokens: Iterable[Token]) -> list[list[Token]]:
    """The parts between the commas outside of brackets, also empty ones."""
    parts: list[list[Token]] = [[]]
    depth = 0
    for x in tokens:
        depth += (x.text in ('(', '[')) - (x.text in (')', ']'))
        if x.text == ',' and depth == 0:
            parts.append([])
        else:
            parts[-1].append(x)
    return parts
