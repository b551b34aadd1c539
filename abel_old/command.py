"""The command line."""
from __future__ import annotations

import argparse
import os
import re
import sys

from .head import defaults, devices, modules
from .names import Names
from .source import Source
from .text import Report
from .tokens import Stop, Token

USAGE = """abel-old [-d DEVICE] [-m MODULE] [-a NAME=TEXT].. [-diff | -check] IN
       abel-old [-a NAME=TEXT].. -o FOLDER IN"""
ABEL = os.path.join(os.path.dirname(os.path.dirname(os.path.abspath(__file__))), 'abel')
START = Token('', '', '', 1)


def argument(text: str) -> tuple[str, str]:
    name, sign, value = text.partition('=')
    if not sign:
        raise argparse.ArgumentTypeError('NAME=TEXT is needed')
    return name, value


def options(words: list[str]) -> argparse.Namespace:
    parser = argparse.ArgumentParser('abel-old', USAGE, add_help=False, allow_abbrev=False)
    for letter, name in (('-d', 'device'), ('-m', 'module'), ('-o', 'folder')):
        parser.add_argument(letter, dest=name)
    parser.add_argument('-a', dest='arguments', action='append', default=[], type=argument)
    modes = parser.add_mutually_exclusive_group()
    modes.add_argument('-diff', action='store_true')
    modes.add_argument('-check', action='store_true')
    parser.add_argument('path', metavar='IN')
    found = parser.parse_args(words)
    if found.folder and (found.diff or found.check or found.device or found.module):
        parser.error('with -o each device of each module is written')
    return found


def decoded(data: bytes, say: Report) -> str:
    """Each byte as a character; lines end in line feeds."""
    if data[:2] in (b'\xff\xfe', b'\xfe\xff'):
        raise Stop('1: UTF-16: save it as plain text')
    if data[:3] == b'\xef\xbb\xbf':
        data = data[3:]
        say.change(START, 'a byte-order mark', 'nothing')
    text = data.decode('latin-1')
    if '\r' in text and '\n' not in text:
        text = text.replace('\r', '\n')
        say.change(START, 'lines that end in a carriage return', 'in a line feed')
    return text


def with_arguments(text: str, given: list[tuple[str, str]], say: Report) -> str:
    """The texts of the module's arguments in their places; empty where the source has a default."""
    rest = [(name, '') for name in defaults(text) if name not in dict(given)]
    for name, value in given + rest:
        text, count = re.subn(r'\?%s(?![\w~])' % re.escape(name), lambda _: value, text)
        if (name, value) in rest:
            say.note(START, f"?{name} isn't given: the source has a default, which -a {name}=TEXT "
                            'changes')
        elif count:
            say.change(START, '?' + name, f'{value}, {count} times')
    return text


def everything(folder: str, path: str, text: str, say: Report) -> None:
    """Writes each device of each module to a file of its own, which may not be there yet."""
    found: dict[str, tuple[str, Report]] = {}
    whole = Names(text, path, Report())
    for first, _ in modules(whole):
        name = whole.next(first).text
        names: list[str | None] = [*devices(Source(text, path, Report(), name, True))]
        for device in names or [None]:
            told = Report()
            out = Source(text, path, told, name, True).rewrite(device)
            file = os.path.join(folder, (f'{name}_{device}' if names[1:] else name) + '.abl')
            if file in found:
                raise Stop(f'{file} would be written twice')
            found[file] = out, told
    for file, (out, told) in found.items():
        with open(file, 'xb') as opened:
            opened.write(out.encode('latin-1'))
        sys.stderr.write(file + '\n')
        told.show(sys.stderr)
        say.level = max(say.level, told.level)


def difference(path: str, old: str, new: str) -> str:
    from difflib import unified_diff
    lines = unified_diff(old.splitlines(True), new.splitlines(True), path, path + ' (new)')
    return ''.join(x if x.endswith('\n') else x + '\n\\ No newline at end of file\n'
                   for x in lines)


def abel(*words: str) -> str:
    """What abel reports: the one beside this package, otherwise that of the PATH."""
    import subprocess     # only where it is needed, as it takes time
    program = os.environ.get('ABEL') or (ABEL if os.path.exists(ABEL) else 'abel')
    done = subprocess.run([program, *words], stdout=subprocess.PIPE, check=False)
    return done.stdout.decode('latin-1').strip()


def verdict(new: str, say: Report) -> str:
    """Whether the source's own vectors agree with what comes out."""
    import tempfile
    with tempfile.TemporaryDirectory() as folder:
        source, file = os.path.join(folder, 'new.abl'), os.path.join(folder, 'new.jed')
        with open(source, 'wb') as opened:
            opened.write(new.encode('latin-1'))
        compiled = abel('compile', source, file)
        device = re.match(r'compiled (\S+) ', compiled)
        if not device:
            say.level = 2
            return 'refused: ' + (compiled or 'abel says nothing')
        told = abel('simulate', device[1], file)
    count = re.search(r'vectors (\d+) mismatches (\d+)$', told)
    if not count or count[2] != '0':
        say.level = 2
        return 'vectors disagree: ' + told.replace('\n', ', ')
    if count[1] == '0':
        return 'note no vectors: it compiles, and no more is known'
    return '%s vectors agree' % count[1]


def run(asked: argparse.Namespace, say: Report) -> None:
    with open(asked.path, 'rb') as opened:
        old = decoded(opened.read(), say)
    text = with_arguments(old, asked.arguments, say)
    if asked.folder is not None:
        return everything(asked.folder, asked.path, text, say)
    new = Source(text, asked.path, say, asked.module).rewrite(asked.device)
    if asked.check:
        lost = f', {say.vectors_lost} lost' if say.vectors_lost else ''
        print(f'{asked.path}: {verdict(new, say)}{lost}')
    else:
        shown = difference(asked.path, old, new) if asked.diff else new
        sys.stdout.buffer.write(shown.encode('latin-1'))


def main(words: list[str]) -> int:
    asked, say = options(words), Report()
    fault = ''
    try:
        run(asked, say)
    except (OSError, Stop) as stopped:
        say.level, fault = 2, f'abel-old: {stopped}\n'
    except RecursionError:
        say.level, fault = 2, 'abel-old: too much in this source is nested\n'
    say.show(sys.stderr)
    sys.stderr.write(fault)
    return say.level
