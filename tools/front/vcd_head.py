"""The header of a value change dump (IEEE 1364): its unit of time and its wires."""

import re

from files import Damaged, escaped
from pins import Wire

UNITS = {b's': 10 ** 15, b'ms': 10 ** 12, b'us': 10 ** 9, b'ns': 10 ** 6, b'ps': 10 ** 3, b'fs': 1}  # in fs
NO_LEVELS = {b'real', b'realtime', b'string', b'event', b'parameter'}


def sections(text):
    """Keyword and content of each section of the header."""
    for found in re.finditer(rb'\$(\w+)\s+(.*?)\s*\$end\b', text, re.S):
        yield found[1], found[2]


def scale(text):
    """The unit of time in fs."""
    for kind, content in sections(text):
        if kind == b'timescale':
            found = re.fullmatch(rb'(1|10|100)\s*(s|ms|us|ns|ps|fs)', content)
            if not found:
                raise Damaged(f'its $timescale is {printable(content)[:40]}')
            return int(found[1]) * UNITS[found[2]]
    raise Damaged('it has no $timescale')


def wires(text):
    """The wires that the header declares, with their scopes."""
    scopes = []
    for kind, content in sections(text):
        if kind == b'scope':
            scopes.append(printable(content.split()[-1]))
        elif kind == b'upscope' and scopes:
            scopes.pop()
        elif kind == b'var':
            words = content.split()
            if len(words) >= 4 and words[0] not in NO_LEVELS and words[1].isdigit():
                yield wire(scopes, int(words[1]), words[2], b''.join(words[3:]))


def codes(text):
    """The codes that the header declares, of wires and of what has no levels."""
    return {content.split()[2] for kind, content in sections(text) if kind == b'var' and len(content.split()) >= 4}


def wire(scopes, size, code, reference):
    name, left, right = re.fullmatch(rb'(.*?)(?:\[(\d+)(?::(\d+))?\])?', reference, re.S).groups()
    if left is None and size > 1:
        left, right = size - 1, 0
    elif left is not None:
        left, right = int(left), int(left if right is None else right)
    return Wire('/'.join([*scopes, printable(name)]), code, left, right)


def printable(raw):
    """A name in which nothing can hide."""
    return ''.join(c if c.isprintable() else escaped(c) for c in raw.decode('utf-8', 'surrogateescape'))
