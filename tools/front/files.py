"""The files of a recording: that each can be read, what it is called in print, and its bytes one part after the other."""

import hashlib
import os
import stat
import sys

PART = 1 << 16


class Unreadable(Exception):
    """A file that cannot be judged, with the reason in words."""


class Damaged(Unreadable):
    """A capture that no recording can be made of, with the reason in words; whoever opened it adds its name."""


def shown(name):
    """A file's name for a line of text: no name can make a line or hide what it is."""
    text = name.decode('utf-8', 'surrogateescape')
    return ''.join(c if c.isprintable() and c != '\\' else escaped(c) for c in text)


def escaped(c):
    if c == '\\':
        return '\\\\'
    raw = c.encode('utf-8', 'surrogateescape')
    return ''.join(f'\\x{byte:02x}' for byte in raw)


def refuse_at_once(name, twice):
    """Raises where a file is none, cannot be read, or would keep the reader waiting. twice: it will be read more than once."""
    if name == b'-':
        if twice:
            raise Unreadable('-: it would be read twice; put standard input into a file')
        return
    try:
        kind = os.stat(name).st_mode
    except OSError as error:
        raise Unreadable(f'{shown(name)}: {reason(error)}') from None
    if stat.S_ISDIR(kind):
        raise Unreadable(f'{shown(name)}: this is a folder')
    if stat.S_ISFIFO(kind):
        if twice:
            raise Unreadable(f'{shown(name)}: it would be read twice, and this is a pipe')
        if not handed_over(name):
            raise Unreadable(f'{shown(name)}: a named pipe may keep a reader waiting; hand it over as standard input: judge - <FILE')
    if not os.access(name, os.R_OK):
        raise Unreadable(f'{shown(name)}: this file cannot be read')


def handed_over(name):
    """A pipe that is open already, as the shell's <(..) hands it over."""
    folder = os.path.realpath(os.path.dirname(os.path.abspath(name)))
    return folder == b'/dev/fd' or folder.startswith(b'/proc/') and folder.endswith(b'/fd') or name in (b'/dev/stdin', b'/dev/fd/0')


def reason(error):
    if isinstance(error, FileNotFoundError):
        return 'there is no such file'
    if isinstance(error, PermissionError):
        return 'this file cannot be read'
    return (error.strerror or 'it cannot be read').lower()


def parts(name):
    """The bytes of the file, part after part."""
    try:
        with sys.stdin.buffer if name == b'-' else open(name, 'rb') as file:
            while part := file.read(PART):
                yield part
    except OSError as error:
        raise Unreadable(f'{shown(name)}: {reason(error)}') from None


def hashed(some):
    """The SHA-256 of bytes that come part after part."""
    digest = hashlib.sha256()
    for part in some:
        digest.update(part)
    return digest.hexdigest()
