"""A file that is written beside its place and put there when it is whole: a failure leaves what stood there as it was."""

import contextlib
import os
import tempfile

from files import Unreadable, shown
from programs import Failed


@contextlib.contextmanager
def beside(name):
    """An open file for reading and writing, and where it is meanwhile; it takes the name when the block ends well."""
    if name == b'-' or os.path.exists(name) and not os.path.isfile(name):
        raise Unreadable(f'{shown(name)}: only a file can be written here')
    folder, last = os.path.split(os.path.abspath(os.path.realpath(name)))
    try:
        handle, place = tempfile.mkstemp(dir=folder, prefix=b'.' + last[:100] + b'.')
    except OSError as error:
        raise Failed(f'{shown(name)}: it cannot be written: {error.strerror.lower()}') from None
    try:
        with open(handle, 'w+b') as file:
            yield file, place
        os.chmod(place, os.stat(name).st_mode & 0o777 if os.path.exists(name) else 0o666 & ~mask())
        os.replace(place, os.path.join(folder, last))
    except BaseException:
        with contextlib.suppress(OSError):
            os.unlink(place)
        raise


def refuse_over(name, others):
    """Raises where what is to be written is one of the files that are read."""
    for other in others:
        if os.path.exists(name) and os.path.exists(other) and os.path.samefile(name, other):
            raise Unreadable(f'{shown(name)}: it is read, and would be written over')


def mask():
    """What this process takes from the rights of a new file."""
    kept = os.umask(0)
    os.umask(kept)
    return kept
