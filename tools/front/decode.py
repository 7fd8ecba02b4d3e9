"""Recordings of either edition taken apart, record by record. None of this is proved; whatever is judged or counted goes through the proved programs."""

from files import Unreadable, parts, shown
from layout import EDITIONS, HEADER, edition_of


def joined(names):
    """The bytes of the files, one after the other."""
    for name in names:
        yield from parts(name)


def opened(names):
    """The header and the layout of the recording that begins in the first file."""
    first = b''
    for part in parts(names[0]):
        first += part[:HEADER - len(first)]
        if len(first) == HEADER:
            break
    if len(first) < HEADER:
        raise Unreadable(f'{shown(names[0])}: the header is not 6 bytes')
    edition = edition_of(first)
    if edition not in EDITIONS:
        raise Unreadable(f'{shown(names[0])}: there is no edition {edition}')
    return first, EDITIONS[edition]


def records(some, layout):
    """Edge and word of each record; some: the bytes behind the header, part after part."""
    size, below, bits, edge, rest = layout.size, layout.below, (1 << layout.below) - 1, 0, b''
    for part in some:
        data = rest + part
        whole = len(data) - len(data) % size
        for at in range(0, whole, size):
            word = int.from_bytes(data[at:at + size], 'big')
            edge += word >> below
            yield edge, word & bits
        rest = data[whole:]


def behind_header(some):
    """The bytes without the first six."""
    left = HEADER
    for part in some:
        yield part[left:]
        left = max(0, left - len(part))
