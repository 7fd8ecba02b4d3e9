"""A recording moved from one edition to the other by the proved program: written beside, and put in its place if nothing was refused."""

import os

from files import Unreadable, refuse_at_once, shown
from layout import EDITIONS, HEADER
from programs import Failed, built, written_by
from words import REFUSALS, TROUBLES
from written import beside, refuse_over

TO = {'widen': 2, 'narrow': 1}


def moved(wanted):
    """The line that tells of it."""
    (name, out), to = wanted.files, TO[wanted.mode]
    refuse_at_once(name, twice=True)
    refuse_over(out, [name])
    built('mover')
    with beside(out) as (file, _):
        said = written_by('mover', file, wanted.mode.encode(), b'./' + name if name.startswith(b'-') else name)
        if said:
            raise Unreadable(f'{shown(name)}: {reason(said, 3 - to)}')
        size = os.fstat(file.fileno()).st_size
    return [f'{shown(out)}: edition {to}, {(size - HEADER) // EDITIONS[to].size} records']


def reason(said, edition):
    """What the program says of a recording of another edition than this, or that cannot be moved, in words."""
    word, _, value = said.strip().partition(' ')
    if word == 'why' and value in TROUBLES:
        return TROUBLES[value]
    if word != 'refused' or not value.isdigit() or int(value) not in REFUSALS:
        raise Failed('the program gave no answer')
    return f'refused {value}: ' + (f'the edition is not {edition}' if value == '2' else REFUSALS[int(value)])
