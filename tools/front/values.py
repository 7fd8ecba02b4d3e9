"""What the proved program `lot` says of one recording, as values with one key each: a file bears its number, a row of the glossary its
command's name, and in edition 2 what belongs to a rank that rank's, as rank1_edge. The program is handed numbered files and prints no name,
so that none can make a line."""

import json
import re

from files import shown
from programs import answer
from words import REFUSALS, TROUBLES

STATUS = ['idle', 'open', 'closing']
READING = {
    'mr0': ['a1a0', 'interleave', 'cl', 'dll_reset', 'wr', 'a12'],
    'mr1': ['a4a3', 'a1', 'a9a6a2', 'a11', 'a12', ''],
    'mr2': ['cwl', 'a6', 'a7', 'a10a9', 'a2a1a0', ''],
}

# Codes, rows, addresses, levels and bytes are digits and no numbers.
DIGITS = re.compile(r'levels_\w+|\w+_(address|row|bytes|pins)|(rank[12]_)?mr[0-3]')

RANKS = ['1', '2']
AS_SEEN = {'1': b'--list', '2': b'--second'}  # records as this rank sees them


def printed(names, *words):
    """Name and value of each line that the program prints."""
    given = [b'./' + name if name.startswith(b'-') else name for name in names]
    return taken_apart(answer('lot', [], *words, *given))


def taken_apart(text):
    return [line.split(' ', 1) for line in text.decode().splitlines()]


def said(names, run=printed):
    """The values of the recording that stands in these files, in order. run: runs the program and takes its lines apart."""
    found = keyed(run(names))
    for own in ranks(found):
        if own['outcome'] == 'broken':
            found.update({f'{prefix(own)}{key}': value for key, value in records(own, names, run)})
    if 'outcome' not in found:
        found['outcome'] = 'broken' if 'broken' in (own['outcome'] for own in ranks(found)) else 'clean'
    return with_names(found, names)


def prefix(own):
    return f'rank{own["rank"]}_' if 'rank' in own else ''


def ranks(found):
    """What is known of each rank, under the keys of a recording of one. One of edition 1, or that has no verdict, is its own."""
    if 'rank1_outcome' not in found:
        return [found]
    shared = {key: value for key, value in found.items() if not key.startswith('rank') and key != 'outcome'}
    return [{**shared, **{key[len('rank1_'):]: value for key, value in found.items() if key.startswith(f'rank{rank}_')}, 'rank': rank} for rank in RANKS]


def records(own, names, run):
    """The two records of a break; where it is a deadline, those on either side of its edge."""
    wanted, rank = {'record': int(own['record']), 'partner': int(own['partner'])}, own.get('rank', '1')
    if own['record'] == '0':
        before = int(dict(run(names, AS_SEEN[rank], b'1', b'0', own['edge'].encode()))['records_before'])
        wanted |= {'earlier': before, 'later': before + 1}
    for what, number in wanted.items():
        for record in listed(names, number, number, rank, run):
            yield what, str(record['number'])
            for key, value in record.items():
                if key != 'number':
                    yield from laid(f'{what}_{key}', value).items()


def listed(names, first, last, rank='1', run=printed):
    """The records with these numbers as the rank sees them, each a dictionary."""
    found = []
    for key, value in run(names, AS_SEEN[rank], b'%d' % first, b'%d' % last, b'0'):
        if key == 'list':
            found.append({'number': int(value)})
        elif key.startswith('list_'):
            found[-1][key[len('list_'):]] = value
    return found


def keyed(lines):
    """Each value under a key of its own."""
    found = {}
    file, command, patterns, rank = '', '', {}, ''
    for key, value in lines:
        if key == 'rank':
            rank, patterns = f'rank{value}_', {}
        elif key == 'file':
            file = value
            found[f'file{file}'] = value
        elif key.startswith('file_'):
            found[f'file{file}_{key[5:]}'] = value
        elif key == 'row':
            command = value
            patterns[command] = patterns.get(command, 0) + 1
        elif key == 'row_levels':
            found[f'levels_{command}_{patterns[command]}'] = value
        elif key == 'row_meaning':
            found[f'meaning_{command}'] = value
        elif key.startswith('row_'):
            found[f'{rank}{key[4:]}_{command}'] = value
        else:
            found.update({f'{rank}{name}': text for name, text in laid(key, value).items()})
    return found


def laid(key, value):
    """A value in the form in which it is told: a bank's state in words, a register's fields by name, the debt, the reason of a refusal."""
    if re.fullmatch(r'bank\d', key):
        return {key: STATUS[int(value)]}
    if key.endswith('_reading'):
        names = READING.get(key[:3], [])
        return {f'{key[:3]}_{name}': number for name, number in zip(names, value.split(' ')) if name}
    if key == 'debt_plus_8':
        return {'debt': str(int(value) - 8)}
    if key == 'why':
        return {key: TROUBLES.get(value, value)}
    if key == 'refused':
        return {key: value, 'why': REFUSALS[int(value)]}
    if key.endswith('_pins'):
        return {key: f'{int(value):04b}'}
    return {key: value}


def with_names(found, names):
    """The files' names, as they are shown, in the place of their numbers."""
    return {key: shown(names[int(value) - 1]) if is_file(key) else value for key, value in found.items()}


def is_file(key):
    return re.fullmatch(r'file\d+|\w+_file', key)


def lines(found):
    return ''.join(f'{key} {value}\n' for key, value in found.items()).encode('utf-8', 'surrogateescape')


def as_json(found):
    def typed(key, value):
        if re.fullmatch(r'-?\d+', value) and not DIGITS.fullmatch(key) and not is_file(key):
            return int(value)
        return value
    return (json.dumps({key: typed(key, value) for key, value in found.items()}, indent=1) + '\n').encode()
