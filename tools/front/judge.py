"""./judge: judges recordings with the proved programs and tells clean from broken by its status. `judge --help` tells how."""

import os
import sys

from brief import told
from files import Unreadable, parts, refuse_at_once, shown
from identity import commit, kit
from layout import EDITIONS, HEADER, edition_of
from options import HELP, MOVES, USAGE, WRITES, Wrong, asked
from programs import Failed, answer, built
from records import around, table
from report import heading, report
from tell import complain
from values import RANKS, as_json, lines, listed, ranks, said

CLEAN, BROKEN, NONE, LOST = 0, 1, 2, 3
STATUS = {b'clean': CLEAN, b'broken': BROKEN, b'refused': NONE}
OUTCOME = {'clean': CLEAN, 'broken': BROKEN, 'none': NONE}


def status(text):
    """By the first words of the verdicts' lines, one a rank: the worst."""
    words = [line.split(b' ')[0] for line in text.splitlines()]
    if not words or not set(words) <= STATUS.keys():
        raise Failed('the program gave no verdict')
    return max(STATUS[word] for word in words)


def is_header(first):
    """Six bytes that opening takes: by themselves they are a recording of no records."""
    return len(first) == HEADER and set(answer('verdict', [first]).splitlines()) == {b'clean 0 0'}


def record_size(first):
    """Of a recording that begins so."""
    layout = EDITIONS.get(edition_of(first)) if first else None
    return (layout or EDITIONS[1]).size


def joined(names):
    """The files one after the other, each of whole records behind the header. It ends with one that is not, and the program then says so."""
    record = 0
    for i, name in enumerate(names):
        size, first = 0, b''
        for part in parts(name):
            record = record or record_size(part)
            if i and size < HEADER:
                first += part[:HEADER - size]
                if is_header(first):
                    begins_a_recording(name)
            size += len(part)
            yield part
        if size == 0:
            raise Unreadable(f'{shown(name)}: it is empty')
        if (size if i else size - HEADER) % record or i == 0 and size < HEADER:
            if len(names) > 1:
                complain(f'{shown(name)} does not end between records')
            return


def begins_a_recording(name):
    complain(f'{shown(name)} begins with a header of its own and is judged as more of the same recording; --each judges each file by itself')


def judge(names):
    for name in names:
        refuse_at_once(name, twice=False)
    built('verdict')
    line = answer('verdict', joined(names))
    return line, status(line)


def each(names):
    """One line a file, or in edition 2 one a rank, and the worst status."""
    built('verdict')
    worst = CLEAN
    for name in names:
        try:
            refuse_at_once(name, twice=False)
            text = answer('verdict', joined([name]))
            worst = max(worst, status(text))
        except Unreadable as error:
            complain(error)
            text, worst = b'none\n', max(worst, NONE)
        for line in of_file(text.splitlines()):
            write(shown(name).encode('utf-8', 'surrogateescape') + b': ' + line + b'\n')
    return b'', worst


def of_file(found):
    """The lines, with the rank before each where there are two."""
    return found if len(found) == 1 else [b'rank %d: %b' % (rank, line) for rank, line in enumerate(found, 1)]


def ready_to_report(names):
    for name in names:
        refuse_at_once(name, twice=True)
    built('lot')


def told_of(names):
    """The values, with a word on each file that begins with a header of its own."""
    ready_to_report(names)
    found = said(names)
    for i, name in enumerate(names, 1):
        if found.get(f'file{i}_headed') == '1':
            begins_a_recording(name)
    return found


def laid_out(wanted):
    """The values in the layout that is asked for."""
    found, last = told_of(wanted.files), shown(wanted.files[-1])
    if wanted.mode == 'json':
        text = as_json(found)
    elif wanted.mode == 'brief':
        text = text_of(told(own, last) for own in ranks(found))
    elif wanted.values:
        text = lines(found)
    else:
        text = text_of(report(found, last, wanted.every))
    return text, OUTCOME[found['outcome']]


def text_of(some):
    return ''.join(f'{line}\n' for line in some).encode('utf-8', 'surrogateescape')


def listing(wanted):
    found, tables = told_of(wanted.files), []
    if 'period_ps' not in found:
        raise Unreadable(told(found, shown(wanted.files[-1])))
    for own in seen_by(found):
        first, last = around(own) if wanted.range == (0, 0) else wanted.range
        tables += [*heading(own), *table(own, listed(wanted.files, first, last, own.get('rank', '1')), wanted.files)]
    return text_of(tables), OUTCOME[found['outcome']]


def seen_by(found):
    """Those who see the records: each rank, also where there is no verdict."""
    if found['outcome'] == 'none' and 'edition' in found:
        return [{**found, 'rank': rank} for rank in RANKS]
    return ranks(found)


def judged(names):
    """The values, where there is a verdict."""
    found = told_of(names)
    if found['outcome'] == 'none':
        raise Unreadable(told(found, shown(names[-1])))
    return found


def to_a_file(wanted):
    """Loads what these modes need only here, so that a plain verdict does not wait for it."""
    from writing import wrote
    some, outcome = wrote(wanted, lambda: judged(wanted.files))
    return text_of(some), OUTCOME[outcome]


def moved_to(wanted):
    from moving import moved
    return text_of(moved(wanted)), CLEAN


def version():
    return f'manilaply {commit()}\n{kit()}\n'.encode(), CLEAN


def write(text):
    sys.stdout.buffer.write(text)
    sys.stdout.buffer.flush()


def run(words):
    wanted = asked(words)
    if wanted.mode == 'help':
        return HELP.encode(), CLEAN
    if wanted.mode == 'version':
        return version()
    if wanted.mode == 'each':
        return each(wanted.files)
    if wanted.mode in ('lot', 'json', 'brief'):
        return laid_out(wanted)
    if wanted.mode == 'list':
        return listing(wanted)
    if wanted.mode in WRITES:
        return to_a_file(wanted)
    if wanted.mode in MOVES:
        return moved_to(wanted)
    return judge(wanted.files)


def main():
    if sys.stdout is None:
        complain('standard output is closed; the answer is lost')
        return LOST
    try:
        text, result = run([os.fsencode(word) for word in sys.argv[1:]])
        write(text)
        return result
    except Wrong as error:
        complain(error)
        print(USAGE, file=sys.stderr)
        return NONE
    except Unreadable as error:
        complain(error)
        return NONE
    except Failed as error:
        complain(error)
        return LOST
    except KeyboardInterrupt:
        return LOST
    except OSError as error:
        complain(f'the answer could not be written: {error.strerror}')
        return LOST


result = main()
try:
    sys.stdout and sys.stdout.flush()
except OSError:
    result = LOST
os._exit(result)
