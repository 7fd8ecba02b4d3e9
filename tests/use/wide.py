"""./judge on recordings of edition 2, and its moves between the editions. Nothing here comes from the front end."""

import json
import os
import re
from pathlib import Path

ROOT = Path(__file__).resolve().parent.parent.parent
JUDGE = ROOT / 'judge'
P8 = (ROOT / 'crates/verdict/stdin').read_bytes()
P9 = P8[:-4] + b'\x05' + P8[-3:]
BROKEN, CLEAN, SAME = b'broken 10 7 6 529 5 4\n', b'clean 7 530\n', b'clean 7 529\n'
BRIEF = [line.split('\t') for line in (ROOT / 'tests/use/brief.txt').read_text().splitlines()]
README = (ROOT / 'README.md').read_text()

FIRST, SECOND, BOTH = (0, 1), (1, 0), (0, 0)  # what the other select is, by which rank is driven
STEP = 24
RANK = {'1': 'first rank', '2': 'second rank'}
# The SRE of the first rank is a power-down entry of the second; a PRE to both comes too soon behind the exit for both, by two rules.
APART = bytes.fromhex('2405dc000000' + '0000019100000000' + '000005f700000000' + '000003c200000000')


def widened(recording, to=FIRST, reset=1, odt=0):
    """In edition 2, to one rank or to both."""
    found = bytes([recording[0] & 15 | 2 << 4]) + recording[1:6]
    for at in range(6, len(recording), 6):
        word = int.from_bytes(recording[at:at + 6], 'big')
        own = word >> 22 & 1
        selects = [own | other for other in to]
        levels = reset << 7 | (word >> 23 & 1) << 6 | selects[0] << 5 | selects[1] << 4 | odt << 3 | word >> 19 & 7
        found += (word >> STEP << 40 | levels << 32 | (word & 0x7FFFF) << 13).to_bytes(8, 'big')
    return found


def judged(check, run, folder):
    """The two lines, the status of the worse, several files, and refusals."""
    for what, recording, lines, status in ('first', widened(P8), BROKEN + SAME, 1), ('second', widened(P8, SECOND), SAME + BROKEN, 1), \
            ('both', widened(P8, BOTH), BROKEN * 2, 1), ('clean', widened(P9, BOTH), CLEAN * 2, 0), ('unjudged', widened(P9, BOTH, 0, 1), CLEAN * 2, 0), \
            ('bit', widened(P9)[:-1] + b'\1', b'refused 14\n', 2), ('ragged', widened(P9)[:-2], b'refused 5\n', 2), ('edition 3', b'\x34' + P9[1:], b'refused 2\n', 2):
        (folder / what).write_bytes(recording)
        ran = run([JUDGE, what], folder)
        check(f'judge of edition 2, {what}: {ran}', (ran.stdout, ran.returncode, ran.stderr) == (lines, status, b''))
    ran = run([JUDGE, '--each', 'first', 'clean', 'bit', 'second'], folder)
    lines = b''.join(b'%b: rank %d: %b' % (name, rank, line) for name, *two in ((b'first', BROKEN, SAME), (b'clean', CLEAN, CLEAN)) for rank, line in enumerate(two, 1))
    lines += b'bit: refused 14\nsecond: rank 1: ' + SAME + b'second: rank 2: ' + BROKEN
    check(f'judge --each of edition 2: {ran}', (ran.stdout, ran.returncode) == (lines, 2))
    whole = widened(P8)
    for sizes, lines, status, word in ((14, 30), BROKEN + SAME, 1, b''), ((22, 33), b'refused 5\n', 2, b'part1 does not end between records'):
        names = parted(folder, whole, sizes)
        ran = run([JUDGE, *names], folder)
        check(f'judge of edition 2 cut at {sizes}: {ran}', (ran.stdout, ran.returncode) == (lines, status) and word in ran.stderr and bool(word) == bool(ran.stderr))
    (folder / 'more').write_bytes(whole + b'\0\0')
    ran = run([JUDGE, 'first', 'more'], folder)
    check(f'judge of two recordings of edition 2: {ran}', b'more begins with a header of its own' in ran.stderr)


def parted(folder, whole, sizes):
    places = [0, *sizes, len(whole)]
    names = [f'part{i}' for i in range(len(sizes) + 1)]
    for name, start, end in zip(names, places, places[1:]):
        (folder / name).write_bytes(whole[start:end])
    return names


def moved_places(line):
    """Of a line on a recording of edition 1 what it says of the same in edition 2."""
    return re.sub(r'r\.rec:0x([0-9a-f]+)', lambda place: f'r.rec:0x{6 + (int(place[1], 16) - 6) // 6 * 8:x}', line)


def with_rank(line, rank):
    """The rank behind the file and the offset."""
    return re.sub(r'^(r\.rec(?::0x[0-9a-f]+)?: )', rf'\1{RANK[rank]}: ', moved_places(line))


def in_words(check, run, folder):
    """Each rule's line, of both ranks; the values of each are those of edition 1 but for places and bytes."""
    for recording, line in BRIEF[::3]:
        (folder / 'r.rec').write_bytes(widened(bytes.fromhex(recording), BOTH))
        ran = run([JUDGE, '--brief', 'r.rec'], folder)
        wanted = ''.join(f'{with_rank(line, rank)}\n' for rank in RANK)
        check(f'judge --brief of edition 2: {ran}', (ran.stdout.decode(), ran.returncode, ran.stderr) == (wanted, 1, b''))
        found = json.loads(run([JUDGE, '--json', 'r.rec'], folder).stdout)
        (folder / 'r.rec').write_bytes(bytes.fromhex(recording))
        old = {key: value for key, value in json.loads(run([JUDGE, '--json', 'r.rec'], folder).stdout).items() if not key.endswith(('_byte', '_bytes'))}
        for rank in RANK:
            own = {key: found.get(f'rank{rank}_{key}', found.get(key)) for key in old}
            check(f'judge --json of edition 2, rank {rank} of {line}: {[(key, own[key], old[key]) for key in old if own[key] != old[key]]}', own == old)


def values(check, run, folder):
    """A value a line and one object, of the same keys, which README.md has."""
    keys = [key.replace('NAME', '[A-Z]+').replace('WHAT', '(record|partner|earlier|later)').replace('N', r'\d+')
            for key in re.findall(r'`(\w+)`', README.split('\n## The values\n')[1].split('\n## ')[0])]
    for what, recording in ('both', widened(P8, BOTH)), ('apart', APART), ('clean', widened(P9, BOTH)), ('bit', widened(P9)[:-1] + b'\1'):
        (folder / 'r.rec').write_bytes(recording)
        ran = run([JUDGE, '--lot', '--values', 'r.rec'], folder)
        found = dict(line.split(' ', 1) for line in ran.stdout.decode().splitlines())
        check(f'judge --values of edition 2, {what}: a key twice', len(found) == ran.stdout.count(b'\n'))
        whole = json.loads(run([JUDGE, '--json', 'r.rec'], folder).stdout)
        check(f'judge --json of edition 2, {what}', {key: str(value) for key, value in whole.items()} == found)
        for key in found:
            check(f'README.md has not the key {key}', any(re.fullmatch(form, re.sub(r'^rank[12]_', '', key)) for form in keys))
        outcomes = [found.get(key) for key in ('edition', 'rank1_outcome', 'rank2_outcome', 'outcome')]
        wanted = {'both': ['2', 'broken', 'broken', 'broken'], 'apart': ['2', 'broken', 'broken', 'broken'], 'clean': ['2', 'clean', 'clean', 'clean']}
        check(f'judge --values of edition 2, {what}: {outcomes}', outcomes == wanted.get(what, outcomes[:1] + [None, None, 'none']))
    check('README.md has not how a rank\'s keys begin', '`rank1_`' in README and '`rank2_`' in README)


def tables(check, run, folder):
    """Lists and stored reports."""
    (folder / 'r.rec').write_bytes(widened(P8, SECOND))
    for words, numbers in ('2-3', [2, 3]), ('around', [2, 3, 4, 5, 6, 7]), ('8-9', []):
        ran = run([JUDGE, '--list', words, 'r.rec'], folder)
        lines = ran.stdout.decode().splitlines()
        half = len(lines) // 2
        check(f'judge --list {words} of edition 2: {ran}', ran.returncode == 1 and [lines[0], lines[half]] == ['First rank', 'Second rank'])
        for table, name in (lines[:half], 'DES'), (lines[half:], None):
            shown = [int(line.split()[0].strip('*')) for line in table[2:]]
            check(f'judge --list {words} of edition 2: {table}', shown == numbers and all(name is None or f' {name} ' in line for line in table[2:]))
    (folder / 'r.rec').write_bytes(widened(P8)[:-1])
    ran = run([JUDGE, '--list', '6-7', 'r.rec'], folder)
    check(f'judge --list of edition 2, ragged: {ran}', ran.returncode == 2 and [line.split()[0] for line in ran.stdout.decode().splitlines()] == ['First', 'record', '6', 'Second', 'record', '6'])
    (folder / 'r.rec').write_bytes(widened(P8)[:2] + bytes(4) + widened(P8)[6:])
    ran = run([JUDGE, '--list', '6-7', 'r.rec'], folder)
    check(f'judge --list of a header that is refused: {ran}', ran.returncode == 2 and ran.stdout == b'' and ran.stderr.startswith(b'judge: r.rec:0x0: refused 4: ') and ran.stderr.count(b'\n') == 1)
    for name, recording in ('ranks', widened(P8)), ('ranks-apart', APART):
        (folder / 'r.rec').write_bytes(recording)
        ran = run([JUDGE, '--lot', 'r.rec'], folder)
        stored = (ROOT / f'tests/use/reports/{name}.txt').read_bytes()
        check(f'judge --lot, {name}: {ran}', (ran.stdout, ran.returncode, ran.stderr) == (stored, 1, b''))
    (folder / 'bit').write_bytes(widened(P9)[:-1] + b'\1')
    ran = run([JUDGE, '--lot', 'bit'], folder)
    check(f'judge --lot of a bit: {ran}', ran.stdout == b'No verdict. bit:0x36: refused 14: a bit of the record that must be 0 is 1\n' and ran.returncode == 2)


def there_and_back(check, run, folder):
    for what, old in ('p8', P8), ('p9', P9), ('none', P8[:6]), ('many', P9 + 12345 * bytes.fromhex('00100088abcd')):
        new = widened(old)
        for mode, given, wanted, edition in ('--widen', old, new, 2), ('--narrow', new, old, 1):
            (folder / '-in').write_bytes(given)
            ran = run([JUDGE, mode, '--', '-in', 'out'], folder)
            told = f'out: edition {edition}, {(len(old) - 6) // 6} records\n'.encode()
            check(f'judge {mode} of {what}: {ran}', (ran.stdout, ran.returncode, ran.stderr) == (told, 0, b'') and (folder / 'out').read_bytes() == wanted)


def refused(check, run, folder):
    """A refusal in words; what stood there stays, and nothing is left beside it."""
    new = widened(P9)
    for mode, given, said in ('--widen', new, 'refused 2: the edition is not 1'), ('--narrow', P9, 'refused 2: the edition is not 2'), ('--widen', P9[:5], 'refused 1: '), \
            ('--widen', b'', 'refused 1: '), ('--narrow', new[:5] + b'\1' + new[6:], 'refused 3: '), ('--narrow', b'\x24' + bytes(5), 'refused 4: '), \
            ('--widen', P9[:-1], 'refused 5: '), ('--narrow', new[:-2], 'refused 5: '), ('--widen', P9 + bytes(6), 'refused 6: '), ('--narrow', new + bytes(8), 'refused 6: '), \
            ('--narrow', new[:-1] + b'\1', 'refused 14: '), ('--narrow', widened(P9, BOTH), 'refused 13: '), ('--narrow', widened(P9, FIRST, 0), 'refused 13: '), \
            ('--narrow', widened(P9, FIRST, 1, 1), 'refused 13: '), ('--narrow', widened(P9 + 9999 * P9[6:12], FIRST) + widened(P9, BOTH)[6:], 'refused 13: '):
        (folder / 'in').write_bytes(given)
        for stood in b'as it was', None:
            (folder / 'out').unlink(missing_ok=True)
            if stood:
                (folder / 'out').write_bytes(stood)
            ran = run([JUDGE, mode, 'in', 'out'], folder)
            kept = (folder / 'out').read_bytes() == stood if stood else not (folder / 'out').exists()
            good = ran.returncode == 2 and ran.stdout == b'' and ran.stderr.startswith(f'judge: in: {said}'.encode()) and ran.stderr.count(b'\n') == 1
            check(f'judge {mode}, {said}: {ran}', good and kept and not list(folder.glob('.out*')))
    (folder / 'in').write_bytes(P9)
    for words, status, word in (['in'], 2, b'usage: judge'), (['in', 'out', 'more'], 2, b'usage: judge'), (['in', 'in'], 2, b'written over'), (['missing', 'out'], 2, b'no such file'), \
            (['.', 'out'], 2, b'folder'), (['-', 'out'], 2, b'twice'), (['in', '/no/such/out'], 3, b'cannot be written'), (['--each', 'in', 'out'], 2, b'--each'):
        ran = run([JUDGE, '--widen', *words], folder, stdin=open(os.devnull))
        check(f'judge --widen {words}: {ran}', ran.returncode == status and ran.stdout == b'' and word in ran.stderr)
    check('judge --widen wrote over what it read', (folder / 'in').read_bytes() == P9)


TESTS = [judged, in_words, values, tables, there_and_back, refused]
