"""Pictures, pages and exports of two ranks: each rank's break is drawn and marked as that of a recording of one rank."""

import json

from common import P8, P9, RULES, check, run
from drawings import Looked, texts
from exports import marked

TO = {'first': (0, 1), 'second': (1, 0), 'both': (0, 0)}  # what the selects are of a record that is one rank's, or both's


def widened(recording, to):
    """In edition 2, with RESET low and ODT high, which are not judged."""
    found = bytes([recording[0] & 15 | 2 << 4]) + recording[1:6]
    for at in range(6, len(recording), 6):
        word = int.from_bytes(recording[at:at + 6], 'big')
        first, second = (word >> 22 & 1 | other for other in TO[to])
        levels = (word >> 23 & 1) << 6 | first << 5 | second << 4 | 1 << 3 | word >> 19 & 7
        found += (word >> 24 << 40 | levels << 32 | (word & 0x7FFFF) << 13).to_bytes(8, 'big')
    return found


def drawn(folder, recording):
    """How it ended, and the words of the picture."""
    (folder / 'r.rec').write_bytes(recording)
    ran = run(folder, '--picture', 'r.svg', 'r.rec')
    return ran, texts((folder / 'r.svg').read_bytes())


def heads(words):
    return [line for line in words if 'Verdict: ' in line]


def breaks(folder):
    """A rank's picture has the numbers of the picture of edition 1; the rank that is not broken is left out."""
    for rule, recording in sorted(RULES.items()):
        _, old = drawn(folder, recording)
        numbers = [words for words in old if words.isdigit() or words.startswith(('found ', 'limit: ', 'rule ', 'record ', 'earlier record '))]
        for to, status in ('first', 1), ('second', 1), ('both', 1):
            ran, words = drawn(folder, widened(recording, to))
            found = heads(words)
            told = [f'{name} rank. Verdict: broken at ' for name in ('First', 'Second')]
            named = [told[0] in line or told[1] in line for line in found]
            check(f'the picture of rule {rule} of {to}: {ran} {found}', ran.returncode == status and all(named) and found)
            own = [line for line in found if f'by rule {rule} ' in line]
            check(f'the picture of rule {rule} of {to}: {found}', len(own) >= (2 if to == 'both' else 1))
            check(f'the picture of rule {rule} of {to} has not what it has in edition 1', set(numbers) <= set(words))


def clean(folder):
    """Both ranks' use of the bus; of the second that of its own select."""
    ran, words = drawn(folder, widened(P9, 'second'))
    check(f'the picture of two clean ranks: {ran}', ran.returncode == 0 and [line[:11] for line in heads(words)] == ['First rank.', 'Second rank'])
    check('the picture of two clean ranks has not both curves', words.count('Commands a microsecond') == 2)


def pages(folder):
    for what, recording, status in ('one break', widened(P8, 'second'), 1), ('two breaks', widened(P8, 'both'), 1), ('none', widened(P9, 'both'), 0):
        (folder / 'r.rec').write_bytes(recording)
        ran = run(folder, '--page', 'r.html', 'r.rec')
        content = (folder / 'r.html').read_text()
        looked = Looked(content)
        check(f'the page of two ranks, {what}: {ran} {looked.wrong} {looked.open}', ran.returncode == status and not looked.wrong and not looked.open)
        for word in 'First rank. Verdict: ', 'Second rank. Verdict: ', 'First rank: Commands', 'Second rank: Commands', 'First rank: Report', 'Second rank: Report', '<svg':
            check(f'the page of two ranks, {what}, has not {word}', word in content)
        check(f'the page of two ranks, {what}: ranks with a break', content.count('rank: Just before the broken edge') == {'one break': 1, 'two breaks': 2, 'none': 0}[what])


def exports(folder):
    """The marks of each rank, and both verdicts as a remark."""
    for rule in 10, 25, 31:
        for to in TO:
            (folder / 'r.rec').write_bytes(widened(RULES[rule], to))
            ran = run(folder, '--export', 'r.vcd', '--gap', '1000', 'r.rec')
            dump, found = (folder / 'r.vcd').read_bytes(), json.loads(run(folder, '--json', 'r.rec').stdout)
            check(f'the export of rule {rule} of {to}: {ran}', ran.returncode == 0 and dump.split(b'$comment ')[1].split(b' $end')[0].count(b' ; ') == 1)
            for rank, more in (1, ''), (2, '1'):
                own = {key[6:]: value for key, value in found.items() if key.startswith(f'rank{rank}_')}
                wanted = [[own['edge']], [own['partner_edge']] if own['partner'] else []] if own['outcome'] == 'broken' else [[], []]
                marks = [marked(dump, name + more, found['period_ps']) for name in ('BREAK', 'PARTNER')]
                check(f'rule {rule} of {to}: rank {rank} is marked at {marks}, not {wanted}', marks == wanted)


TESTS = [breaks, clean, pages, exports]
