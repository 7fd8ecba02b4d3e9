"""The report for a person: the verdict first, how it comes about, then the tables."""

from brief import asleep, command, place, told
from layout import BINS
from sums import needed
from values import ranks
from words import OF_RANK, RULES


def ns(said, edge):
    """An edge in ns."""
    return ns_of(int(edge) * int(said['period_ps']))


def ns_of(ps):
    return f'{ps // 1000}.{ps % 1000:03d}'.rstrip('0').rstrip('.') + ' ns'


def at(said, edge):
    return f'edge {edge} ({ns(said, edge)})'


def hexed(text):
    return ' '.join(text[i:i + 2].upper() for i in range(0, len(text), 2))


def record(said, what, label):
    return (f'  {label} {said[what]}: {command(said, what)}, {at(said, said[what + "_edge"])}, CKE {said[what + "_cke_before"]} to {said[what + "_cke"]}, pins '
            f'{said[what + "_pins"]}, A {said[what + "_address"]}\n    {place(said, what)}: {hexed(said[what + "_bytes"])}')


def broken(said, last):
    rule = int(said['rule'])
    yield f'Verdict: broken at {at(said, said["edge"])} by rule {rule}: {RULES[rule]}'
    yield f'  {told(said, last)}'
    if rule not in (1, 2, 3, 23):
        yield from counts(said, rule)
    for what, label in ('record', 'record'), ('partner', 'earlier record'):
        if f'{what}_file' in said:
            yield record(said, what, label)
    if said['record'] == '0':
        for what, label in ('earlier', 'before that edge, record'), ('later', 'at or after it, record'):
            yield record(said, what, label) if f'{what}_file' in said else f'  {label} none'


def counts(said, rule):
    if rule == 24:
        greatest = 35100000 if said['hot'] == '1' else 70000000
        yield f'  limit: greatest tRAS {greatest} ps / {said["period_ps"]} ps, rounded down = {said["needed"]} clocks'
    elif rule == 25:
        yield f'  limit: a debt of 8; each {said["clocks_trefi"]} clocks awake one refresh falls due'
    elif rule in (28, 31):
        yield f'  limit: nine times tREFI, 9 x {said["clocks_trefi"]} = {said["needed"]} clocks' + (' awake' if rule == 31 else '')
        if rule == 31 and asleep(said):
            yield f'  edges from that REF: {int(said["found"]) + asleep(said)}, {asleep(said)} of them asleep, which do not count'
    else:
        sum_ = needed(said)
        yield f'  found {said["found"]}, needed {said["needed"]} clocks' + (f': {sum_}' if sum_ else '')


def part(said):
    hot = 'hot' if said['hot'] == '1' else 'not hot'
    return f'Part: bin {said["bin"]} (DDR3-{BINS[int(said["bin"])]}), {said["density_gb"]} Gb, x{said["width"]}, period {said["period_ps"]} ps, {hot}'


def files(said, every):
    """A line a file; of many the first, the last and those that concern a break."""
    count = sum(1 for key in said if key.startswith('file') and key[4:].isdigit())
    concerned = {own.get(f'{what}_file') for own in ranks(said) for what in ('record', 'partner', 'earlier', 'later')}
    yield 'Files, in order'
    skipped = 0
    for i in range(1, count + 1):
        name = said[f'file{i}']
        if not every and count > 12 and 3 < i < count - 1 and name not in concerned:
            skipped += 1
            continue
        if skipped:
            yield f'  .. {skipped} more (--files shows all)'
            skipped = 0
        own = ', begins with a header of its own' if said[f'file{i}_headed'] == '1' else ''
        yield f'  {name}: records {said[f"file{i}_records"]}, after edge {said[f"file{i}_after_edge"]} up to edge {said[f"file{i}_to_edge"]}{own}'


def commands(said):
    yield 'Commands: CKE before and now, asleep before, CS RAS CAS WE, A10, and how many'
    for key, levels in said.items():
        if key.startswith('levels_'):
            name, pattern = key[7:].rsplit('_', 1)
            count = f'{said["count_" + name]:>8}' if pattern == '1' else ' ' * 8
            yield f'  {name:<9} {levels[0]} {levels[1]}  {levels[2]}  {" ".join(levels[3:7])}  {levels[7]} {count}  {said["meaning_" + name]}'
    yield f'  {"all":<26}{said["count_all"]:>9}'


def ending(said):
    yield 'At the end' if said['outcome'] == 'clean' else 'Just before the broken edge'
    for i in range(8):
        bank = said[f'bank{i}']
        more = '' if bank == 'idle' else f', row {said[f"bank{i}_row"]}, ACT at edge {said[f"bank{i}_act_edge"]}'
        yield f'  bank {i} {bank}{more}'
    for i in range(4):
        fields = ', '.join(f'{key[4:]} {value}' for key, value in said.items() if key.startswith(f'mr{i}_'))
        yield f'  MR{i} ' + (f'{said[f"mr{i}"]}{": " if fields else ""}{fields}' if f'mr{i}' in said else 'not written')
    yield f'  refresh debt: {debt(int(said["debt"]))}'


def debt(n):
    if n < 0:
        return f'{-n} ahead'
    return f'{n} owed' if n else 'none'


def verdict(own, last):
    """The verdict of a rank and how it comes about."""
    if own['outcome'] == 'broken':
        return list(broken(own, last))
    return [f'Verdict: clean, {own["count_all"]} records up to {at(own, own["edge"])}']


def heading(own):
    """What stands over that which is told of a rank; nothing where there is one."""
    return [OF_RANK[own['rank']].capitalize()] if 'rank' in own else []


def report(said, last, every):
    """All of it, as lines."""
    if said['outcome'] == 'none':
        return [f'No verdict. {told(said, last)}']
    verdicts = [line for own in ranks(said) for line in (*heading(own), *verdict(own, last), '')]
    tables = [line for own in ranks(said) for line in ('', *heading(own), *commands(own), '', *ending(own))]
    return [*verdicts, part(said), '', *files(said, every), *tables]
