"""The use of the bus over a whole clean recording: commands a microsecond, and the refresh debt with its limits. The records are walked here,
which is not proved; counts and debt must come to those of the proved program, or there is no picture."""

from decode import behind_header, joined, opened, records
from drawing import Sheet
from glossary import SELECTS, Names, by_levels, rows
from programs import Failed

BARS = 120
KINDS = {'RD, RDA, WR, WRA': ('dark', {'RD', 'RDA', 'WR', 'WRA'}), 'ACT, PRE, PREA': ('hatched', {'ACT', 'PRE', 'PREA'}), 'other commands': ('white', None)}
NOTHING = {'NOP', 'DES', 'IGNORED'}
LIMIT = 8
REMARK = ('Drawn by ./judge --picture. The verdict is the proved program\'s. The curves are not proved; their sums come to the counts and to the debt '
          'at the end that the proved program tells.')
LEFT, WIDTH, RIGHT, TALL = 92, 840, 48, 200
UNITS = [(10 ** 12, 's'), (10 ** 9, 'ms'), (10 ** 6, 'us'), (10 ** 3, 'ns')]


class Use:
    """Bars of equal length: how many commands of each kind, and the least and greatest debt in each."""

    def __init__(self, said, names):
        self.end, self.trefi = max(int(said['edge']), 1), int(said['clocks_trefi'])
        self.bars = min(BARS, self.end)
        self.counts = {kind: [0] * self.bars for kind in KINDS}
        self.debts = [[] for _ in range(self.bars)]  # least, greatest and last of each, where it changes
        self.debt = self.awake = 0
        self.seen = {}
        self.walk(said, names)
        self.agree(said)

    def bar(self, edge):
        """Edges 1 to the end, in bars."""
        return (edge - 1) * self.bars // self.end

    def owes(self, edge, debt):
        """The debt changes at this edge."""
        some = self.debts[self.bar(edge)]
        some[:] = [min([*some[:1], self.debt, debt]), max([*some[1:2], self.debt, debt]), debt]
        self.debt = debt

    def walk(self, said, names):
        _, layout = opened(names)
        found = rows(said)
        named = Names(by_levels(found), layout, SELECTS[said.get('rank', '1')])
        kinds = {name: next(kind for kind, (_, some) in KINDS.items() if some is None or name in some) for name, _ in found if name not in NOTHING}
        last, asleep = 0, False
        for edge, word in records(behind_header(joined(names)), layout):
            if not asleep:
                self.pass_to(last, edge)
            name = named.of(word)
            self.seen[name] = self.seen.get(name, 0) + 1
            if name == 'REF':
                self.owes(edge, max(self.debt - 1, -LIMIT))
            asleep = name == 'SRE' or asleep and name == 'IGNORED'
            if name in kinds:
                self.counts[kinds[name]][self.bar(edge)] += 1
            last = edge

    def pass_to(self, last, edge):
        """The edges up to this one are awake; a refresh falls due at each multiple of tREFI's clocks."""
        for due in range(last + self.trefi - self.awake % self.trefi, edge + 1, self.trefi):
            self.owes(due, self.debt + 1)
        self.awake += edge - last

    def agree(self, said):
        """Raises where the walk comes to another count or debt than the proved program."""
        for name, count in self.seen.items():
            if int(said[f'count_{name}']) != count:
                raise Failed(f'the walk over the records finds {count} {name}, the proved program {said[f"count_{name}"]}; there is no picture')
        if self.debt != int(said['debt']):
            raise Failed(f'the walk over the records ends with a debt of {self.debt}, the proved program with {said["debt"]}; there is no picture')

    def ranges(self):
        """Least and greatest debt of each bar."""
        last = 0
        for some in self.debts:
            yield min([last, *some[:1]]), max([last, *some[1:2]])
            last = some[2] if some else last


def bus_use(said, names, heading):
    """The sheet and its height."""
    use, sheet, y = Use(said, names), Sheet(LEFT + WIDTH + RIGHT), 34
    for i, words in enumerate(heading):
        y = sheet.lines('head' if i == 0 else '', 24, y, words, 18 if i == 0 else 12)
    y = commands(sheet, use, said, y + 24)
    y = debts(sheet, use, said, y + 44)
    y = sheet.lines('small faint', 24, y + 30, REMARK, 11)
    return sheet, y + 6


def commands(sheet, use, said, y):
    """Bars, one kind upon the other."""
    us = use.end / use.bars * int(said['period_ps']) / 10 ** 6
    top = nice(max(sum(use.counts[kind][i] for kind in KINDS) for i in range(use.bars)) / us)
    x = LEFT
    sheet.text('strong', LEFT, y, 'Commands a microsecond')
    for kind, (name, _) in KINDS.items():
        x = x + 210 if kind == next(iter(KINDS)) else x + 200
        sheet.rect(name, x, y - 11, 14, 14)
        sheet.text('', x + 20, y, kind)
    y += 14
    for share in 0, 0.25, 0.5, 0.75, 1:
        at = y + TALL * (1 - share)
        sheet.line('thin', LEFT - 4, at, LEFT + WIDTH, at)
        sheet.text('small', LEFT - 8, at + 4, f'{top * share:g}', 'end')
    wide = WIDTH / use.bars
    for i in range(use.bars):
        base = y + TALL
        for kind, (name, _) in KINDS.items():
            tall = use.counts[kind][i] / us / top * TALL
            if tall:
                sheet.rect(name, LEFT + i * wide, base - tall, wide, tall)
            base -= tall
    sheet.line('wire', LEFT, y + TALL, LEFT + WIDTH, y + TALL)
    return ticks(sheet, use, said, y + TALL)


def debts(sheet, use, said, y):
    sheet.text('strong', LEFT, y, f'Refresh debt: one more each {use.trefi} clocks awake, one less at each REF; {said["debt"]} at the end')
    y += 14

    def height(debt):
        return y + TALL * (LIMIT + 2 - debt) / (2 * LIMIT + 4)
    for debt in range(-LIMIT, LIMIT + 1, 4):
        sheet.line('dash' if abs(debt) == LIMIT else 'thin', LEFT - 4, height(debt), LEFT + WIDTH, height(debt))
        sheet.text('small', LEFT - 8, height(debt) + 4, str(debt), 'end')
    wide = WIDTH / use.bars
    for i, (least, most) in enumerate(use.ranges()):
        if most > least:
            sheet.rect('dotted', LEFT + i * wide, height(most), wide, height(least) - height(most))
        else:
            sheet.line('arrow', LEFT + i * wide, height(least), LEFT + (i + 1) * wide, height(least))
    sheet.text('small', LEFT + WIDTH, height(LIMIT) - 5, 'limit: 9 owed would break rule 25', 'end')
    sheet.text('small', LEFT + WIDTH, height(-LIMIT) + 14, 'limit: no more than 8 ahead are counted', 'end')
    sheet.line('wire', LEFT, y + TALL, LEFT + WIDTH, y + TALL)
    return ticks(sheet, use, said, y + TALL)


def ticks(sheet, use, said, y):
    """The time axis; where the next thing goes."""
    whole = use.end * int(said['period_ps'])
    size, unit = next(((size, unit) for size, unit in UNITS if whole >= 10 * size), UNITS[-1])
    step = nice(whole / size / 6, (1, 2, 5, 10))
    at = 0
    while at * size <= whole:
        x = LEFT + WIDTH * at * size / whole
        sheet.line('wire', x, y, x, y + 5)
        sheet.text('small', x, y + 18, f'{at:g} {unit}', 'middle')
        at += step
    return y + 18


def nice(value, forms=(1, 1.2, 1.6, 2, 2.4, 3.2, 4, 6, 8, 10)):
    """The next number up that is one of these forms times a power of ten. Unless told otherwise its quarters are round too."""
    size = 1.0
    while size * 10 <= value:
        size *= 10
    while size > value and size > 1e-6:
        size /= 10
    return next(size * n for n in forms if size * n >= value) if value else 1
