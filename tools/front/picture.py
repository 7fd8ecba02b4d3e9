"""The picture of a verdict: of a break its records among those around it, of a clean recording the use of the bus. It draws what the proved program says."""

from brief import BANKED, asleep
from bususe import bus_use
from drawing import BOLD, WIDE, Sheet, stacked
from files import shown
from report import broken, ns, part
from report import heading as rank
from slots import fitting
from values import ranks
from words import NAMES, RULES

GUTTER, MARGIN, GAP, LEAST = 92, 24, 5, 980
LABELS = {'label': 22}
RULERS = {'edge': 16, 'ns': 16, 'record': 22}
WIRES = {'CK': 34, 'CKE': 34}
BUSES = {'command': 38, 'BA': 34, 'A': 34}
HIGH, LOW = 7, 27  # of a wire's lane
ADDRESSED = BANKED | {'MRS', 'PREA', 'ZQCL', 'ZQCS'}
REMARK = 'Drawn by ./judge --picture. Verdict, records and numbers are the proved program\'s; the drawing itself is not proved.'
SHORT = {'FORBIDDEN': 'CKE !', 'IGNORED': 'low'}


def picture(said, names, inline=False):
    """The SVG text: each rank that is broken, or all where none is. inline: as a part of a page of HTML."""
    drawn = [own for own in ranks(said) if own['outcome'] == 'broken'] or ranks(said)
    heads = [heading(own, names) for own in drawn]
    sheets = [bus_use(own, names, head) if own['outcome'] == 'clean' else Drawing(own, names).drawn(head) for own, head in zip(drawn, heads)]
    sheet, height = sheets[0] if len(sheets) == 1 else stacked(sheets)
    return sheet.svg('; '.join(words for head in heads for words in head), height, inline)


def heading(said, names):
    """Verdict, rule, lot and part."""
    at = f'edge {said["edge"]} ({ns(said, said["edge"])})'
    which = ''.join(f'{words}. ' for words in rank(said))
    if said['outcome'] == 'clean':
        return [f'{which}Verdict: clean up to {at}', lot(said, names), part(said)]
    rule = int(said['rule'])
    return [f'{which}Verdict: broken at {at} by rule {rule} ({NAMES[rule]})', f'Rule {rule}: {RULES[rule]}', lot(said, names), part(said)]


def lot(said, names):
    """The files in a few words."""
    some = [shown(name) for name in names]
    if len(some) > 4:
        some = [*some[:2], f'.. {len(some) - 3} more ..', some[-1]]
    return f'Lot: {", ".join(some)}; {said["count_all"]} records'


class Drawing:
    """A break, lane by lane. tops: where each lane begins."""

    def __init__(self, said, names):
        self.said, self.names = said, names
        self.what, self.slots = fitting(said, names)
        x = GUTTER
        for slot in self.slots:
            slot.x, x = x, x + slot.width
        self.right = x
        self.at = {slot.edge: slot for slot in self.slots if slot.edge is not None}
        self.sheet = Sheet(max(LEAST, x + MARGIN, *(slot.x + len(words) * 12 * BOLD + MARGIN for slot, _, words, _ in self.marks())))
        self.tops = {}

    def drawn(self, head):
        """The sheet and its height."""
        sheet, y = self.sheet, 34
        for i, words in enumerate(head):
            y = sheet.lines('head' if i == 0 else '', MARGIN, y, words, 18 if i == 0 else 12)
        for lane, height in {**LABELS, **RULERS, **WIRES, **BUSES}.items():
            self.tops[lane], y = y, y + height
        self.bottom = y
        self.bands()
        for draw in self.rulers, self.clock, self.enable, self.buses, self.folds:
            draw()
        y = self.arrow(y + 4) + 14
        for words in list(broken(self.said, shown(self.names[-1])))[1:]:  # the heading has the first
            for line in words.split('\n'):
                y = sheet.lines('', MARGIN, y, line)
        y = sheet.lines('small faint', MARGIN, y + 8, REMARK, 11)
        return sheet, y + 4

    def marks(self):
        """The two places of the break: slot, filling and what it is. The earlier one's words end with its slot, the other's begin with it."""
        what = self.what
        if what.partner:
            yield self.at[what.partner_edge], 'dotted', f'earlier record {what.partner}', 'end'
        words = f'record {what.number} breaks rule {what.rule}' if what.number else f'rule {what.rule} is broken at this edge'
        yield self.at[what.edge], 'hatched', words, 'start'

    def bands(self):
        for slot, name, words, anchor in self.marks():
            top = self.tops['label'] + 14
            self.sheet.rect(name, slot.x, top, slot.width, self.bottom + 4 - top)
            x = slot.x + GAP if anchor == 'start' else max(slot.right - GAP, len(words) * 12 * BOLD)
            self.sheet.text('strong', x, top - 4, words, anchor)

    def rulers(self):
        for lane in RULERS:
            self.sheet.text('small', GUTTER - 12, self.tops[lane] + 13, lane, 'end')
        for slot in self.slots:
            if slot.label:
                self.over(slot, 'edge', str(slot.edge))
                self.over(slot, 'ns', slot.label)
            if slot.record:
                self.over(slot, 'record', str(slot.record['number']))

    def over(self, slot, lane, words):
        """A number over its slot, on white, so that no hatching runs through it."""
        half, y = len(words) * 11 * WIDE / 2 + 2, self.tops[lane] + 13
        self.sheet.rect('ground', slot.middle - half, y - 11, 2 * half, 14)
        self.sheet.text('small', slot.middle, y, words, 'middle')

    def named(self, lane, height):
        self.sheet.text('strong', GUTTER - 12, self.tops[lane] + height / 2 + 5, lane, 'end')

    def clock(self):
        self.named('CK', WIRES['CK'])
        high, low, points = self.tops['CK'] + HIGH, self.tops['CK'] + LOW, []
        for slot in self.slots:
            if slot.edge is None:
                points += [(slot.x, low), (slot.right, low)]
            else:
                points += [(slot.x, low), (slot.middle, low), (slot.middle, high), (slot.right, high), (slot.right, low)]
        self.sheet.path('wire', points)

    def enable(self):
        self.named('CKE', WIRES['CKE'])
        heights = self.tops['CKE'] + LOW, self.tops['CKE'] + HIGH
        found = [slot for slot in self.slots if slot.record]
        level = int(found[0].record['cke_before']) if found else 1
        points = [(GUTTER, heights[level])]
        for slot in found:
            if int(slot.record['cke']) != level:
                points.append((slot.x + 2, heights[level]))
                level = int(slot.record['cke'])
                points.append((slot.x + 8, heights[level]))
        self.sheet.path('wire', [*points, (self.right, heights[level])])

    def buses(self):
        """Command, bank and address: a lozenge at each record, a line where nothing is said."""
        ends = self.what.edge, self.what.partner_edge
        for lane, height in BUSES.items():
            self.named(lane, height)
            top, middle = self.tops[lane], self.tops[lane] + height / 2
            for slot in self.slots:
                if not slot.record:
                    self.sheet.line('thin', slot.x, middle, slot.right, middle)
                    continue
                left, right, y1, y2 = slot.x + 2, slot.right - 2, top + 5, top + height - 5
                shape = [(left, middle), (left + 6, y1), (right - 6, y1), (right, middle), (right - 6, y2), (left + 6, y2)]
                self.sheet.path('thick' if slot.edge in ends else 'box', shape, closed=True)
                words, name = value(slot.record, lane)
                self.sheet.text(name, slot.middle, middle + 4, words, 'middle')

    def folds(self):
        """Time that is left out: a gap in all lanes, with its length."""
        top, bottom = self.tops['CK'] - 2, self.bottom
        for slot in self.slots:
            if slot.edge is None:
                x = slot.middle
                self.sheet.path('ground', [(x + 2, top), (x + 14, top), (x - 2, bottom), (x - 14, bottom)], closed=True)
                self.sheet.path('thin', [(x + 2, top), (x - 14, bottom)])
                self.sheet.path('thin', [(x + 14, top), (x - 2, bottom)])
                self.sheet.text('small', x, self.tops['ns'] + 8, f'{slot.edges} edges', 'middle')
                words = f'with {slot.records} record{"s" * (slot.records > 1)}' if slot.records else 'left out'
                self.sheet.text('small', x, self.tops['record'] + 6, words, 'middle')

    def arrow(self, y):
        """From where the clocks are counted to the break, with what was found; under it the edges that are no record's. Where the next text goes."""
        what, sheet = self.what, self.sheet
        if what.start is None:
            return y + 8
        start, end, others = self.at[what.start], self.at[what.edge], list(self.others())
        for i, (edge, words) in enumerate(others):
            x = self.at[edge].middle
            sheet.line('dash', x, self.tops['CK'], x, y + 48 + 20 * i)
            sheet.centred('', x, y + 58 + 20 * i, words)
        for slot in start, end:
            sheet.line('wire', slot.middle, self.bottom + 4, slot.middle, y + 22)
        sheet.line('arrow', start.middle, y + 16, end.middle, y + 16)
        for x, way in (start.middle, 1), (end.middle, -1):
            sheet.path('solid', [(x, y + 16), (x + way * 9, y + 11), (x + way * 9, y + 21)], closed=True)
        sheet.centred('strong', (start.middle + end.middle) / 2, y + 38, self.found(), 12, BOLD)
        return y + 46 + 20 * len(others)

    def others(self):
        """Edges that the arrow is measured by and that are neither record's."""
        what = self.what
        if what.counted and what.start != what.partner_edge:
            yield what.start, f'its precharge starts: edge {what.start}'
        if what.limit is not None and what.limit != what.edge:
            yield what.limit, f'limit: edge {what.limit}' if what.number == 0 else f'rule {what.rule} allows it from edge {what.limit}'

    def found(self):
        said, rule = self.said, self.what.rule
        if rule == 2:
            return f'bank {said["partner_bank"]} is {said["bank" + said["partner_bank"]]}'
        if rule == 23:
            return 'no REF between'
        if rule == 25:
            return f'{said["found"]} refreshes owed, at most {said["needed"]}'
        slept = f'; {asleep(said)} edges asleep do not count' if rule == 31 and asleep(said) else ''
        return f'found {said["found"]}, {"needed" if self.what.number else "at most"} {said["needed"]}{slept}'


def value(record, lane):
    """What stands in a lozenge; faint where the command does not go by it."""
    name = record['command']
    if lane == 'command':
        return SHORT.get(name, name), 'strong'
    if lane == 'BA':
        return record['bank'], '' if name in BANKED | {'MRS'} else 'faint'
    return record['address'], '' if name in ADDRESSED else 'faint'
