"""What a picture of a break shows, from left to right: edges one by one where they are to be counted, and folds where time is left out."""

from report import ns
from values import listed

# How much is shown, from the most to the least: so many records around each of the two, all between them where they are no further apart than that,
# and so many empty edges one by one between the ends of the arrow.
DETAILS = [(2, 9, 24), (1, 9, 24), (1, 9, 12), (1, 4, 12), (1, 2, 0)]
ELSEWHERE = 3  # so many empty edges take no more room than a fold
MOST = 1010  # the width that fits a page
CELL, QUIET, FOLD = 74, 20, 92
LETTER = 7


class Slot:
    """An edge, with its record if it has one, and its time as a label if it is to have one; or, where edge is None, a fold of so many edges
    with so many records. x is given to it by the drawing."""

    def __init__(self, edge, record=None, label='', edges=0, records=0):
        self.edge, self.record, self.label, self.edges, self.records, self.x = edge, record, label, edges, records, 0
        self.width = max(FOLD, LETTER * len(f'  {edges} edges  ')) if edge is None else max(CELL, LETTER * (len(label) + 2)) if label else QUIET

    @property
    def middle(self):
        return self.x + self.width / 2

    @property
    def right(self):
        return self.x + self.width


class Break:
    """start and edge are the ends of the arrow, limit the edge that the rule names; None where the rule counts no clocks. Rule 31 counts clocks
    awake: its arrow begins at its REF, however many edges were slept since, and the edge before the break is the last that it allows."""

    def __init__(self, said, names, detail):
        self.near, self.apart, self.one_by_one = detail
        self.said, self.rule, self.edge = said, int(said['rule']), int(said['edge'])
        self.number, self.partner = int(said['record']), int(said['partner'])
        self.partner_edge = int(said['partner_edge']) if self.partner else None
        self.counted = self.rule not in (1, 2, 3, 23, 25)
        self.start = self.edge - int(said['found']) if self.counted and self.rule != 31 else self.partner_edge
        self.limit = self.edge - int(said['found']) + int(said['needed']) if self.counted else None
        self.records = {int(r['edge']): r for first, last in self.ranges() for r in listed(names, first, last, said.get('rank', '1'))}

    def ranges(self):
        """The numbers of the records that are drawn, in one run or two."""
        here = [int(self.said[what]) for what in ('record', 'earlier', 'later') if self.said.get(what, '0') != '0']
        first, last = min(here), max(here)
        if not self.partner:
            return [(max(1, first - 2 * self.near), last + self.near)]
        if first - self.partner <= self.apart:
            return [(max(1, self.partner - self.near), last + self.near)]
        return [(max(1, self.partner - self.near), self.partner + self.near), (first - self.near, last + self.near)]

    def slots(self):
        places = sorted({*self.records, self.edge, *(edge for edge in (self.start, self.limit) if edge is not None)})
        found = [Slot(None, edges=places[0] - 1)] if places[0] > 1 and places[0] not in self.records else []  # nothing is before
        last = number = None
        for edge in places:
            record = self.records.get(edge)
            if last is not None:
                skipped = record['number'] - number - 1 if record and number else 0
                found += self.between(last, edge, skipped)
            found.append(Slot(edge, record, ns(self.said, edge)[:-3]))
            last, number = edge, record['number'] if record else number
        return found

    def between(self, last, edge, skipped):
        """The edges between two places, of which some may have records that are not drawn."""
        empty = edge - last - 1
        inside = self.counted and self.limit - self.start <= self.one_by_one and self.start <= last and edge <= max(self.edge, self.limit)
        if not skipped and empty <= (self.one_by_one if inside else ELSEWHERE):
            return [Slot(quiet) for quiet in range(last + 1, edge)]
        return [Slot(None, edges=empty, records=skipped)]


def fitting(said, names):
    """The break and its slots, with as much around it as fits."""
    for detail in DETAILS:
        what = Break(said, names, detail)
        slots = what.slots()
        if sum(slot.width for slot in slots) <= MOST:
            break
    return what, slots
