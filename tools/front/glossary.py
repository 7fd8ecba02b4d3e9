"""The commands' names by their levels, from the table that the proved program prints. Which row a record has is looked up here, and not proved."""

from itertools import product

from programs import answer
from values import keyed, taken_apart

PLAIN = bytes.fromhex('1405dc000000')  # a header that is taken, of a recording of no records
SELECTS = {'1': 'CS', '2': 'CS1'}  # by rank


def rows(said=None):
    """The rows among these values; without any, those of a recording of no records, since the table is always the same."""
    said = said or keyed(taken_apart(answer('lot', [PLAIN], b'/dev/stdin')))
    return [(key[len('levels_'):].rsplit('_', 1)[0], levels) for key, levels in said.items() if key.startswith('levels_')]


def by_levels(found):
    """The name for each eight levels: CKE before and now, asleep, CS, RAS, CAS, WE, A10."""
    table = [''] * 256
    for name, levels in found:
        for some in product(*('01' if level == 'x' else level for level in levels)):
            table[int(''.join(some), 2)] = name
    return table


class Names:
    """The names of a rank's records, one after the other."""

    def __init__(self, table, layout, select='CS'):
        self.table, self.level, self.asleep = table, 1, 0
        self.cke, self.select, self.command, self.a10 = (shift(layout, name) for name in ('CKE', select, 'WE', 'A'))

    def of(self, word):
        cke, pins = word >> self.cke & 1, (word >> self.select & 1) << 3 | word >> self.command & 7
        name = self.table[self.level << 7 | cke << 6 | self.asleep << 5 | pins << 1 | word >> self.a10 + 10 & 1]
        if self.level and not cke:
            self.asleep = int(name == 'SRE')
        self.level = cke
        return name


def shift(layout, name):
    return layout.pins[name][0]
