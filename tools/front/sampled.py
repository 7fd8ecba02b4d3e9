"""From sampled edges to records: at which edges something happens, and which pins must be known there."""

from files import Damaged
from layout import STEP_MOST
from pins import UNKNOWN

# By RAS, CAS and WE: the pins that the command is read from beside these. PRE takes a bank only where A10 is 0.
USES = {0: ('BA', 'A'), 1: (), 2: ('A10',), 3: ('BA', 'A'), 4: ('BA', 'A'), 5: ('BA', 'A'), 6: ('A10',), 7: ()}
PRE, A10 = 2, 10
RECORDS_MOST = 1048576


class Sampler:
    """instead: the level that counts where one is not known, None where that is an error.

    replaced: how many levels it counted for where they matter. careless: how many unknown levels stand in records where they do not. held: the
    levels of the latest record, and before there is one those at the first edge with CKE high."""

    def __init__(self, pins, times, instead):
        self.pins, self.layout, self.times, self.instead = pins, pins.layout, times, instead
        self.replaced = self.careless = 0
        self.starts_low, self.held = False, None

    def taken(self, edges):
        """Edge and word of each edge at which something happens: a kept level changes, or there is a command while CKE is high. held is the one before
        until the next is asked for."""
        layout, quiet = self.layout, None
        decisive = layout.kept | layout.selects | layout.command
        decisive |= decisive << UNKNOWN
        for edge, time, word in edges:
            key = word & decisive
            if key == quiet:
                continue
            if self.held is None:
                self.held = self.filled(word) | layout.cke
                self.starts_low = not self.filled(word) & layout.cke
            own = self.known(word, edge, time)
            if layout.quiet(self.held, own):
                quiet = None if key >> UNKNOWN else key
            else:
                if word >> UNKNOWN:
                    self.careless += (word >> UNKNOWN & layout.all & ~self.mattering(own)).bit_count()
                yield edge, own
                self.held, quiet = own, None

    def filled(self, word):
        """The pins' levels, with one for those that are not known."""
        return (word | (word >> UNKNOWN if self.instead else 0)) & self.layout.all

    def known(self, word, edge, time):
        """The levels; raises where one that matters is not known and nothing counts instead."""
        own = self.filled(word)
        lacking = word >> UNKNOWN & self.layout.all
        if lacking:
            lacking &= self.mattering(own)
            if lacking and self.instead is None:
                name = self.pins.names[1 << lacking.bit_length() - 1]
                raise Damaged(f'{name} is x or z at {self.times.told(time)}, edge {edge}; --x 0 or --x 1 counts such levels as that')
            self.replaced += lacking.bit_count()
        return own

    def mattering(self, word):
        """The bits that the meaning of this edge hangs on."""
        layout = self.layout
        bits = layout.kept
        if not (self.held | word) & layout.cke:
            return bits
        bits |= layout.selects
        if word & layout.selects == layout.selects:
            return bits
        bits |= layout.command
        command = layout.get(word, 'RAS') << 2 | layout.get(word, 'CAS') << 1 | layout.get(word, 'WE')
        for name in USES[command]:
            bits |= 1 << layout.pins['A'][0] + A10 if name == 'A10' else layout.mask(name)
        if command == PRE and not layout.get(word, 'A') >> A10 & 1:
            bits |= layout.mask('BA')
        return bits


class Writer:
    """Records into an open file; a filler where a step would not fit, and one at the end where the last edge has no record."""

    def __init__(self, file, layout):
        self.file, self.layout = file, layout
        self.edge = self.count = self.fillers = 0

    def put(self, edge, word, held):
        """held: the levels that were kept until this edge."""
        while edge - self.edge > STEP_MOST:
            self.fill(self.edge + STEP_MOST, held)
        self.add(edge, word)

    def fill(self, edge, held):
        self.add(edge, self.layout.idle(held))
        self.fillers += 1

    def add(self, edge, word):
        self.count += 1
        if self.count > RECORDS_MOST:
            raise Damaged(f'at edge {edge} it passes {RECORDS_MOST} records, and the judge takes no more; cut the capture')
        self.file.write(self.layout.record(edge - self.edge, word))
        self.edge = edge

    def close(self, edge, held):
        while edge > self.edge:
            self.fill(min(edge, self.edge + STEP_MOST), held)
