"""A recording beside the capture that it was made from, edge by edge. It shares the reading of the capture with the import, and not the choice of records."""

from pins import UNKNOWN
from programs import Failed

NEVER = 1 << 60  # an edge behind all others


class Compared:
    """found: edge and word of each record of the recording. instead: the level that counts where one is not known."""

    def __init__(self, found, layout, instead):
        self.found, self.layout, self.instead, self.held = found, layout, instead, None
        self.edge = self.last = 0
        self.next()

    def next(self):
        self.last = self.edge
        self.edge, self.word = next(self.found, (NEVER, 0))

    def levels(self, word):
        return (word | (word >> UNKNOWN if self.instead else 0)) & self.layout.all

    def idle(self, own):
        layout = self.layout
        return not own & layout.cke or own & layout.selects == layout.selects or own & layout.command == layout.command

    def filler(self):
        """The record says nothing: deselected, no address, and CKE as it was."""
        layout = self.layout
        return self.word == layout.selects | layout.command | self.held & layout.kept

    def beside(self, edges):
        """Raises at the first edge where the recording says another thing than the capture's edges: number, time and word."""
        quiet = None
        for edge, _, word in edges:
            if edge < self.edge and word == quiet:
                continue
            if self.held is None:
                self.held = self.levels(word) | self.layout.cke
            self.fillers_before(edge)
            quiet = self.at(edge, word)
        self.fillers_before(NEVER)

    def ends(self, edge):
        """Raises where the last record is not at this edge."""
        if self.last != edge:
            raise Failed(f'the capture ends at edge {edge}, and the recording at {self.last}; nothing was kept')

    def fillers_before(self, edge):
        """Records where the clock stood still, and behind its last edge."""
        while self.edge < edge:
            if not self.filler():
                self.differs(self.edge, self.held)
            self.next()

    def at(self, edge, word):
        """At an edge of the capture; the word, where nothing happens at it."""
        own = self.levels(word)
        if edge == self.edge and not self.filler():
            if own != self.word:
                self.differs(edge, own)
            self.held = own
            self.next()
            return None
        if not self.idle(own) or (own ^ self.held) & self.layout.kept:
            self.differs(edge, own)
        if edge == self.edge:
            self.next()
        return word

    def differs(self, edge, own):
        raise Failed(f'at edge {edge} the capture has {own:x}, and the recording at {self.edge} {self.word:x}; nothing was kept')
