"""The two editions of a recording: which bits of a record are which pin, and the header. Edition 2 adds RESET, a second CS and ODT."""

HEADER = 6
FIRST_BITS = 44  # of a header's 48 bits the edition stands above these
STEP_MOST = (1 << 24) - 1
BINS = ['1066', '1333', '1600', '1866']


class Layout:
    """edition, bytes of a record, bits below its step, and for each pin or bus its lowest bit and its bits."""

    def __init__(self, edition, size, pins):
        self.edition, self.size, self.below, self.pins = edition, size, size * 8 - 24, pins
        self.all = self.mask(*pins)
        self.kept = self.mask('RESET', 'CKE', 'ODT')  # these keep their level between records
        self.cke, self.selects, self.command = self.mask('CKE'), self.mask('CS', 'CS1'), self.mask('RAS', 'CAS', 'WE')

    def mask(self, *names):
        """The bits of these pins."""
        return sum((1 << self.pins[name][1]) - 1 << self.pins[name][0] for name in names if name in self.pins)

    def get(self, word, name):
        low, count = self.pins[name]
        return word >> low & (1 << count) - 1

    def record(self, step, word):
        return (step << self.below | word).to_bytes(self.size, 'big')

    def idle(self, word):
        """A word that says nothing new: the kept levels of this one, deselected."""
        return word & self.kept | self.selects | self.command

    def quiet(self, before, word):
        """Nothing happens: no kept level is another than before, and CKE is low, no CS is low, or it is a NOP."""
        if (before ^ word) & self.kept:
            return False
        return not word & self.cke or word & self.selects == self.selects or word & self.command == self.command


EDITIONS = {
    1: Layout(1, 6, {'CKE': (23, 1), 'CS': (22, 1), 'RAS': (21, 1), 'CAS': (20, 1), 'WE': (19, 1), 'BA': (16, 3), 'A': (0, 16)}),
    2: Layout(2, 8, {'RESET': (39, 1), 'CKE': (38, 1), 'CS': (37, 1), 'CS1': (36, 1), 'ODT': (35, 1), 'RAS': (34, 1), 'CAS': (33, 1), 'WE': (32, 1),
                     'BA': (29, 3), 'A': (13, 16)}),
}


def header(edition, bin_, density, width, hot, period):
    """bin_, density, width and hot are the header's own numbers, the period is in ps."""
    return (edition << FIRST_BITS | bin_ << 42 | density << 41 | width << 40 | hot << 39 | period << 24).to_bytes(HEADER, 'big')


def edition_of(first):
    return first[0] >> 4


def period_of(first):
    return int.from_bytes(first, 'big') >> 24 & 0xFFF
