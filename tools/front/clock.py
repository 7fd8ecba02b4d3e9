"""The clock of a capture: when it rises, and how far its edges are apart."""

from files import Damaged
from pins import CLOCK, CLOCK_N, UNKNOWN

FS_A_PS = 1000


class Times:
    """The capture's unit of time in fs, None where it tells no time, and how fine its times are, in units."""

    def __init__(self, unit, fine=1):
        self.unit, self.fine = unit, fine

    def ps(self, time):
        ps = time * self.unit / FS_A_PS
        return f'{int(ps)} ps' if ps == int(ps) else f'{float(ps):.3f} ps'

    def told(self, time):
        return f'row {time}' if self.unit is None else self.ps(time)


class Turns:
    """Whether the clock rises: CK from 0 to 1, with CK_N from 1 to 0 where there is a pair."""

    def __init__(self, pair, times):
        self.low, self.high, self.times = (CLOCK_N if pair else 0), CLOCK, times
        self.good = self.astray = None
        self.unknown = self.seen = False
        self.skews = self.longest = 0

    def rises(self, before, after, time):
        """From the clock's levels before this time to those after it."""
        if before == self.low and after == self.high:
            self.seen = True
            return True
        return (before != self.high or after != self.low) and self.oddly(before, after, time)

    def oddly(self, before, after, time):
        """As rises, where levels are in it that are no clock's: x, z, or both of a pair alike. Raises where they may have hidden an edge."""
        if after not in (self.low, self.high):
            if before in (self.low, self.high):
                self.good, self.astray, self.unknown = before, time, False
            self.unknown |= after >> UNKNOWN != 0
            return False
        was, self.good = self.good, after
        if was is None or not self.seen and self.unknown:
            return False
        if self.unknown:
            raise Damaged(f'CK is x or z from {self.times.told(self.astray)} to {self.times.told(time)}: its edges between are not known')
        if was == after:
            raise Damaged(f'CK and CK_N disagree from {self.times.told(self.astray)} to {self.times.told(time)}: one turns without the other')
        self.skews, self.longest = self.skews + 1, max(self.longest, time - self.astray)
        self.seen = True
        return after == self.high


class Edges:
    """Numbers the rising edges from 1, and measures their distances, in the capture's unit.

    period: that of the header in ps, None where it is to be measured. still: the clock may stand still, and edges that do not come are
    counted by time."""

    def __init__(self, times, period, still):
        if still and times.unit is None:
            raise Damaged('it tells no time, and --still counts edges by time')
        self.times, self.still = times, still
        self.period = None if period is None or times.unit is None else period * FS_A_PS / times.unit
        self.count = self.missed = self.stops = self.stopped = 0
        self.first = self.last = self.least = self.most = None

    def numbered(self, edges):
        """edge, time and word of each rising edge."""
        low, high, last, count = 1, 0, None, 0
        for time, word in edges:
            if last is None:
                self.first = time
            else:
                apart = time - last
                if not low <= apart <= high:
                    self.count = count
                    count += self.measured(apart, last)
                    if self.least is not None:
                        low, high = self.least[0], self.most[0]
            count += 1
            last = time
            yield count, time, word
        self.count, self.last = count, last

    def measured(self, apart, since):
        """Notes a distance that is none of those between the least and the greatest. How many edges are missing in it, where that is allowed."""
        if self.still and apart - self.times.fine > 1.5 * self.period:
            missing = max(round(apart / self.period) - 1, 1)
            self.stops, self.missed, self.stopped = self.stops + 1, self.missed + missing, self.stopped + apart
            return missing
        place = apart, self.count, since
        self.least = place if self.least is None or apart < self.least[0] else self.least
        self.most = place if self.most is None or apart > self.most[0] else self.most
        usual = self.least[0] + self.times.fine if self.period is None else self.period
        if self.times.unit is not None and self.most[0] - self.times.fine > 1.5 * usual:
            against = self.place(self.least) if self.period is None else f'and the period is {self.times.ps(self.period)}'
            raise Damaged(f'the clock stops, or edges are missing: {self.place(self.most)}, {against}')
        return 0

    def place(self, found):
        apart, edge, since = found
        return f'{self.times.ps(apart)} from edge {edge} at {self.times.ps(since)} to the next'

    def ended(self, changed, end):
        """Looks behind the last edge: at the last change of a pin, and at the capture's end. How many edges are missing there."""
        if self.last is None:
            raise Damaged('CK never rises from 0 to 1')
        usual = self.period or (self.most[0] if self.most else None)
        if usual is None or self.times.unit is None:
            return 0
        if self.still:
            return int((end - self.last) / usual)
        if changed is not None and changed - self.last - self.times.fine > 1.5 * usual:
            raise Damaged(f'the clock stops after edge {self.count} at {self.times.told(self.last)}, and pins change up to {self.times.told(changed)}')
        return 0

    def mean(self):
        """The mean distance in ps, standstills aside; None where none was seen or no time is told."""
        seen = self.count - self.missed - 1 - self.stops
        if self.times.unit is None or seen < 1:
            return None
        return (self.last - self.first - self.stopped) * self.times.unit / FS_A_PS / seen
