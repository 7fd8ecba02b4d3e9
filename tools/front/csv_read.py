"""CSV as sigrok-cli writes it, a column a pin and a row a sample: the wires, and the levels before each rising edge, which are the row's before."""

import hashlib
import re
from decimal import Decimal, InvalidOperation
from fractions import Fraction

from clock import Times, Turns
from files import Damaged
from pins import UNKNOWN, Wire, start
from vcd_head import UNITS, printable

MOST = 1 << 20  # bytes of a line
RATES = {b'Hz': 1, b'kHz': 10 ** 3, b'MHz': 10 ** 6, b'GHz': 10 ** 9, b'THz': 10 ** 12}
FS = 10 ** 15
WORDS = {b'seconds': b's', b'milliseconds': b'ms', b'microseconds': b'us', b'nanoseconds': b'ns', b'picoseconds': b'ps', b'femtoseconds': b'fs'}


class Csv:
    """A capture that can be read again and again. parts: gives its bytes from the start. progress: told how many were read."""

    def __init__(self, parts, progress):
        self.parts, self.progress, self.skipped = parts, (lambda count: None), 0
        channels, rate, cells = self.head()
        headed = any(cell.lower() not in (b'0', b'1', b'x', b'z') for cell in cells)
        self.skipped += headed  # lines up to the first row of levels
        self.unit = time_unit(cells[0], rate) if headed else None
        timed = int(self.unit is not None)
        names = cells[timed:] if headed and set(cells[timed:]) != {b'logic'} else channels
        if len(names) != len(cells) - timed:
            raise Damaged(f'it has {len(cells) - timed} columns, and {len(names)} names for them')
        self.columns, self.wires, self.progress = len(cells), [wire(name, i + timed) for i, name in enumerate(names)], progress
        sample = Fraction(FS) / rate if rate else None
        self.times = Times(Fraction(1), int(sample or 0)) if timed else Times(sample)

    def head(self):
        """What the comments say, the channels' names and the samples a second, and the cells of the first line that is none."""
        channels, rate = [], None
        for line in self.lines():
            if not line.startswith((b';', b'#')):
                return channels, rate, [cell.strip().strip(b'"') for cell in line.split(b',')]
            self.skipped += 1
            channels = listed(line) or channels
            rate = sampled(line) or rate
        raise Damaged('it has no row of levels')

    def lines(self):
        """Line after line without its end; notes the SHA-256 of all."""
        digest, rest, done = hashlib.sha256(), b'', 0
        for part in self.parts():
            digest.update(part)
            done += len(part)
            self.progress(len(part))
            *some, rest = (rest + part).split(b'\n')
            if len(rest) > MOST:
                raise Damaged(f'it is no CSV: a line of over {MOST} bytes ends at byte {done}')
            yield from some
        self.digest = digest.hexdigest()
        if rest.strip():
            raise Damaged(f'it is cut off: its last line, at byte {done - len(rest)}, has no end')

    def rows(self, tables):
        """Time and word of each row that is not like the one before; notes the last row's time."""
        last, row = None, -1
        for number, line in enumerate(self.lines(), 1):
            if number <= self.skipped or not line.strip() or line.startswith((b';', b'#')):
                continue
            row += 1
            time, body = row, line
            if self.unit is not None:
                stamp, _, body = line.partition(b',')
                time = self.moment(stamp, number, self.end)
            self.end = time
            if body != last:
                last = body
                yield time, self.word(line, number, tables)

    def moment(self, stamp, number, before):
        try:
            value = Decimal(stamp.decode('ascii'))
        except (InvalidOperation, UnicodeDecodeError):
            raise Damaged(f'line {number}: {printable(stamp)[:40]} is no time') from None
        self.times.fine = self.times.fine or int(self.unit * Decimal(10) ** value.as_tuple().exponent) or 1  # its last digit, where no rate is told
        time = int(value * self.unit)
        if before is not None and time <= before:
            raise Damaged(f'line {number}: its time, {self.times.told(time)}, is not after that of the row before, {self.times.told(before)}')
        return time

    def word(self, line, number, tables):
        cells = line.split(b',')
        if len(cells) != self.columns:
            raise Damaged(f'line {number} has {len(cells)} cells, and the first row {self.columns}')
        word = 0
        for column, levels in tables.items():
            level = levels.get(cells[column].strip())
            if level is None:
                raise Damaged(f'line {number}, column {column + 1}: {printable(cells[column])[:40]} is no level')
            word |= level
        return word

    def edges(self, pins):
        """Time and word of each rising edge. Afterwards changed is the last time at which a pin changed, end the last time there is."""
        self.turns = Turns('CK_N' in pins.mapped, self.times)
        self.changed = self.end = self.first_twice = None
        self.twice = 0  # a row is one time
        clocks = pins.clocks | pins.clocks << UNKNOWN
        before = start(pins)
        for time, word in self.rows(tables(pins)):
            word |= pins.word
            if (word ^ before) & clocks and self.turns.rises(before & clocks, word & clocks, time):
                yield time, before
            if (word ^ before) & ~clocks:
                self.changed = time
            before = word


def listed(line):
    """The channels that a comment of sigrok names."""
    found = re.match(rb';\s*Channels\s*\(\d+/\d+\):\s*(.*)', line)
    return [name.strip() for name in found[1].split(b',')] if found else []


def sampled(line):
    """The samples a second that a comment of sigrok tells."""
    found = re.match(rb';\s*Samplerate:\s*([\d.]+)\s*(\w+)', line)
    return Fraction(found[1].decode()) * RATES[found[2]] if found and found[2] in RATES else None


def time_unit(cell, rate):
    """The unit of the time column in fs, None where the first column is none. Where sigrok names the column and no unit, it is the largest of
    s, ms, us.. that is no longer than a sample."""
    found = re.fullmatch(rb'(time)?\s*[\[(]?(\w*)[\])]?', cell, re.I)
    unit = {**UNITS, **{word: UNITS[name] for word, name in WORDS.items()}}.get(found[2].lower()) if found else None
    if unit is not None or not found or not found[1] or found[2]:
        return unit
    return next(size for size in sorted(UNITS.values(), reverse=True) if size <= FS / rate) if rate else FS


def wire(name, column):
    own, index = re.fullmatch(r'(.*?)\s*(?:\[(\d+)\])?', printable(name), re.S).groups()
    return Wire(own, column, *(() if index is None else (int(index), int(index))))


def tables(pins):
    """For each column what its levels put on the word."""
    found = {}
    for column, places in pins.places.items():
        bits = sum(bit for _, bit in places)
        found[column] = {b'0': 0, b'1': bits, **dict.fromkeys((b'x', b'X', b'z', b'Z'), bits << UNKNOWN)}
    return found
