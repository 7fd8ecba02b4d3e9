"""A value change dump of a recording, as gtkwave and PulseView read it.

Edge e rises at e times the period. The pins of an edge take their levels half a period before it and keep them half a period behind it;
between records the rank is deselected. All wires are single ones: sigrok 0.5 stops at a vector, and gtkwave joins A[15] to A[0] by itself."""

CODES = '!"%&\'()*+,-./:;<=>?@[\\]^_`{|}~ACDEFGHIJKLMNOPQTUVWYZ'  # of wires; no # or $, which begin other things
CK = 'CK'
MARKS = {'1': ('BREAK', 'PARTNER'), '2': ('BREAK1', 'PARTNER1')}  # by rank
AT_ONCE = 4096  # edges of the clock that are written together


class Dump:
    """word: the levels of the pins, and above them those of the markers. drawn: how many edges of the clock there are."""

    def __init__(self, file, layout, period, gap):
        self.write, self.layout, self.gap = file.write, layout, gap
        self.unit = next(unit for unit in (100, 10, 1) if period % unit == 0)
        self.period, self.high = period // self.unit, period // self.unit // 2
        self.marks = {name: 1 << layout.below + i for i, name in enumerate(marks(layout))}
        names = dict(wires(layout)) | {name: bit.bit_length() - 1 for name, bit in self.marks.items()}
        self.codes = dict(zip([CK, *names, *strings(layout)], CODES))
        self.at = {place: self.codes[name] for name, place in names.items()}
        self.lines = lines(self.at)
        self.rise, self.fall = (f'{level}{self.codes[CK]}\n'.encode() for level in '10')
        self.edge = self.word = self.drawn = 0
        self.said, self.address = {}, layout.mask('BA', 'A')

    def begin(self, remark, word):
        """The header and the levels at the start."""
        text = ['$version manilaply $end', f'$comment {remark} $end', f'$timescale {self.unit} ps $end', '$scope module ddr3 $end']
        text += [f'$var {"string" if name in strings(self.layout) else "wire"} 1 {code} {name} $end' for name, code in self.codes.items()]
        text += ['$upscope $end', '$enddefinitions $end', '#0', '$dumpvars', f'0{self.codes[CK]}']
        text += [f'{word >> place & 1}{code}' for place, code in self.at.items()]
        text += [f's- {self.codes[name]}' for name in strings(self.layout)]
        self.write(''.join(f'{line}\n' for line in [*text, '$end']).encode())
        self.word, self.said = word, dict.fromkeys(strings(self.layout), '-')

    def pins(self, word, names):
        """The lines that change the levels and the names to these."""
        text, changed, place = b'', self.word ^ word, 0
        while changed:
            if changed & 15:
                text += self.lines[place][changed & 15][word >> place & 15]
            changed, place = changed >> 4, place + 4
        for which, name in names.items():
            if self.said[which] != name:
                text += f's{name} {self.codes[which]}\n'.encode()
        self.word, self.said = word, names
        return text

    def put(self, edge, word, names):
        """The edge, with these levels and names, and the clock between the one before and this."""
        apart, period = edge - self.edge, self.period
        fall = self.edge * period + self.high
        if apart > 1:
            self.write(b'#%d\n%b%b' % (fall, self.fall, self.pins(self.idle(), dict.fromkeys(names, '-'))))
            if self.gap is None or apart <= self.gap:
                self.clock(self.edge + 1, edge - 1)
                self.write(b'#%d\n%b' % ((edge - 1) * period, self.rise))
                self.drawn += apart - 1
            fall = (edge - 1) * period + self.high
        self.write(b'#%d\n%b%b#%d\n%b' % (fall, self.fall, self.pins(word, names), edge * period, self.rise))
        self.edge, self.drawn = edge, self.drawn + 1

    def clock(self, first, end):
        """The edges from the first up to the one before the end, each with its fall."""
        line = (b'#%%d\n%b#%%d\n%b' % (self.rise, self.fall))
        for start in range(first, end, AT_ONCE):
            times = range(start * self.period, min(end, start + AT_ONCE) * self.period, self.period)
            self.write(line * len(times) % tuple(time for rise in times for time in (rise, rise + self.high)))

    def idle(self):
        """Deselected and without a mark; the address stays as it is."""
        return self.word & self.address | self.layout.idle(self.word)

    def end(self):
        text = self.pins(self.idle(), dict.fromkeys(self.said, '-'))
        self.write(b'#%d\n%b%b' % (self.edge * self.period + self.high, self.fall, text))


def wires(layout):
    """Name and place of each wire, a bus from its highest bit down."""
    for name, (low, count) in layout.pins.items():
        if count == 1:
            yield name, low
        else:
            yield from ((f'{name}[{i}]', low + i) for i in reversed(range(count)))


def strings(layout):
    """The variables with the commands' names, one for each select."""
    return {'command': 'CS', 'command1': 'CS1'} if 'CS1' in layout.pins else {'command': 'CS'}


def marks(layout):
    """The markers, two for each select."""
    return [name for rank in (MARKS if 'CS1' in layout.pins else '1') for name in MARKS[rank]]


def lines(codes):
    """For each four bits of a word, by which of them change and what they become, the lines that say so."""
    def said(place, changed, now):
        return ''.join(f'{now >> i & 1}{codes[place + i]}\n' for i in range(4) if changed >> i & 1 and place + i in codes).encode()
    return {place: [[said(place, changed, now) for now in range(16)] for changed in range(16)] for place in range(0, max(codes) + 1, 4)}
