"""From a capture to a recording: read, written beside, read back and compared with the capture, and told."""

import os

from clock import FS_A_PS, Edges
from compared import Compared
from csv_read import Csv
from decode import behind_header, records
from files import PART, Damaged, Unreadable, hashed, parts, refuse_at_once, shown
from layout import BINS, HEADER, header
from pins import Pins, of_file
from programs import Failed, answer, built
from report import ns_of
from sampled import Sampler, Writer
from tell import Progress, complain
from values import keyed, ranks, taken_apart
from vcd_read import Vcd
from words import REFUSALS
from written import beside, refuse_over

FAR = 0.01  # a given period that is so far from the measured one is told of


def imported(wanted):
    """Writes the recording; the lines that tell what was read."""
    name = wanted.files[0]
    refuse_over(wanted.out, [name, *wanted.pin_files])
    refuse_at_once(name, twice=True)
    for program in 'verdict', 'lot':
        built(program)
    if wanted.period is not None:
        taken_header(wanted, 1, wanted.period)
    mapped = mapping(wanted)
    with beside(wanted.out) as (file, place):
        try:
            return Import(wanted, mapped, file).lines(place)
        except Damaged as error:
            raise Unreadable(f'{shown(name)}: {error}') from None


def mapping(wanted):
    """The pins of the mapping files, and over them those of the options."""
    found = {}
    for name in wanted.pin_files:
        refuse_at_once(name, twice=False)
        found.update(of_file(shown(name), b''.join(parts(name))))
    return {**found, **wanted.pins}


def taken_header(wanted, edition, period):
    """The header's bytes, if the proved program takes them as edition 1's."""
    fields = BINS.index(wanted.bin), int(wanted.density == '2'), int(wanted.width == '16'), int(wanted.hot)
    said = answer('verdict', [header(1, *fields, period)]) if period <= 0xFFF else b'refused 4\n'
    if said != b'clean 0 0\n':
        raise Damaged(f'a period of {period} ps does not fit bin {wanted.bin}: {REFUSALS[int(said.split()[1])]}')
    return header(edition, *fields, period)


def opened(name):
    """VCD begins with a $, CSV does not."""
    first = next(parts(name), b'')
    if not first or b'\0' in first:
        raise Damaged('it is neither VCD nor CSV' if first else 'it is empty')
    return (Vcd if first.lstrip()[:1] == b'$' else Csv)(lambda: parts(name), Progress(shown(name), 2 * os.stat(name).st_size))


class Import:
    """Two passes over the capture: the first makes the recording, the second compares it."""

    def __init__(self, wanted, mapped, file):
        self.wanted, self.file, self.capture = wanted, file, opened(wanted.files[0])
        self.pins = Pins(mapped, self.capture.wires)
        self.layout, self.times = self.pins.layout, self.capture.times
        self.clock, self.sampler, self.writer = self.new_clock(), Sampler(self.pins, self.times, wanted.x), Writer(file, self.layout)

    def new_clock(self):
        return Edges(self.times, self.wanted.period, self.wanted.still)

    def lines(self, place):
        """All of it, and what is told of it. place: where the file is meanwhile."""
        self.make()
        self.read_back()
        self.remark()
        return [*self.told(), f'  commands: {", ".join(self.counted(place)) or "none"}', '  read back and compared with the capture: the same at each edge',
                f'  SHA-256 of {shown(self.wanted.files[0])}: {self.capture.digest}', f'  SHA-256 of {shown(self.wanted.out)}: {hashed(pieces(self.file))}']

    def make(self):
        self.file.write(bytes(HEADER))
        for edge, word in self.sampler.taken(self.clock.numbered(self.capture.edges(self.pins))):
            self.writer.put(edge, word, self.sampler.held)
        self.end = self.clock.count + self.clock.ended(self.capture.changed, self.capture.end)
        self.writer.close(self.end, self.sampler.held)
        self.period = self.wanted.period if self.wanted.period is not None else measured(self.clock)
        self.file.seek(0)
        self.file.write(taken_header(self.wanted, self.layout.edition, self.period))
        self.file.flush()

    def read_back(self):
        digest, clock = self.capture.digest, self.new_clock()
        compared = Compared(records(behind_header(pieces(self.file)), self.layout), self.layout, self.wanted.x)
        compared.beside(clock.numbered(self.capture.edges(self.pins)))
        compared.ends(clock.count + clock.ended(self.capture.changed, self.capture.end))
        if self.capture.digest != digest:
            raise Damaged('it changed while it was read')

    def remark(self):
        """What the user should know and did not ask for, on standard error."""
        mean, given, turns = self.clock.mean(), self.wanted.period, self.capture.turns
        if self.sampler.starts_low:
            complain('the capture begins with CKE low, and a recording begins with CKE high: its first record takes it low, and will be judged so')
        if self.pins.zeros:
            complain(f'{", ".join(self.pins.zeros)} are not in the capture and count as 0')
        if given is not None and mean is not None and abs(mean - given) > FAR * given:
            complain(f'the clock was measured at {float(mean):.1f} ps, and the header has the {given} ps that were given')
        if turns.skews:
            complain(f'CK and CK_N turned apart {turns.skews} times, by {self.times.told(turns.longest)} at most; the later of the two counts')
        if self.capture.twice:
            name, when = self.capture.first_twice
            complain(f'a pin changed twice at one time {self.capture.twice} times, first {name} at {when}; the last level counts')

    def told(self):
        fillers = f', {self.writer.fillers} of them fillers' if self.writer.fillers else ''
        yield f'{shown(self.wanted.out)}: edition {self.layout.edition}, {self.writer.count} records{fillers}'
        clock, by_time = self.clock, self.clock.missed + self.end - self.clock.count
        yield f'  edges: {self.end}{self.placed()}' + (f', {by_time} of them counted by time where the clock stood still' if by_time else '')
        yield f'  period: {self.period} ps, {"measured" if self.wanted.period is None else "given"}{self.jitter()}'
        if self.times.unit is None:
            yield f'  span: {ns_of((clock.count - 1) * self.period)}, from the first edge to the last, by the period'
        else:
            yield f'  span: {ns_of(round((clock.last - clock.first) * self.times.unit / FS_A_PS))}, from the first edge to the last'
        if self.sampler.replaced:
            yield f'  unknown levels that count as {self.wanted.x}: {self.sampler.replaced}'
        if self.sampler.careless:
            yield f'  unknown levels on pins that do not matter where they are, written as {self.wanted.x or 0}: {self.sampler.careless}'

    def placed(self):
        clock = self.clock
        return '' if self.times.unit is None else f', edge 1 at {self.times.told(clock.first)}, edge {clock.count} at {self.times.told(clock.last)}'

    def jitter(self):
        if self.times.unit is None or self.clock.least is None:
            return ''
        return f'; from edge to edge {self.times.ps(self.clock.least[0])} at least, {self.times.ps(self.clock.most[0])} at most'

    def counted(self, place):
        """How many records of each command, by the proved program; of edition 2 for each of the two selects."""
        found = keyed(taken_apart(answer('lot', [], place)))
        if found.get('outcome') == 'none':
            raise Failed(f'the judge does not take what was written: {found["why"]}')
        own = [counts(rank) for rank in ranks(found)]
        return own[0] if len(own) == 1 else [f'CS{i}: {", ".join(some)}' for i, some in enumerate(own)]


def measured(clock):
    mean = clock.mean()
    if mean is None:
        raise Damaged('the period cannot be measured, since the clock rises once or the capture tells no time: give it by --period')
    return round(mean)


def pieces(file):
    file.seek(0)
    while part := file.read(PART):
        yield part


def counts(found):
    return [f'{key[6:]} {value}' for key, value in found.items() if key.startswith('count_') and key != 'count_all' and value != '0']
