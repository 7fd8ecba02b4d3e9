"""The sum behind "needed", with this part's numbers. It is told only where it comes to the number that was proved."""

# 01's table: ps by bin, and for two times by page.
BINS = {
    'trcd': [13125, 13125, 13125, 12840], 'trp': [13125, 13125, 13125, 12840], 'trc': [50625, 49500, 48750, 47080],
    'tras': [37500, 36000, 35000, 34240], 'tcke': [5625, 5625, 5000, 5000], 'txp': [7500, 6000, 6000, 6000],
}
PAGES = {'trrd': [[7500, 6000, 6000, 5000], [10000, 7500, 7500, 6000]], 'tfaw': [[37500, 30000, 30000, 27000], [50000, 45000, 40000, 35000]]}
SAME = {'trtp': 7500, 'twtr': 7500, 'twr': 15000, 'tmod': 15000, 'zqlong': 320000, 'zqshort': 80000, 'txpdll': 24000}
REFRESH = {'1': 110000, '2': 160000}
LEAST = {'trrd': 4, 'tcke': 3, 'trtp': 4, 'twtr': 4, 'tmod': 12, 'txs': 5, 'zqlong': 256, 'zqshort': 64, 'txp': 3, 'txpdll': 10}
SHOWN = {
    'trcd': 'tRCD', 'trp': 'tRP', 'trc': 'tRC', 'tras': 'tRAS', 'trrd': 'tRRD', 'tfaw': 'tFAW', 'tcke': 'tCKE', 'trtp': 'tRTP', 'twtr': 'tWTR', 'twr': 'tWR',
    'tmod': 'tMOD', 'trfc': 'tRFC', 'txs': 'tXS', 'zqlong': 'ZQ long', 'zqshort': 'ZQ short', 'txp': 'tXP', 'txpdll': 'tXPDLL',
}
TIMES = {
    5: ['trp'], 6: ['trc'], 7: ['trrd'], 8: ['tfaw'], 9: ['tras'], 15: ['trfc'], 17: ['tmod'], 18: ['zqlong', 'zqshort'], 21: ['txs'], 27: ['tcke'],
    29: ['txp'], 30: ['txpdll'],
}
FIXED = {12: 4, 16: 4, 20: 512}


class Part:
    """The numbers of one report."""

    def __init__(self, said):
        self.said, self.period, self.bin = said, int(said['period_ps']), int(said['bin'])

    def ps(self, time):
        if time in BINS:
            return BINS[time][self.bin]
        if time in PAGES:
            return PAGES[time][self.said['width'] == '16'][self.bin]
        refresh = REFRESH[self.said['density_gb']]
        return {'trfc': refresh, 'txs': refresh + 10000}.get(time) or SAME[time]

    def clocks(self, time):
        return max(-(-self.ps(time) // self.period), LEAST.get(time, 0))

    def time(self, time):
        """A time as a division, with its floor where that is what counts."""
        floor = '' if -(-self.ps(time) // self.period) >= LEAST.get(time, 0) else f' (at least {LEAST[time]})'
        return f'{SHOWN[time]} {self.ps(time)} ps / {self.period} ps{floor}', self.clocks(time)

    def latencies(self):
        """AL, CL, CWL and h by the registers at the end; None where one is not written."""
        if not {'mr0_cl', 'mr1_a4a3', 'mr2_cwl'} <= self.said.keys():
            return None
        cl, cwl, less = (int(self.said[key]) for key in ('mr0_cl', 'mr2_cwl', 'mr1_a4a3'))
        return (cl - less if less else 0), cl, cwl, 2 if self.said['mr0_a1a0'] == '2' else 4


def candidates(part, rule):
    """Sums that the rule may stand for: words and their number."""
    for time in TIMES.get(rule, []):
        yield part.time(time)
    if rule in FIXED:
        yield str(FIXED[rule]), FIXED[rule]
    if rule == 22:
        words, n = part.time('tcke')
        yield f'{words} + 1', n + 1
    if rule == 26 and part.said['partner_command'] == 'MRS':
        yield part.time('tmod')
    found = part.latencies()
    if found:
        yield from by_latency(part, rule, *found)


def by_latency(part, rule, al, cl, cwl, h):
    if rule == 4:
        words, n = part.time('trcd')
        yield f'{words} - AL {al}' + (' (at least 1)' if n - al < 1 else ''), max(n - al, 1)
    if rule == 10:
        words, n = part.time('trtp')
        yield f'AL {al} + {words}', al + n
    if rule == 11:
        words, n = part.time('twr')
        yield f'AL {al} + CWL {cwl} + h {h} + {words}', al + cwl + h + n
    if rule == 14:
        words, n = part.time('twtr')
        yield f'CWL {cwl} + h {h} + {words}', cwl + h + n
    for b in 4, 2:
        if rule == 13:
            yield f'CL {cl} - CWL {cwl} + 2 + b {b}', cl - cwl + 2 + b
        if rule == 19:
            yield f'AL {al} + CL {cl} + b {b}', al + cl + b
    if rule == 26:
        yield from to_entry(part, al, cl, cwl, h)


def to_entry(part, al, cl, cwl, h):
    """From a column to a power-down entry."""
    command, wr = part.said['partner_command'], int(part.said['mr0_wr'])
    if command in ('RD', 'RDA'):
        yield f'AL {al} + CL {cl} + 5', al + cl + 5
    if command == 'WRA':
        yield f'AL {al} + CWL {cwl} + h {h} + WR {wr} + 1', al + cwl + h + wr + 1
    if command == 'WR':
        words, n = part.time('twr')
        yield f'AL {al} + CWL {cwl} + h {h} + {words}', al + cwl + h + n


def needed(said):
    """The sum in words, or nothing where none comes to what is needed."""
    part = Part(said)
    for words, number in candidates(part, int(said['rule'])):
        if number == int(said['needed']):
            return f'{words} = {number}' if words != str(number) else ''
    return ''
