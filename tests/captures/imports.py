"""Captures to recordings: stored ones, random ones, damaged ones, unknown levels, pairs, names, and the step that reads a recording back."""

import hashlib
import json
import random
import re
import shutil
import subprocess

from common import HERE, P8, PART, SHORT, check, imported, refuses, run, takes
from made import A, ACT, ACT_BYTES, BA, CK, CKE, DES, MAPPED, PINS, random_capture, shifted, vcd

from compared import Compared
from decode import records
from layout import EDITIONS
from programs import Failed

SIMULATED = ['--pin', 'CS=cs_n', '--pin', 'RAS=ras_n', '--pin', 'CAS=u_ddr.cas_n', '--pin', 'WE=board/u_ddr/we_n', '--pin', 'BA=u_ddr/ba', '--pin', 'A=board/a']
OFF = b'#3750\n$dumpoff\nx!\nx"\nbx #\n$end\n#3900\n$dumpon\n0!\n1"\nb1111 #\n$end'
TOLD = ('outcome', 'rule', 'needed', 'found', 'record_command', 'partner_command')


def simulated(folder):
    """What a Verilog simulator wrote: the planted break is named at the simulator's own time."""
    capture = (HERE / 'planted.vcd').read_bytes()
    ran, out = imported(folder, capture, *SIMULATED)
    good = b'1500 ps, measured' in ran.stdout and b'commands: MRS 4, REF 1, PRE 1, ACT 1, RD 1, DES 1\n' in ran.stdout
    check(f'the simulator\'s capture: {ran}', ran.returncode == 0 and good)
    for name in 'c.vcd', 'o.rec':
        check(f'the import tells no SHA-256 of {name}', hashlib.sha256((folder / name).read_bytes()).hexdigest().encode() in ran.stdout)
    sent = [line.split(': pins ') for line in (HERE / 'planted.log').read_text().splitlines()]
    listed = [line.split() for line in run(folder, '--list', '1-99', 'o.rec').stdout.decode().splitlines()[1:]]
    told = [(round(float(words[2]) * 1000), words[5]) for words in listed if words[6] != 'DES']
    check(f'the records are not at the simulator\'s times: {told}', told == [(int(time), rest[:4]) for time, rest in sent])
    found = json.loads(run(folder, '--json', 'o.rec').stdout)
    told = [found[key] for key in TOLD]
    check(f'the planted break: {told}', told == ['broken', 4, 9, 8, 'RD', 'ACT'])
    read = next(int(time) for time, rest in sent if rest.startswith('0101'))
    check(f'the planted break is at edge {found["edge"]}, and the simulator sends it at {read} ps', found['edge'] * 1500 == read)
    again = imported(folder, capture, *SIMULATED, '--pin', 'CK_N=board/ck_n')
    check(f'the simulator\'s capture with the pair: {again[0]}', again[1] == out)


def from_sigrok(folder):
    for name in 'short.sigrok.vcd', 'short.sigrok.csv':
        takes(folder, name, (HERE / name).read_bytes(), [], SHORT[6:].hex(), b'1500 ps, measured', name=name)


def random_captures(folder):
    chance = random.Random(23)
    for i in range(25):
        capture, recording = random_capture(chance, P8[:6])
        ran, out = imported(folder, capture, '--period', '1500')
        check(f'random capture {i}: {ran} {out.hex()} {recording.hex()}', ran.returncode == 0 and out == recording)


def damaged(folder):
    good = vcd([DES] * 6 + [ACT] + [DES] * 9)
    takes(folder, 'a capture that is whole', good, MAPPED, f'000007{ACT_BYTES}000009f80000')
    for what, capture, *said in [
        ('cut off in a line', good[:-9], 'c.vcd: it is cut off', 'byte '),
        ('cut off in the header', good[:80], '$enddefinitions'),
        ('cut off in $dumpvars', good[:good.index(b'bx %')], 'cut off', '$dump'),
        ('empty', b'', 'c.vcd: it is empty'),
        ('no text', b'\0' + good, 'c.vcd: it is neither VCD nor CSV'),
        ('no clock edge', good[:good.index(b'#1500')], 'CK never rises'),
        ('time that goes back', good.replace(b'#3000\n', b'#1200\n'), 'goes back', '2250 ps', '1200 ps'),
        ('a time that is none', good.replace(b'#3000\n', b'#3o00\n'), '#3o00 is no time', '2250 ps'),
        ('no level', good.replace(b'#3000\n1!', b'#3000\nq!'), 'q! is no change of a wire', '3000 ps'),
        ('no such code', good.replace(b'#3000\n1!', b'#3000\n1?'), '1? is no change of a wire', '3000 ps'),
        ('a vector of no such code', good.replace(b'b0011 #', b'b0011 ?'), 'b0011 ? is no change of a wire', '9000 ps'),
        ('a time within a line', good.replace(b'#3000\n1!', b'#3000 1! #3700 0!'), '#3700 is no change of a wire', '3000 ps'),
        ('the clock twice at one time', good.replace(b'#3000\n1!', b'#3000\n1!\n0!'), 'CK changes twice', '3000 ps'),
        ('the clock twice in two lines of one time', good.replace(b'#3000\n1!', b'#3000\n1!\n#3000\n0!'), 'CK changes twice', '3000 ps'),
        ('the clock unknown', good.replace(b'#3750\n0!', b'#3750\nx!'), 'CK is x or z from 3750 ps to 4500 ps'),
        ('a capture that was switched off', good.replace(b'#3750\n0!', OFF), 'CK is x or z from 3750 ps to 3900 ps'),
        ('a clock that stops', shifted(good, 4000, 60000), 'the clock stops', '61500 ps from edge 2 at 3000 ps'),
        ('no period', vcd([DES]), 'period', '--period'),
        ('a period that does not fit', vcd([DES] * 9, period=1400), '1400 ps', '1333', "bin's least"),
    ]:
        refuses(folder, what, capture, MAPPED, *said)
    stops = good[:good.index(b'#6000\n')] + b''.join(b'#%d\nb0001 #\n#%d\nb1111 #\n' % (time, time + 700) for time in range(20000, 40000, 1500))
    refuses(folder, 'a clock that never comes back', stops, MAPPED, 'the clock stops after edge 3 at 4500 ps', 'pins change up to 40200 ps')
    refuses(folder, 'a wrong period', good, [*MAPPED, '--period', '3400'], '3400 ps')
    refuses(folder, 'a clock of another period', vcd([DES] * 9, period=3000), [*MAPPED, '--period', '1500'], '3000 ps from edge 1', 'the period is 1500 ps')
    twice = good.replace(b'b0011 #', b'b0111 #\nb0011 #')
    takes(folder, 'a pin twice at one time', twice, MAPPED, f'000007{ACT_BYTES}000009f80000', beside=b'1 times, first RAS at 9000 ps')
    again = good.replace(b'#3750\n0!', b'#3750\n0!\n$comment 1! #1 $end\n$dumpall\n0!\n1"\nb1111 #\nbz %\n$end')
    takes(folder, 'a capture that repeats its levels', again, MAPPED, f'000007{ACT_BYTES}000009f80000')
    still = [*MAPPED, '--still', '--period', '1500']
    takes(folder, 'a clock that may stop for good', stops, still, '00001af80000', b'23 of them counted by time')
    takes(folder, 'a clock that may stop', shifted(good, 4000, 60000), still, f'00002f{ACT_BYTES}000009f80000', b'40 of them counted by time')


def damaged_csv(folder):
    rows = (HERE / 'short.sigrok.csv').read_bytes()
    last = rows.rindex(b'\n', 0, -1)
    for what, capture, words, *said in [
        ('CSV cut off', rows[:-5], [], 'cut off', 'byte'),
        ('CSV with a short row', rows[:last - 10] + rows[last:], [], 'line ', 'cells'),
        ('CSV with no level', rows[:last] + rows[last:].replace(b'0', b'7', 1), [], '7 is no level'),
        ('CSV without the pin', rows, ['--pin', 'CS=select'], 'CS', 'select'),
    ]:
        refuses(folder, what, capture, words, *said, name='c.csv')


def other_csv(folder):
    """CSV that is not sigrok's: no comments, A0 to A12 by number; without times, and with them."""
    pins = ['CKE', 'CS', 'RAS', 'CAS', 'WE', *(f'BA{i}' for i in range(3)), *(f'A{i}' for i in range(13))]
    idle, act = '1,1,1,1,1' + ',0' * 16, '1,0,0,1,1' + ',1' + ',0' * 15
    rows = [(i, level, act if i == 3 else idle) for i in range(6) for level in (0, 1)]
    plain = '\n'.join([','.join(['CK', *pins]), *(f'{level},{row}' for _, level, row in rows), '']).encode()
    timed = '\n'.join([','.join(['Time [ns]', 'CK', *pins]), *(f'{i * 1.5 + 0.75 * level:.2f},{level},{row}' for i, level, row in rows), '']).encode()
    wanted, zeros = '000004990000' + '000002f80000', b'A13, A14, A15 are not in the capture'
    takes(folder, 'CSV that tells no time', plain, ['--period', '1500'], wanted, b'by the period', zeros, name='c.csv')
    takes(folder, 'CSV with a time column', timed, [], wanted, b'1500 ps, measured', zeros, name='c.csv')
    refuses(folder, 'CSV that tells no time, and no period', plain, [], '--period', name='c.csv')
    refuses(folder, 'CSV that tells no time, and --still', plain, ['--period', '1500', '--still'], 'tells no time', name='c.csv')
    refuses(folder, 'CSV whose time stands still', timed.replace(b'\n4.50,', b'\n3.75,'), [], 'line 8', 'not after', name='c.csv')


def unknown(folder):
    """x and z where they matter, and where they do not."""
    for what, edge, pin in [
        ('CKE', ('x', '1111', 'z', 'z'), 'CKE'), ('CS', ('1', 'x111', 'z', 'z'), 'CS'), ('WE', ('1', '001x', '1', '1'), 'WE'),
        ('BA', ('1', '0011', 'z', '1'), 'BA2'), ('A', ('1', '0011', '1', 'x'), 'A15'), ('A10 of a PRE', ('1', '0010', '1', 'z'), 'A10'),
        ('BA of a PRE', ('1', '0010', 'x', '0'), 'BA2'), ('CS where CKE falls', ('0', 'x111', 'z', 'z'), 'CS'),
    ]:
        capture = vcd([DES] * 3 + [edge] + [DES] * 3)
        refuses(folder, f'{what} unknown', capture, MAPPED, f'{pin} is x or z at 6000 ps, edge 4', '--x')
        ran, _ = imported(folder, capture, *MAPPED, '--x', '1')
        check(f'{what} unknown, --x 1: {ran}', ran.returncode == 0 and b'unknown levels that count as 1: ' in ran.stdout)
    for what, edge, records_ in [
        ('REF', ('1', '0001', 'z', 'z'), '000004880000000003f80000'), ('PRE of all', ('1', '0010', 'z', 'zzzzz1zzzzzzzzzz'), '000004900400000003f80000'),
        ('PDE', ('0', '1zzz', 'z', 'x'), '000004400000000003780000'), ('NOP', ('1', '0111', 'x', 'x'), '000007f80000'),
        ('ZQ', ('1', '0110', 'x', 'xxxxx0xxxxxxxxxx'), '000004b00000000003f80000'),
    ]:
        capture = vcd([DES] * 3 + [edge] + [(edge[0], *DES[1:])] * 3)
        takes(folder, f'{what} with pins that do not matter', capture, MAPPED, records_, b'' if what == 'NOP' else b'do not matter')
    takes(folder, 'CS unknown at three edges', vcd([DES] * 3 + [('1', 'x111', 'z', 'z')] * 3), [*MAPPED, '--x', '1'], '000006f80000', b'count as 1: 3\n')
    takes(folder, 'WE unknown, --x 0', vcd([DES] * 3 + [('1', '001x', '1', '1')]), [*MAPPED, '--x', '0'], '000004910001', b'count as 0: 1\n')
    low = vcd([('0', '1111', 'z', 'z')] * 3 + [DES] * 3)
    takes(folder, 'CKE low from the start', low, MAPPED, '000001780000000003f80000000002f80000', beside=b'begins with CKE low')


def pairs(folder):
    """A differential clock: together, apart, and one that turns alone."""
    plain = vcd([DES] * 6 + [ACT] + [DES] * 3, [CK, '$var wire 1 & ck_n $end', CKE, PINS, BA, A], start='\n1&')
    both = plain.replace(b'\n1!', b'\n1!\n0&').replace(b'\n0!\n', b'\n0!\n1&\n')
    words, wanted = [*MAPPED, '--pin', 'CK_N=ck_n'], f'000007{ACT_BYTES}000003f80000'
    takes(folder, 'a pair', both, words, wanted)
    skewed = re.sub(rb'#(\d+)\n1!\n0&', lambda time: b'#%d\n0&\n#%d\n1!' % (int(time[1]) - 20, int(time[1])), both)
    takes(folder, 'a pair that turns apart', skewed, words, wanted, beside=b'apart 10 times, by 20 ps at most')
    refuses(folder, 'a pair of which one turns alone', both.replace(b'#3000\n1!\n0&', b'#3000\n1!', 1), words, 'CK and CK_N disagree from 3000 ps')


def names(folder):
    """How wires are found."""
    edges, wanted = [DES] * 6 + [ACT] + [DES] * 3, f'000007{ACT_BYTES}000003f80000'
    bare = ['$var reg 4 # pins $end', '$var reg 3 $ ba $end', '$var reg 16 % a $end']
    inner = '$scope module u1 $end $var wire 1 K cke $end $upscope $end'
    capture = vcd(edges, [CK, '$var reg 1 " CKE $end', *bare, inner])
    takes(folder, 'a name whose case fits comes first', capture, MAPPED, wanted)
    turned = [CK, CKE, PINS, '$var reg 3 $ ba [0:2] $end', '$var reg 16 % a [0:15] $end']
    upward = vcd([DES] * 6 + [('1', '0011', '110', '1100010010000000')] + [DES] * 3, turned)
    takes(folder, 'buses that are declared upwards', upward, MAPPED, wanted)
    twins = vcd(edges, [CK, inner, '$scope module u2 $end $var reg 1 " cke $end $upscope $end', *bare])
    refuses(folder, 'a name that several have', twins, MAPPED, 'CKE', 'top/u1/cke', 'top/u2/cke')
    takes(folder, 'a name with a scope', twins, [*MAPPED, '--pin', 'CKE=u2/cke'], wanted)
    for what, words, *said in [
        ('no such pin', [], 'CS', 'top/pins'), ('no such pin that is named', [*MAPPED, '--pin', 'CKE=enable'], 'CKE', 'enable', 'top/CKE'),
        ('a bit that is not there', [*MAPPED, '--pin', 'WE=pins[4]'], 'WE', '0 to 3'), ('a bus for a pin', [*MAPPED, '--pin', 'WE=pins'], 'WE wants one wire'),
        ('a bus of too few', [*MAPPED, '--pin', 'A=a[11:0]'], 'A wants 13 to 16', 'A12'),
    ]:
        refuses(folder, what, capture, words, *said)
    (folder / 'p.map').write_text('# the board\nCS = pins[3]\nRAS=pins[2]\nCAS=pins[1]\n\nWE=pins[0]\nCKE=low\n')
    takes(folder, 'a mapping file and levels', capture, ['--pins', 'p.map', '--pin', 'CKE=high', '--pin', 'A15=high'], wanted.replace('0123', '8123'))
    (folder / 'p.map').write_text('CS=pins[3]\nXY=a\n')
    refuses(folder, 'a wrong mapping file', capture, ['--pins', 'p.map'], 'judge: p.map: line 2', 'XY')


def command_lines(folder):
    (folder / 'c.vcd').write_bytes(vcd([DES] * 6))
    for words in ['--pin', 'CKE', 'c.vcd'], ['--pin', 'Q=a', 'c.vcd'], ['--x', '2', 'c.vcd'], ['--period', 'long', 'c.vcd'], ['--still', 'c.vcd'], ['--pin'], \
            ['--width', '4', 'c.vcd'], ['--gap', '5', 'c.vcd'], ['c.vcd', 'c.vcd'], []:
        ran = run(folder, '--import', 'o.rec', *PART, *words)
        check(f'{words}: {ran}', ran.returncode == 2 and b'usage: judge' in ran.stderr and ran.stdout == b'')
    ran = run(folder, '--import', 'o.rec', '--bin', '1333', '--width', '8', 'c.vcd')
    check(f'an import without a density: {ran}', ran.returncode == 2 and b'--density 1|2' in ran.stderr)
    for words in ['--import', 'c.vcd', *PART, 'c.vcd'], ['--export', 'short', 'short'], ['--picture', 'short', 'short'], ['--page', '/dev/null', 'short'], \
            ['--picture', '-', 'short'], ['--import', 'o.rec', *PART, '-'], ['--import', '/dev/null', *PART, 'c.vcd']:
        shutil.copy(HERE / 'short.rec', folder / 'short')
        ran = run(folder, *words, stdin=subprocess.DEVNULL)
        check(f'{words}: {ran}', ran.returncode == 2 and ran.stderr.count(b'\n') == 1 and (folder / 'short').read_bytes() == SHORT)
    ran = run(folder, '--picture', 'none/x.svg', 'short')
    check(f'a folder that is not there: {ran}', ran.returncode == 3 and b'cannot be written' in ran.stderr)


def read_back(folder):
    """A recording that says another thing than the capture is seen: each bit of each record, each step, a record too many and one too few."""
    layout = EDITIONS[1]
    good = list(records([SHORT[6:] + bytes.fromhex('000003380000' + '000005b80000' + '000004f80000')], layout))
    at, level, capture = dict(good[:-1]), layout.cke, []
    for edge in range(1, good[-1][0] + 1):
        capture.append((edge, 0, at.get(edge, layout.idle(level) | 0x1234)))
        level = at.get(edge, level) & layout.cke

    def differs(found):
        compared = Compared(iter(found), layout, None)
        try:
            compared.beside(capture)
            compared.ends(capture[-1][0])
        except Failed:
            return True
        return False
    check('a recording that is the capture\'s differs', not differs(good))
    for i, (edge, word) in enumerate(good):
        others = [[(edge, word ^ 1 << bit)] for bit in range(24)] + [[(edge - 1, word)], [(edge + 1, word)], [], [(edge, word), (edge + 1, 0x8B0000)]]
        for other in others:
            check(f'record {i + 1} as {other} is not seen', differs(good[:i] + other + good[i + 1:]))


TESTS = [simulated, from_sigrok, random_captures, damaged, damaged_csv, other_csv, unknown, pairs, names, command_lines, read_back]
