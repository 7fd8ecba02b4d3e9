#!/usr/bin/env python3
"""Writes a list of register readings, stdin, and what crates/registers_run must answer to it, stdout.

    python3 tests/tables/registers.py [FOLDER]

FOLDER is crates/registers_run unless given. The tables below are those of the paper (01, "The
recording", "Clock counts" and "Registers") and of the data sheets (facts.md, section 2); where the
two differ, the paper's. Nothing here comes from the code. A call is ten bytes: six of header, the
register's number, the code's two, and the length of the buffer lent."""

import sys
from itertools import product

# ---- the tables

HEADER = [('edition', 4), ('bin', 2), ('density', 1), ('width', 1), ('hot', 1), ('zero', 3),
          ('period', 12), ('rest', 24)]

LEAST = {0: 1875, 1: 1500, 2: 1250, 3: 1070}  # by bin
MOST = 3300
TWR = 15000

CL = {'0010': 5, '0100': 6, '0110': 7, '1000': 8, '1010': 9, '1100': 10, '1110': 11, '0001': 12}
WR = {'000': 16, '001': 5, '010': 6, '011': 7, '100': 8, '101': 10, '110': 12, '111': 14}
CWL = {'000': 5, '001': 6, '010': 7, '011': 8, '100': 9}

# CL: the least period, the period that it stays under, the bins
CL_PERIODS = {
    5: (3000, MOST + 1, (0, 1, 2)),
    6: (2500, MOST + 1, (0, 1, 2, 3)),
    7: (1875, 2500, (0, 1, 2, 3)),
    8: (1875, 2500, (0, 1, 2, 3)),
    9: (1500, 1875, (1, 2, 3)),
    10: (1500, 1875, (1, 2, 3)),
    11: (1250, 1500, (2, 3)),
    12: (1070, 1250, (3,)),
}

# CWL: the least period, the period that it stays under
CWL_PERIODS = {
    5: (2500, MOST + 1),
    6: (1875, 2500),
    7: (1500, 1875),
    8: (1250, 1500),
    9: (1070, 1250),
}

FREE = {'0': 0, '1': 1}
ZERO = {'0': 0}

# By register: each field's bits, and what its codes stand for; a code that is not there is not allowed.
FIELDS = {
    0: {
        'A1 A0': {'00': 0, '01': 1, '10': 2},  # eight, by A12, four
        'A6 A5 A4 A2': CL,
        'A3': FREE,  # sequential, interleave
        'A7': ZERO,  # test
        'A8': FREE,  # DLL reset
        'A11 A10 A9': WR,
        'A12': FREE,  # slow exit, fast exit
        'A13': ZERO,
        'A14': ZERO,
        'A15': ZERO,
    },
    1: {
        'A0': ZERO,  # DLL off
        'A5': ZERO,
        'A1': FREE,  # drive RZQ/6, RZQ/7
        'A9 A6 A2': {'000': 0, '001': 1, '010': 2, '011': 3, '100': 4, '101': 5},  # Rtt_nom
        'A4 A3': {'00': 0, '01': 1, '10': 2},  # AL 0, CL-1, CL-2
        'A7': ZERO,  # levelling
        'A8': ZERO,
        'A10': ZERO,
        'A11': FREE,  # TDQS; see TDQS
        'A12': FREE,  # Qoff
        'A13': ZERO,
        'A14': ZERO,
        'A15': ZERO,
    },
    2: {
        'A2 A1 A0': {'000': 0, '001': 1, '010': 2, '011': 3, '100': 4, '101': 5, '110': 6, '111': 7},
        'A5 A4 A3': CWL,
        'A7 A6': {'00': 0, '01': 1, '10': 2},  # SRT, ASR: not both
        'A8': ZERO,
        'A10 A9': {'00': 0, '01': 1, '10': 2},  # Rtt_WR
        'A11': ZERO,
        'A12': ZERO,
        'A13': ZERO,
        'A14': ZERO,
        'A15': ZERO,
    },
    3: {f'A{i}': ZERO for i in range(16)},
}

TDQS = {0: FREE, 1: ZERO}  # MR1's A11 by width: x8, x16

# What register reading writes, a byte each; '' is a zero.
WRITTEN = {
    0: ['A1 A0', 'A3', 'A6 A5 A4 A2', 'A8', 'A11 A10 A9', 'A12'],
    1: ['A4 A3', 'A1', 'A9 A6 A2', 'A11', 'A12', ''],
    2: ['A5 A4 A3', 'A6', 'A7', 'A10 A9', 'A2 A1 A0', ''],
    3: ['', '', '', '', '', ''],
}

ROOM = 6  # bytes that it writes
SPACE = 8  # the program's buffer, full of FILL
FILL = 255

# ---- the answer to a call


def get(code, bits):
    """The code's bits of these names, as written: get(0x0B50, 'A6 A5 A4 A2') is '1010'."""
    return ''.join(str(code >> int(bit[1:]) & 1) for bit in bits.split())


def put(code, bits, value):
    """The code with these bits set to what value writes."""
    for bit, digit in zip(bits.split(), value):
        place = 1 << int(bit[1:])
        code = code | place if digit == '1' else code & ~place
    return code


def header(**given):
    """A header of these fields, edition 1 and all others 0."""
    return {name: given.get(name, 1 if name == 'edition' else 0) for name, _ in HEADER}


def packed(head):
    bits = ''.join(f'{head[name]:0{size}b}' for name, size in HEADER)
    return int(bits, 2).to_bytes(6, 'big')


def cl_fits(cl, head):
    least, under, bins = CL_PERIODS[cl]
    return least <= head['period'] < under and head['bin'] in bins


def cwl_fits(cwl, head):
    least, under = CWL_PERIODS[cwl]
    return least <= head['period'] < under


def wr_fits(wr, head):
    """At least tWR's clocks: a least time is rounded up."""
    return wr >= -(-TWR // head['period'])


def header_refusal(head):
    if head['edition'] != 1:
        return 2
    if head['zero'] or head['rest']:
        return 3
    if head['period'] < LEAST[head['bin']] or head['period'] > MOST:
        return 4
    return 0


def fits(head, number, bits, value):
    """Whether a field of these bits may hold the value."""
    table = TDQS[head['width']] if (number, bits) == (1, 'A11') else FIELDS[number][bits]
    if value not in table:
        return False
    clocks = {(0, 'A6 A5 A4 A2'): cl_fits, (0, 'A11 A10 A9'): wr_fits, (2, 'A5 A4 A3'): cwl_fits}.get((number, bits))
    return clocks is None or clocks(table[value], head)


def refused_bit(head, number, code):
    """The lowest-numbered address bit belonging to a field that isn't allowed; 16 where there is no such register; or None."""
    if number > 3:
        return 16
    return min((int(bit[1:]) for bits in FIELDS[number] if not fits(head, number, bits, get(code, bits)) for bit in bits.split()),
               default=None)


def written(number, code):
    """The six bytes: latencies and WR in clocks, any other field as its bits."""
    clocks = {'A6 A5 A4 A2': CL, 'A11 A10 A9': WR} if number == 0 else {'A5 A4 A3': CWL}
    return [clocks[bits][get(code, bits)] if bits in clocks else int('0' + get(code, bits), 2)
            for bits in WRITTEN[number]]


def refusal(head, number, code, room):
    """Register reading checks 9, 1, 2, 3, 4, 11; 11 comes with 256 times the bit."""
    if room < ROOM:
        return 9
    if header_refusal(head):
        return header_refusal(head)
    bit = refused_bit(head, number, code)
    return 0 if bit is None else 11 + 256 * bit


def line(head, number, code, room):
    name = f'{packed(head).hex()} {number} {code:04x} {room} -> '
    refused = refusal(head, number, code, room)
    if refused:
        return name + str(refused)
    out = written(number, code) + [FILL] * (room - ROOM)
    return name + '0: ' + ' '.join(map(str, out))


# ---- the calls

CALLS = {}  # by the call's ten bytes, so each is made once, its line


def call(head, number, code, room=ROOM):
    asked = packed(head) + bytes([number]) + code.to_bytes(2, 'big') + bytes([room])
    CALLS[asked] = line(head, number, code, room)


def codes(size):
    """Every code of a field of this many bits."""
    return [''.join(digits) for digits in product('01', repeat=size)]


def good_cl(head):
    return next((code for code in CL if cl_fits(CL[code], head)), '0100')


def good_wr(head):
    """The shortest that is long enough."""
    return min((code for code in WR if wr_fits(WR[code], head)), key=WR.get)


def good_cwl(head):
    return next((code for code in CWL if cwl_fits(CWL[code], head)), '000')


def good(head, number, ones=False):
    """An allowed code: its free fields 0; with ones, each the greatest that is allowed."""
    if number == 0:
        code = put(put(0, 'A6 A5 A4 A2', good_cl(head)), 'A11 A10 A9', good_wr(head))
        return put(code, 'A1 A0 A3 A8 A12', '10111') if ones else code
    if number == 1:
        code = put(0, 'A9 A6 A2 A4 A3 A1 A12', '1011011') if ones else 0
        return put(code, 'A11', '1') if ones and head['width'] == 0 else code
    if number == 2:
        code = put(0, 'A5 A4 A3', good_cwl(head))
        return put(code, 'A2 A1 A0 A7 A6 A10 A9', '1111010') if ones else code
    return 0


def borders(of_bin):
    """Around each period of a table, from one under the bin's least to one over the most. 1072 and
    2143 are the least periods of WR 14 and WR 7; those of the other WR are in the tables."""
    limits = {LEAST[of_bin], MOST, 1072, 2143}
    limits |= {row[0] for row in CL_PERIODS.values()} | {row[0] for row in CWL_PERIODS.values()}
    around = {limit + by for limit in limits for by in (-1, 0, 1)}
    return sorted(period for period in around if period >= LEAST[of_bin] - 1)


def latencies(head):
    """Every code of CL, WR and CWL; under a header that is refused, some of each."""
    refused = header_refusal(head) != 0
    for bits, number in [('A6 A5 A4 A2', 0), ('A11 A10 A9', 0), ('A5 A4 A3', 2)]:
        for value in codes(len(bits.split()))[::4 if refused else 1]:
            call(head, number, put(good(head, number), bits, value))


def every_field(head):
    """Every code of every field, and of each bit by itself, the others as in a good code; and each two bits
    of one whose free fields are 0."""
    for number in FIELDS:
        for ones in (False, True) if number < 3 else (False,):
            base = good(head, number, ones)
            for bits in FIELDS[number]:
                for value in codes(len(bits.split())):
                    call(head, number, put(base, bits, value))
            for i in range(16):
                call(head, number, base ^ 1 << i)
            for i, j in product(range(16), range(0 if ones else 16)):
                call(head, number, base ^ 1 << i ^ 1 << j)


def make_calls():
    for of_bin, width in product(range(4), range(2)):
        for period in borders(of_bin):
            latencies(header(bin=of_bin, width=width, period=period))
    fixed = [header(bin=1, width=0, period=1500), header(bin=3, density=1, width=1, hot=1, period=1070)]
    for head in fixed:
        every_field(head)
        for number in (4, 5, 6, 7, 8, 127, 128, 255):
            for code in (0, good(head, 0), good(head, 1, True), good(head, 2), 65535):
                call(head, number, code)
        for number in range(5):
            for room in range(SPACE + 1):
                call(head, number, good(head, number, True), room)
        for edition in range(16):
            call({**head, 'edition': edition}, 0, good(head, 0))
        for name, size in [('zero', 3), ('rest', 24)]:
            for i in range(size):
                call({**head, name: 1 << i}, 0, good(head, 0))
        for density, hot in product(range(2), range(2)):
            for number in range(4):
                call({**head, 'density': density, 'hot': hot}, number, good(head, number, True))
        for period in (0, 1, 1069, 3301, 4095):
            call({**head, 'period': period}, 3, 0)
        # every set of refusals that hold at once
        for short, edition, zero, period, code in product(range(2), repeat=5):
            bad = {**head, 'edition': 1 + edition, 'zero': zero, 'period': 1069 if period else head['period']}
            call(bad, 3, code, ROOM - short)
            call(bad, 3 + code, 0, ROOM - short)


def self_test():
    """The fields of each register are its 16 bits, and the paper's P5, P6 and P7 hold."""
    for number, fields in FIELDS.items():
        bits = sorted(int(bit[1:]) for field in fields for bit in field.split())
        assert bits == list(range(16)), number
    p1, p2 = header(bin=1, period=1500), header(bin=3, density=1, width=1, period=1070)
    assert written(0, 0x0B50) == [0, 0, 9, 1, 10, 0] and refusal(p1, 0, 0x0B50, 6) == 0
    base = put(0, 'A6 A5 A4 A2', '0001')
    assert refusal(p2, 0, put(base, 'A11 A10 A9', '111'), 6) == 2315
    assert refusal(p2, 0, put(base, 'A11 A10 A9', '000'), 6) == 0
    for period, six, seven in [(2500, 0, 523), (2499, 523, 0)]:
        head = header(bin=1, period=period)
        assert refusal(head, 0, put(0, 'A6 A5 A4 A2', '0100'), 6) == six
        assert refusal(head, 0, put(0, 'A6 A5 A4 A2', '0110'), 6) == seven


def main():
    folder = sys.argv[1] if len(sys.argv) > 1 else 'crates/registers_run'
    self_test()
    make_calls()
    with open(f'{folder}/stdin', 'wb') as asked:
        asked.write(b''.join(CALLS))
    with open(f'{folder}/stdout', 'w', encoding='ascii', newline='\n') as answers:
        answers.writelines(text + '\n' for text in CALLS.values())


main()
