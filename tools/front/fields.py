"""Which field of a mode register's code is not allowed, in words. The bit is the proved one; the words are 01's for its field."""

from sums import Part

CL = {'0010': 5, '0100': 6, '0110': 7, '1000': 8, '1010': 9, '1100': 10, '1110': 11, '0001': 12}
WR = {'000': 16, '001': 5, '010': 6, '011': 7, '100': 8, '101': 10, '110': 12, '111': 14}
CWL = [(2500, 5), (1875, 6), (1500, 7), (1250, 8), (0, 9)]  # from this period on

NO_REGISTER = 16


def held(code, *places):
    """What the code has at these address bits, as digits."""
    return ''.join(str(code >> place & 1) for place in places)


def cl(code, said):
    digits = held(code, 6, 5, 4, 2)
    if digits not in CL:
        return f'CL code {digits} is none'
    return f'CL {CL[digits]} is not for {said["period_ps"]} ps in bin {said["bin"]}'


def wr(code, said):
    return f'WR {WR[held(code, 11, 10, 9)]} is under tWR, {Part(said).clocks("twr")} clocks'


def cwl(code, said):
    needs = next(latency for least, latency in CWL if int(said['period_ps']) >= least)
    return f'CWL code {held(code, 5, 4, 3)} is {int(held(code, 5, 4, 3), 2) + 5}, and {said["period_ps"]} ps needs {needs}'


# By register and bit; of any other bit there is only that it must be 0.
FIELDS = {
    (0, 0): lambda code, said: f'burst code {held(code, 1, 0)} is none', (0, 2): cl, (0, 9): wr,
    (1, 2): lambda code, said: f'Rtt code {held(code, 9, 6, 2)} at A9, A6 and A2 is none',
    (1, 3): lambda code, said: f'AL code {held(code, 4, 3)} is none',
    (1, 11): lambda code, said: 'A11, TDQS, must be 0 on x16',
    (2, 3): cwl, (2, 6): lambda code, said: 'A6 and A7 may not both be 1',
    (2, 9): lambda code, said: f'Rtt_WR code {held(code, 10, 9)} is none',
}


def refused(said):
    """Of a record that breaks rule 3 as an MRS."""
    number, bit, code = int(said['record_bank']), int(said['found']), int(said['record_address'], 16)
    if bit == NO_REGISTER:
        return f'there is no register {number}'
    words = FIELDS[number, bit](code, said) if (number, bit) in FIELDS else f'A{bit} must be 0'
    return f'code {said["record_address"]}, bit {bit}: {words}'
