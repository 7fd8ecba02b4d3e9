"""Recordings to captures and back, of both editions; `ranks.py` has the marks of two ranks."""

import json
import re

from common import P8, P9, PART, RULES, SHORT, check, imported, run
from made import A, ACT, BA, CK, CKE, DES, MAPPED, PINS, longest, options, shifted, vcd, without_fillers


def came_back(folder, what, recording, gap=()):
    """Exported, imported, and the same but for its fillers. The dump."""
    (folder / 'r.rec').write_bytes(recording)
    words, period = options(recording)
    ran = run(folder, '--export', 'r.vcd', *gap, 'r.rec')
    check(f'export of {what}: {ran}', ran.returncode == 0 and ran.stderr == b'' and ran.stdout.startswith(b'r.vcd: '))
    ran = run(folder, '--import', 'b.rec', *words, *(['--still', '--period', period] if gap else []), 'r.vcd')
    check(f'import of the export of {what}: {ran}', ran.returncode == 0)
    back = (folder / 'b.rec').read_bytes() if ran.returncode == 0 else b''
    check(f'{what} does not come back: {recording.hex()}: {back.hex()}', back == without_fillers(recording))
    return (folder / 'r.vcd').read_bytes()


def marked(dump, name, period):
    """The edges that bear this mark."""
    unit, code = int(re.search(rb'\$timescale (\d+) ps', dump)[1]), re.search(rf'\$var wire 1 (.) {name} '.encode(), dump)[1]
    pieces = [piece.split(b'\n') for piece in dump.split(b'\n#')[1:]]
    return [int(piece[0]) * unit // period + 1 for piece in pieces if b'1' + code in piece]


def round_trips(folder):
    for rule, recording in sorted(RULES.items()):
        dump = came_back(folder, f'rule {rule}', recording, ['--gap', '1000'] if longest(recording) > 20000 else ())
        found = json.loads(run(folder, '--json', 'r.rec').stdout)
        marks = [marked(dump, name, found['period_ps']) for name in ('BREAK', 'PARTNER')]
        check(f'rule {rule} is marked at {marks}', marks == [[found['edge']], [found['partner_edge']] if found['partner'] else []])
    for what, recording in ('P8', P8), ('P9', P9), ('short', SHORT):
        dump = came_back(folder, what, recording)
        check(f'{what} has fillers', without_fillers(recording) == recording)
    check('no verdict and no names in the export', b'$comment broken 7 6 5 28 4 3 $end' in dump and dump.count(b'\nsMRS ') == 4 and dump.count(b'\nsACT ') == 2)
    came_back(folder, 'fillers', P8 + bytes.fromhex('000001b80000000005c81234000002380000000003550000000001881111000004b80000000009f80001'))
    came_back(folder, 'a header alone and a NOP', P8[:6] + bytes.fromhex('000123b80000'))
    far = P8 + bytes.fromhex('ffffff8a0000ffffffb80000ffffffc80000123456880000ffffff380000ffffff080000000001c00000')
    came_back(folder, 'long gaps', far, ['--gap', '100'])
    (folder / 'r.rec').write_bytes(far)
    ran = run(folder, '--export', 'r.vcd', 'r.rec')
    check(f'an export of too many edges: {ran}', ran.returncode == 2 and b'--gap' in ran.stderr and ran.stderr.count(b'\n') == 1)
    (folder / 'r.rec').write_bytes(P8[:6])
    ran = run(folder, '--export', 'r.vcd', 'r.rec')
    check(f'an export of no records: {ran}', ran.returncode == 0 and b'0 records' in ran.stdout)


WIDER = ['$var wire 1 R rst $end', '$var wire 1 O odt $end', '$var wire 1 S s1 $end']
RESET, ODT, CS1 = ['--pin', 'RESET=rst'], ['--pin', 'ODT=odt'], ['--pin', 'CS1=s1']


def edition_2(folder):
    """Byte by byte: 02's example, whichever of the three pins is there, and a filler before the first record."""
    wires, start = [CK, CKE, PINS, BA, A, *WIDER], '\n1R\n0O\n1S'
    capture, example = vcd([DES] * 11 + [ACT] + [DES] * 2, wires, start=start), '2405dc000000' + '00000cd360246000' + '000002f700000000'
    for more in RESET, ODT, CS1, RESET + ODT + CS1:
        ran, out = imported(folder, capture, *MAPPED, *more)
        good = b'edition 2' in ran.stdout and b'CS0: ACT 1' in ran.stdout
        check(f'edition 2 with {more}: {ran} {out.hex()}', ran.returncode == 0 and out.hex() == example and good)
    late = shifted(vcd([DES] * 3 + [ACT], wires, start=start), 5000, 1500 << 24)
    ran, out = imported(folder, late, *MAPPED, *ODT, '--still', '--period', '1500')
    check(f'edition 2 with a filler first: {ran} {out.hex()}', ran.returncode == 0 and out[6:].hex() == 'fffffff700000000' + '000005d360246000')


WIDE = bytes.fromhex('2405dc000000' + '0000053fe0000000' + '00000377e0000000' + '000004d760246000' + '000001e960246000' + '000007f3c0000000'
                     + '000002b700000000' + '000009c100000000' + 'ffffffd300000000')


def edition_2_back(folder):
    """All pins of edition 2 there and back, and what is refused of it."""
    (folder / 'w.rec').write_bytes(WIDE)
    ran = run(folder, '--export', 'w.vcd', '--gap', '50', 'w.rec')
    check(f'export of edition 2: {ran}', ran.returncode == 0)
    pins = ['--pin', 'RESET=RESET', '--pin', 'ODT=ODT', '--pin', 'CS1=CS1']
    ran = run(folder, '--import', 'v.rec', *PART, '--still', '--period', '1500', *pins, 'w.vcd')
    check(f'edition 2 there and back: {ran}', ran.returncode == 0 and (folder / 'v.rec').read_bytes() == WIDE)
    for what, bad, word in [
        ('a period of 0', b'\x24' + bytes(5), b'period'), ('step 0', WIDE[:6] + bytes(3) + WIDE[9:], b"w.rec:0x6: refused 6: the record's step is 0"),
        ('bits', WIDE[:-1] + b'\1', b'must be 0'), ('ragged', WIDE[:-1], b'does not end between records'), ('edition 3', b'\x34' + WIDE[1:], b'no edition 3'),
    ]:
        (folder / 'w.rec').write_bytes(bad)
        ran = run(folder, '--export', 'w.vcd', 'w.rec')
        check(f'export of edition 2 with {what}: {ran}', ran.returncode == 2 and word in ran.stderr and ran.stderr.count(b'\n') == 1)


TESTS = [round_trips, edition_2, edition_2_back]
