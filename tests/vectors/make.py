#!/usr/bin/env python3
"""Writes a list of cases, stdin, and what crates/sections_run must answer to it, stdout.

    python3 tests/vectors/make.py [FOLDER]

FOLDER is crates/sections_run unless given. The recordings and their answers are those of the files beside this one,
and the form of a case is told at the top of crates/sections_run/src/main.rt. Nothing here comes from the code.

Each recording is judged as its file says: program.txt and long.txt in sections of 6,000 bytes to the program's line,
whole.txt, requests.txt and readings.txt in one section to the whole picture, requests-readings.txt in one to its line. Then it is cut at every record, and again at random places
with empty and with refused sections in between: a refused section changes nothing, so the closing is the same, and the
verdict so far is the break if the last record so far is at or past the broken edge, and clean before. Of a recording of
edition 2 each answer is two lines, the first rank's first; a refusal is one."""

import sys
from pathlib import Path

HERE = Path(__file__).parent
LAST = (1 << 48) - 1
IDLE = ' '.join(['i'] * 8)
RANKS = ' ; '  # between the answers of two ranks


# ---- the vectors: a recording, its end edge, its line, and (banks, registers, debt) where they are told

def vectors():
    for name in 'program', 'long':
        for text in lines(name):
            recording, line = text.split('\t')
            yield bytes.fromhex(recording), LAST, line, None, 6000
    for text in lines('whole') + lines('requests'):
        recording, end, line, *rest = text.split('\t')
        if rest:
            assert rest[0] == ''.join(map(in_bytes, line.split(RANKS)))
        yield unhex(recording), edge(end, '-'), line, rest[1:], 60000
    told = [text.strip() for text in lines('readings')]
    for _, call, answer in zip(told[0::3], told[1::3], told[2::3]):
        recording, end = call.split(' end ')
        line, *rest = answer.split(' | ')
        yield bytes.fromhex(recording), edge(end, 'last'), line, rest, 60000
    for text in lines('requests-readings'):
        _, recording, end, line = text.split('\t')
        yield unhex(recording), edge(end, '-'), line, None, 60000


def lines(name):
    return (HERE / f'{name}.txt').read_text().splitlines()


def unhex(text):
    return b'' if text == '-' else bytes.fromhex(text)


def edge(text, last):
    return LAST if text == last else int(text)


def size(recording):
    """The bytes of a record."""
    return 8 if recording[:1] and recording[0] >> 4 == 2 else 6


# ---- what is printed

def in_bytes(line):
    """A verdict's 20 bytes: outcome 8, rule 8, record 24, partner 24, edge 48, needed 24, found 24."""
    word, *numbers = line.split()
    if word == 'clean':
        fields = 0, 0, int(numbers[0]), 0, int(numbers[1]), 0, 0
    else:
        fields = 1, *map(int, numbers)
    return ''.join(f'{n:0{width}x}' for n, width in zip(fields, (2, 2, 6, 6, 12, 6, 6)))


def closing(line, picture):
    """A line a rank, or that of the refusal."""
    if picture is None or line.startswith('refused'):
        return line.split(RANKS)
    return ['\t'.join([own, in_bytes(own), *told]) for own, *told in zip(*(field.split(RANKS) for field in (line, *picture)))]


def so_far(line, count, now):
    """The verdicts on the first `count` records, the last at edge `now`."""
    for own in line.split(RANKS):
        word, *numbers = own.split()
        yield own if word == 'broken' and int(numbers[3]) <= now else f'clean {count} {now}'


# ---- the cases

def case(told, picture, end, header, sections):
    assert len(header) <= 8 and len(sections) < 16384 and all(len(s) <= 65536 for s in sections)
    print_as = 2 * told + (picture is not None)
    head = bytes([print_as, len(header)]) + end.to_bytes(6, 'big') + len(sections).to_bytes(2, 'big') + header.ljust(8, b'\0')
    return head + b''.join(len(s).to_bytes(4, 'big') for s in sections) + b''.join(sections)


def as_told(recording, end, line, picture, longest):
    header, rest = recording[:6], recording[6:]
    sections = [rest[i:i + longest] for i in range(0, len(rest), longest)]
    return case(False, picture, end, header, sections), closing(line, picture)


def cut(recording, end, line, picture, sections):
    """`sections` are bytes, or the number of a refusal with bytes that it is given for."""
    printed, given, count, now = [], [], 0, 0
    for section in sections:
        if isinstance(section, tuple):
            refused, section = section
            printed.append(f'refused {refused}')
        else:
            count += len(section) // size(recording)
            now += sum(int.from_bytes(section[i:i + 3], 'big') for i in range(0, len(section), size(recording)))
            printed += so_far(line, count, now)
        given.append(section)
    return case(True, picture, end, recording[:6], given), printed + closing(line, picture)


class Chance:
    """Numbers that look random, the same in every run."""

    def __init__(self):
        self.state = 3

    def below(self, n):
        self.state = (self.state * 6364136223846793005 + 1442695040888963407) % (1 << 64)
        return (self.state >> 33) % n


def every_record(recording):
    return [recording[i:i + size(recording)] for i in range(6, len(recording), size(recording))]


def anywhere(recording, chance):
    """At random places; at each one now and then empty sections, and sections that are refused by 5, by 6 or by 14."""
    records, at, sections = every_record(recording), 0, []
    while at < len(records):
        while chance.below(10) < 3:
            sections.append(b'')
        while chance.below(10) < 4:
            sections.append(refused(records[at:at + 1 + chance.below(20)], chance))
        n = (1, 2, 3, 5, 10, 30, 300)[chance.below(7)]
        sections.append(b''.join(records[at:at + n]))
        at += n
    return sections + [b'', refused(records[:3] or [(b'\0\0\1\xb8' + bytes(4))[:size(recording)]], chance)]


def refused(records, chance):
    wide = len(records[0]) == 8
    kind = chance.below(2 + wide)
    if kind == 0:
        return 5, b''.join(records) + bytes(1 + chance.below(len(records[0]) - 1))
    at = chance.below(len(records))
    if kind == 1:
        return 6, b''.join(records[:at] + [b'\0\0\0' + records[at][3:]] + records[at + 1:])
    return 14, b''.join(records[:at] + [with_a_bit(records[at], chance.below(13))] + records[at + 1:])


def with_a_bit(record, place):
    return (int.from_bytes(record, 'big') | 1 << place).to_bytes(8, 'big')


def by_hand():
    """01's examples and readings that the vectors leave out."""
    header = bytes.fromhex('1405dc000000')
    yield case(False, [], 46799, header, []), ['\t'.join(['clean 0 46799', in_bytes('clean 0 46799'), IDLE, '- - - -', '8'])]
    yield case(False, None, 46800, header, []), ['broken 25 0 0 46800 8 9']
    yield case(False, None, 1 << 44, header, []), ['broken 25 0 0 46800 8 9']
    yield case(False, None, (1 << 44) + 1, header, []), ['refused 8']
    yield case(False, None, LAST, header + b'\0', []), ['refused 1']
    yield case(False, None, LAST, header, [b'', b'']), ['clean 0 0']
    yield case(True, None, LAST, header, [b'', bytes(5), bytes(6), bytes(7)]), ['clean 0 0', 'refused 5', 'refused 6', 'refused 5', 'clean 0 0']
    yield from by_hand_of_two_ranks(bytes.fromhex('2405dc000000'))


def by_hand_of_two_ranks(header):
    clean = '\t'.join(['clean 0 46799', in_bytes('clean 0 46799'), IDLE, '- - - -', '8'])
    yield case(False, [], 46799, header, []), [clean, clean]
    yield case(False, None, 46800, header, []), 2 * ['broken 25 0 0 46800 8 9']
    yield case(False, None, (1 << 44) + 1, header, []), ['refused 8']
    yield case(False, None, LAST, header + b'\0', []), ['refused 1']
    yield case(False, None, LAST, header[:5], []), ['refused 1']
    yield case(False, None, LAST, header, [b'', b'']), 2 * ['clean 0 0']
    nop, still, marked = (bytes.fromhex(text) for text in ('000001c700000000', '000000c700000000', '000001c700000001'))
    odd = [(5, bytes(7)), (6, still), (14, marked), (5, nop + b'\0'), (6, marked + still), (6, still[:7] + b'\1'), (5, still + marked + b'\0')]
    told = 2 * ['clean 1 1'] + [f'refused {number}' for number, _ in odd] + 4 * ['clean 2 2']
    yield case(True, None, LAST, header, [nop, *(section for _, section in odd), nop]), told


def cases():
    chance = Chance()
    told = list(vectors())
    yield from by_hand()
    for vector in told:
        yield as_told(*vector)
    for recording, end, line, picture, _ in told:
        if not line.startswith('refused'):
            yield cut(recording, end, line, picture, every_record(recording))
            yield cut(recording, end, line, picture, anywhere(recording, chance))


def main():
    folder = Path(sys.argv[1]) if len(sys.argv) > 1 else HERE.parent.parent / 'crates/sections_run'
    with open(folder / 'stdin', 'wb') as given, open(folder / 'stdout', 'w') as expected:
        for asked, printed in cases():
            given.write(asked)
            expected.writelines(text + '\n' for text in printed)


main()
