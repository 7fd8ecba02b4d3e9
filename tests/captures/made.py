"""Recordings and captures that the tests make by themselves; nothing here comes from the front end."""

STEP_MOST = (1 << 24) - 1


def options(recording):
    """A header as the options of an import, and the period."""
    word = int.from_bytes(recording[:6], 'big')
    words = ['--bin', ['1066', '1333', '1600', '1866'][word >> 42 & 3], '--density', str(1 + (word >> 41 & 1)), '--width', ['8', '16'][word >> 40 & 1]]
    return words + ['--hot'] * (word >> 39 & 1), str(word >> 24 & 0xFFF)


def without_fillers(recording):
    """What an import makes of it: no NOP, DES or record while CKE stays low, the steps joined, a filler where a step is too long and one at the last edge."""
    edge, last, level, made = 0, 0, 1, [recording[:6]]

    def put(to, word):
        nonlocal last
        while to - last > STEP_MOST:
            made.append(STEP_MOST.to_bytes(3, 'big') + bytes([level << 7 | 0x78, 0, 0]))
            last += STEP_MOST
        made.append((to - last).to_bytes(3, 'big') + word)
        last = to
    for at in range(6, len(recording), 6):
        edge += int.from_bytes(recording[at:at + 3], 'big')
        word = recording[at + 3:at + 6]
        cke, pins = word[0] >> 7, word[0] >> 3 & 15
        if cke != level or cke and pins < 7:
            put(edge, word)
            level = cke
    if edge > last:
        put(edge, bytes([level << 7 | 0x78, 0, 0]))
    return b''.join(made)


def longest(recording):
    """The greatest step."""
    return max(int.from_bytes(recording[at:at + 3], 'big') for at in range(6, len(recording), 6))


CK, CKE, PINS = '$var wire 1 ! ck $end', '$var reg 1 " cke $end', '$var reg 4 # pins [3:0] $end'
BA, A = '$var reg 3 $ ba [2:0] $end', '$var reg 16 % a [15:0] $end'
WIRES = [CK, CKE, PINS, BA, A]
MAPPED = ['--pin', 'CS=pins[3]', '--pin', 'RAS=pins[2]', '--pin', 'CAS=top.pins[1]', '--pin', 'WE=pins[0]']
DES, ACT = ('1', '1111', 'z', 'z'), ('1', '0011', '011', '100100011')
ACT_BYTES = '9b0123'


def vcd(edges, wires=WIRES, period=1500, start=''):
    """A dump as a simulator writes it: the pins of an edge change at the time of the one before. edges: CKE, pins as four digits, BA, A."""
    text = ['$timescale 1 ps $end $scope module top $end', *wires, '$upscope $end', '$enddefinitions $end', '#0', '$dumpvars']
    text += ['0!', 'x"', 'bx #', 'bx $', 'bx %', '$end' + start]
    for i, (cke, pins, bank, address) in enumerate(edges):
        rise, fall = (['1!'], ['0!']) if i else ([], [])
        text += [f'#{i * period}', *rise, f'{cke}"', f'b{pins} #', f'b{bank} $', f'b{address} %', f'#{i * period + period // 2}', *fall]
    return '\n'.join([*text, f'#{len(edges) * period}', '1!', f'#{len(edges) * period + period // 2}', '0!', '']).encode()


def shifted(capture, behind, ps):
    """The capture with all times that are later than one so much later."""
    lines = capture.split(b'\n')
    return b'\n'.join(b'#%d' % (int(line[1:]) + ps) if line[:1] == b'#' and int(line[1:]) > behind else line for line in lines)


PLACES = {'CKE': 23, 'CS': 22, 'RAS': 21, 'CAS': 20, 'WE': 19, 'BA': 16, 'A': 0}
CODES = dict(zip([*PLACES, 'CK'], ['#', '$1', '%', '1!', 'b0', '#0', '~~', '!']))
MOST = {name: {'BA': 7, 'A': 65535}.get(name, 1) for name in PLACES}


def random_capture(chance, header):
    """Levels that change at random times, at the very edges too, and the recording that this is by the levels before each edge."""
    jitter = chance.choice([0, 40, 200])
    rises = [1500 * i + chance.randint(-jitter, jitter) for i in range(1, 121)]
    levels = {name: int(most == 1) for name, most in MOST.items()}
    changes = {0: dict(levels)}
    for _ in range(chance.choice([30, 300])):
        name, time = chance.choice([*PLACES, 'CS', 'CS']), chance.choice([chance.choice(rises), chance.randint(1, rises[-1] + 500)])
        changes.setdefault(time, {})[name] = chance.randint(0, MOST[name])
    found, last = [], -1
    for rise in rises:
        for time in sorted(time for time in changes if last <= time < rise):
            levels.update(changes[time])
        last = rise
        found.append((1 << 24 | sum(levels[name] << place for name, place in PLACES.items())).to_bytes(6, 'big'))
    return written(chance, rises, changes), without_fillers(header + b''.join(found))


def written(chance, rises, changes):
    """As text: codes that look like other things, vectors for scalars, the changes of a time in any order, in its own line or in lines of their own."""
    clock = {0: '0!', **{rise: '1!' for rise in rises}, **{rise + chance.randint(400, 900): '0!' for rise in rises}}
    between = chance.choice(' \n')  # sigrok writes all in one line
    text = ['$timescale 1ps $end', *(f'$var wire {most.bit_length()} {CODES[name]} {name} $end' for name, most in MOST.items()), '$var wire 1 ! CK $end']
    text.append('$enddefinitions $end')
    for time in sorted({*changes, *clock}):
        some = [clock[time]] if time in clock else []
        for name, value in changes.get(time, {}).items():
            some.append(f'b{value:b} {CODES[name]}' if MOST[name] > 1 or chance.random() < 0.2 else f'{value}{CODES[name]}')
        chance.shuffle(some)
        text.append(between.join([f'#{time}', *some]))
    return '\n'.join([*text, '']).encode()
