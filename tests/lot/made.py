"""Records and lots of them, by this script alone: what each is, and how many."""

HEADER = bytes.fromhex('1405dc000000')  # P8's: bin 1, 1 Gb, x8, 1500 ps; tREFI 5200, tRFC 74, tXS 80, tCKE and tXP 4
WIDE = bytes.fromhex('2405dc000000')
NAMES = 'MRS REF PRE PREA ACT WR WRA RD RDA ZQCL ZQCS NOP DES SRE SRX IGNORED FORBIDDEN PDE PDX'.split()
LIMIT = 1048576


# ---- records

def is_wide(recording):
    return recording[0] >> 4 == 2


def size(recording):
    """The bytes of a record."""
    return 8 if is_wide(recording) else 6


def ranks(recording):
    return range(2 if is_wide(recording) else 1)


def seen(recording, rank):
    """The records behind the header as the rank sees them, in edition 1."""
    if not is_wide(recording):
        return recording[6:]
    found = b''
    for at in range(6, len(recording), 8):
        word = int.from_bytes(recording[at:at + 8], 'big')
        pins = (word >> 37 - rank & 1) << 3 | word >> 32 & 7
        found += record(word >> 40, word >> 38 & 1, pins, word >> 29 & 7, word >> 13 & 65535)
    return found


def wide(step, cke, selects, command, bank=0, a=0, reset=1, odt=0):
    """A record of edition 2; selects: CS of the first rank and of the second."""
    levels = reset << 7 | cke << 6 | selects << 4 | odt << 3 | command
    return (step << 40 | levels << 32 | bank << 29 | a << 13).to_bytes(8, 'big')


def record(step, cke, pins, bank=0, a=0):
    return (step << 24 | cke << 23 | pins << 19 | bank << 16 | a).to_bytes(6, 'big')


def commands(records):
    """For each record its command, edge, bank and address."""
    level, asleep, edge = 1, False, 0
    for at in range(0, len(records), 6):
        word = int.from_bytes(records[at:at + 6], 'big')
        edge += word >> 24
        cke, pins, a = word >> 23 & 1, word >> 19 & 15, word & 65535
        long = a >> 10 & 1
        if (level, cke) == (1, 1):
            plain = 'MRS REF PRE ACT WR RD ZQC NOP'.split() + 8 * ['DES']
            name = plain[pins]
            name += {'PRE': ['', 'A'], 'WR': ['', 'A'], 'RD': ['', 'A'], 'ZQC': ['S', 'L']}.get(name, ['', ''])[long]
        elif (level, cke) == (1, 0):
            name = 'SRE' if pins == 1 else 'PDE' if pins >= 7 else 'FORBIDDEN'
            asleep = pins == 1  # which exit a rise is goes by the latest fall
        elif (level, cke) == (0, 1):
            name = 'FORBIDDEN' if pins < 7 else 'SRX' if asleep else 'PDX'
        else:
            name = 'IGNORED'
        level = cke
        yield name, edge, word >> 16 & 7, a


def counted(records):
    count = dict.fromkeys(NAMES, 0)
    for name, *_ in commands(records):
        count[name] += 1
    return count


# ---- lots

def kept(chance):
    """Refreshes in time, and now and then a power-down or a self-refresh with ignored records in it: no rule is broken."""
    records = [record(100, 1, 2, a=1024)]  # PRE of all
    for _ in range(400):
        records.append(record(chance.randint(1000, 5000), 1, 1))  # REF
        for _ in range(chance.randrange(4)):
            records.append(record(chance.randint(1, 9), 1, chance.choice([7, 8, 12, 15])))
        if chance.random() < 0.4:
            records += low(chance, record(chance.randint(1, 50), 0, chance.choice([7, 8, 15])), chance.randint(4, 99))  # PDE and PDX
        if chance.random() < 0.4:
            records += low(chance, record(100, 0, 1), chance.randint(10, 9999))  # SRE and SRX
    return b''.join(records)


def low(chance, entry, clocks):
    """CKE falls, some records that are ignored, and it rises at least so many clocks later."""
    ignored = [record(chance.randint(1, 50), 0, chance.randrange(16)) for _ in range(chance.randrange(3))]
    return [entry, *ignored, record(clocks, 1, chance.choice([7, 9, 14]))]


def wild(chance):
    """Any pins, REF and SRE often."""
    pins = [1, 1, 1, 7, 8] + list(range(16))
    return b''.join(record(chance.randint(1, 300), chance.random() < 0.7, chance.choice(pins), chance.randrange(8), chance.randrange(65536))
                    for _ in range(30000))


def kept_on_two(chance):
    """Refreshes in time for both ranks, sometimes together, and now and then a power-down, or a self-refresh of one of them or of both."""
    records = [wide(100, 1, 0, 2, a=1024)]
    for _ in range(300):
        records += chance.choice([[wide(chance.randint(1000, 5000), 1, 0, 1)], [wide(chance.randint(500, 2500), 1, one, 1) for one in (1, 2)]])
        for _ in range(chance.randrange(4)):
            records.append(wide(chance.randint(1, 9), 1, 3, chance.randrange(8), chance.randrange(8), chance.randrange(65536), chance.randrange(2), chance.randrange(2)))
        if chance.random() < 0.6:
            selects = chance.choice([0, 1, 2, 3])
            records += [wide(100, 0, selects, 1), wide(chance.randint(10, 999), 1, 3, chance.randrange(8))]
    return b''.join(records)


def wild_on_two(chance):
    """Any levels, REF and SRE often."""
    def one():
        command = chance.choice([1, 1, 7] + list(range(8)))
        return wide(chance.randint(1, 300), chance.random() < 0.7, chance.randrange(4), command, chance.randrange(8), chance.randrange(65536), chance.randrange(2), chance.randrange(2))
    return b''.join(one() for _ in range(20000))


def cut(recording, parts, chance):
    """The recording as so many files: the header and some records, then records; none is empty."""
    n = (len(recording) - 6) // size(recording)
    parts = max(1, min(parts, n))
    at = [6 + size(recording) * k for k in sorted(chance.sample(range(1, n), parts - 1))] if parts > 1 else []
    return [recording[a:b] for a, b in zip([0] + at, at + [len(recording)])]
