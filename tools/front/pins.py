"""The recording's pins and the wires of a capture: what the user maps, and which wire carries which bit.

A sampled word has the record's bits in their places, the clock above them, and above all UNKNOWN bits up a 1 for each level that is x or z."""

import re

from files import Damaged, Unreadable
from layout import EDITIONS

CLOCK, CLOCK_N = 1 << 40, 1 << 41
UNKNOWN = 48

WIDER = ('CS1', 'ODT', 'RESET')  # any of these asks for edition 2
IDLE = {'RESET': 1, 'CS1': 1, 'ODT': 0}  # their levels in edition 2 where they are not mapped
LEAST = {'BA': 3, 'A': 13}  # so many bits of a bus there must be
LEVELS = {'low': 0, 'high': 1}
SINGLE = ('CK', 'CK_N', 'CKE', 'CS', 'RAS', 'CAS', 'WE', *WIDER)
BITS = {f'{bus}{i}': (bus, i) for bus, count in (('BA', 3), ('A', 16)) for i in range(count)}


class Wire:
    """A scalar or vector of a capture: its name with its scopes, the reader's own key for it, and its left and right index, None for none."""

    def __init__(self, name, key, left=None, right=None):
        self.name, self.key, self.left, self.right = name, key, left, right

    def bits(self):
        """For each index the key and the place from the right."""
        if self.left is None:
            return {0: (self.key, 0)}
        step = 1 if self.left >= self.right else -1
        return {index: (self.key, place) for place, index in enumerate(range(self.right, self.left + step, step))}


def asked_pin(text):
    """NAME=WIRE taken apart; raises ValueError with words."""
    name, sign, wire = (part.strip() for part in text.partition('='))
    if not sign or not wire:
        raise ValueError(f'{text} is not NAME=WIRE')
    if name not in SINGLE and name not in LEAST and name not in BITS:
        raise ValueError(f'there is no pin {name}; the pins are {", ".join(SINGLE)}, BA, A, and BA0 to A15 one by one')
    return name, wire


def of_file(shown, content):
    """The pairs of a mapping file: NAME=WIRE a line, # begins a comment."""
    found = {}
    for number, line in enumerate(content.decode('utf-8', 'surrogateescape').splitlines(), 1):
        line = line.strip()
        if line and not line.startswith('#'):
            try:
                name, wire = asked_pin(line)
            except ValueError as error:
                raise Unreadable(f'{shown}: line {number}: {error}') from None
            found[name] = wire
    return found


class Pins:
    """Where each bit of a sampled word comes from.

    places: for each of the reader's keys the places from the right and the bits they carry. word: the bits that nothing carries.
    zeros: the address bits that are not there and count as 0."""

    def __init__(self, mapped, wires):
        self.mapped, self.wires = mapped, wires
        self.layout = EDITIONS[2 if any(name in mapped for name in WIDER) else 1]
        self.places, self.word, self.names, self.zeros = {}, 0, {}, []
        self.clocks = CLOCK | (CLOCK_N if 'CK_N' in mapped else 0)
        self.carry('CK', CLOCK, self.place('CK'))
        if 'CK_N' in mapped:
            self.carry('CK_N', CLOCK_N, self.place('CK_N'))
        for name, (low, count) in self.layout.pins.items():
            if name in LEAST:
                self.bus(name, low, count)
            elif name in IDLE and name not in mapped:
                self.word |= IDLE[name] << low
            else:
                self.carry(name, 1 << low, self.place(name))

    def carry(self, name, bit, place):
        """The bit is carried by this place, which is a key and a place from the right, or is a level."""
        if place in (0, 1):
            self.word |= bit * place
            return
        key, at = place
        self.places.setdefault(key, []).append((at, bit))
        self.names[bit] = name

    def place(self, name):
        """The one place that carries this pin."""
        wire = self.mapped.get(name, name)
        found = [LEVELS[wire]] if wire in LEVELS else list(self.sought(name, wire).values())
        if len(found) != 1:
            raise Damaged(f'{name} wants one wire, and {wire} has {len(found)}: name one, as {name}={wire}[0]' if found else self.missing(name, wire))
        return found[0]

    def bus(self, name, low, count):
        """A bus as a vector, as wires with numbers, or bit by bit."""
        wire = self.mapped.get(name, name)
        bits = dict.fromkeys(range(count), LEVELS[wire]) if wire in LEVELS else self.sought(name, wire)
        if bits and sorted(bits) != list(range(min(bits), max(bits) + 1)):
            raise Damaged(f'{name}: of {wire} there are {", ".join(map(str, sorted(bits)))}, and some are missing between')
        found = {index - min(bits): place for index, place in bits.items()}
        found |= {i: self.place(f'{name}{i}') for i in range(count) if f'{name}{i}' in self.mapped}
        if not found or name in self.mapped and not bits:
            raise Damaged(self.missing(name, wire))
        lacking = [f': {name}{i} is missing' for i in range(LEAST[name]) if i not in found]
        if lacking or max(found) >= count:
            raise Damaged(f'{name} wants {LEAST[name]} to {count} wires, and {wire} gives {len(found)}{"".join(lacking[:1])}')
        for i, place in found.items():
            self.carry(f'{name}{i}', 1 << low + i, place)
        self.zeros += [f'{name}{i}' for i in range(count) if i not in found]

    def sought(self, name, wire):
        """The bits of the wire that this text names, by index: a whole name, or its last parts where no other wire ends so."""
        text, select = re.fullmatch(r'(.*?)\s*(?:\[(\d+(?::\d+)?)\])?', wire, re.S).groups()
        named = self.by_name(text, lambda own: own) or self.by_name(text, str.lower)
        if not named and name in LEAST and not select:
            named = self.numbered(text)
        if len({tuple(sorted(bits.items())) for bits in named.values()}) > 1:
            raise Damaged(f'{name}: {wire} may be any of {some(sorted(named))} (--pin {name}=WIRE names one)')
        bits = next(iter(named.values()), {})
        if not select or not bits:
            return bits
        first, _, last = select.partition(':')
        wanted = range(min(int(first), int(last or first)), max(int(first), int(last or first)) + 1)
        if any(index not in bits for index in wanted):
            raise Damaged(f'{name}: {wire} is not there; {text} has {min(bits)} to {max(bits)}')
        return {index: bits[index] for index in wanted}

    def by_name(self, text, fold):
        """For each wire that is so called, its bits; wires of one name are the bits of one vector."""
        found = {}
        for asked in dict.fromkeys((fold(text), fold(text).replace('.', '/'))):
            exact = [wire for wire in self.wires if fold(wire.name) == asked]
            for wire in exact or [wire for wire in self.wires if fold(wire.name).endswith('/' + asked)]:
                found.setdefault(wire.name, {}).update(wire.bits())
        return found

    def numbered(self, text):
        """Single wires whose names are this one and a number, as A0, A_0 or A.0, by their number."""
        found = {}
        for wire in self.wires:
            own = re.fullmatch(r'(.*?)[._]?(\d+)', wire.name)
            if own and wire.left is None and (own[1].lower() == text.lower() or own[1].lower().endswith('/' + text.lower())):
                found.setdefault(own[1], {})[int(own[2])] = (wire.key, 0)
        return found

    def missing(self, name, wire):
        last = wire.lower().replace('.', '/').split('/')[-1].split('[')[0]
        near = [own.name for own in self.wires if last in own.name.lower()] or [own.name for own in self.wires]
        return f'{name}: there is no wire {wire} in the capture (--pin {name}=WIRE maps it); it has {some(list(dict.fromkeys(near))) or "none"}'


def some(names):
    return ', '.join(name[:80] for name in names[:12]) + (f' and {len(names) - 12} more' if len(names) > 12 else '')


def start(pins):
    """The word before any change: each level that a wire carries is not known."""
    carried = sum(bit for places in pins.places.values() for _, bit in places)
    return pins.word | carried << UNKNOWN
