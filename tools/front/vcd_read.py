"""Value change dumps (IEEE 1364), as simulators, sigrok-cli and PulseView write them: the levels before each rising edge of the clock.

At a rising edge the levels before that time count: a simulator changes its outputs at the very time of the clock, and they are meant for
the next edge."""

import hashlib
import re
from fractions import Fraction

from clock import Times, Turns
from files import Damaged
from pins import CLOCK, UNKNOWN, start
from vcd_head import codes, printable, scale, wires

MOST = 1 << 26  # bytes of the changes at one time, or of a comment
KNOWN, SHORT = 1 << 12, 64  # so many texts of changes are kept, of so many bytes
LEVELS = {'0': b'0lL', '1': b'1hH', 'x': b'xXzZuUwW-'}
ALL = b''.join(LEVELS.values())
BLOCK, NOTHING = [], []  # what is no change of a pin: the ends of a $dump block, and a wire that no pin is on
DUMPS = {b'$dumpvars', b'$dumpall', b'$dumpon', b'$dumpoff'}


class Vcd:
    """A capture that can be read again and again. parts: gives its bytes from the start. progress: told how many were read."""

    def __init__(self, parts, progress):
        self.parts, self.progress = parts, progress
        head = self.header()
        self.times, self.wires, self.codes = Times(Fraction(scale(head))), list(wires(head)), codes(head)

    def header(self):
        """All up to $enddefinitions."""
        text = b''
        for part in self.parts():
            text += part
            if b'$enddefinitions' in text:
                return text[:text.index(b'$enddefinitions')]
        raise Damaged('it has no $enddefinitions: it is cut off, or no VCD')

    def texts(self):
        """What is behind the header, without comments, in pieces that end before a line with a time; notes the SHA-256 of all."""
        digest, rest, begun, done = hashlib.sha256(), b'', False, 0
        for part in self.parts():
            digest.update(part)
            done += len(part)
            self.progress(len(part))
            rest += part
            if not begun:
                found = re.search(rb'\$enddefinitions\s+\$end\b', rest)
                if not found:
                    continue
                begun, rest = True, b'\n' + rest[found.end():]
            cut = max(rest.rfind(b'\n#'), 0)
            text, rest = rest[:cut], rest[cut:]
            if b'$comment' in text:
                text, open_ = uncommented(text)
                rest = open_ + rest
            if len(rest) > MOST:
                raise Damaged(f'it is no VCD: behind byte {done - len(rest)} no time comes')
            yield text
        self.digest = digest.hexdigest()
        text, open_ = uncommented(rest)
        if not begun or open_ or not rest.endswith(b'\n'):
            last = rest.rstrip(b'\n').rfind(b'\n') + 1
            raise Damaged(f'it is cut off: its last line, at byte {done - len(rest) + last}, has no end')
        yield text

    def edges(self, pins):
        """Time and word of each rising edge. Afterwards changed is the last time at which a pin changed, end the last time there is, and twice
        how often a pin changed twice at one time, with the first such place."""
        turns = self.turns = Turns('CK_N' in pins.mapped, self.times)
        self.twice, self.first_twice = 0, None
        clocks = pins.clocks | pins.clocks << UNKNOWN
        others = ~clocks
        low, high, changes = turns.low, turns.high, Changes(pins, self.times, self.codes)
        up, down = changes.alone(CLOCK) if pins.clocks == CLOCK else (b'', b'')
        known, word, time, changed = changes.known, start(pins), -1, None
        before, clock, touched = word, word & clocks, 0
        for text in self.texts():
            pieces = text.split(b'\n#')
            if pieces[0].strip():  # before the first time
                _, keep, put, _ = changes.of(pieces[0], 0)
                word = word & keep | put
                clock = word & clocks
            for piece in pieces[1:]:
                some = piece.split(None, 1)
                try:
                    now = int(some[0])
                except (ValueError, IndexError):
                    raise Damaged(f'behind {self.times.told(max(time, 0))} #{printable(b"".join(some[:1]))[:40]} is no time') from None
                if now != time:
                    if now < time:
                        raise Damaged(f'its time goes back, from {self.times.told(time)} to {self.times.told(now)}')
                    before, time, touched = word, now, 0
                if len(some) == 1:
                    continue
                if some[1] == up and clock == low and not touched:  # nothing but the clock, which is most of a capture
                    yield now, before
                    word, clock, touched, turns.seen = word | high, high, clocks, True
                    continue
                if some[1] == down and clock == high and not touched:
                    word, clock, touched = word ^ high, low, clocks
                    continue
                seen, keep, put, doubled = known.get(some[1]) or changes.of(some[1], now)
                after = word & keep | put
                if doubled or touched and (after ^ word) & touched:
                    self.changed_twice(pins, doubled | (after ^ word) & touched, now)
                touched |= seen
                if after == word:
                    continue
                state = after & clocks
                if state != clock:
                    if state == high and clock == low:
                        turns.seen = True
                        yield now, before
                    elif (state != low or clock != high) and turns.oddly(clock, state, now):
                        yield now, before
                    clock = state
                if (after ^ word) & others:
                    changed = now
                word = after
        self.changed, self.end = changed, time
        if changes.block:
            raise Damaged(f'it is cut off: it ends within a $dump block at {self.times.told(time)}')

    def changed_twice(self, pins, mask, time):
        """Of the clock it is an error; of another pin the last level counts, and it is told."""
        bits = mask | mask >> UNKNOWN
        if bits & pins.clocks:
            raise Damaged(f'CK changes twice at one time, {self.times.told(time)}')
        self.twice += 1
        if not self.first_twice:
            self.first_twice = next(name for bit, name in pins.names.items() if bit & bits), self.times.told(time)


class Changes:
    """What texts of changes do to a word: the bits that they change, $dump blocks aside, those that they leave, what they put, and the bits that
    they put twice.

    known: short texts that come again and again. block: a $dump block is open."""

    def __init__(self, pins, times, codes_):
        self.known, self.block, self.scalars, self.vectors, self.times, self.codes = {}, False, {}, {}, times, codes_
        for code, places in pins.places.items():
            bits = sum(bit for _, bit in places)
            self.vectors[code] = bits | bits << UNKNOWN, places
            if all(at == 0 for at, _ in places):
                for level, put in ('0', 0), ('1', bits), ('x', bits << UNKNOWN):
                    self.scalars |= {bytes([sign]) + code: (bits | bits << UNKNOWN, put) for sign in LEVELS[level]}

    def alone(self, bit):
        """The changes to 1 and to 0 of a scalar that carries this bit and no other; texts that never come where there is none."""
        own = bit | bit << UNKNOWN
        return [next((token for token, change in self.scalars.items() if change == (own, put)), b'') for put in (bit, 0)]

    def of(self, text, time):
        mask = put = again = before = doubled = 0
        tokens, scalars = iter(text.split()), self.scalars
        for token in tokens:
            change = scalars.get(token)
            if change is None:
                change = self.otherwise(token, tokens, time)
                if change is None:
                    continue
                if change is BLOCK:
                    before = mask
                    continue
            elif change is NOTHING:
                continue
            own, level = change
            if mask & own:
                doubled |= (put ^ level) & own & ~before
                put, again = put & ~own, again | own
            mask, put = mask | own, put | level
        found = mask & ~before | again, ~mask, put, doubled
        if len(text) <= SHORT and b'$' not in text:
            if len(self.known) >= KNOWN:
                self.known.clear()
            self.known[text] = found
        return found

    def otherwise(self, token, tokens, time):
        """A token that is no scalar's change: bits and levels of a vector, BLOCK at a $dump block's ends, None for what is nothing to us."""
        if token in DUMPS or token == b'$end':
            self.block = token != b'$end'
            return BLOCK
        longer = token[0] in b'bBrRsS'
        code = next(tokens, b'') if longer else token[1:]
        if token[0] in b'#$' or code not in self.codes or not longer and token[0] not in ALL:
            whole = b' '.join([token, code]) if longer else token
            raise Damaged(f'at {self.times.told(time)} {printable(whole)[:60]} is no change of a wire')
        if not longer:
            self.scalars[token] = NOTHING
        elif token[0] in b'bB' and code in self.vectors:
            mask, places = self.vectors[code]
            return mask, carried(token[1:], places)
        return None


def carried(value, places):
    """What a vector's digits put on the bits of its places. Digits that are not written repeat the first where it is x or z, and are 0 else."""
    more = value[:1] if value[:1] in b'xXzZ' else b'0'
    put = 0
    for at, bit in places:
        digit = value[len(value) - 1 - at:len(value) - at] if at < len(value) else more
        put |= bit if digit in LEVELS['1'] else 0 if digit in LEVELS['0'] else bit << UNKNOWN
    return put


def uncommented(text):
    """The text without its comments, and the beginning of one that does not end in it."""
    text = re.sub(rb'\$comment\s.*?\$end(?=\s)', b' ', text, flags=re.S)
    at = text.find(b'$comment')
    return (text, b'') if at < 0 else (text[:at], text[at:])
