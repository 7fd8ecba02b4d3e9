"""The words of the command line: a mode, options and files. Options may stand anywhere before `--`."""

import re

from layout import BINS
from pins import asked_pin

MODES = {'--lot': 'lot', '--each': 'each', '--brief': 'brief', '--json': 'json', '--list': 'list', '--import': 'import', '--export': 'export',
         '--picture': 'picture', '--page': 'page', '--widen': 'widen', '--narrow': 'narrow', '--help': 'help', '-h': 'help', '--version': 'version'}
WRITES = {'import', 'export', 'picture', 'page'}  # the word behind these is the file to write
MOVES = {'widen', 'narrow'}

# Options of one mode, and the ways in which they are said.
OF_MODE = {'--values': 'lot', '--files': 'lot', '--pin': 'import', '--pins': 'import', '--bin': 'import', '--density': 'import', '--width': 'import',
           '--period': 'import', '--hot': 'import', '--x': 'import', '--still': 'import', '--gap': 'export'}
CHOICES = {'--bin': BINS, '--density': ['1', '2'], '--width': ['8', '16'], '--x': ['0', '1']}

USAGE = '''usage: judge [--each | --brief | --json | --list FROM-TO | --lot [--values | --files]] [--] FILE..
       judge [--export OUT [--gap N] | --picture OUT | --page OUT] [--] FILE..
       judge --widen | --narrow [--] IN OUT
       judge --import OUT --bin BIN --density GB --width BITS [..] [--] CAPTURE    (judge --help tells more)'''

HELP = '''judge FILE..                    judges one DDR3 command recording, given as one or several files in order
judge --each FILE..             judges each file as a recording of its own: one line a file, FILE: and its verdict; of edition 2 one a rank
judge --lot FILE..              reports on one recording in full: the verdict and how it comes about, how many records of each command,
                                banks, registers and refresh debt; --files: a line for each of many files
judge --lot --values FILE..     the same, one value a line, for a program
judge --list FROM-TO FILE..     the records with these numbers as a table; --list around: those around the break
judge --brief FILE..            the verdict in one line that begins with a file and an offset: FILE:0xOFFSET: rule 5 (tRP): ..
judge --json FILE..             the values as one JSON object, numbers as numbers
judge --picture OUT FILE..      draws the break with the records around it as SVG; of a clean recording the use of the bus and the refresh debt
judge --page OUT FILE..         writes report, picture and tables as one page of HTML, with the SHA-256 of each file
judge --export OUT FILE..       writes the recording as a VCD for gtkwave and PulseView, with the commands' names and a marker at the break
    --gap N                     draws no clock in a gap of more than N edges
judge --import OUT CAPTURE      makes a recording of a VCD or of sigrok's CSV. The levels before each rising edge of CK count:
                                what changes at the very time of an edge is meant for the next
    --bin 1066|1333|1600|1866 --density 1|2 --width 8|16 [--hot]        the part, for the header
    --period PS                 the clock period, for the header; without it it is measured from CK
    --pin NAME=WIRE             a pin is on this wire of the capture, as CKE=top/u_ddr/cke, A=addr[15:0], A10=ap or CS=low. The last parts
                                of a name are enough where they are no other's. A pin that is not named is sought by its own name.
                                CK, CKE, CS, RAS, CAS, WE, BA, A; CK_N for a pair; with CS1, ODT or RESET the recording is of edition 2
    --pins FILE                 the same from a file, NAME=WIRE a line
    --x 0|1                     an unknown level counts as that where it matters, and is counted; without it it is an error
    --still                     the clock may stand still; its edges are then counted by time (with --period)
judge --widen IN OUT            moves a recording of edition 1 to edition 2
judge --narrow IN OUT           moves one of edition 2 back, where every record has RESET 1, the second CS 1 and ODT 0
judge --version                 prints the commit of these sources and the kit that proves them
judge --help                    prints this

Options may stand anywhere before `--`; what comes after it is a file. The file - is standard input.
The last line on standard output is the verdict; of edition 2 the last two, the first rank's first:
    clean RECORDS EDGE
    broken RULE RECORD PARTNER EDGE NEEDED FOUND
    refused NUMBER
README.md tells what the numbers mean. The status is the worst of the verdicts':
    0  clean; a capture was imported, a recording exported or moved
    1  broken
    2  refused, or there is no verdict: a wrong option, a file that cannot be read, a damaged capture
    3  the answer could not be written, or the program could not be built or run
The first use, and one after a change of the sources, proves and builds the program, which takes some minutes.
'''


class Wrong(Exception):
    """A command line that says nothing that can be done."""


class Asked:
    """What the command line asks for. Files are bytes, since a name may be no text."""

    def __init__(self):
        self.mode, self.values, self.every, self.range, self.files, self.out = 'judge', False, False, None, [], None
        self.pins, self.pin_files, self.bin, self.density, self.width, self.period = {}, [], None, None, None, None
        self.hot = self.still = False
        self.x = self.gap = None
        self.said = []  # the options of one mode that were given

    def option(self, word, left):
        """Takes an option, and the words that belong to it from those left."""
        if word in MODES:
            self.enter(word, left)
        elif word in OF_MODE:
            self.said.append(word)
            self.detail(word, left)
        else:
            raise Wrong(f'there is no option {word}')

    def enter(self, word, left):
        mode = MODES[word]
        if self.mode not in ('judge', mode) or self.mode == mode and mode in WRITES:
            raise Wrong(f'{word} does not go with --{self.mode}')
        self.mode = mode
        if mode == 'list' and self.range is None:
            self.range = span(next(left, b''))
        if mode in WRITES:
            self.out = behind(word, left)

    def detail(self, word, left):
        if word in ('--values', '--hot', '--still'):
            setattr(self, word[2:], True)
        elif word == '--files':
            self.every = True
        elif word == '--pins':
            self.pin_files.append(behind(word, left))
        elif word == '--pin':
            name, wire = pin(behind(word, left))
            self.pins[name] = wire
        else:
            given = behind(word, left).decode(errors='backslashreplace')
            if word in CHOICES and given not in CHOICES[word] or word not in CHOICES and not re.fullmatch(r'\d{1,9}', given):
                raise Wrong(f'{word} wants {"|".join(CHOICES.get(word, ["a number"]))}')
            setattr(self, word[2:], given if word in ('--bin', '--density', '--width') else int(given))

    def whole(self):
        for word in self.said:
            if self.mode != OF_MODE[word]:
                raise Wrong(f'{word} goes with --{OF_MODE[word]}')
        if self.mode not in ('help', 'version') and not self.files:
            raise Wrong('there is no file to judge' if self.mode != 'import' else 'there is no capture')
        if self.mode == 'import':
            self.whole_import()
        if self.mode in MOVES and len(self.files) != 2:
            raise Wrong(f'--{self.mode} wants the file to read and the file to write')
        return self

    def whole_import(self):
        for name in 'bin', 'density', 'width':
            if getattr(self, name) is None:
                raise Wrong(f'--import wants --{name} {"|".join(CHOICES["--" + name])}')
        if len(self.files) > 1:
            raise Wrong('--import takes one capture')
        if self.still and self.period is None:
            raise Wrong('--still wants --period')


def behind(word, left):
    found = next(left, None)
    if found is None:
        raise Wrong(f'{word} wants a word behind it')
    return found


def pin(word):
    try:
        return asked_pin(word.decode('utf-8', 'surrogateescape'))
    except ValueError as error:
        raise Wrong(f'--pin: {error}') from None


def span(word):
    """The numbers that FROM-TO names; (0, 0) for those around the break."""
    if word == b'around':
        return 0, 0
    named = re.fullmatch(rb'(\d{1,8})(?:-(\d{1,8}))?', word)
    if not named or int(named[1]) < 1:
        raise Wrong('--list wants FROM-TO, or around')
    return int(named[1]), int(named[2] or named[1])


def asked(words):
    """What these words, given as bytes, ask for."""
    found, left = Asked(), iter(words)
    for word in left:
        if word == b'--':
            found.files += left
        elif word.startswith(b'-') and word != b'-':
            found.option(word.decode(errors='backslashreplace'), left)
        else:
            found.files.append(word)
    return found.whole()
