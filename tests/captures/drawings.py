"""Pictures and pages: well-formed, with the numbers they should have, and with nothing that a file's name could smuggle in."""

import hashlib
import html.parser
import json
import os
import re
import xml.etree.ElementTree as tree
from pathlib import Path

from common import BRIEF, P8, P9, RULES, check, run

# REF, SRE, a record while CKE is low, SRX 60,000 edges later, REF, and 20,000 edges: three refreshes fall due, in the sleep none, two are given
ASLEEP = bytes.fromhex('000020880000' + '000060080000' + '000010380000' + '00ea60b80000' + '000070880000' + '004e20f80000')
NAMES = [b'a<b>&"\'.rec', b'no \xff text', b'two\nlines', b'$end ]]>']


def texts(svg):
    return [''.join(part.itertext()) for part in tree.fromstring(svg).iter('{http://www.w3.org/2000/svg}text')]


def picture(folder, recording):
    """How it ended, and the words of the picture."""
    (folder / 'r.rec').write_bytes(recording)
    ran = run(folder, '--picture', 'r.svg', 'r.rec')
    return ran, texts((folder / 'r.svg').read_bytes())


def of_breaks(folder):
    for rule, recording in sorted(RULES.items()):
        ran, words = picture(folder, recording)
        check(f'the picture of rule {rule}: {ran}', ran.returncode == 1 and ran.stdout.startswith(b'r.rec:') and f'by rule {rule} ' in words[0])
        check(f'the picture of rule {rule} has not lot and part', any('Lot: r.rec' in line for line in words) and any('Part: ' in line for line in words))
        found = json.loads(run(folder, '--json', 'r.rec').stdout)
        for what in 'record', 'partner', 'earlier', 'later':
            if found.get(what):
                place = f'r.rec:0x{found[what + "_byte"]:x}'
                check(f'the picture of rule {rule} has not record {found[what]}', str(found[what]) in words and any(place in line for line in words))
        if rule not in (1, 2, 3, 23, 25):
            told = f'found {found["found"]}, {"at most" if rule in (24, 31) else "needed"} {found["needed"]}'
            edge = found['edge'] - found['found'] + found['needed']
            limit = f'limit: edge {edge}' if rule in (24, 31) else f'rule {rule} allows it from edge {edge}'
            check(f'the picture of rule {rule} has not: {told}, {limit}', told in words and limit in words)


def of_a_sleep(folder):
    """Rule 31 with edges asleep between: the arrow begins at the REF, and the limit is the edge before the break."""
    for recording, line in BRIEF:
        if 'asleep' in line:
            slept = re.search(r'(\d+) edges between them are asleep', line)[1]
            ran, words = picture(folder, bytes.fromhex(recording))
            found = json.loads(run(folder, '--json', 'r.rec').stdout)
            told = f'found {found["found"]}, at most {found["needed"]}; {slept} edges asleep do not count'
            drawn = {str(found['partner_edge']), f'limit: edge {found["edge"] - 1}', told} <= set(words)
            wrong = str(found['edge'] - found['found']) in words
            check(f'the picture of rule 31 behind {slept} edges asleep: {ran} {words}', ran.returncode == 1 and drawn and not wrong)


def of_others(folder):
    ran, words = picture(folder, P9)
    good = 'Verdict: clean' in words[0] and 'Commands a microsecond' in words and any('Refresh debt' in word for word in words) and {'-8', '8'} <= set(words)
    check(f'the picture of a clean recording: {ran}', ran.returncode == 0 and good)
    ran, words = picture(folder, P9 + ASLEEP)
    check(f'the picture of a clean recording with a self-refresh: {ran}', ran.returncode == 0 and any('; 1 at the end' in word for word in words))
    ran, words = picture(folder, P8[:6])
    check(f'the picture of no records: {ran}', ran.returncode == 0 and words)
    (folder / 'r.svg').write_bytes(b'as it was')
    (folder / 'r.rec').write_bytes(P8[:20])
    ran = run(folder, '--picture', 'r.svg', 'r.rec')
    check(f'the picture of what is refused: {ran}', ran.returncode == 2 and b'refused 5' in ran.stderr and (folder / 'r.svg').read_bytes() == b'as it was')


def of_names(folder):
    for name in NAMES:
        Path(os.fsdecode(os.fsencode(folder) + b'/' + name)).write_bytes(P8)
        for mode, status in ('--picture', 1), ('--page', 1), ('--export', 0):
            ran = run(folder, mode, 'n.out', name)
            content = (folder / 'n.out').read_bytes()
            check(f'{mode} of {name}: {ran}', ran.returncode == status and (mode != '--picture' or texts(content)) and b'<b>' not in content)


class Looked(html.parser.HTMLParser):
    """Sees that what is opened is closed, and that nothing refers outside."""

    def __init__(self, content):
        super().__init__()
        self.open, self.wrong = [], []
        self.feed(content)

    def handle_starttag(self, tag, attrs):
        if tag != 'meta':
            self.open.append(tag)
        self.wrong += [(tag, name) for name, value in attrs if name in ('src', 'href', 'xlink:href') or '//' in (value or '')]

    def handle_startendtag(self, tag, attrs):
        pass

    def handle_endtag(self, tag):
        if not self.open or self.open.pop() != tag:
            self.wrong.append(tag)


def pages(folder):
    for what, recording, status in ('a break', P8, 1), ('clean', P9, 0), ('a deadline', RULES[25], 1), ('a bank', RULES[2], 1):
        parts = [recording[:12], recording[12:]]
        for name, part in zip('pq', parts):
            (folder / name).write_bytes(part)
        ran = run(folder, '--page', 'r.html', 'p', 'q')
        content = (folder / 'r.html').read_text()
        looked = Looked(content)
        check(f'the page of {what}: {ran} {looked.wrong} {looked.open}', ran.returncode == status and not looked.wrong and not looked.open)
        version = run(folder, '--version').stdout.decode().split('\n')
        for word in *(hashlib.sha256(part).hexdigest() for part in parts), *version, '<svg', 'Not proved', ' UTC', 'SRX', 'Refresh debt', 'Commands':
            check(f'the page of {what} has not {word}', word in content)
        check(f'the page of {what} refers outside', not re.search(r'https?:|url\((?!#)|@import', content))


TESTS = [of_breaks, of_a_sleep, of_others, of_names, pages]
