"""What the tests of captures share: the files, the count of checks, and how ./judge is run."""

import re
import subprocess
import sys
from pathlib import Path

HERE = Path(__file__).resolve().parent
ROOT = HERE.parent.parent
JUDGE = ROOT / 'judge'
sys.path.insert(0, str(ROOT / 'tools/front'))
sys.dont_write_bytecode = True

P8 = (ROOT / 'crates/verdict/stdin').read_bytes()
P9 = P8[:-4] + b'\x05' + P8[-3:]
SHORT = (HERE / 'short.rec').read_bytes()
BRIEF = [line.split('\t') for line in (ROOT / 'tests/use/brief.txt').read_text().splitlines()]
RULES = {int(re.search(r'rule (\d+)', line)[1]): bytes.fromhex(recording) for recording, line in reversed(BRIEF)}
PART = ['--bin', '1333', '--density', '1', '--width', '8']  # P8's

count = {'checks': 0, 'failed': 0}


def check(what, good):
    count['checks'] += 1
    if not good:
        count['failed'] += 1
        print(f'tests/captures/run: {what}')


def run(folder, *words, **more):
    return subprocess.run([JUDGE, *words], cwd=folder, capture_output=True, **more)


def imported(folder, content, *words, name='c.vcd'):
    """How an import of these bytes ended, and what then stands where it should write."""
    (folder / name).write_bytes(content)
    (folder / 'o.rec').write_bytes(b'as it was')
    ran = run(folder, '--import', 'o.rec', *PART, *words, name)
    return ran, (folder / 'o.rec').read_bytes()


def takes(folder, what, content, words, records, said=b'', beside=b'', name='c.vcd'):
    """The import makes these records, given in hexadecimal, and says these words on standard output and on standard error."""
    ran, out = imported(folder, content, *words, name=name)
    good = ran.returncode == 0 and out == P8[:6] + bytes.fromhex(records) and said in ran.stdout and beside in ran.stderr and (beside or not ran.stderr)
    check(f'{what}: {ran} {out.hex()}', good)


def refuses(folder, what, content, words, *said, name='c.vcd'):
    """One line with these words, status 2, the file as it was, and nothing left beside it."""
    ran, out = imported(folder, content, *words, name=name)
    good = ran.returncode == 2 and ran.stdout == b'' and ran.stderr.count(b'\n') == 1 and all(word.encode() in ran.stderr for word in said)
    check(f'{what}: {ran}', good and out == b'as it was' and not list(folder.glob('.o.rec*')))
