"""The round trip through tools that are not ours, where they are there, or can be had from Debian's packages because CI is true."""

import os
import shutil
import subprocess

from common import HERE, P8, RULES, SHORT, check, imported, run
from imports import SIMULATED
from made import options, without_fillers

TOOLS = {'iverilog': 'iverilog', 'vvp': 'iverilog', 'sigrok-cli': 'sigrok-cli'}
PATIENCE = 120  # seconds, for each of the two steps of an installation


def installed():
    wanted = sorted({package for tool, package in TOOLS.items() if not shutil.which(tool)})
    if not wanted:
        return True
    why = 'not here'
    if os.environ.get('CI') == 'true' and os.geteuid() == 0 and shutil.which('apt-get'):
        try:
            for words in ['update'], ['install', '-y', '--no-install-recommends', *wanted]:
                silent = {**os.environ, 'DEBIAN_FRONTEND': 'noninteractive'}
                subprocess.run(['apt-get', '-q', *words], capture_output=True, check=True, timeout=PATIENCE, env=silent)
            return True
        except (subprocess.SubprocessError, OSError) as error:
            why = f'not to be installed ({type(error).__name__})'
    print(f'tests/captures/run: only the stored captures were tried; the live round trip was not run: {" and ".join(wanted)} {why}')
    return False


def sigrok(folder, *words):
    return subprocess.run(['sigrok-cli', *words], cwd=folder, capture_output=True)


def made_anew(folder):
    """The stored captures."""
    ran = subprocess.run(['bash', HERE / 'make', folder], capture_output=True)
    check(f'tests/captures/make: {ran}', ran.returncode == 0)
    check('the simulator says another thing than planted.log', (folder / 'planted.log').read_text() == (HERE / 'planted.log').read_text())
    for name, words in ('planted.vcd', SIMULATED), ('short.sigrok.vcd', []), ('short.sigrok.csv', []):
        stored, anew = (imported(folder, place.read_bytes(), *words, name='c' + place.suffix) for place in (HERE / name, folder / name))
        check(f'{name} made anew: {anew[0]}', stored[1] == anew[1] and anew[0].returncode == 0)


def through_sigrok(folder):
    """Export, sigrok's own format, VCD or CSV, import: the same bytes."""
    for what, recording in ('P8', P8), ('rule 27', RULES[27]), ('rule 26', RULES[26]):
        (folder / 'l.rec').write_bytes(recording)
        words, period = options(recording)
        run(folder, '--export', 'l.vcd', 'l.rec')
        for given in ['-I', 'vcd', '-i', 'l.vcd', '-o', 'l.sr'], ['-i', 'l.sr', '-O', 'vcd', '-o', 'm.vcd']:
            sigrok(folder, *given)
        ran = run(folder, '--import', 'm.rec', *words, '--period', period, 'm.vcd')
        check(f'{what} through sigrok: {ran}', ran.returncode == 0 and (folder / 'm.rec').read_bytes() == without_fillers(recording))
    (folder / 'l.rec').write_bytes(SHORT)
    run(folder, '--export', 'l.vcd', 'l.rec')
    sigrok(folder, '-I', 'vcd', '-i', 'l.vcd', '-o', 'l.sr')
    for more in 'label=channel', 'time=true', 'time=true:label=channel', 'dedup=true:time=true':
        sigrok(folder, '-i', 'l.sr', '-O', f'csv:{more}', '-o', 'l.csv')
        ran, out = imported(folder, (folder / 'l.csv').read_bytes(), name='c.csv')
        check(f'sigrok\'s CSV with {more}: {ran}', ran.returncode == 0 and out == SHORT and b'1500 ps, measured' in ran.stdout)


def live(folder):
    if installed():
        made_anew(folder)
        through_sigrok(folder)
        print('tests/captures/run: the stored captures were tried, and the live round trip was run, with iverilog and sigrok-cli')


TESTS = [live]
