"""The proved programs: found or built, and run."""

import contextlib
import os
import shutil
import subprocess
import sys
from pathlib import Path

ROOT = Path(__file__).resolve().parent.parent.parent


class Failed(Exception):
    """A program that could not be built or run, with the reason in words."""


def path(name):
    return ROOT / 'crates' / name / 'out' / name


def fresh(name):
    """It is there, and no source is newer."""
    program = path(name)
    if not os.access(program, os.X_OK):
        return False
    built = program.stat().st_mtime
    return all(source.stat().st_mtime <= built for source in ROOT.glob('crates/*/src/*'))


def built(name):
    """Proves and builds the program where it is missing or older than its sources."""
    if fresh(name):
        return
    rt = shutil.which('rt')
    what = 'is not built' if not path(name).exists() else 'is older than its sources'
    if not rt:
        raise Failed(f'the program {what}, and rt is not to be found to build it (README.md, "Use")')
    if not os.access(ROOT, os.W_OK):
        raise Failed(f'the program {what}, and {ROOT} cannot be written; run `sh tools/machine program verdict lot mover` where it can')
    print(f'judge: proving and building {name}; this takes some minutes, once', file=sys.stderr, flush=True)
    prove(name)


def tell(crate):
    """Says that a crate is proved: it was checked, and no line behind that says otherwise."""
    print(f'judge: {crate} proved', file=sys.stderr, flush=True)


def prove(name):
    """Has rt prove and build it, with one line a crate; all that it says only where it fails."""
    told, checked = [], None
    with subprocess.Popen(['sh', 'tools/machine', 'program', name], cwd=ROOT, stdin=subprocess.DEVNULL, stdout=subprocess.PIPE, stderr=subprocess.STDOUT) as run:
        for line in run.stdout:
            told.append(line)
            if line.startswith(b'logic=not-proved'):
                checked = None
            if checked and line.startswith((b'crate ', b'rt: ', b'linked ')):
                checked = tell(checked)
            if line.startswith(b'crate '):
                checked = line.decode(errors='replace').split(':')[0]
        if checked and run.wait() == 0:
            tell(checked)
    if run.returncode != 0 or not os.access(path(name), os.X_OK):
        sys.stderr.write(b''.join(told).decode(errors='replace'))
        raise Failed(f'sh tools/machine program {name} failed; what it said is above')
    os.utime(path(name))  # rt leaves a program as it is whose own sources did not change


@contextlib.contextmanager
def named(words):
    """The words as a program can take them, and the descriptors that it is to be lent: a file whose name is not UTF-8, which no program can
    name, goes by the number of its descriptor."""
    told, lent = [], []
    try:
        for word in words:
            if isinstance(word, bytes) and not is_text(word) and os.path.isfile(word):
                with contextlib.suppress(OSError):
                    lent.append(os.open(word, os.O_RDONLY | os.O_CLOEXEC))
                    word = b'/dev/fd/%d' % lent[-1]
            told.append(word)
        yield told, lent
    finally:
        for descriptor in lent:
            os.close(descriptor)


def is_text(word):
    try:
        word.decode()
    except UnicodeDecodeError:
        return False
    return True


def command(name, *words):
    return ['sh', str(ROOT / 'tools/machine'), 'run', str(path(name)), *words]


def answer(name, parts, *words):
    """What the program writes when it is handed the parts, one after the other, on standard input."""
    try:
        with named(words) as (told, lent), subprocess.Popen(command(name, *told), stdin=subprocess.PIPE, stdout=subprocess.PIPE, pass_fds=lent) as run:
            try:
                for part in parts:
                    run.stdin.write(part)
                run.stdin.close()
            except BrokenPipeError:
                pass  # it stopped at the first refusal, and reads no further
            except BaseException:
                run.kill()
                raise
            said = run.stdout.read()
    except OSError as error:
        raise Failed(f'the program could not be run: {error.strerror}') from None
    if run.returncode != 0:
        raise Failed(f'the program did not end well (status {run.returncode})')
    return said


def written_by(name, file, *words):
    """Runs the program with its standard output into the file; what it says on standard error."""
    try:
        with named(words) as (told, lent):
            ran = subprocess.run(command(name, *told), stdin=subprocess.DEVNULL, stdout=file, stderr=subprocess.PIPE, check=False, pass_fds=lent)
    except OSError as error:
        raise Failed(f'the program could not be run: {error.strerror}') from None
    if ran.returncode != 0:
        raise Failed(f'the program did not end well (status {ran.returncode})')
    return ran.stderr.decode(errors='replace')
