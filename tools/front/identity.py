"""Which sources these are, and which kit proves them."""

import subprocess

from programs import ROOT


def commit():
    return (first_line('git', '-C', ROOT, 'rev-parse', 'HEAD') if (ROOT / '.git').exists() else '') or 'of an unknown commit'


def kit():
    return first_line('rt', 'version') or 'rt is not to be found'


def first_line(*words):
    """What a command says, or nothing where it cannot be run."""
    try:
        ran = subprocess.run(words, capture_output=True, text=True, check=False)
    except OSError:
        return ''
    return ran.stdout.strip() if ran.returncode == 0 else ''
