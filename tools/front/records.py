"""Records as a table."""

from files import shown
from report import hexed, ns

NEAR = 5


def around(said):
    """The numbers of the records around the break; around the last where there is none."""
    if said['outcome'] == 'none':
        return 1, 0
    near = [int(said[what]) for what in ('record', 'earlier', 'later') if said.get(what, '0') != '0'] or [int(said['count_all'])]
    return max(1, min(near) - NEAR), max(near) + NEAR


def table(said, found, names):
    """A line a record."""
    wide = 3 * (8 if 'edition' in said else 6)
    yield f'{"record":>7} {"edge":>14} {"ns":>16}  CKE  pins  {"command":<9} BA A     {"bytes":<{wide}} file and byte'
    for r in found:
        mark = '*' if str(r['number']) == said.get('record') else ' '
        yield (f'{r["number"]:>7}{mark}{r["edge"]:>14} {ns(said, r["edge"])[:-3]:>16}  {r["cke_before"]} {r["cke"]}  {int(r["pins"]):04b}  {r["command"]:<9} {r["bank"]}  {r["address"]}  '
               f'{hexed(r["bytes"])}  {shown(names[int(r["file"]) - 1])}:0x{int(r["byte"]):x}')
