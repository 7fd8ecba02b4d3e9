"""From a recording of either edition to a value change dump, with the commands' names and marks at the break and its partner."""

from decode import behind_header, joined, opened, records
from dump import MARKS, Dump, strings
from files import Unreadable, refuse_at_once, shown
from glossary import Names, by_levels, rows
from layout import period_of
from programs import built
from tell import Progress
from values import ranks
from written import beside, refuse_over

DRAWN_MOST = 1 << 26  # edges


def exported(wanted, judged):
    """Writes the dump; the line that tells of it. judged: gives the values of the recording, and raises where it cannot be judged."""
    for name in wanted.files:
        refuse_at_once(name, twice=True)
    refuse_over(wanted.out, wanted.files)
    for program in 'verdict', 'lot':
        built(program)
    first, layout = opened(wanted.files)
    said = judged()
    count, last, drawn = measured(read(wanted.files, layout), wanted.gap)
    if drawn > DRAWN_MOST:
        raise Unreadable(f'{shown(wanted.files[0])}: {drawn} edges of the clock are more than the {DRAWN_MOST} that are drawn at most; '
                         '--gap N leaves it out in gaps of more than N edges')
    with beside(wanted.out) as (file, _):
        dump = Dump(file, layout, period_of(first), wanted.gap)
        draw(dump, read(wanted.files, layout), said, Progress(shown(wanted.out), count * layout.size))
        size = file.tell()
    return [f'{shown(wanted.out)}: {count} records up to edge {last}, {dump.drawn} edges of the clock, {size} bytes']


def read(names, layout):
    return records(behind_header(joined(names)), layout)


def measured(found, gap):
    """How many records there are, the last one's edge, and how many edges are to be drawn."""
    count = last = drawn = 0
    for count, (edge, _) in enumerate(found, 1):
        drawn += edge - last if gap is None or edge - last <= gap else 1
        last = edge
    return count, last, drawn


def draw(dump, found, said, progress):
    layout = dump.layout
    table = by_levels(rows(said))
    names = {which: Names(table, layout, select) for which, select in strings(layout).items()}
    marked, remark = marks(dump, said)
    begun, none = False, dict.fromkeys(names, '-')
    for count, (edge, word) in enumerate(found):
        if not begun:
            begun = True
            dump.begin(remark, layout.idle(word | layout.cke))
            if edge > 1:
                dump.put(1, dump.word | marked.pop(1, 0), none)  # an import counts from the first edge that is drawn
        for early in [at for at in marked if at < edge]:  # a deadline, which has no record
            dump.put(early, dump.idle() | marked.pop(early), none)
        dump.put(edge, word | marked.pop(edge, 0), {which: some.of(word) for which, some in names.items()})
        if not count & 0xFFF:
            progress(layout.size << 12)
    if not begun:
        dump.begin(remark, layout.idle(layout.all & ~layout.mask('ODT')))
    dump.end()


def marks(dump, said):
    """The edges that bear a mark, and the verdicts as a remark."""
    found, remarks = {}, []
    for own in ranks(said):
        if own['outcome'] == 'clean':
            remarks.append(f'clean {own["count_all"]} {own["edge"]}')
            continue
        at_break, at_partner = (dump.marks[name] for name in MARKS[own.get('rank', '1')])
        remarks.append('broken ' + ' '.join(own[key] for key in ('rule', 'record', 'partner', 'edge', 'needed', 'found')))
        mark(found, own['edge'], at_break)
        if own['partner'] != '0':
            mark(found, own['partner_edge'], at_partner)
    return dict(sorted(found.items())), ' ; '.join(remarks)


def mark(found, edge, bit):
    found[int(edge)] = found.get(int(edge), 0) | bit
