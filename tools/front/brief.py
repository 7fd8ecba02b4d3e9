"""The verdict in one line that begins with a file and an offset, as compilers write them."""

from fields import refused
from words import NAMES, OF_RANK

# The commands that speak of one bank.
BANKED = {'ACT', 'RD', 'RDA', 'WR', 'WRA', 'PRE'}

def place(said, what):
    return f'{said[what + "_file"]}:0x{int(said[what + "_byte"]):x}'


def command(said, what):
    name = said[what + '_command']
    if name in BANKED:
        return f'{name} bank {said[what + "_bank"]}'
    if name == 'MRS':
        return f'MRS of MR{said[what + "_bank"]}'
    return name


def told(said, last):
    """The line for the values of a rank; `last` is the file where the recording ends."""
    rank = OF_RANK[said['rank']] + ': ' if 'rank' in said else ''
    if said['outcome'] == 'clean':
        return f'{last}: {rank}clean, {said["count_all"]} records up to edge {said["edge"]}'
    if said['outcome'] == 'none':
        at = f':0x{int(said["refused_byte"]):x}' if 'refused_byte' in said else ''
        number = f'refused {said["refused"]}: ' if 'refused' in said else ''
        return f'{said["trouble_file"]}{at}: {number}{said["why"]}'
    rule = int(said['rule'])
    name = f'{rank}rule {rule} ({NAMES[rule]})'
    if 'record_file' not in said:
        return f'{last}: {name}: {passed(said, rule)}'
    if rule == 1:
        change = f'CKE from {said["record_cke_before"]} to {said["record_cke"]} with pins {said["record_pins"]}'
        return f'{place(said, "record")}: {name}: {change} at edge {said["record_edge"]}'
    return f'{place(said, "record")}: {name}: {command(said, "record")} at edge {said["record_edge"]}{why(said, rule)}'


def clocks(n):
    return '1 clock' if n == '1' else f'{n} clocks'


def why(said, rule):
    if rule == 2:
        if 'partner_file' not in said:
            return ': its bank is idle'
        bank = said['partner_bank']
        return f': bank {bank} is {said["bank" + bank]}, its ACT ({place(said, "partner")}) at edge {said["partner_edge"]}'
    if rule == 3:
        return ': ' + lacking(said)
    if rule == 23:
        return f': no REF since SRX ({place(said, "partner")})'
    return f', {clocks(said["found"])} after {counted_from(said)}, needs {said["needed"]}'


def lacking(said):
    """What rule 3 misses at this command."""
    if said['record_command'] == 'MRS':
        return refused(said)
    if said['record_command'] == 'ACT':
        return ', '.join(f'MR{i}' for i in range(4) if f'mr{i}' not in said) + ' not written'
    return 'no DLL reset was seen'


def counted_from(said):
    """The earlier record, or the start of its precharge where that is counted from."""
    start = int(said['edge']) - int(said['found'])
    earlier = f'{command(said, "partner")} ({place(said, "partner")})'
    if start != int(said['partner_edge']):
        return f'the precharge start at {start} of {earlier}'
    return earlier


def asleep(said):
    """Of rule 31: the edges from the last REF, or from edge 0, to the break that the awake clock does not count."""
    return int(said['edge']) - int(said.get('partner_edge', '0')) - int(said['found'])


def passed(said, rule):
    partner = f'{command(said, "partner")} ({place(said, "partner")})' if 'partner_file' in said else 'none'
    if rule in (24, 28):
        return f'passed at edge {said["edge"]}, {clocks(said["found"])} after {partner}, at most {said["needed"]}'
    if rule == 31:
        slept = f'; {asleep(said)} edges between them are asleep' if asleep(said) else ''
        return f'passed at edge {said["edge"]}, {clocks(said["found"])} awake after {partner}, at most {said["needed"]}{slept}'
    return f'{said["found"]} refreshes owed at edge {said["edge"]}, at most {said["needed"]}; last REF {partner}'
