#!/usr/bin/env python3
"""Prints what crates/bursts_run must print, from the burst tables of the data sheets (facts.md, section 1).

    python3 tests/tables/bursts.py > crates/bursts_run/stdout

The rows below are copied from that table, one to a length, a direction and the types that it names, by start 0 to 7.
Nothing here comes from the code or from the paper's formulas."""

TABLE = """
| 8 | read | seq | 01234567 | 12305674 | 23016745 | 30127456 | 45670123 | 56741230 | 67452301 | 74563012 |
| 8 | read | int | 01234567 | 10325476 | 23016745 | 32107654 | 45670123 | 54761032 | 67452301 | 76543210 |
| 8 | write | seq, int | 01234567 for every start | | | | | | | |
| 4 | read | seq | 0123 | 1230 | 2301 | 3012 | 4567 | 5674 | 6745 | 7456 |
| 4 | read | int | 0123 | 1032 | 2301 | 3210 | 4567 | 5476 | 6745 | 7654 |
| 4 | write | seq, int | 0123 | 0123 | 0123 | 0123 | 4567 | 4567 | 4567 | 4567 |
"""

NAMES = {'seq': 'sequential', 'int': 'interleave'}

for row in TABLE.strip().split('\n'):
    length, direction, kinds, *orders = [cell.strip() for cell in row.strip('|').split('|')]
    if orders[0].endswith('for every start'):
        orders = [orders[0].split()[0]] * 8
    for kind in kinds.split(', '):
        for start, order in enumerate(orders):
            assert len(order) == int(length)
            print(f'{length} {direction} {NAMES[kind]} {start}: {" ".join(order)}')
