"""A page for the auditor: report, picture and tables in one file of HTML that refers to nothing outside."""

import datetime
import os
from html import escape

from files import hashed, parts, shown
from identity import commit, kit
from picture import picture
from records import around
from report import debt, heading, hexed, ns, part, verdict
from sums import SHOWN
from values import listed, ranks

STYLE = '''
body { font-family: "DejaVu Sans", Verdana, Arial, sans-serif; font-size: 14px; line-height: 1.4; color: #000; background: #fff; }
body { max-width: 1100px; margin: 24px auto; padding: 0 16px; }
h1 { font-size: 22px; }
h2 { font-size: 17px; margin-top: 28px; border-bottom: 1px solid #000; }
pre { white-space: pre-wrap; overflow-wrap: anywhere; font-size: 12px; border: 1px solid #999; padding: 8px; }
table { border-collapse: collapse; margin: 8px 0; font-size: 13px; }
th, td { border: 1px solid #777; padding: 2px 8px; text-align: left; vertical-align: top; overflow-wrap: anywhere; }
th { background: #eee; }
td.n { text-align: right; white-space: nowrap; }
td.m { font-family: "DejaVu Sans Mono", Consolas, monospace; font-size: 12px; }
.verdict { font-size: 17px; font-weight: bold; border: 2px solid #000; padding: 8px 12px; }
.mark td { font-weight: bold; background: #eee; }
.side { display: flex; flex-wrap: wrap; gap: 0 24px; align-items: flex-start; }
svg { max-width: 100%; height: auto; }
@page { size: A4; margin: 14mm; }
@media print {
  body { margin: 0; max-width: none; font-size: 10.5px; padding: 0; }
  h1 { font-size: 17px; }
  h2 { font-size: 13px; margin-top: 16px; break-after: avoid; }
  pre, table { font-size: 9px; }
  td.m { font-size: 8.5px; }
  .verdict { font-size: 13px; }
  table, tr, svg, .side, .verdict { break-inside: avoid; }
  thead { display: table-header-group; }
}
'''

PROVED = ('The verdict, the records that it names, counts, clocks, banks, registers and debt: they are answers of programs whose proofs the kit named '
          'here has checked.')
UNPROVED = ('Layout, words, picture and this page; and, where the recording was imported from a capture, that import, which read the recording back and '
            'compared it with the capture.')


def page(said, names):
    """The HTML text."""
    found, now = ranks(said), datetime.datetime.now(datetime.timezone.utc).strftime('%Y-%m-%d %H:%M:%S UTC')
    verdicts = {id(own): verdict(own, shown(names[-1])) for own in found}
    first = [''.join(f'{words}. ' for words in heading(own)) + verdicts[id(own)][0] for own in found]
    chapters = {'Picture': picture(said, names, inline=True)}
    for own in found:
        chapters[of(own, 'Report')] = f'<pre>{escape(chr(10).join(verdicts[id(own)]))}</pre>'
    for own in found:
        chapters[of(own, 'Records around the break' if own['outcome'] == 'broken' else 'The last records')] = records(own, names)
    chapters['Files'] = files(said, names)
    for own in found:
        chapters[of(own, 'Commands')] = commands(own)
    chapters['The part\'s times in clocks'] = times(said)
    for own in found:
        chapters[of(own, 'Just before the broken edge' if own['outcome'] == 'broken' else 'At the end')] = ending(own)
    chapters['Where this comes from'] = table([], [['Written', now], ['Sources', f'manilaply {commit()}'], ['Kit', kit()], ['Proved', PROVED], ['Not proved', UNPROVED]])
    body = ''.join(f'<h2>{escape(title)}</h2>\n{content}\n' for title, content in chapters.items())
    recording = f'{found[0]["count_all"]} records in {len(names)} file{"s" * (len(names) > 1)}'
    lot = table([], [['Part', part(said).removeprefix('Part: ')], ['Recording', recording], ['Written', now]])
    box = '\n'.join(f'<p class="verdict">{escape(line)}</p>' for line in first)
    return (f'<!DOCTYPE html>\n<html lang="en">\n<head>\n<meta charset="utf-8">\n<title>{escape("; ".join(first))}</title>\n<style>{STYLE}</style>\n</head>\n<body>\n'
            f'<h1>Report on a DDR3 command recording</h1>\n{box}\n{lot}\n{body}</body>\n</html>\n')


def of(own, title):
    """A chapter's title, with the rank where there are two."""
    return ''.join(f'{words}: ' for words in heading(own)) + title


def table(heads, rows, kinds='', marked=()):
    """kinds: a letter a column, n for a number, m for what is read digit by digit. marked: the rows that stand out."""
    def cell(i, words):
        kind = f' class="{kinds[i]}"' if kinds[i:i + 1].strip() else ''
        return f'<td{kind}>{escape(words)}</td>'
    head = '<thead><tr>' + ''.join(f'<th>{escape(name)}</th>' for name in heads) + '</tr></thead>\n' if heads else ''
    lines = []
    for i, row in enumerate(rows):
        mark = ' class="mark"' if i in marked else ''
        lines.append(f'<tr{mark}>' + ''.join(cell(j, words) for j, words in enumerate(row)) + '</tr>\n')
    return f'<table>\n{head}<tbody>\n{"".join(lines)}</tbody>\n</table>'


def records(said, names):
    found = listed(names, *around(said), said.get('rank', '1'))
    rows = [[str(r['number']), r['edge'], ns(said, r['edge'])[:-3], f'{r["cke_before"]} {r["cke"]}', f'{int(r["pins"]):04b}', r['command'], r['bank'],
             r['address'], hexed(r['bytes']), f'{shown(names[int(r["file"]) - 1])}:0x{int(r["byte"]):x}'] for r in found]
    marked = [i for i, r in enumerate(found) if said['outcome'] == 'broken' and str(r['number']) in (said['record'], said['partner'])]
    return table(['record', 'edge', 'ns', 'CKE before, now', 'pins', 'command', 'BA', 'A', 'bytes', 'file and byte'], rows, 'nnnmm nmm', marked)


def files(said, names):
    rows = []
    for i, name in enumerate(names, 1):
        own = ' (begins with a header of its own)' if said[f'file{i}_headed'] == '1' else ''
        counts = [said[f'file{i}_{what}'] for what in ('records', 'after_edge', 'to_edge')]
        rows.append([shown(name) + own, str(os.stat(name).st_size), *counts, hashed(parts(name))])
    return table(['file', 'bytes', 'records', 'after edge', 'up to edge', 'SHA-256'], rows, ' nnnnm')


def commands(said):
    rows = []
    for key, levels in said.items():
        if key.startswith('levels_'):
            name, pattern = key[7:].rsplit('_', 1)
            count = said[f'count_{name}'] if pattern == '1' else ''
            rows.append([name, ' '.join(levels[:2]), levels[2], ' '.join(levels[3:7]), levels[7], count, said[f'meaning_{name}']])
    rows.append(['all', '', '', '', '', said['count_all'], ''])
    return table(['command', 'CKE before, now', 'asleep', 'CS RAS CAS WE', 'A10', 'records', 'meaning'], rows, ' mmmmn')


def times(said):
    named = {**SHOWN, 'most': 'greatest tRAS', 'trefi': 'tREFI', 'stay': 'greatest stay in power-down, greatest gap between REFs'}
    found = [(named[key[7:]], value) for key, value in said.items() if key.startswith('clocks_')]
    return table(['time', 'clocks'] * 4, [[cell for pair in found[i:i + 4] for cell in pair] for i in range(0, len(found), 4)], ' n n n n')


def ending(said):
    banks = [[str(i), said[f'bank{i}'], said.get(f'bank{i}_row', ''), said.get(f'bank{i}_act_edge', '')] for i in range(8)]
    registers = []
    for i in range(4):
        fields = ', '.join(f'{key[4:]} {value}' for key, value in said.items() if key.startswith(f'mr{i}_'))
        registers.append([f'MR{i}', said.get(f'mr{i}', 'not written'), fields])
    registers.append(['Refresh debt', debt(int(said['debt'])), ''])
    return f'<div class="side">{table(["bank", "state", "row", "ACT at edge"], banks, "n mn")}{table(["register", "code", "fields"], registers, " m")}</div>'
