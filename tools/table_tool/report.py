"""One page about a table: self-contained HTML that is read on a phone, prints on A4 and needs no script."""
import array
import itertools
import math
import os
import struct

import veltzuma

from . import build, evaluate, floats, plot, premises, words
from .plot import escaped

# How many characters of figures stand side by side on A4: 180 mm of 7.6 points, and what a cell has beside its figures.
ACROSS, BESIDE = 110, 1.4
# Longer tables of figures may be broken across pages.
TOGETHER = 40
# The width of a plot, whose letters are then to be read on a phone too.
DRAWN = 520
# As much of a name as one line at the head of a printed page holds.
MOST_NAME = 90
# So many breaks of a curve are told one by one.
MOST_GAPS = 6

STYLE = '''
:root { color-scheme: light dark; --ink: #111; --soft: #333; --ground: #fff; --raised: #eee; --head: #f0f0f0; --rule: #bbb }
@media screen and (prefers-color-scheme: dark) {
:root { --ink: #e8e8e8; --soft: #c4c7cb; --ground: #16181b; --raised: #25282c; --head: #25282c; --rule: #5d6269 }
}
* { box-sizing: border-box }
body { font: 15px/1.45 Helvetica, Arial, sans-serif; color: var(--ink); background: var(--ground); max-width: 47em; margin: 2em auto; padding: 0 1.2em }
h1, h2, h3, p, li, figcaption { overflow-wrap: anywhere }
h1 { font-size: 1.7em; line-height: 1.2; margin: 0 0 .3em }
h2 { font-size: 1.2em; margin: 2em 0 .5em; border-bottom: 1px solid var(--ink); padding-bottom: .15em }
h3 { font-size: 1em; margin: 1.2em 0 .3em } h2, h3, figcaption.above { break-after: avoid }
p { margin: .5em 0 } ul { margin: .5em 0; padding-left: 1.3em } li { margin: .35em 0 }
.verdict { border: 2px solid var(--ink); padding: .5em .8em; margin: 1em 0; font-weight: bold }
.refused { background: var(--raised); border-style: double; border-width: 4px }
.wide { overflow-x: auto; max-width: 100% }
table { border-collapse: collapse; margin: .5em 0 }
td, th { padding: .18em .55em; text-align: left; vertical-align: top; border-bottom: 1px solid var(--rule); overflow-wrap: break-word }
thead th { border-bottom: 1px solid var(--ink) }
.figures { font: 10.5px/1.4 "DejaVu Sans Mono", Menlo, Consolas, monospace; border: 1px solid var(--ink) }
.figures td, .figures th { text-align: right; padding: .12em .35em; white-space: nowrap } .figures th { background: var(--head) }
.figures .none { font-weight: bold; text-decoration: underline }
.together, figure, tr, li { break-inside: avoid } figure.apart { break-inside: auto }
figure { margin: 1em 0 } svg { display: block; width: 560px; max-width: 100%; height: auto; border: 1px solid var(--rule) }
figcaption, .small { font-size: .87em; color: var(--soft) }
code { font: .88em "DejaVu Sans Mono", Menlo, Consolas, monospace; overflow-wrap: anywhere }
@media (max-width: 40em) { body { margin: 1em auto; padding: 0 14px } h1 { font-size: 1.4em } td, th { padding: .18em .3em } }
@media print { body { font-size: 10.5pt; max-width: none; margin: 0; padding: 0 } .figures { font-size: 7.6pt } .wide { overflow: visible }
.name { overflow-wrap: anywhere } }
'''


def page(tables, library, total, mode):
    """The page, and whether the table is refused in f64, in which the plots are drawn."""
    table = tables['f64']
    grids, verdicts, asked = {}, {}, {}
    for width, found in tables.items():
        grid = found.grid(library)
        try:
            grid.new()
            grids[width], verdicts[width] = grid, ('taken', None, premises.outside(found))
            asked[width] = _asked(found, grid)
        except veltzuma.Refusal as refusal:
            line, text = words.of_grid(found, refusal)
            verdicts[width] = ('refused', f'line {line}: {text}', [])
    name = table.title or os.path.basename(table.path)
    title = name if 'f64' in grids else f'Refused: {name}'
    out = ['<!DOCTYPE html>', '<html lang="en">', '<head>', '<meta charset="utf-8">',
           '<meta http-equiv="Content-Security-Policy" content="default-src \'none\'; style-src \'unsafe-inline\'">',
           '<meta name="viewport" content="width=device-width, initial-scale=1">', '<meta name="color-scheme" content="light dark">',
           f'<title>{escaped(title)}</title>', f'<style>{STYLE}{_paper(title, os.path.basename(table.path), total)}{plot.STYLE}</style>', '</head>', '<body>',
           f'<h1>{escaped(name)}</h1>']
    out += _verdict(verdicts)
    out += [f'<p>{escaped(note)}</p>' for note in table.notes]
    if asked:
        out += _stored_points(tables, asked)
    out += _axes(table)
    if 'f64' in grids:
        out += _plots(table, grids['f64'], mode)
        out += _figures(table)
    out += _proved(table, verdicts)
    out += _version(table, library, total)
    return '\n'.join(out + ['</body>', '</html>']) + '\n', 'f64' not in grids


def _paper(title, file, total):
    """What stands at the head and foot of each printed page. Browsers that have no boxes in the margin of a page print the title and the number by themselves."""
    def boxed(text):
        # Everything but plain letters by its number, so that no text ends the string or the style. A space would be taken for the end of a number.
        return '"' + ''.join(letter if letter.isascii() and letter.isalnum() else f'\\{ord(letter):06x}' for letter in text) + '"'

    def cut(text):
        return text if len(text) <= MOST_NAME else text[:MOST_NAME - 1] + '…'

    face = 'font: 8pt Helvetica, Arial, sans-serif; color: #333'
    return (f'@page {{ size: A4; margin: 20mm 15mm 18mm; @top-left {{ content: {boxed(cut(title))}; {face}; width: 85% }} '
            f'@top-right {{ content: counter(page) " of " counter(pages); {face} }} '
            f'@bottom-left {{ content: {boxed(cut(file) + ", SHA-256 " + total[:16] + "…")}; {face}; width: 100% }} }}\n')


def _in_box(lines, name):
    """A table in a box of its own, which is scrolled sideways where it is wider than the page, by hand or by keys."""
    return [f'<div class="wide" tabindex="0" role="region" aria-label="{escaped(name)}">', *lines, '</div>']


def _verdict(verdicts):
    """The verdict of `new` and the premises of the node rule, in both widths."""
    good = [width for width, (verdict, _, _) in verdicts.items() if verdict == 'taken']
    within = [width for width in good if not verdicts[width][2]]
    if len(good) == len(verdicts):
        if len(within) == len(good):
            text = 'Taken in both widths, and within the premises of the node rule: every stored point answers its own number.'
        elif within:
            text = f'Taken in both widths. Within the premises of the node rule in {within[0]} alone.'
        else:
            text = 'Taken in both widths. Outside the premises of the node rule: it is not proved that a stored point answers its own number.'
    elif good:
        text = f'Taken in {good[0]} alone. Refused in {" and ".join(width for width in verdicts if width not in good)}: no query is answered there.'
    else:
        text = 'Refused: no query on this table is answered.'
    lines = ['<table><thead><tr><th scope="col">width</th><th scope="col">verdict</th><th scope="col">premises of the node rule</th></tr></thead><tbody>']
    for width, (verdict, told, outside) in verdicts.items():
        premises = '–' if verdict == 'refused' else 'within' if not outside else 'outside: ' + '; '.join(f'line {line}: {text}' for line, text in outside)
        lines.append(f'<tr><th scope="row">{width}</th><td class="name">{escaped(told or "taken")}</td><td class="name">{escaped(premises)}</td></tr>')
    out = [f'<p class="verdict{"" if len(good) == len(verdicts) else " refused"}">{escaped(text)}</p>', '<h2>Verdict</h2>']
    out += _in_box(lines + ['</tbody></table>'], 'Verdict')
    out.append('<p class="small">The base is f64; the handset reads in f32. Each number of the file is rounded once to the width. The premises '
               '(docs/SPECIFICATION.md 8.2): all values are finite; each gap of a rectilinear axis, as rounded in the width, is from 2<sup>−20</sup> to '
               '2<sup>20</sup>; a regular step is a power of two in that range, and its start a whole number of steps, at most 2<sup>20</sup>.</p>')
    return out


def _order(number, width):
    """The place of a finite number among those of the width, 0 at zero."""
    code, word = ('<d', '<q') if width == 'f64' else ('<f', '<i')
    bits, = struct.unpack(word, struct.pack(code, number))
    return bits if bits >= 0 else -(bits & (1 << (63 if width == 'f64' else 31)) - 1)


def units_apart(one, other, width):
    """How many numbers of the width it is from one to the other."""
    return abs(_order(one, width) - _order(other, width))


class Off:
    """The stored points that do not answer their own number, in one setting: those that answer another, and those that answer none."""

    def __init__(self, width, stored, batches):
        self.width, self.stored = width, stored
        # How many answer another number, the most units of them all, and that point with its answer; how many answer none, and the first of them.
        self.other, self.units, self.worst, self.none, self.first = 0, 0, None, 0, None
        for first, answered, values, _, refusal in batches:
            if values[:answered] != stored[first:first + answered]:
                for i in range(answered):
                    if values[i] != stored[first + i]:
                        self._add(first + i, values[i])
            if refusal is not None:
                self._add(first + answered, None)

    def _add(self, at, answer):
        if answer is None or not (math.isfinite(answer) and math.isfinite(self.stored[at])):
            self.none += 1
            self.first = self.first or (at, answer)
            return
        self.other += 1
        units = units_apart(self.stored[at], answer, self.width)
        if units > self.units:
            self.units, self.worst = units, (at, answer)

    def cells(self, table):
        """What is told of them: how many answer their own number, how far the others are off, and how many answer no number."""
        def point(at, answer):
            shown = 'refused' if answer is None else f'answers {floats.show(answer, self.width)}'
            return f'entries {", ".join(map(str, table.indices(at)))}: stores {floats.show(self.stored[at], self.width)}, {shown}'

        count = len(self.stored)
        return [f'{count - self.other - self.none:,} of {count:,}',
                f'{self.other:,}, by at most {self.units:,} unit{"s" * (self.units != 1)} in the last place ({point(*self.worst)})' if self.other else '0',
                f'{self.none:,} (first at {point(*self.first)})' if self.none else '0']


def _asked(table, grid):
    """The stored points, asked in each setting."""
    code = floats.CODE[table.width]
    stored = array.array(code, table.vals)
    queries = array.array(code, itertools.chain.from_iterable(itertools.product(*(axis.entries for axis in table.axes))))
    return {mode: Off(table.width, stored, evaluate.batches(table, grid, queries, mode, False)) for mode in veltzuma.MODES}


def _stored_points(tables, asked):
    lines = ['<table><thead><tr>' + ''.join(f'<th scope="col">{name}</th>' for name in ('width', 'past the ends', 'answer their own number', 'are off', 'no number'))
             + '</tr></thead><tbody>']
    for width, found in asked.items():
        same = {}
        for mode, points in found.items():
            same.setdefault(tuple(points.cells(tables[width])), []).append(mode)
        for cells, modes in same.items():
            modes = 'each setting' if len(modes) == len(found) else ', '.join(modes)
            lines.append(f'<tr><th scope="row">{width}</th><td>{modes}</td>' + ''.join(f'<td class="name">{escaped(cell)}</td>' for cell in cells) + '</tr>')
    return (['<h2>Stored points, asked</h2>'] + _in_box(lines + ['</tbody></table>'], 'Stored points, asked')
            + ['<p class="small">Each stored point was asked of this reader for this page, in one batch. Units in the last place: how many numbers of the width '
               'it is from the one stored to the one answered. No number: a NaN or an infinity is stored or answered, or the query is refused.</p>'])


def _axes(table):
    heads = ('', 'name', 'unit', 'entries', 'first', 'last', 'step' if table.kind == 'regular' else 'gaps')
    out = ['<table><thead><tr>' + ''.join(f'<th scope="col">{head}</th>' if head else '<td></td>' for head in heads) + '</tr></thead><tbody>']
    for i, axis in enumerate(table.axes):
        if table.kind == 'regular':
            gaps = floats.show(axis.step, 'f64')
        else:
            found = [b - a for a, b in zip(axis.entries, axis.entries[1:])]
            # As a reader expects them: 0.1, though the rounded difference has more digits.
            gaps = ' to '.join(sorted({'%.6g' % gap for gap in (min(found), max(found))}, key=float)) if found else '–'
        ends = [floats.show(entry, 'f64') for entry in (axis.entries[0], axis.entries[-1])] if axis.entries else ['–', '–']
        out.append(f'<tr><th scope="row">axis {i}</th><td class="name">{escaped(axis.name)}</td><td class="name">{escaped(axis.unit)}</td><td>{axis.count:,}</td>'
                   f'<td>{ends[0]}</td><td>{ends[1]}</td><td>{gaps}</td></tr>')
    finite = [value for value in table.vals if math.isfinite(value)]
    ends = [floats.show(value, 'f64') for value in (min(finite), max(finite))] if finite else ['–', '–']
    others = len(table.vals) - len(finite)
    told = f'from {ends[0]} to {ends[1]}' + (f'; {others:,} {"is" if others == 1 else "are"} no finite number' if others else '')
    out.append(f'<tr><th scope="row">value</th><td class="name">{escaped(table.name)}</td><td class="name">{escaped(table.unit)}</td><td>{len(table.vals):,}</td>'
               f'<td colspan="3">{told}</td></tr>')
    points = f'A {table.kind} grid of {words.product_words(table.counts)} points.' if table.axes else 'No axis.'
    return ['<h2>Axes and value</h2>', f'<p>{points}</p>'] + _in_box(out + ['</tbody></table>'], 'Axes and value')


def _plots(table, grid, mode):
    past = {'cubic': 'goes on along the cubic', 'straight': 'goes on along a straight line', 'held': 'is held level'}[mode]
    out = ['<h2>Through the middle</h2>',
           f'<p>Along each axis, the others kept at the stored point in the middle. The line is what is answered between the points, in f64; the dots '
           f'are the stored figures. Where the ground is shaded, a query is outside the measured span, and the line there {past} '
           f'(<code>--mode {mode}</code>): nothing was measured there. A drawing is as high as what is stored and answered inside the span; where the line '
           'leaves it, that is marked, with the farthest answer.</p>']
    for along, axis in enumerate(table.axes):
        line = plot.Line(table, grid, along, None, mode)
        out += ['<figure>', plot.svg(line, ident=f'outside{along}', width=DRAWN, style=False).rstrip('\n'), *_broken(line, axis), '</figure>']
    return out


def _broken(line, axis):
    """Where the curve is broken, in words."""
    found = plot.gaps([(x, value) for x, value, _ in line.curve])
    told = [(f'at {axis.name} {plot.short(first)}' if first == last else f'from {axis.name} {plot.short(first)} to {plot.short(last)}') + f' ({", ".join(what)})'
            for first, last, what in found[:MOST_GAPS]]
    if len(found) > MOST_GAPS:
        told.append(f'and {len(found) - MOST_GAPS:,} times more')
    return [f'<figcaption>The curve is broken. Of the places asked for it, these answer no number: {escaped("; ".join(told))}.</figcaption>'] if found else []


def _aligned(numbers):
    """The numbers as text, with as many decimals each where that is a matter of zeros at the end."""
    shown = [floats.show(number, 'f64') for number in numbers]
    decimals = [len(text.partition('.')[2]) for text in shown]
    most = max(decimals)
    if most > 6 or not all(text.lstrip('-').replace('.', '').isdigit() for text in shown):
        return shown
    return [text + ('.' if not count and most else '') + '0' * (most - count) for text, count in zip(shown, decimals)]


def _figures(table):
    """The stored figures: the last axis across, the one before it down, a table for each entry of those before."""
    out = ['<h2>Stored figures</h2>', f'<p>{escaped(plot.with_unit(table.name, table.unit))}, each number in a form that reads back to the same f64.</p>']
    last, vals = table.axes[-1], _aligned(table.vals)
    cells = [f'<td>{text}</td>' if math.isfinite(value) else f'<td class="none">{text}</td>' for text, value in zip(vals, table.vals)]
    down = table.axes[-2] if len(table.axes) > 1 else None
    rows = down.count if down else 1
    heads = [floats.show(entry, 'f64') for entry in down.entries] if down else []
    tops = [floats.show(entry, 'f64') for entry in last.entries]
    room = ACROSS - (max(map(len, heads)) + BESIDE if down else 0)
    across = max(1, min(last.count, int(room / (max(map(len, vals + tops)) + BESIDE))))
    for slab in range(len(table.vals) // (rows * last.count)):
        first = slab * rows * last.count
        fixed = ', '.join(f'{axis.name} {floats.show(axis.entries[i], "f64")}' + (f' {axis.unit}' if axis.unit != '1' else '')
                          for axis, i in zip(table.axes[:-2], table.indices(first)))
        heading = ' · '.join(part for part in (fixed, f'across: {plot.with_unit(last.name, last.unit)}',
                                               f'down: {plot.with_unit(down.name, down.unit)}' if down else '') if part)
        for left in range(0, last.count, across):
            columns = range(left, min(left + across, last.count))
            lines = ['<table class="figures"><thead><tr>' + ('<td></td>' if down else '')
                     + ''.join(f'<th scope="col">{tops[k]}</th>' for k in columns) + '</tr></thead><tbody>']
            for row in range(rows):
                head = f'<th scope="row">{heads[row]}</th>' if down else ''
                lines.append('<tr>' + head + ''.join(cells[first + row * last.count + k] for k in columns) + '</tr>')
            out += [f'<figure class="{"together" if rows <= TOGETHER else "apart"}"><figcaption class="above">{escaped(heading)}</figcaption>',
                    *_in_box(lines + ['</tbody></table>'], heading), '</figure>']
    return out


def _proved(table, verdicts):
    within = [width for width, (verdict, _, outside) in verdicts.items() if verdict == 'taken' and not outside]
    taken = [width for width, (verdict, _, _) in verdicts.items() if verdict == 'taken']
    applies = (f'This table is within them in {" and in ".join(within)}.' if within
               else 'This table is outside them, so nothing is claimed here of its stored points.' if taken
               else 'This table is refused, so nothing is answered at its stored points.')
    block = ' × '.join(['4'] * len(table.axes)) if len(table.axes) in (1, 2, 3, 4) else '4 to each axis'
    proved = [
        ('Any query.', 'Every call answers, or refuses with one of ten numbers; nothing overflows, and nothing outside of what it is given is '
         'read or written.', '1.1 and 2.2', '“Any input”'),
        ('Axes rise strictly.', 'On each axis of a rectilinear table that is taken, every entry is above the one before it, and no gap, as rounded in '
         'the width, is zero.', '2.6', '“Strictly rising axes”'),
        ('Equal to the definitions.', 'Place, value and slope are, for every query, what the definitions give: each operation rounded by '
         'IEEE 754, in a stated order, in f64 and in f32.', '3 to 7', '“Equal to the definitions”'),
        ('Stored points.', 'Within the premises, a query at a stored point answers with the number stored there, +0 and −0 as one; alone, in a '
         f'batch, and in each of the three settings past the ends. {applies}', '8.2 and 8.3', '“Nodes and blocks”'),
        ('Only the block.', f'An answer depends on the block of {block} stored values around the query. Whatever stands elsewhere in the table '
         'cannot change it, neither the value nor a slope.', '8.5', '“Nodes and blocks”'),
        ('Held ends.', 'Within the premises and with held ends, a query that on each axis is at an entry or past an end answers with the number '
         'stored at those entries and ends.', '8.6', '“Nodes and blocks”'),
        ('Truly outside.', 'The answer to a single query says for each axis whether the query, as given, lay below the first entry or above the '
         'last, whatever is followed past the ends. Within the premises, a query at a stored point, one at an end too, is marked on no axis. '
         f'{applies}', '3.8 and 8.8', '“Marks”'),
    ]
    out = ['<section class="together">', '<h2>What is proved about every answer</h2>',
           '<p>Not sampled: each statement is a theorem about the reader’s own code, checked by the prover of the kit below.</p>', '<ul>']
    for name, text, clauses, section in proved:
        out.append(f'<li><b>{name}</b> {escaped(text)} <span class="small">(docs/SPECIFICATION.md {clauses}; docs/EVIDENCE.md, {section})</span></li>')
    out += ['</ul>', '<p><b>Not proved:</b> that the stored figures are what the pump delivers; this page and its plots, which a Python program wrote around the '
            'reader’s answers; and what docs/EVIDENCE.md lists under “What is trusted”, as the compiler behind the prover.</p>', '</section>']
    return out


def _version(table, library, total):
    made = library.build
    rows = [('table file', os.path.basename(table.path)), ('sum of its bytes, SHA-256', total),
            ('reader, commit', made.get('commit', 'not told by the library')), ('reader, kit', made.get('kit', 'not told by the library')),
            ('reader, sum of its sources', made.get('sources', 'not told by the library')), ('this page, commit', build.commit())]
    lines = ['<table><tbody>'] + [f'<tr><th scope="row">{escaped(name)}</th><td><code>{escaped(text)}</code></td></tr>' for name, text in rows]
    return ['<h2>Version</h2>'] + _in_box(lines + ['</tbody></table>'], 'Version')
