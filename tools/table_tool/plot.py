"""A curve of a table along one axis, as plain SVG that is readable in black and white, and on a dark ground where the reader's system asks for one."""
import math
import os
import unicodedata
from fractions import Fraction

from . import evaluate, floats

WIDTH, EDGE, RIGHT, PANEL, BETWEEN = 720, 16, 20, 300, 44
SIZE, HEADING, SMALL = 13, 16, 12
CURVE_POINTS = 480
# How far the plot goes past the ends, in parts of the span.
BEYOND = Fraction(15, 100)
# The room above and below what is drawn inside the span, in parts of its range.
ROOM = Fraction(6, 100)
# Radii of the dots: the largest of which no two touch, or the smallest, and then there are fewer of them.
RADII = (4, 3, 2)
# The line of a dot's edge keeps it apart from the curve and counts with it.
RIM = 1
# How far a line is followed past the frame, in heights of the frame; the rest of it is cut off there, since it may reach 1e308.
PAST = 1
# Answers that differ by no more units in the last place, over stored points that do not differ, are drawn as one level.
NOISE = 64
# A unit in the last place of 1, and the least number above 0.
UNIT = {'f64': Fraction(1, 1 << 52), 'f32': Fraction(1, 1 << 23)}
LEAST = {'f64': Fraction(1, 1 << 1074), 'f32': Fraction(1, 1 << 149)}
# Where there are no styles, as on paper, the attributes hold: black on white.
STYLE = '''@media screen and (prefers-color-scheme: dark) {
.veltzuma { fill: #e8e8e8 } .veltzuma .ground { fill: #16181b } .veltzuma .line { stroke: #e8e8e8 } .veltzuma .grid { stroke: #4b4f55 }
.veltzuma .shade { fill: #25282c } .veltzuma .hatch { stroke: #5d6269 } .veltzuma .rim { stroke: #16181b }
}'''


def escaped(text):
    """Text as XML and HTML hold it, within an attribute too."""
    text = ''.join(letter if letter == '\t' or ' ' <= letter and not 0xd800 <= ord(letter) < 0xe000 and ord(letter) & 0xfffe != 0xfffe else '\ufffd'
                   for letter in text)
    for plain, entity in (('&', '&amp;'), ('<', '&lt;'), ('>', '&gt;'), ('"', '&quot;'), ("'", '&#39;')):
        text = text.replace(plain, entity)
    return text


def middle(table):
    """The stored point in the middle: an index for each axis."""
    return [axis.count // 2 for axis in table.axes]


def with_unit(name, unit):
    return name if unit == '1' else f'{name}, {unit}'


def minus(text):
    return text.replace('-', '−')


def short(number):
    """A number in few digits, to be read and not to be read back."""
    return minus(('%.4g' % number).replace('e+', 'e'))


def text_width(text, size=SIZE, bold=False):
    """No less than the width that a common sans-serif letter takes: there are no metrics at hand, so the widest of them, DejaVu Sans, is followed."""
    ems = 0.0
    for letter in text:
        if letter in " !'(),./:;I[]fijlrt|":
            ems += 0.42
        elif letter.isascii() and (letter.islower() or letter.isdigit()) and letter not in 'mw':
            ems += 0.64
        elif letter.isascii() and letter.isupper() and letter not in 'MW':
            ems += 0.8
        elif not unicodedata.combining(letter):
            ems += 1.12
    return ems * size * (1.2 if bold else 1)


def fitted(text, room, size=SIZE, bold=False, most=1):
    """The text in at most so many lines of that width, broken at spaces where that can be; what is left over is an ellipsis."""
    lines, left = [], ' '.join(text.split())
    while left:
        if text_width(left, size, bold) <= room:
            return lines + [left]
        mark = '…' if len(lines) == most - 1 else ''
        end = 1
        while end < len(left) and text_width(left[:end + 1] + mark, size, bold) <= room:
            end += 1
        if mark:
            return lines + [left[:end].rstrip() + mark]
        space = left.rfind(' ', 1, end + 1)
        # A line that is left mostly empty says less than a broken word.
        end = space if space > end // 3 else end
        lines.append(left[:end].rstrip())
        left = left[end:].lstrip()
    return lines


class Scale:
    """Numbers between two as places between two. In whole numbers, and rounded once: the range may be 1e308 or one unit of the smallest numbers."""
    FAR = 1 << 64

    def __init__(self, low, high, first, last):
        self.low, self.span = low.as_integer_ratio(), (high - low).as_integer_ratio()
        self.first, self.last = first, last

    def part(self, number):
        """Where a number is, as a part of the way: 0 at the low end, 1 at the high one."""
        (over, under), (low, of_low), (span, of_span) = number.as_integer_ratio(), self.low, self.span
        over, under = (over * of_low - low * under) * of_span, under * of_low * span
        return over / under if abs(over) < self.FAR * under else math.copysign(self.FAR, over)

    def at(self, part):
        return self.first + (self.last - self.first) * part

    def place(self, number):
        return self.at(self.part(number))


class Line:
    """What is drawn: the table along one axis, the other coordinates kept."""

    def __init__(self, table, grid, along, at, mode):
        self.table, self.along, self.mode = table, along, mode
        axis = table.axes[along]
        self.at = list(at) if at else [axis.entries[i] for axis, i in zip(table.axes, middle(table))]
        self.asked = bool(at)
        finite = [entry for entry in axis.entries if math.isfinite(entry)]
        self.ends = axis.entries[0], axis.entries[-1]
        self.first, self.last = (finite[0], finite[-1]) if finite else (0.0, 1.0)
        reach = [self.at[along]] if self.asked and math.isfinite(self.at[along]) else []
        low, high = Fraction(min([self.first] + reach)), Fraction(max([self.last] + reach))
        margin = BEYOND * ((high - low) or abs(high) or 1)
        most = Fraction(floats.GREATEST[table.width])
        self.low, self.high = max(low - margin, -most), min(high + margin, most)
        between = [float(self.low + (self.high - self.low) * Fraction(k, CURVE_POINTS)) for k in range(CURVE_POINTS + 1)]
        # At the nodes themselves the curve has the stored points.
        rounded = {floats.round_to(x, table.width) for x in between + finite + reach}
        # Past which ends of the other axes the whole line lies, by the marks of its answers.
        self.past = {}
        self.curve = self._asked_of(grid, sorted(x for x in rounded if self.low <= x <= self.high))
        self.point = self._asked_of(grid, [self.at[along]])[0] if self.asked else None
        self.stored = self._stored(axis)

    def _asked_of(self, grid, xs):
        """Value and slope at each x, None where the library refuses."""
        found = []
        queries = [self.at[:self.along] + [x] + self.at[self.along + 1:] for x in xs]
        for x, value, slopes, places, refusal in evaluate.answers(self.table, grid, queries, self.mode):
            found.append((x[self.along], None if refusal else value[0], None if refusal else slopes[self.along]))
            for i, place in enumerate(places or []):
                if i != self.along and (place.below or place.above):
                    self.past[i] = 'below the first entry' if place.below else 'above the last entry'
        return found

    def _stored(self, axis):
        """The stored points on the line; None where the other coordinates are at no node."""
        table, index = self.table, []
        for i, other in enumerate(table.axes):
            if i == self.along:
                index.append(0)
            elif self.at[i] in other.entries:
                index.append(other.entries.index(self.at[i]))
            else:
                return None
        found = []
        for k in range(axis.count):
            index[self.along], place = k, 0
            for i, other in zip(index, table.axes):
                place = place * other.count + i
            found.append((axis.entries[k], table.vals[place]))
        return found

    def dots(self):
        """The stored points that can be drawn."""
        return [(x, value) for x, value in self.stored or [] if math.isfinite(x) and math.isfinite(value)]

    def least_slope(self):
        """What a unit in the last place of the largest answer is as a slope, over the least gap."""
        entries = [Fraction(entry) for entry in self.table.axes[self.along].entries if math.isfinite(entry)]
        gap = min((b - a for a, b in zip(entries, entries[1:]) if b > a), default=Fraction(1))
        return UNIT[self.table.width] * max((abs(Fraction(value)) for x, value, _ in self.curve if _finite(value) and self.inside(x)), default=Fraction(0)) / gap

    def inside(self, x):
        return self.ends[0] <= x <= self.ends[1]

    def shaded(self):
        """Where a query lies outside the span, from and to. Past an end of another axis that is everywhere."""
        if self.past:
            return [(self.low, self.high)]
        found = [(self.low, Fraction(self.first))] if self.ends[0] == self.first else []
        found += [(Fraction(self.last), self.high)] if self.ends[1] == self.last else []
        return [(start, end) for start, end in found if start < end]

    def others(self):
        """The coordinates that are kept, in words."""
        table = self.table
        return '; '.join(f'{other.name} {floats.show(x, table.width)}' + (f' {other.unit}' if other.unit != '1' else '')
                         + (f' ({self.past[i]})' if i in self.past else '')
                         for i, (other, x) in enumerate(zip(table.axes, self.at)) if i != self.along)


def gaps(points):
    """Where no number is answered: the first and the last such x, and words for what is answered there. `points`: x and number, None where refused."""
    found, begun = [], False
    for x, number in points:
        if _finite(number):
            begun = False
            continue
        word = 'refused' if number is None else minus(str(number))
        if begun:
            first, _, told = found.pop()
        else:
            first, told = x, []
        found.append((first, x, told if word in told else told + [word]))
        begun = True
    return found


def ticks(low, high, most=7):
    """Round numbers between two, at most one more than `most`, with their labels. All exact, so nothing overflows."""
    least = Fraction(high - low) / most
    exponent = len(str(least.numerator)) - len(str(least.denominator)) - 1
    while Fraction(10) ** (exponent + 1) <= least:
        exponent += 1
    times = next(k for k in (1, 2, 5, 10) if k * Fraction(10) ** exponent >= least)
    if times == 10:
        times, exponent = 1, exponent + 1
    step = times * Fraction(10) ** exponent
    numbers = range(math.ceil(low / step), math.floor(high / step) + 1)
    return [(k * step, label) for k, label in zip(numbers, _labels([k * times for k in numbers], exponent))]


def _labels(numbers, exponent):
    """Whole numbers times a power of ten, as decimals of one length behind the point, or with an exponent where that is shorter."""
    plain, power = [], []
    for number in numbers:
        sign, digits = '-' if number < 0 else '', str(abs(number))
        if exponent >= 0:
            plain.append(sign + digits + ('0' * exponent if number else ''))
        else:
            padded = digits.rjust(1 - exponent, '0')
            plain.append(f'{sign}{padded[:exponent]}.{padded[exponent:]}' if number else '0')
        kept = digits.rstrip('0')
        power.append(f'{sign}{kept[0]}{"." * (len(kept) > 1)}{kept[1:]}e{len(digits) - 1 + exponent}' if number else '0')
    longest = max(map(len, plain), default=0)
    return [minus(label) for label in (plain if longest <= 8 or longest <= max(map(len, power)) else power)]


def thinned(places, radii=RADII):
    """Which of these places have a dot, and the radius of the dots: no two touch. The ends, the lowest and the highest come first."""
    if not places:
        return [], radii[0]
    first = {0, len(places) - 1, *(pick(range(len(places)), key=lambda i: places[i][1]) for pick in (min, max))}
    order = sorted(first) + [i for i in range(len(places)) if i not in first]
    for radius in radii:
        apart, cells, kept = 2 * radius + RIM, {}, []
        for i in order:
            x, y = places[i]
            column, row = int(x // apart), int(y // apart)
            near = [other for a in (-1, 0, 1) for b in (-1, 0, 1) for other in cells.get((column + a, row + b), ())]
            if all(math.hypot(x - a, y - b) >= apart for a, b in near):
                cells.setdefault((column, row), []).append((x, y))
                kept.append(i)
            elif radius != radii[-1]:
                break
        else:
            break
    return sorted(kept), radius


def _finite(number):
    return number is not None and math.isfinite(number)


def text_at(x, y, lines, whole='', anchor='start', size=SIZE, more='', leading=1.25):
    """Lines of text below each other. Where they are not the whole text, that is their title."""
    out = []
    title = f'<title>{escaped(whole)}</title>' if whole and ' '.join(lines) != whole else ''
    for k, line in enumerate(lines):
        sized = f' font-size="{size}"' if size != SIZE else ''
        anchored = f' text-anchor="{anchor}"' if anchor != 'start' else ''
        out.append(f'<text x="{x:.2f}" y="{y + k * size * leading:.2f}"{anchored}{sized}{more}>{title}{escaped(line)}</text>')
    return out


class _Panel:
    """One pair of axes. Its range is that of the dots and of the answers inside the span; what is answered outside may leave it."""

    def __init__(self, line, points, dots, name, noise=Fraction(0)):
        self.line, self.points, self.dots, self.name = line, points, dots, name
        held = [number for _, number in dots]
        drawn = [number for x, number in points if _finite(number) and line.inside(x)] + held or [number for _, number in points if _finite(number)]
        self.empty = not drawn
        low, high = (Fraction(pick(drawn)) for pick in (min, max)) if drawn else (Fraction(0), Fraction(1))
        size = max(abs(low), abs(high))
        # What rounding alone may make of one level.
        self.noise = NOISE * max(noise, UNIT[line.table.width] * size, LEAST[line.table.width])
        level = low == high or min(held, default=0) == max(held, default=0) and high - low <= self.noise
        room = ROOM * (high - low) if not level else size / 10 if size > self.noise else max(Fraction(1), 10000 * self.noise)
        self.low, self.high = low - room, high + room
        self.ticks = [] if self.empty else ticks(self.low, self.high)

    def labels_width(self):
        return max((text_width(label) for _, label in self.ticks), default=0)

    def put(self, left, right, top, clip):
        self.left, self.right, self.top, self.bottom, self.clip = left, right, top, top + PANEL, clip
        self.x = Scale(self.line.low, self.line.high, left, right)
        self.y = Scale(self.low, self.high, top + PANEL, top)
        # Each answer: its place across, and the part of the way up; None where there is no number.
        self.placed = [(self.x.place(x), self.y.part(number)) if _finite(number) else None for x, number in self.points]
        self.dotted = [(self.x.place(x), self.y.place(value)) for x, value in self.dots]

    def across(self):
        """The ticks along the axis with the middles of their labels: as many as have room, within the drawing."""
        line = self.line
        for most in range(9, 0, -1):
            found = ticks(line.low, line.high, most)
            if len(found) < 2:
                break
            placed = self._middles(found)
            if placed:
                return placed
        ends = [(end, short(float(end))) for end in (line.low, line.high)]
        return self._middles(ends) or [(line.low, '', self.left)]

    def _middles(self, found):
        """The ticks with the middles of their labels, or None where two labels have no room beside each other."""
        placed, end = [], -math.inf
        for number, label in found:
            half = text_width(label) / 2
            centre = min(max(self.x.place(number), half + 2), self.right + RIGHT - half - 2)
            if centre - half < end + 6:
                return None
            placed.append((number, label, centre))
            end = centre + half
        return placed

    def frame(self, ident, numbered):
        out = []
        for start, end in self.line.shaded():
            x = self.x.place(start)
            out.append(f'<rect x="{x:.2f}" y="{self.top:.2f}" width="{self.x.place(end) - x:.2f}" height="{PANEL}" fill="url(#{ident})"/>')
        for number, label in self.ticks:
            y = self.y.place(number)
            out.append(f'<path class="grid" d="M{self.left:.2f} {y:.2f}H{self.right:.2f}" stroke="#ccc" stroke-width="0.6"/>')
            out += text_at(self.left - 8, y + 4, [label], anchor='end')
        for number, label, centre in self.across():
            x = self.x.place(number)
            out.append(f'<path class="line" d="M{x:.2f} {self.bottom:.2f}v5" stroke="#000" stroke-width="0.8"/>')
            if numbered and label:
                out += text_at(centre, self.bottom + 19, [label], anchor='middle')
        out.append(f'<rect class="line" x="{self.left:.2f}" y="{self.top:.2f}" width="{self.right - self.left:.2f}" height="{PANEL}" fill="none" '
                   'stroke="#000" stroke-width="0.8"/>')
        return out + self.named()

    def named(self):
        """The name of what is drawn, upwards, beside the labels."""
        lines, half = self.name_lines(), self.top + PANEL / 2
        return text_at(EDGE + SIZE - 3, half, lines, self.name, 'middle', more=f' transform="rotate(-90 {EDGE + SIZE - 3} {half:.2f})"')

    def name_lines(self):
        return fitted(self.name, PANEL, most=2)

    def pieces(self):
        """The curve as a path. Broken where there is no number; followed so far past the frame and no further."""
        out, pen, before, alone = [], None, None, False
        for now in self.placed + [None]:
            if now and before:
                cut, alone = _within(before, now), False
                if cut:
                    out += [self._step('M', cut[0])] if cut[0] != pen else []
                    out.append(self._step('L', cut[1]))
                    pen = cut[1]
            elif now and -PAST <= now[1] <= 1 + PAST:
                out.append(self._step('M', now))
                pen, alone = now, True
            elif alone:
                # By itself it is a dot: a line of no length with round ends.
                out.append('h0')
                alone = False
            before = now
        return ''.join(out)

    def _step(self, letter, place):
        return f'{letter}{place[0]:.2f} {self.y.at(place[1]):.2f}'

    def curve(self):
        path = self.pieces()
        return [f'<g clip-path="url(#{self.clip})"><path class="line" d="{path}" fill="none" stroke="#000" stroke-width="1.8" stroke-linejoin="round" '
                'stroke-linecap="round"/></g>'] if path else []

    def leaving(self):
        """Where answers outside the span leave the range: the place nearest to what is inside, whether upwards, and the farthest number of them."""
        found, before = [], None
        for (_, number), now in zip(self.points, self.placed):
            if now is None:
                before = None
                continue
            place, part = now
            side, crossing = (part > 1) - (part < 0), place
            if before is not None and before[1] != side:
                edge = max(side, 0) if side else max(before[1], 0)
                crossing = before[0] + (place - before[0]) * ((edge - before[2]) / (part - before[2]))
            if side:
                if before is None or before[1] != side:
                    found.append([crossing, side > 0, number])
                elif (number > found[-1][2]) == (side > 0):
                    found[-1][2] = number
            elif before is not None and before[1]:
                # It comes in here.
                found[-1][0] = crossing
            before = place, side, part
        kept, last = [], {}
        for x, up, number in found:
            if up in last and x - last[up][0] < 14:
                # Marks would lie on each other: one, with the number that is farthest.
                mark = last[up][1]
                mark[2] = (max if up else min)(mark[2], number)
            else:
                mark = [x, up, number]
                kept.append(mark)
            last[up] = x, mark
        return kept

    def farthest(self, number):
        """A number that is past the frame, in so many digits that it is seen to be."""
        for digits in range(4, 18):
            text = '%.*g' % (digits, number)
            if not self.low <= Fraction(text) <= self.high:
                break
        return minus(text.replace('e+', 'e'))

    def words(self):
        """Marks and words at the edges: where the curve leaves the frame, and where it is broken."""
        out, rows = [], {}
        if self.empty:
            return text_at((self.left + self.right) / 2, self.top + PANEL / 2, ['no number is answered'], anchor='middle')
        marks = [(min(max(x, self.left + 6), self.right - 6), up, number) for x, up, number in self.leaving()]
        for x, up, _ in marks:
            out.append(triangle(x, self.top + 2 if up else self.bottom - 2, up))
            rows.setdefault((up, 0), []).append((x - 5, x + 5))
        for x, up, number in marks:
            text = 'to ' + self.farthest(number)
            # Beside the mark, away from what was measured.
            beside = text_width(text, SMALL) / 2 + 10
            out += self._word(rows, x + (beside if x > (self.left + self.right) / 2 else -beside), up, text)
        for first, last, told in gaps(self.points):
            start, end = self.x.place(first), self.x.place(last)
            out.append(bar(start - 1, end + 1, self.bottom - 5))
            out += self._word(rows, (start + end) / 2, False, ', '.join(told))
        return out

    def _word(self, rows, x, up, text):
        """A word beside the upper or the lower edge, in the first of four rows in which it touches no other and no stored point."""
        half = text_width(text, SMALL) / 2
        x = min(max(x, self.left + half + 4), self.right - half - 4)
        for reach in (RADII[0] + RIM, 0):
            for row in range(4):
                y, taken = self.top + 14 + 15 * row if up else self.bottom - 10 - 15 * row, rows.setdefault((up, row), [])
                if any(start < x + half + 4 and x - half < end + 4 for start, end in taken):
                    continue
                # Where every row has one of them, it is drawn over the word.
                if reach and any(abs(a - x) < half + reach and y - SMALL - reach < b < y + 3 + reach for a, b in self.dotted):
                    continue
                taken.append((x - half, x + half))
                return text_at(x, y, [text], anchor='middle', size=SMALL, more=' class="rim" stroke="#fff" stroke-width="3" paint-order="stroke"')
        return []

    def ring(self, x, number):
        """The query that was asked for: ringed, or an open mark at the edge where its answer is past the frame."""
        part = self.y.part(number)
        if 0 <= part <= 1:
            return (f'<circle class="line" cx="{self.x.place(x):.2f}" cy="{self.y.at(part):.2f}" r="6.5" fill="none" stroke="#000" stroke-width="1.6"/>')
        return triangle(self.x.place(x), self.top + 2 if part > 1 else self.bottom - 2, part > 1, True)


def _within(one, other):
    """The part of a segment that is not too far past the frame: its two ends, or None."""
    (a, p), (b, q) = one, other
    low, high = -PAST, 1 + PAST
    if max(p, q) < low or min(p, q) > high:
        return None

    def end(x, part, x_other, part_other):
        limit = min(max(part, low), high)
        return (x, part) if limit == part else (x + (x_other - x) * ((limit - part) / (part_other - part)), limit)

    return end(a, p, b, q), end(b, q, a, p)


def triangle(x, y, up, open_mark=False):
    """A mark at an edge, its point on it."""
    side = 9 if up else -9
    if open_mark:
        return f'<path class="line" d="M{x:.2f} {y:.2f}l-7 {side * 1.3:.1f}h14z" fill="none" stroke="#000" stroke-width="1.6"/>'
    return f'<path class="rim" d="M{x:.2f} {y:.2f}l-5 {side}h10z" stroke="#fff" stroke-width="1"/>'


def bar(start, end, y):
    return f'<path class="line" d="M{start:.2f} {y:.2f}H{end:.2f}" stroke="#000" stroke-width="3"/>'


def svg(line, slope=False, ident='outside', width=WIDTH, style=True):
    """The picture of a Line. `ident` names the shading: another one for each picture of a page, which has the style by itself."""
    table, axis = line.table, line.table.axes[line.along]
    title = f'{table.name} along {axis.name}'
    panels = [_Panel(line, [(x, value) for x, value, _ in line.curve], line.dots(), with_unit(table.name, table.unit))]
    if slope:
        unit = table.unit if axis.unit == '1' else f'{table.unit} per {axis.unit}'
        panels.append(_Panel(line, [(x, slope) for x, _, slope in line.curve], [], with_unit('slope', unit), line.least_slope()))
    head, y, room = [], 8, width - EDGE - RIGHT
    # The table's own name goes with the picture wherever it is taken.
    others = line.others()
    for whole, size, bold, most in ((title, HEADING, True, 2), (table.title or os.path.basename(table.path), SMALL, False, 2),
                                    (f'at {others}' if others else '', SIZE, False, 3)):
        lines = fitted(whole, room, size, bold, most)
        head += text_at(EDGE, y + size, lines, whole, size=size, more=' font-weight="bold"' if bold else '')
        y += round(len(lines) * size * 1.25 + 3 * bool(lines))
    lines_beside = max(len(panel.name_lines()) for panel in panels)
    left = math.ceil(EDGE + 1.25 * SIZE * lines_beside + 6 + max(panel.labels_width() for panel in panels) + 8)
    top = y + 10
    for k, panel in enumerate(panels):
        panel.put(left, width - RIGHT, top + k * (PANEL + BETWEEN), f'{ident}-frame{k}')
    bottom = panels[-1].bottom
    body = []
    for panel in panels:
        body += panel.frame(ident, panel is panels[-1]) + panel.curve() + panel.words()
    dots = panels[0].dotted
    shown, radius = thinned(dots)
    body += [f'<circle class="rim" cx="{dots[i][0]:.2f}" cy="{dots[i][1]:.2f}" r="{radius}" stroke="#fff" stroke-width="{RIM}"/>' for i in shown]
    off = ''
    if line.point and line.point[1] is not None and math.isfinite(line.point[0]):
        for panel, number in zip(panels, line.point[1:]):
            if math.isfinite(number):
                body.append(panel.ring(line.point[0], number))
        if math.isfinite(line.point[1]) and not panels[0].low <= line.point[1] <= panels[0].high:
            off = ', past the frame'
    name = with_unit(axis.name, axis.unit)
    lines = fitted(name, width - RIGHT - left, most=2)
    body += text_at((left + width - RIGHT) / 2, bottom + 40, lines, name, 'middle')
    legend, height = _legend(line, panels, len(shown), radius, off, bottom + 40 + 1.25 * SIZE * (len(lines) - 1) + 24, ident, width)
    clips = ''.join(f'<clipPath id="{panel.clip}"><rect x="{left}" y="{panel.top}" width="{width - RIGHT - left}" height="{PANEL}"/></clipPath>'
                    for panel in panels)
    out = [f'<svg xmlns="http://www.w3.org/2000/svg" class="veltzuma" viewBox="0 0 {width} {height}" width="{width}" height="{height}" role="img" '
           f'aria-label="{escaped(title)}" font-family="Helvetica, Arial, sans-serif" font-size="{SIZE}" fill="#000">',
           f'<title>{escaped(title)}</title>', f'<style>{STYLE}</style>' if style else '',
           f'<defs><pattern id="{ident}" width="7" height="7" patternUnits="userSpaceOnUse" patternTransform="rotate(45)">'
           '<rect class="shade" width="7" height="7" fill="#f3f3f3"/><path class="hatch" d="M0 0V7" stroke="#bbb" stroke-width="1.4"/></pattern>'
           f'{clips}</defs>',
           f'<rect class="ground" width="{width}" height="{height}" fill="#fff"/>']
    return '\n'.join([part for part in out if part] + head + body + legend + ['</svg>']) + '\n'


def _legend(line, panels, shown, radius, off, y, ident, width):
    """What the marks mean, and the query that was asked for, in as many rows as they need; and the height of the whole."""
    past = {'cubic': 'the cubic', 'straight': 'a straight line', 'held': 'held level'}[line.mode]
    items = [('<path class="line" d="M{x:.2f} {y:.2f}H{e:.2f}" stroke="#000" stroke-width="1.8"/>', f'answers, {line.table.width}')]
    if line.stored is not None:
        items.append((f'<circle cx="{{m:.2f}}" cy="{{y:.2f}}" r="{radius}"/>',
                      'stored points' + (f', {shown:,} of {len(line.stored):,}' if shown < len(line.stored) else '')))
    items.append(('<rect class="line" x="{x:.2f}" y="{t:.2f}" width="18" height="12" fill="url(#{i})" stroke="#000" stroke-width="0.5"/>',
                  f'outside the span: {past}'))
    if any(panel.leaving() for panel in panels if not panel.empty):
        items.append(('<path d="M{m:.2f} {t:.2f}l-5 9h10z"/>', 'leaves the range'))
    if any(gaps(panel.points) for panel in panels):
        items.append(('<path class="line" d="M{x:.2f} {y:.2f}H{e:.2f}" stroke="#000" stroke-width="3"/>', 'no number is answered'))
    if line.point:
        asked, value = (floats.show(number, line.table.width) if number is not None else 'refused' for number in line.point[:2])
        mark = ('<path class="line" d="M{m:.2f} {t:.2f}l-7 11.7h14z" fill="none" stroke="#000" stroke-width="1.6"/>' if off
                else '<circle class="line" cx="{m:.2f}" cy="{y:.2f}" r="6" fill="none" stroke="#000" stroke-width="1.6"/>')
        items.append((mark, f'asked at {asked}: {value}{off}'))
    out, x = [], EDGE
    for mark, text in items:
        lines = fitted(text, width - EDGE - 24 - RIGHT, SMALL)
        taken = 24 + text_width(lines[0], SMALL)
        if x > EDGE and x + taken > width - RIGHT:
            x, y = EDGE, y + 20
        out.append(mark.format(x=x, m=x + 9, e=x + 18, y=y - 4, t=y - 10, i=ident))
        out += text_at(x + 24, y, lines, text, size=SMALL)
        x += taken + 16
    return out, math.ceil(y + 14)
