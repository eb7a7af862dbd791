"""The stored points at which two tables on the same axes hold different numbers, and the queries that read them. Within the premises of the node rule
these are, among the stored points, those at which the tables answer differently (clause 8.4); between them the queries that read such a point may
be answered differently (8.5)."""
import csv
import math
from decimal import Decimal

import veltzuma

from . import floats, words


def other_axes(one, other):
    """Why the second table is not on the axes of the first: its line and words; None where it is. A number at the same entry would not be about the
    same point."""
    if one.kind != other.kind:
        return other.kind_line, f'{other.kind}, where the first is {one.kind}'
    if len(one.axes) != len(other.axes):
        return other.axes[-1].line, f'{words.number_of_axes(other)}, where the first has {len(one.axes)}'
    for i, (a, b) in enumerate(zip(one.axes, other.axes)):
        if (a.name, a.unit) != (b.name, b.unit):
            return b.line, f"axis {i} is '{b.name}' in {b.unit}, where the first has '{a.name}' in {a.unit}"
        if a.count != b.count:
            return b.line, f"axis {i} '{a.name}' has {b.count} entries, where the first has {a.count}"
        pairs = [(key, b.lines[key], getattr(a, key), getattr(b, key)) for key in ('start', 'step') if one.kind == 'regular']
        pairs += [(f'entry {k}', b.lines['entries'], x, y) for k, (x, y) in enumerate(zip(a.entries, b.entries)) if one.kind != 'regular']
        for what, line, x, y in pairs:
            if _differ(x, y):
                return line, f"axis {i} '{a.name}', {what}: {floats.show(y, one.width)}, where the first has {floats.show(x, one.width)}"
    if one.unit != other.unit:
        return other.value_line, f"'{other.name}' is in {other.unit}, where the first has '{one.name}' in {one.unit}"
    return None


def _differ(x, y):
    """As numbers: +0 and -0 are one, and so is any NaN with another."""
    return x != y and (x == x or y == y)


class Box:
    """The queries on one axis that read the point at an index, by clause 3.4: their origin is from index - 3 to index. On a rectilinear axis those above
    the entry two before it, and up to the entry two behind it. On a regular axis those from the number at which the floor of 3.3 becomes index - 2,
    and below that at which it becomes index + 2: the entries there as the library places them, which rounding may move. Near an end it is all
    past that end. Held, it is the query as used (3.7) that lies in a box."""

    def __init__(self, table, axis, library):
        self.axis, self.width = table.axes[axis], table.width
        self.names = ('seen from', 'seen below') if table.kind == 'regular' else ('seen above', 'seen to')
        self.kept = {}
        if table.kind == 'regular':
            # The place on an axis has nothing to do with the others.
            self.grid = veltzuma.MulticubicRegular([self.axis.count], [self.axis.start], [self.axis.step], [0.0] * self.axis.count, self.width, library=library)

    def ends(self, index):
        if index not in self.kept:
            last = self.axis.count - 4
            self.kept[index] = (self._end(index - 2) if index > 3 else -math.inf, self._end(index + 2) if index < last else math.inf)
        return self.kept[index]

    def _end(self, entry):
        found, most = self.axis.entries[entry], floats.order(math.inf, self.width)
        if self.axis.listed is not None or not math.isfinite(found):
            return found
        # The least number whose origin is entry - 1, as L is: the entry as rounded, or a number near it.
        low = high = floats.order(found, self.width)
        step = 1
        while not self._reached(high, entry):
            low, high, step = high, min(high + step, most), 2 * step
        while self._reached(low, entry):
            low, high, step = max(low - step, -most), low, 2 * step
        while high - low > 1:
            middle = (low + high) // 2
            low, high = (low, middle) if self._reached(middle, entry) else (middle, high)
        return floats.in_order(high, self.width)

    def _reached(self, number, entry):
        try:
            return self.grid.get_loc([floats.in_order(number, self.width)])[0].origin >= entry - 1
        except veltzuma.Refusal:
            # Too far away to be placed, on one side or the other.
            return number > floats.order(self.axis.start, self.width)


def _less(b, a):
    """The difference of two numbers as they are shown, and what it is in % of the second; that of 0 is left out."""
    if not (math.isfinite(float(a)) and math.isfinite(float(b))):
        return floats.show(float(b) - float(a), 'f64'), ''
    difference = Decimal(b) - Decimal(a)
    return floats.show(float(difference), 'f64'), '%.6g' % (100 * difference / Decimal(a)) if Decimal(a) else ''


def write(one, other, library, out):
    """The differing points as CSV, where there are any. Returns how many."""
    found = [at for at, (x, y) in enumerate(zip(one.vals, other.vals)) if _differ(x, y)]
    if found:
        names = [axis.name for axis in one.axes]
        boxes = [Box(one, axis, library) for axis in range(len(names))]
        to = csv.writer(out, lineterminator='\n')
        to.writerow(['entry on ' + name for name in names] + names + [f'{table.name} in {table.path}' for table in (one, other)] + ['difference', '% of the first']
                    + [f'{what} {name}' for name, box in zip(names, boxes) for what in box.names])
        for at in found:
            indices = one.indices(at)
            first, second = (floats.show(table.vals[at], one.width) for table in (one, other))
            to.writerow(indices + [floats.show(axis.entries[i], one.width) for axis, i in zip(one.axes, indices)] + [first, second, *_less(second, first)]
                        + [floats.show(end, one.width) for box, i in zip(boxes, indices) for end in box.ends(i)])
    return len(found)
