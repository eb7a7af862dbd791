"""Asks the library about queries in batches of bounded size, and writes the answers as CSV: each refused query told by itself and the rest asked again."""
import array
import bisect
import csv
import itertools
import math
import operator
import sys
import time

import veltzuma

from . import floats, words

# The ends of so many different lines are kept.
MOST_TAILS = 1 << 14
# After a refused query at least so many are asked at once.
FEWEST = 64


def batches(table, grid, numbers, mode, slopes=True):
    """Asks the queries of an array, which has the coordinates of one query after the other. For each batch: the number of its first query, how many are
    answered, their values, the slopes along each axis in turn, and the refusal of the query behind them, or None."""
    axes, code = len(table.axes), numbers.typecode
    count = len(numbers) // axes
    first, size = 0, count
    while first < count:
        asked = min(size, count - first)
        part = numbers[axes * first:axes * (first + asked)]
        joined = part[0::axes]
        for axis in range(1, axes):
            joined += part[axis::axes]
        room = bytes(asked * joined.itemsize)
        values, gradients = array.array(code, room), array.array(code, axes * room if slopes else b'')
        refusal = None
        for call, out in ((grid.interp, values), (grid.interp_grad, gradients))[:2 if slopes else 1]:
            try:
                call(joined, out, mode)
            except veltzuma.Refusal as refused:
                if refused.number not in words.OF_QUERY:
                    raise
                refusal = refused
        # Of a refused batch, the queries before the refused one have their answers.
        answered = asked if refusal is None else refusal.query
        yield first, answered, values, [gradients[axis * asked:(axis + 1) * asked] for axis in range(axes)] if slopes else [], refusal
        first += answered + (refusal is not None)
        # Where one is refused, others may be soon: what is asked behind them is asked again.
        size = 2 * size if refusal is None else max(2 * answered, FEWEST)


def answers(table, grid, queries, mode):
    """For each query in turn: (x, value, slopes, places, None), or (x, None, None, None, refusal in words). `queries` is a list of coordinates."""
    code = floats.CODE[table.width]
    numbers = array.array(code, [coordinate for x in queries for coordinate in x])
    for first, answered, values, gradients, refusal in batches(table, grid, numbers, mode):
        for i, x in enumerate(queries[first:first + answered]):
            yield x, values[i:i + 1], array.array(code, [column[i] for column in gradients]), grid.get_loc(x, mode), None
        if refusal is not None:
            x = queries[first + answered]
            yield x, None, None, None, words.of_query(table, refusal, x)


class Runs:
    """The places on one axis that the library has told, by the coordinate. The place follows the coordinate upwards and never turns back: what clauses 3.2
    and 3.3 count, the node that 3.7 puts in a coordinate's stead and the marks of 3.8 all keep to its order, and rounding does too. So a coordinate
    between two that have one place has that place, and is not asked."""

    def __init__(self):
        # The ends of each run of one place, its least coordinate and the number above its greatest; and what lies before, in and behind each run.
        self.ends, self.told = [], [None]

    def find(self, column):
        """The place of each coordinate, None where it is not known."""
        return list(map(self.told.__getitem__, map(bisect.bisect_right, itertools.repeat(self.ends), column)))

    def at(self, x):
        return self.told[bisect.bisect_right(self.ends, x)]

    def learn(self, x, place):
        at, above = bisect.bisect_right(self.ends, x), math.nextafter(x, math.inf)
        if self.told[at] is not None:
            return
        if at and self.told[at - 1] == place:
            self.ends[at - 1] = above
        elif at < len(self.ends) and self.told[at + 1] == place:
            self.ends[at] = x
        else:
            self.ends[at:at] = [x, above]
            self.told[at:at + 1] = [None, place, None]


class _Tails(dict):
    """The end of a line, places, classes and marks, by what is told on each axis."""

    def __missing__(self, places):
        if len(self) >= MOST_TAILS:
            self.clear()
        parts = [place.rpartition(',') for place in places]
        self[places] = found = ','.join([place for place, _, _ in parts] + [mark for _, _, mark in parts]) + ',\n'
        return found


def _told(place):
    """A place and its mark, as a line has them."""
    return f"{place.origin},{place.saturation},{'below' if place.below else 'above' if place.above else ''}"


class Writer:
    """The lines of CSV for parts of queries: `in_bits` with the bits of each number, `alone` with the value alone."""

    def __init__(self, table, grid, mode, in_bits, alone):
        self.table, self.grid, self.mode, self.in_bits, self.alone = table, grid, mode, in_bits, alone
        self.axes = len(table.axes)
        self.runs, self.tails = [Runs() for _ in table.axes], _Tails()

    def header(self):
        names = [axis.name for axis in self.table.axes]
        if self.alone:
            return [self.table.name, 'refusal']
        found = names + [self.table.name] + ['slope along ' + name for name in names]
        for name in names:
            found += ['origin on ' + name, 'class on ' + name]
        return found + ['outside on ' + name for name in names] + ['refusal']

    def cells(self, numbers):
        """The numbers of an array as text, whole ones of f64 still with their fraction."""
        if self.in_bits:
            return floats.bits(numbers, self.table.width)
        return list(map(repr, numbers)) if self.table.width == 'f64' else floats.show_f32(numbers)

    def write(self, numbers, out):
        """Writes a line for each query. Returns how many were refused."""
        refused, shown = 0, None if self.alone else self.given(numbers)
        for first, answered, values, gradients, refusal in batches(self.table, self.grid, numbers, self.mode, not self.alone):
            begin, at = self.axes * first, self.axes * (first + answered)
            if answered and self.alone:
                # There is a comma behind each number.
                out.write((',\n'.join(self.cells(values[:answered])) + ',\n').replace('.0,', ','))
            elif answered:
                self.answered(numbers[begin:at], shown[begin:at], [column[:answered] for column in [values, *gradients]], out)
            if refusal is not None:
                self.refused(numbers[at:at + self.axes], refusal, out)
                refused += 1
        return refused

    def given(self, numbers):
        """The coordinates as text: where that is sure to be the same, as the file has them, which is quicker."""
        texts = None if self.in_bits else getattr(numbers, 'texts', None)
        return texts and floats.as_shown(texts, self.table.width) or self.cells(numbers)

    def answered(self, numbers, shown, answers, out):
        places = self.places(numbers, [numbers[axis::self.axes] for axis in range(self.axes)])
        columns = [shown[axis::self.axes] for axis in range(1, self.axes)] + [self.cells(column) for column in answers]
        # The end of a line has the beginning of the next, so that one join makes them all.
        columns.append(map(operator.add, map(self.tails.__getitem__, zip(*places)), [*shown[self.axes::self.axes], '']))
        cells = shown[:1] + [None] * (len(columns) * len(answers[0]))
        for i, column in enumerate(columns):
            cells[i + 1::len(columns)] = column
        # There is a comma behind each number.
        out.write(','.join(cells).replace('.0,', ','))

    def places(self, numbers, given):
        """The places on each axis."""
        columns = []
        for axis, column in enumerate(given):
            found = self.runs[axis].find(column)
            if None in found:
                for i, place in enumerate(found):
                    if place is None:
                        found[i] = self.runs[axis].at(column[i]) or self.ask(numbers[self.axes * i:self.axes * (i + 1)])[axis]
            columns.append(found)
        return columns

    def ask(self, x):
        found = [_told(place) for place in self.grid.get_loc(x, self.mode)]
        for runs, coordinate, place in zip(self.runs, x, found):
            runs.learn(coordinate, place)
        return found

    def refused(self, x, refusal, out):
        told = words.of_query(self.table, refusal, x)
        shown = [] if self.alone else floats.bits(x, self.table.width) if self.in_bits else [floats.show(number, self.table.width) for number in x]
        csv.writer(out, lineterminator='\n').writerow(shown + [''] * (1 if self.alone else 1 + 4 * self.axes) + [told])


class Progress:
    """A line on standard error that counts, where that is a terminal."""

    def __init__(self, what, of=None):
        self.what, self.of, self.done = what, of, 0
        self.on = sys.stderr.isatty()
        self.due = time.monotonic() + 0.5
        self.drawn = False

    def add(self, count=1):
        self.done += count
        if self.on and time.monotonic() >= self.due:
            self.due = time.monotonic() + 0.2
            self.drawn = True
            of = f' of {self.of:,}' if self.of is not None else ''
            print(f'\r{self.done:,}{of} {self.what} ', end='', file=sys.stderr, flush=True)

    def close(self):
        if self.drawn:
            print('\r\033[K', end='', file=sys.stderr, flush=True)


def write(table, grid, parts, mode, in_bits, alone, out):
    """Writes the answers to parts of queries, each an array with the coordinates of one query after the other, as CSV. Returns how many were refused. What
    was asked before a bad query is written."""
    writer, refused, begun, progress = Writer(table, grid, mode, in_bits, alone), 0, False, Progress('queries')

    def begin():
        csv.writer(out, lineterminator='\n').writerow(writer.header())

    try:
        for numbers in parts:
            if not begun:
                begin()
                begun = True
            refused += writer.write(numbers, out)
            out.flush()
            progress.add(len(numbers) // len(table.axes))
        if not begun:
            begin()
    finally:
        progress.close()
    return refused
