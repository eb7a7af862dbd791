"""What the library refuses, in words. The words of a refusal are those of the calls from Python; the names of the axes and the line of the file are
added here."""
import functools

import veltzuma

from . import files, floats

product_words = veltzuma.product_words


def _said(table):
    return veltzuma.Words(functools.partial(floats.show, width=table.width), [axis.name for axis in table.axes], 'table')


def axis_words(table, axis):
    return _said(table).axis(axis)


def number_of_axes(table):
    return f'{len(table.axes)} {"axis" if len(table.axes) == 1 else "axes"}'


def of_grid(table, refusal):
    """The line of the file that a refusal of the grid is about, and the refusal in words."""
    line, words = _PLACES[refusal.number](table, _said(table), refusal.axis)
    return line, str(veltzuma.Refusal(refusal.number, refusal.query, refusal.axis, words))


def _axes(table, said, _):
    return table.axes[4].line if len(table.axes) > 4 else table.last_line, said.axes(len(table.axes))


def _size(table, said, _):
    long = [axis for axis in table.axes if axis.count > veltzuma.MAX_ENTRIES]
    return _line_of(long[0], 'count') if long else table.axes[-1].line, said.size(table.counts)


def _mismatch(table, said, _):
    needed, last = said.needed(table.counts), table.axes[-1]
    found = f'{"more than " if table.cut else ""}{len(table.vals) - table.cut:,} value{"s" * (len(table.vals) != 1)}'
    for line, _, count in table.rows:
        if count != last.count:
            hint = '; a decimal comma makes two values of one' if count > last.count else ''
            return line, (f"{count:,} value{'s' * (count != 1)} in this row, where {said.axis(len(table.axes) - 1)} has {last.count:,} "
                          f'entries; {found} in all, and {needed}{hint}')
    return table.last_line, f'{found}, where {needed}'


def _short(table, said, axis):
    found = table.axes[axis]
    return _line_of(found, 'count'), said.short(axis, found.count)


def _not_rising(table, said, axis):
    found = table.axes[axis]
    if table.kind == 'regular':
        return found.lines['step'], said.step(axis, found.step)
    return found.lines['entries'], said.rise(axis, found.entries)


def _disorder(table, said, axis):
    found = table.axes[axis]
    return found.lines['entries'], said.disorder(axis, found.entries)


def _flat(table, said, axis):
    found = table.axes[axis]
    # Two entries that differ in the file may be one number in f32, so both are shown as they were before that rounding.
    given = files.numbers_in(found.text, table.path, found.lines['entries'], 'f64')
    return found.lines['entries'], said.flat(axis, found.entries, given, table.width)


def _line_of(axis, key):
    return axis.lines.get(key, axis.lines.get('entries', axis.line))


_PLACES = {1: _axes, 2: _size, 3: _mismatch, 4: _short, 5: _not_rising, 6: _disorder, 10: _flat}


def of_query(table, refusal, x):
    """A refusal of a query with these coordinates, one of OF_QUERY, in words."""
    words = OF_QUERY[refusal.number](table, _said(table), refusal.axis, x[refusal.axis])
    return str(veltzuma.Refusal(refusal.number, refusal.query, refusal.axis, words))


def _unplaceable(table, said, axis, x):
    return said.unplaceable(axis, x, table.axes[axis].start, table.axes[axis].step)


def _missing(_, said, axis, x):
    return said.missing(axis, x)


# The refusals that are about one query, by their numbers. Every other one is about the grid or the whole call.
OF_QUERY = {8: _unplaceable, 9: _missing}
