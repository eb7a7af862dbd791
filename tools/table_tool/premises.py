"""The premises of the node rule (clause 8.2), in a table's width: where an accepted table is outside them, and what brings it within."""
import math
from decimal import Decimal
from fractions import Fraction

from . import floats, words

LEAST_GAP, MOST_GAP, MOST_STEPS = 2.0 ** -20, 2.0 ** 20, 1 << 20
# So many entries to leave out are listed.
FEW = 6


def outside(table):
    """Line and words, one for each axis that is outside and one for the values."""
    found = []
    for i, axis in enumerate(table.axes):
        problems = (_regular if table.kind == 'regular' else _rectilinear)(axis, table.width)
        if problems:
            line, told = problems[0]
            found.append((line, f'{words.axis_words(table, i)}{told}{_more(problems)}'))
    wrong = _not_finite(table)
    if wrong:
        indices = table.indices(wrong[0])
        at = ', '.join(f"'{axis.name}' {floats.show(axis.entries[i], table.width)}" for axis, i in zip(table.axes, indices))
        found.append((table.line_of(wrong[0]), f'the value at entries {", ".join(map(str, indices))} ({at}) is '
                      f'{floats.show(floats.Told.of(table.vals[wrong[0]], table.odd), table.width)}, not a finite number{_more(wrong)}'))
    return found


def _more(problems):
    return f'; so are {len(problems) - 1} more' if len(problems) > 1 else ''


def _not_finite(table):
    return [at for at, value in enumerate(table.vals) if not math.isfinite(value)]


def _gaps(entries, width):
    return [floats.round_to(b - a, width) for a, b in zip(entries, entries[1:])]


def _rectilinear(axis, width):
    problems = []
    for i, gap in enumerate(_gaps(axis.entries, width), 1):
        if not LEAST_GAP <= gap <= MOST_GAP:
            side = 'below 2^-20' if gap < LEAST_GAP else 'above 2^20'
            problems.append((axis.lines['entries'], f', entry {i}: its gap to the entry before it, {floats.show(gap, width)}, is {side}'))
    return problems


def _regular(axis, width):
    start, step = (floats.show(floats.Told.of(getattr(axis, key), axis.texts[key]), width) for key in ('start', 'step'))
    if math.isinf(axis.step) or math.frexp(axis.step)[0] != 0.5:
        return [(axis.lines['step'], f': its step, {step}, is not a power of two')]
    if not LEAST_GAP <= axis.step <= MOST_GAP:
        return [(axis.lines['step'], f': its step, {step}, is {"below 2^-20" if axis.step < 1 else "above 2^20"}')]
    steps = Fraction(axis.start) / Fraction(axis.step) if math.isfinite(axis.start) else None
    if steps is None or steps.denominator != 1:
        return [(axis.lines['start'], f': its start, {start}, is not a whole number of steps of {step}')]
    if abs(steps) > MOST_STEPS:
        return [(axis.lines['start'], f': its start, {start}, is more than 2^20 steps of {step} from 0')]
    return []


def ways_out(table):
    """What brings an accepted table within the premises: line and words. Nothing is said that was not tried: other entries are judged as the file would
    have them, as decimals that are rounded to the width."""
    found = []
    axes = [i for i, axis in enumerate(table.axes) if (_regular if table.kind == 'regular' else _rectilinear)(axis, table.width)]
    if axes and table.kind == 'regular':
        found.append((table.kind_line, _as_entries(table, axes)))
    elif axes:
        for i in axes:
            found.append((table.axes[i].lines['entries'], f'{words.axis_words(table, i)}: {_other_unit(table.axes[i].fields(), table.width)}'))
    wrong = _not_finite(table)
    if wrong:
        found.append((table.line_of(wrong[0]), _measured(table, wrong)))
    return found


def _as_entries(table, axes):
    """The way out of a regular table: all axes by their entries, since they are of one kind."""
    shifts = [_shift(axis.decimals(), table.width) for axis in table.axes]
    if None in shifts:
        good = [words.axis_words(table, i) for i in axes if shifts[i] == 0]
        bad = [words.axis_words(table, i) for i, shift in enumerate(shifts) if shift is None]
        return (f'written as entries {" and ".join(good)} would be within the premises, but ' if good else 'written as entries ') \
            + f'{" and ".join(bad)} would not{"" if good else " be within the premises"}'
    scaled = [f'{words.axis_words(table, i)} {_times(shift)}' for i, shift in enumerate(shifts) if shift]
    return ("written as entries, 'kind: rectilinear' and for each axis its entries as f64 rounds them" + (f', those of {" and ".join(scaled)}' if scaled else '')
            + ', the axes are within the premises')


def _other_unit(texts, width):
    shift = _shift(texts, width)
    if shift is not None:
        return f'with its entries {_times(shift)}, it is within the premises'
    entries = [floats.parse(text, width) for text in texts]
    if not all(map(math.isfinite, entries)):
        return 'with an infinite entry it is within the premises in no unit'
    gaps = _gaps(entries, width)
    return (f'its gaps are from {floats.show(min(gaps), width)} to {floats.show(max(gaps), width)}, and in no unit, its entries times a power of ten, are '
            'all of them within the premises')


def _times(shift):
    return f'times 10^{shift}, in a {"smaller" if shift > 0 else "larger"} unit'


def _shift(texts, width):
    """The least power of ten, up or down, by which entries have to be multiplied to have gaps within the premises; None where there is none."""
    exact = [Decimal(text) for text in texts]
    if not all(entry.is_finite() for entry in exact):
        return None
    gaps = [Fraction(b) - Fraction(a) for a, b in zip(exact, exact[1:])]
    # As rounded they may be quite others.
    gaps += [Fraction(gap) for gap in _gaps([floats.parse(text, width) for text in texts], width) if 0 < gap < math.inf]
    if min(gaps) <= 0:
        return None
    ends = [_log10(Fraction(bound) / gap) for bound in (LEAST_GAP, MOST_GAP) for gap in (min(gaps), max(gaps))]
    for shift in sorted(range(math.floor(min(ends)), math.ceil(max(ends)) + 1), key=lambda shift: (abs(shift), shift)):
        entries = [floats.parse(str(_shifted(entry, shift)), width) for entry in exact]
        if all(LEAST_GAP <= gap <= MOST_GAP for gap in _gaps(entries, width)):
            return shift
    return None


def _log10(ratio):
    return math.log10(ratio.numerator) - math.log10(ratio.denominator)


def _shifted(number, places):
    sign, digits, exponent = number.as_tuple()
    return Decimal((sign, digits, exponent + places))


def _measured(table, wrong):
    """The way out where values are not finite."""
    told = 'a query whose block holds such a value is answered with nan or an infinity; '
    if table.width == 'f32' and table.odd is not None and math.isfinite(float(table.odd)):
        return told + f"in a larger unit of '{table.name}' this one is a number of f32"
    ways = []
    for i, axis in enumerate(table.axes):
        out = sorted({table.indices(at)[i] for at in wrong})
        left = [k for k in range(axis.count) if k not in set(out)]
        whole = table.kind == 'rectilinear' or not left or left[-1] - left[0] == len(left) - 1
        gaps = _gaps([axis.entries[k] for k in left], table.width) if table.kind == 'rectilinear' else []
        if len(out) <= FEW and len(left) >= 4 and whole and all(LEAST_GAP <= gap <= MOST_GAP for gap in gaps):
            ways.append((len(out), i, f'entr{"y" if len(out) == 1 else "ies"} {", ".join(map(str, out))} of {words.axis_words(table, i)}'))
    return told + ('measure the point' if len(wrong) == 1 else 'measure the points') + (f', or leave out {min(ways)[2]}' if ways else '')
