"""bindings/python/veltzuma.py: every call in both widths against straight calls of the library, by bits; what it takes, and what it refuses."""
import array
import copy
import ctypes
import functools
import gc
import inspect
import itertools
import json
import math
import os
import pickle
import random
import re
import shutil
import struct
import subprocess
import sys
import tempfile
import types
import typing
import unittest
from unittest import mock

from support import Direct, LIBRARY, MARKS, MODES, OTHERS, TOP, bits, stand_in, text_of
import veltzuma

try:
    import numpy
except ImportError:
    numpy = None
try:
    # Arrays of any order in memory, from Python's own tests.
    from _testbuffer import ND_FORTRAN, ND_WRITABLE, ndarray
except ImportError:
    ndarray = None

CUBE = ([4], [0.0], [1.0], [0.0, 1.0, 8.0, 27.0])
CODE = {'f64': 'd', 'f32': 'f'}


def same(a, b, width):
    return len(a) == len(b) and all((x != x and y != y) or bits(x, width) == bits(y, width) for x, y in zip(a, b))


def both(made, counts, lent, vals, width):
    """A grid of the binding, and the same for straight calls."""
    return made, Direct(made.kind, counts, [array.array(CODE[width], part).tolist() for part in lent], array.array(CODE[width], vals).tolist(), width)


class Calls(unittest.TestCase):
    @staticmethod
    def grids(chosen, width):
        """A random grid: the binding's, and the same for straight calls. Some are refused, each for another reason."""
        axes = chosen.choice([1, 1, 2, 2, 3, 4])
        counts = [chosen.choice([4, 4, 5, 6, 3]) if chosen.random() < 0.2 else chosen.randrange(4, 7) for _ in range(axes)]
        if chosen.random() < 0.06:
            counts[chosen.randrange(axes)] = chosen.choice([4097, 2 ** 40])
        if chosen.random() < 0.06:
            counts += [4] * (5 - axes)
        length = math.prod(counts) if math.prod(counts) < 3000 else 16
        vals = [chosen.uniform(-9, 9) for _ in range(length + (chosen.random() < 0.06))]
        if chosen.random() < 0.5:
            starts = [chosen.choice([0.0, -1.5, 3.25]) for _ in counts]
            steps = [chosen.choice([1.0, 0.5, 0.1] + [0.0] * (chosen.random() < 0.1)) for _ in counts]
            lent, made = [starts, steps], veltzuma.MulticubicRegular(counts, starts, steps, vals, width)
        else:
            entries = []
            for count in counts:
                axis = sorted(chosen.uniform(-4, 6) for _ in range(count if count < 5000 else 9))
                if chosen.random() < 0.06:
                    axis[chosen.randrange(len(axis))] = chosen.choice([math.nan, -50.0])
                if chosen.random() < 0.06:
                    at = chosen.randrange(1, len(axis))
                    axis[at] = axis[at - 1]
                entries += axis
            lent, made = [entries], veltzuma.MulticubicRectilinear(counts, entries, vals, width)
        return both(made, counts, lent, vals, width)

    def test_against_straight_calls(self):
        chosen, numbers = random.Random(18), set()
        for turn in range(600):
            width, mode = chosen.choice(veltzuma.WIDTHS), chosen.choice(MODES)
            made, direct = self.grids(chosen, width)
            axes, count = made.axis_count, chosen.randrange(4)
            queries = [chosen.choice([chosen.uniform(-6, 9), chosen.uniform(-6, 9), 0.0, math.inf, math.nan, -1e300]) for _ in range(axes * count + (turn % 40 == 0))]
            used = array.array(CODE[width], queries).tolist()
            x = used[:axes] if len(used) >= axes else [0.5] * axes
            cases = [('new', None, []), *((name, x, direct.rooms(name)) for name in ('get_loc', 'interp_one', 'interp_one_grad')),
                     ('interp', used, [(direct.float * count)(*[7.0] * count)]), ('interp_grad', used, [(direct.float * (axes * count))(*[7.0] * (axes * count))])]
            for name, given, rooms in cases:
                number, refusal, _ = direct.ask(name, None if name == 'new' else (mode, given), *rooms)
                numbers.add(number)
                out = array.array(CODE[width], [7.0] * len(rooms[0])) if name in ('interp', 'interp_grad') else None
                try:
                    if name == 'new':
                        found = made.new()
                    elif out is not None:
                        found = getattr(made, name)(given, out, mode)
                    else:
                        found = getattr(made, name)(given, mode)
                    self.assertEqual(number, 0, name)
                    if name == 'get_loc':
                        self.assertEqual([(place.origin, place.saturation, place.below, place.above) for place in found],
                                         [(origin, veltzuma.SATURATION[c], mark == 1, mark == 2) for origin, c, mark in zip(*rooms)])
                    elif name != 'new':
                        self.assertTrue(same([found] if name == 'interp_one' else found, rooms[0], width), (name, found, list(rooms[0])))
                        if out is None:
                            self.assertEqual([(mark.below, mark.above) for mark in found.marks], [(mark == 1, mark == 2) for mark in rooms[1]], name)
                except veltzuma.Refusal as told:
                    self.assertEqual((told.number, told.query, told.axis), (number, *refusal), name)
                if out is not None:
                    # On refusal too: the answers before the refused query, and every other entry as it was.
                    self.assertTrue(same(out, rooms[0], width), name)
        self.assertEqual(numbers, {0, *veltzuma.REFUSALS})

    def test_refusal(self):
        for width, (given, number, name, words) in itertools.product(veltzuma.WIDTHS, (
                (math.inf, 8, 'unplaceable', '(inf - 0) / 1 is not a finite number from -2^63 to below 2^63'), (math.nan, 9, 'missing', 'no reading (nan)'))):
            grid = veltzuma.MulticubicRegular(*CUBE, width=width)
            out = array.array(CODE[width], [-1.0, -2.0, -3.0])
            told = None
            try:
                grid.interp([1.5, given, 1.5], out)
            except veltzuma.Refusal as refusal:
                told = refusal
            self.assertEqual((told.number, told.name, told.query, told.axis), (number, name, 1, 0))
            self.assertEqual(str(told), f'refused {number} ({name}): query 1, axis 0: {words}')
            self.assertEqual(out.tolist(), [3.375, -2.0, -3.0])
            # The buffer is the caller's again, though the exception is kept.
            out.append(1.0)
            for again in (pickle.loads(pickle.dumps(told)), copy.copy(told)):
                self.assertEqual((again.number, again.query, again.axis, again.name, str(again)), (number, 1, 0, name, str(told)))

    def test_numbers_of_the_documents(self):
        """The header and the specification list these refusals and no others."""
        listed = re.findall(r'^ \* {2,3}(\d+)  ', text_of(os.path.join(TOP, 'include', 'veltzuma.h')).split('A grid.')[0], re.M)
        self.assertEqual([int(number) for number in listed], [0, *veltzuma.REFUSALS])
        listed = re.findall(r'^  \| (\d+) \| ([a-z ]+) \|', text_of(os.path.join(TOP, 'docs', 'SPECIFICATION.md')), re.M)
        self.assertEqual({int(number): name for number, name in listed}, veltzuma.REFUSALS)

    def test_version(self):
        made = veltzuma.load(LIBRARY).build
        self.assertEqual(set(made), {'commit', 'kit', 'sources'})
        # Of the calls: the header's, the library's in both widths, and the binding's are one.
        self.assertEqual(re.findall(r'^#define VELTZUMA_VERSION (\d+)\b', text_of(os.path.join(TOP, 'include', 'veltzuma.h')), re.M), [str(veltzuma.VERSION)])
        dll = ctypes.CDLL(LIBRARY)
        self.assertEqual([dll['veltzuma_version' + ending]() for ending in ('', '_f32')], [veltzuma.VERSION] * 2)

    def test_release(self):
        """The version of the calls, and which release with these calls."""
        self.assertRegex(veltzuma.__version__, rf'^{veltzuma.VERSION}\.(0|[1-9][0-9]*)$')

    def test_examples(self):
        """What the module shows works as written."""
        names, shown = {'veltzuma': veltzuma}, [line.strip().partition('#') for line in veltzuma.__doc__.split('\n') if line.startswith('    grid')]
        self.assertEqual(len(shown), 8)
        for code, _, said in shown:
            if not said:
                exec(code, names)
            elif 'raises' in said:
                with self.assertRaises(veltzuma.Refusal) as caught:
                    eval(code, names)
                self.assertEqual(said, f' raises Refusal: {caught.exception}')
            else:
                self.assertEqual(repr(eval(code, names)), said.strip())


def ends(direct):
    """The first and the last node of each axis, each operation rounded in the width."""
    found, rest = [], list(direct.lent[0])
    for axis, count in enumerate(direct.counts):
        if direct.kind == 'regular':
            start, step = (part[axis] for part in direct.lent)
            steps = array.array(CODE[direct.width], [step * 0, step * (count - 1)])
            found.append(array.array(CODE[direct.width], [start + part for part in steps]))
        else:
            found.append([rest[0], rest[count - 1]])
            del rest[:count]
    return found


def beside(x, up, width):
    """The next number of the width."""
    if width == 'f64':
        return math.nextafter(x, math.inf if up else -math.inf)
    word = struct.unpack('<i', struct.pack('<f', x))[0]
    place = (word if word >= 0 else -(word & 0x7fffffff)) + (1 if up else -1)
    return struct.unpack('<f', struct.pack('<I', place if place >= 0 else -place | 0x80000000))[0]


class MarksOfAnswers(unittest.TestCase):
    """Whether a query, as given, lies below the first node of an axis or above its last."""

    def marks(self, grid, x, mode):
        """Below or above on each axis, which the three calls say alike."""
        found = [grid.interp_one(x, mode).marks, grid.interp_one_grad(x, mode).marks, tuple(veltzuma.Marks(*place[2:]) for place in grid.get_loc(x, mode))]
        self.assertEqual(found, [found[0]] * 3, (x, mode))
        for mark in found[0]:
            self.assertIsInstance(mark, veltzuma.Marks)
            self.assertIn((mark.below, mark.above), ((False, False), (True, False), (False, True)))
        return ['below' if mark.below else 'above' if mark.above else '' for mark in found[0]]

    def test_by_own_comparison(self):
        """At the ends, beside them, and far off: the binding and the straight calls against the nodes, in each setting alike."""
        chosen, seen = random.Random(19), set()
        for turn in range(500):
            width = veltzuma.WIDTHS[turn % 2]
            made, direct = Calls.grids(chosen, width)
            try:
                made.new()
            except veltzuma.Refusal:
                continue
            x, expected = [], []
            for first, last in ends(direct):
                x.append(chosen.choice([first, last, *(beside(end, up, width) for end in (first, last) for up in (False, True)), chosen.uniform(first, last),
                                        first - 3.0, last + 3.0, -0.0, -math.inf, math.inf]))
                given = array.array(CODE[width], x[-1:])[0]
                expected.append('below' if given < first else 'above' if last < given else '')
            for mode in MODES:
                found = direct.one(x, mode)
                if len(found) == 5:
                    self.assertEqual((found[4], self.marks(made, x, mode)), (expected, expected), (made.kind, width, mode, x))
                    seen |= {(made.kind, width, mode, mark) for mark in expected}
        self.assertEqual(len(seen), 36)

    def test_known_places(self):
        """A mark is no class, and depends on no value."""
        inf, nan = math.inf, math.nan
        regular = {'cubic': [(-0.5, 'OutsideLow', 'below'), (0, 'InsideLow', ''), (-0.0, 'InsideLow', ''), (2.5, 'None', ''), (4, 'OutsideHigh', ''),
                             (4.5, 'OutsideHigh', 'above'), (-2.0 ** 63, 'OutsideLow', 'below')],
                   'held': [(-0.5, 'InsideLow', 'below'), (-inf, 'InsideLow', 'below'), (0, 'InsideLow', ''), (4, 'OutsideHigh', ''), (9, 'OutsideHigh', 'above'),
                            (inf, 'OutsideHigh', 'above')]}
        rectilinear = {'cubic': [(0, 'OutsideLow', ''), (-0.0, 'OutsideLow', ''), (-1, 'OutsideLow', 'below'), (7, 'InsideHigh', ''), (8, 'OutsideHigh', 'above'),
                                 (inf, 'OutsideHigh', 'above'), (-inf, 'OutsideLow', 'below')],
                       'held': [(-1, 'OutsideLow', 'below'), (8, 'InsideHigh', 'above'), (inf, 'InsideHigh', 'above'), (-inf, 'OutsideLow', 'below'),
                                (7, 'InsideHigh', '')]}
        for cases in (regular, rectilinear):
            cases['straight'] = cases['cubic']
        for width, vals in itertools.product(veltzuma.WIDTHS, ([0.0, 1.0, 8.0, 27.0, 64.0], [nan] * 5)):
            for grid, cases in ((veltzuma.MulticubicRegular([5], [0], [1], vals, width), regular),
                                (veltzuma.MulticubicRectilinear([5], [0, 1, 2, 4, 7], vals, width), rectilinear)):
                for mode, rows in cases.items():
                    for given, saturation, mark in rows:
                        self.assertEqual((grid.get_loc([given], mode)[0].saturation, self.marks(grid, [given], mode)), (saturation, [mark]), (given, mode, grid.kind))

    def test_below_and_inside(self):
        """The quotient of a query just below the start may round to -0: its class is InsideLow all the same."""
        for width, start in (('f64', 2.0 ** -1022), ('f32', 2.0 ** -126)):
            grid = veltzuma.MulticubicRegular([4], [start], [2.0 ** 60], CUBE[3], width)
            for given, mark in ((beside(start, False, width), 'below'), (start, ''), (beside(start, True, width), '')):
                for mode in MODES:
                    self.assertEqual((grid.get_loc([given], mode)[0][:2], self.marks(grid, [given], mode)), ((0, 'InsideLow'), [mark]))

    def test_each_axis_by_itself(self):
        for width, axes in itertools.product(veltzuma.WIDTHS, (1, 2, 3, 4)):
            counts, vals = [4, 5, 4, 6][:axes], [1.0] * math.prod([4, 5, 4, 6][:axes])
            first, last = [0.0, 10.0, -20.0, 30.0][:axes], [3.0, 14.0, -17.0, 35.0][:axes]
            for grid in (veltzuma.MulticubicRegular(counts, first, [1.0] * axes, vals, width),
                         veltzuma.MulticubicRectilinear.of_axes([[start + k for k in range(count)] for start, count in zip(first, counts)], vals, width)):
                for expected in itertools.product(MARKS, repeat=axes):
                    x = [{'below': low - 0.5, '': low + 1.5, 'above': high + 0.5}[mark] for mark, low, high in zip(expected, first, last)]
                    self.assertEqual([self.marks(grid, x, mode) for mode in MODES], [list(expected)] * 3)

    def test_room(self):
        """A refusal leaves the marks as they were; too little room for them is 7, and nothing is written."""
        for width in veltzuma.WIDTHS:
            vals = [1.0] * 20
            for made, direct in (both(veltzuma.MulticubicRegular([4, 5], [0, 0], [1, 1], vals, width), [4, 5], [[0, 0], [1, 1]], vals, width),
                                 both(veltzuma.MulticubicRectilinear([4, 5], [0, 1, 2, 3, 0, 1, 2, 3, 4], vals, width), [4, 5], [[0, 1, 2, 3, 0, 1, 2, 3, 4]], vals, width)):
                refused = both(made, [4, 5], [[0, 0], [1, 0]] if made.kind == 'regular' else [[0, 1, 2, 3, 0, 0, 2, 3, 4]], vals, width)[1]
                for name, mode in itertools.product(('get_loc', 'interp_one', 'interp_one_grad'), MODES):
                    def asked(grid, x, length):
                        rooms = direct.rooms(name)[:-1] + [(ctypes.c_uint8 * length)()]
                        for room in rooms:
                            room[:] = [77] * len(room)
                        number, refusal, _ = grid.ask(name, (mode, x), *rooms, refusal=(77, 77))
                        return number, refusal, [list(room) for room in rooms[:-1]], list(rooms[-1])

                    as_it_was = [[77] * len(room) for room in direct.rooms(name)[:-1]]
                    # Entries past the axis count are not written.
                    self.assertEqual(asked(direct, [-1, 9], 4)[::3], (0, [1, 2, 77, 77]))
                    self.assertEqual(asked(direct, [-1, 9], 2)[::3], (0, [1, 2]))
                    for length in (0, 1):
                        self.assertEqual(asked(direct, [-1, 9], length), (7, [77, 77], as_it_was, [77] * length))
                        # Of two refusals the one whose check is earlier.
                        self.assertEqual(asked(refused, [-1, 9], length), (5, [0, 1], as_it_was, [77] * length))
                    self.assertEqual(asked(refused, [-1, 9], 2), (5, [0, 1], as_it_was, [77, 77]))
                    self.assertEqual(asked(direct, [-1], 2), (3, [0, 0], as_it_was, [77, 77]))
                    self.assertEqual(asked(direct, [-1, math.nan], 2), (9, [0, 1], as_it_was, [77, 77]))
                    if made.kind == 'regular' and mode != 'held':
                        self.assertEqual(asked(direct, [-1, math.inf], 2), (8, [0, 1], as_it_was, [77, 77]))

    def test_answers_as_they_were(self):
        """A value is a float and a gradient a list, as before there were marks; and copies have the marks."""
        grid = veltzuma.MulticubicRegular(*CUBE)
        marks = (veltzuma.Marks(below=False, above=True),)
        value, slopes, place = (call([4.0], 'straight') for call in (grid.interp_one, grid.interp_one_grad, grid.get_loc))
        for found, plain in ((value, 52.0), (slopes, [25.0])):
            self.assertIsInstance(found, type(plain))
            self.assertEqual((found, found.marks), (plain, marks))
            for shown in (repr, str, '{}'.format, json.dumps):
                self.assertEqual(shown(found), shown(plain))
            for again in (copy.copy(found), copy.deepcopy(found), *(pickle.loads(pickle.dumps(found, protocol)) for protocol in range(pickle.HIGHEST_PROTOCOL + 1))):
                self.assertEqual((type(again), again, again.marks), (type(found), plain, marks))
                self.assertIsInstance(again.marks[0], veltzuma.Marks)
        self.assertEqual((value + 1, -value, f'{value:.1f}', {52.0: 'found'}[value], round(value), array.array('f', [value])[0]), (53.0, -52.0, '52.0', 'found', 52, 52.0))
        other = copy.copy(slopes)
        other[0] = 1.0
        self.assertEqual((slopes + [1.0], sorted(slopes), slopes[0], max(slopes)), ([25.0, 1.0], [25.0], 25.0, 25.0))
        self.assertEqual(place, [(0, 'OutsideHigh', False, True)])
        self.assertEqual((place[0].origin, place[0].saturation, pickle.loads(pickle.dumps(place))), (0, 'OutsideHigh', place))
        # A batch has none.
        self.assertIs(type(grid.interp([4.0])), array.array)
        self.assertIs(type(grid.interp_grad([4.0])), array.array)


class MissingReadings(unittest.TestCase):
    """A NaN in a query is refused with 9 on its axis, on either kind, in every setting and width. 8 is about numbers alone."""

    def refused(self, call, *given):
        with self.assertRaises(veltzuma.Refusal) as caught:
            call(*given)
        return caught.exception.number, caught.exception.query, caught.exception.axis

    @staticmethod
    def grids(width, vals=None):
        """The same grid of each kind: two axes of four and five entries."""
        vals = vals or [i * 1.5 + j * j for i in range(4) for j in range(5)]
        return (veltzuma.MulticubicRegular([4, 5], [0, 0], [1, 1], vals, width), veltzuma.MulticubicRectilinear([4, 5], [0, 1, 2, 3, 0, 1, 2, 3, 4], vals, width))

    def test_alone(self):
        nan, far = math.nan, 2.0 ** 63
        for width, mode in itertools.product(veltzuma.WIDTHS, MODES):
            for grid in self.grids(width):
                # Of two refusals that of the lower axis; but held or rectilinear, the first axis has a place for 2^63.
                lower = (8, 0, 0) if grid.kind == 'regular' and mode != 'held' else (9, 0, 1)
                for x, told in (([nan, 1], (9, 0, 0)), ([1, nan], (9, 0, 1)), ([nan, nan], (9, 0, 0)), ([nan, far], (9, 0, 0)), ([far, nan], lower),
                                ([-9, nan], (9, 0, 1)), ([nan, math.inf], (9, 0, 0))):
                    for call in (grid.get_loc, grid.interp_one, grid.interp_one_grad):
                        self.assertEqual(self.refused(call, x, mode), told, (grid.kind, width, mode, x))

    def test_every_nan(self):
        """Of either sign, quiet or not, with any payload: lent as it is, with no conversion on the way."""
        words = {'f64': ('Q', [0x7ff8000000000000, 0xfff8000000000000, 0x7ff0000000000001, 0xfff0000000000001, 0x7fffffffffffffff, 0x7ff4000000000000]),
                 'f32': ('I', [0x7fc00000, 0xffc00000, 0x7f800001, 0xff800001, 0x7fffffff, 0x7fa00000])}
        for width, (code, patterns) in words.items():
            one = array.array(CODE[width], [1.0])
            for grid, mode, pattern in itertools.product(self.grids(width), MODES, patterns):
                x = array.array(CODE[width], one.tobytes() + array.array(code, [pattern]).tobytes())
                for call in (grid.get_loc, grid.interp_one, grid.interp_one_grad):
                    self.assertEqual(self.refused(call, x, mode), (9, 0, 1), hex(pattern))
                for call in (grid.interp, grid.interp_grad):
                    self.assertEqual(self.refused(call, x, None, mode), (9, 0, 1), hex(pattern))

    def test_where_a_nan_is_not_refused(self):
        """Past the axis count, for the library; the binding takes no such query. And among the values."""
        vals = [i * 1.5 + j * j for i in range(4) for j in range(5)]
        for width, mode in itertools.product(veltzuma.WIDTHS, MODES):
            for grid, other in zip(self.grids(width), self.grids(width, [math.nan] * 20)):
                _, direct = both(grid, [4, 5], [[0, 0], [1, 1]] if grid.kind == 'regular' else [[0, 1, 2, 3, 0, 1, 2, 3, 4]], vals, width)
                self.assertEqual(direct.one([1.5, 2.5, math.nan, math.nan], mode), direct.one([1.5, 2.5], mode))
                self.assertEqual(direct.one([1.5, 2.5], mode)[0], grid.interp_one([1.5, 2.5], mode))
                for call in (grid.interp_one, grid.interp_one_grad, grid.get_loc):
                    with self.assertRaises(ValueError):
                        call([1.5, 2.5, math.nan, math.nan], mode)
                self.assertTrue(math.isnan(other.interp_one([1.5, 2.5], mode)) and math.isnan(other.interp([1.5, 2.5], None, mode)[0]))
                self.assertEqual(other.get_loc([1.5, 2.5], mode), grid.get_loc([1.5, 2.5], mode))
                self.assertEqual(self.refused(other.interp_one, [1.5, math.nan], mode), (9, 0, 1))

    def test_batches(self):
        """The lowest refused query, its lowest refused axis; those before it have their answers, in every column, and nothing else is written."""
        nan, far = math.nan, 2.0 ** 63
        cases = (([(1.5, 2.5), (-1, 9), (0.5, nan), (1, 1), (nan, 2)], (9, 2, 1), (9, 2, 1)), ([(nan, nan), (1, 1)], (9, 0, 0), (9, 0, 0)),
                 ([(1, 2), (3, 4), (nan, 0)], (9, 2, 0), (9, 2, 0)), ([(1, 2), (nan, far), (far, 1)], (9, 1, 0), (9, 1, 0)),
                 ([(1, 2), (2, far), (nan, 1), (1, 1)], (8, 1, 1), (9, 2, 0)), ([(1, 2), (far, nan), (nan, 1)], (8, 1, 0), (9, 1, 1)))
        for width, mode, (queries, where_far_is_refused, elsewhere) in itertools.product(veltzuma.WIDTHS, MODES, cases):
            for grid in self.grids(width):
                told = where_far_is_refused if grid.kind == 'regular' and mode != 'held' else elsewhere
                count, joined = len(queries), [x[axis] for axis in (0, 1) for x in queries]
                for name, columns in (('interp', 1), ('interp_grad', 2)):
                    out = array.array(CODE[width], [-1000.0 - k for k in range(columns * count)])
                    expected = out[:]
                    for k, x in enumerate(queries[:told[1]]):
                        for column, number in enumerate([grid.interp_one(x, mode)] if name == 'interp' else grid.interp_one_grad(x, mode)):
                            expected[column * count + k] = number
                    self.assertEqual(self.refused(getattr(grid, name), joined, out, mode), told, (grid.kind, width, mode, queries))
                    self.assertTrue(same(out, expected, width), (grid.kind, width, mode, queries, out, expected))

    def test_quotients_that_are_nan(self):
        """Of a number it is 8 all the same; of a NaN on such an axis it is 9."""
        inf, nan = math.inf, math.nan
        for width, mode in itertools.product(veltzuma.WIDTHS, MODES):
            for start, step, numbers in ((inf, 1, [inf, -inf, 0, 3]), (nan, 1, [0, 1, inf, -inf]), (0, inf, [inf])):
                grid = veltzuma.MulticubicRegular([4], [start], [step], CUBE[3], width)
                for given in numbers + [nan]:
                    told = (9 if given != given else 8, 0, 0)
                    for call in (grid.get_loc, grid.interp_one, grid.interp_one_grad):
                        self.assertEqual(self.refused(call, [given], mode), told, (start, step, given, mode))
                    self.assertEqual(self.refused(grid.interp, [given, nan], None, mode), told)
            # And where the quotient is a number, the query is answered.
            self.assertEqual(grid.get_loc([1.0], mode)[0].origin, 0)

    def test_after_the_checks_of_the_grid(self):
        vals = [1.0] * 16
        for width, mode in itertools.product(veltzuma.WIDTHS, MODES):
            regular, rectilinear = (functools.partial(kind, width=width) for kind in (veltzuma.MulticubicRegular, veltzuma.MulticubicRectilinear))
            for number, grid in ((1, regular([4] * 5, [0] * 5, [1] * 5, vals)), (2, regular([4097], [0], [1], vals)), (3, regular([4], [0], [1], vals[:3])),
                                 (4, regular([3], [0], [1], vals[:3])), (5, regular([4], [0], [0], vals[:4])), (1, rectilinear([4] * 5, range(20), vals)),
                                 (2, rectilinear([4097], range(4097), vals)), (3, rectilinear([4], range(5), vals[:4])), (4, rectilinear([3], range(3), vals[:3])),
                                 (5, rectilinear([4], [0, 0, 1, 2], vals[:4])), (6, rectilinear([4], [0, 1, math.nan, 3], vals[:4])),
                                 (10, rectilinear([4], [0, 1, 1, 3], vals[:4]))):
                x = [math.nan] * grid.axis_count
                for call in (grid.get_loc, grid.interp_one, grid.interp_one_grad):
                    self.assertEqual(self.refused(call, x, mode)[0], number, (grid.kind, number))
                for call in (grid.interp, grid.interp_grad):
                    self.assertEqual(self.refused(call, x, None, mode)[0], number, (grid.kind, number))
            for grid in self.grids(width):
                self.assertEqual(self.refused(grid.interp, [math.nan] * 4, array.array(CODE[width], [0.0] * 3), mode), (7, 0, 0))
                self.assertEqual(self.refused(grid.interp_grad, [math.nan] * 4, array.array(CODE[width], [0.0] * 3), mode), (7, 0, 0))
                self.assertEqual(self.refused(grid.interp_one, [math.nan] * 2, 3), (3, 0, 0))

    def test_by_own_arithmetic(self):
        """Random batches on random grids: number, query and axis are those that the coordinates and the quotients give."""
        def rounded(x):
            return array.array(CODE[width], [x])[0]

        def refusal(x):
            for axis, (given, (first, last)) in enumerate(zip(x, ends(direct))):
                if given != given:
                    return 9, axis
                if direct.kind == 'regular':
                    used = first if given < first else last if given > last else given
                    quotient = rounded(rounded((used if mode == 'held' else given) - direct.lent[0][axis]) / direct.lent[1][axis])
                    if not -2.0 ** 63 <= quotient < 2.0 ** 63:
                        return 8, axis
            return None

        chosen, seen = random.Random(20), set()
        for turn in range(600):
            width, mode = veltzuma.WIDTHS[turn % 2], MODES[turn // 2 % 3]
            made, direct = Calls.grids(chosen, width)
            try:
                made.new()
            except veltzuma.Refusal:
                continue
            queries = [[chosen.uniform(-6, 9) if chosen.random() < 0.8 else rounded(chosen.choice([math.nan, math.nan, math.inf, -math.inf, 2.0 ** 63, -1e300]))
                        for _ in range(made.axis_count)] for _ in range(chosen.randrange(1, 7))]
            told = [(found[0], k, found[1]) for k, found in enumerate(map(refusal, queries)) if found]
            for name in ('interp', 'interp_grad'):
                found = None
                try:
                    getattr(made, name)([x[axis] for axis in range(made.axis_count) for x in queries], None, mode)
                except veltzuma.Refusal as refused:
                    found = refused.number, refused.query, refused.axis
                self.assertEqual(found, told[0] if told else None, (made.kind, width, mode, queries))
            seen.add((made.kind, width, mode, told[0][0] if told else 0))
        # A rectilinear axis refuses nothing but a NaN. Held, no number is refused on these axes.
        self.assertEqual(seen, {(kind, width, mode, number) for kind in ('regular', 'rectilinear') for width in veltzuma.WIDTHS for mode in MODES for number in (0, 8, 9)
                                if number != 8 or kind == 'regular' and mode != 'held'})


class MostQueries(unittest.TestCase):
    """Check 7's bound: 1,048,576 queries are answered, one more is refused, and nothing is written."""

    def test_at_the_bound_and_past_it(self):
        for width, code in (('f64', 'd'), ('f32', 'f')):
            for grid in (veltzuma.MulticubicRegular([4], [0.0], [1.0], [0.0, 1.0, 8.0, 27.0], width=width),
                         veltzuma.MulticubicRectilinear([4], [0.0, 1.0, 2.0, 3.0], [0.0, 1.0, 8.0, 27.0], width=width)):
                for call, answer in ((grid.interp, 3.375), (grid.interp_grad, 6.25)):
                    out = array.array(code, [-1.0]) * (1 << 20)
                    call(array.array(code, [1.5]) * (1 << 20), out)
                    self.assertEqual(out.tobytes(), (array.array(code, [answer]) * (1 << 20)).tobytes(), (width, grid.kind))
                    out = array.array(code, [-1.0]) * ((1 << 20) + 1)
                    with self.assertRaises(veltzuma.Refusal) as refused:
                        call(array.array(code, [1.5]) * ((1 << 20) + 1), out)
                    self.assertEqual((refused.exception.number, refused.exception.query, refused.exception.axis), (7, 0, 0))
                    self.assertEqual(out.tobytes(), (array.array(code, [-1.0]) * ((1 << 20) + 1)).tobytes(), (width, grid.kind))


class FlatAxes(unittest.TestCase):
    """A rectilinear axis on which an entry after entry 1 equals the one before it is refused with 10: after 5 and 6 of all axes, before 7 and every query."""
    FLAT, RISING, DISORDER, LEVEL_START = (0, 1, 1, 2), (0, 1, 2, 3), (0, 1, 3, 2), (0, 0, 1, 2)

    @staticmethod
    def grid(width, *axes):
        """The binding's, and the same for straight calls."""
        counts, joined = [len(axis) for axis in axes], [entry for axis in axes for entry in axis]
        vals = [float(k * k % 17) for k in range(math.prod(counts))]
        return both(veltzuma.MulticubicRectilinear(counts, joined, vals, width), counts, [joined], vals, width)

    @staticmethod
    def calls(grid, x, mode):
        """Each of the six, with one query."""
        return [grid.new, *(functools.partial(call, x, mode) for call in (grid.get_loc, grid.interp_one, grid.interp_one_grad)),
                *(functools.partial(call, x, None, mode) for call in (grid.interp, grid.interp_grad))]

    def number(self, call):
        """Number, query and axis that a call refuses with; all 0 where it answers."""
        try:
            call()
        except veltzuma.Refusal as told:
            return told.number, told.query, told.axis
        return 0, 0, 0

    def test_each_call(self):
        """With its axis, in every setting and width; and nothing is written but that."""
        for width, mode, (axes, axis) in itertools.product(veltzuma.WIDTHS, MODES, (([self.FLAT], 0), ([self.RISING, self.FLAT], 1), ([self.FLAT, self.FLAT], 0),
                                                                                    ([self.RISING, self.RISING, [0, 1, 2, 3, 4, 4], self.RISING], 2))):
            made, direct = self.grid(width, *axes)
            self.assertEqual([self.number(call) for call in self.calls(made, [0.5] * len(axes), mode)], [(10, 0, axis)] * 6)
            for call, length in ((made.interp, 1), (made.interp_grad, len(axes))):
                out = array.array(CODE[width], [-7.0] * length)
                self.assertEqual((self.number(functools.partial(call, [0.5] * len(axes), out, mode)), out.tolist()), ((10, 0, axis), [-7.0] * length))
            for name in ('get_loc', 'interp_one', 'interp_one_grad'):
                rooms = direct.rooms(name)
                for room in rooms:
                    room[:] = [77] * len(room)
                self.assertEqual(direct.ask(name, (mode, [0.5] * len(axes)), *rooms, refusal=(77, 77))[:2], (10, [0, axis]))
                self.assertEqual([list(room) for room in rooms], [[77] * len(room) for room in rooms])
        with self.assertRaises(veltzuma.Refusal) as caught:
            self.grid('f64', self.RISING, self.FLAT)[0].new()
        self.assertEqual((caught.exception.name, str(caught.exception)), ('flat', 'refused 10 (flat): axis 1, entry 2: 1 equals the entry before it'))

    def test_after_the_other_checks_of_the_axes(self):
        flat, rising, disorder, start = self.FLAT, self.RISING, self.DISORDER, self.LEVEL_START
        for width in veltzuma.WIDTHS:
            for axes, told in (([flat, disorder], (6, 0, 1)), ([disorder, flat], (6, 0, 0)), ([flat, start], (5, 0, 1)), ([flat, disorder, start], (5, 0, 2)),
                               ([[0, 1, 1, 0.5]], (6, 0, 0)), ([[0, 1, 1, math.nan]], (6, 0, 0)), ([flat, [0, math.nan, 1, 2]], (5, 0, 1)), ([[0, 0, 0, 0]], (5, 0, 0)),
                               ([[1, 0, 0, 2]], (5, 0, 0)), ([flat, [0, 1, 2]], (4, 0, 1)), ([rising, flat, rising, flat], (10, 0, 1)), ([flat] * 5, (1, 0, 0)),
                               ([rising, rising], (0, 0, 0))):
                made, _ = self.grid(width, *axes)
                self.assertEqual(self.number(made.new), told, (width, axes))
                # Sizes come first: one value too many.
                made = veltzuma.MulticubicRectilinear([len(axis) for axis in axes], sum(map(list, axes), []), [1.0] * (math.prod(map(len, axes)) + 1), width)
                self.assertEqual(self.number(made.new)[0], 1 if len(axes) > 4 else 3, (width, axes))

    def test_by_own_judgement(self):
        """Random axes of a few numbers: number and axis are those that comparing the entries gives, and what is taken rises strictly."""
        inf, nan, seen = math.inf, math.nan, {}
        checks = ((5, lambda axis: not axis[0] < axis[1]), (6, lambda axis: any(x != x or x < before for before, x in zip(axis, axis[1:]))),
                  (10, lambda axis: any(x == before for before, x in zip(axis, axis[1:]))))
        chosen = random.Random(21)
        for turn in range(3000):
            width, axes = veltzuma.WIDTHS[turn % 2], []
            for _ in range(chosen.choice([1, 2, 2, 3])):
                tiny = beside(0.0, True, width)
                axis = sorted(chosen.choices([-inf, -2.0, -1.0, -tiny, -0.0, 0.0, tiny, 1.0, beside(1.0, True, width), 2.0, inf], k=chosen.randrange(4, 7)))
                if chosen.random() < 0.7:
                    axis = sorted(set(axis))
                    axis += [entry for entry in (3.0, 4.0, 5.0, 6.0) if axis[-1] < entry][:max(0, 4 - len(axis))]
                    axis = axis if len(axis) > 3 else list(self.RISING)
                if chosen.random() < 0.1:
                    axis[chosen.randrange(len(axis))] = chosen.choice([nan, -2.0])
                axes.append(axis)
            expected = next(((number, 0, i) for number, wrong in checks for i, axis in enumerate(axes) if wrong(axis)), (0, 0, 0))
            self.assertEqual(self.number(self.grid(width, *axes)[0].new), expected, (width, axes))
            if not expected[0]:
                for axis in axes:
                    self.assertTrue(all(before < x and array.array(CODE[width], [x - before])[0] > 0 for before, x in zip(axis, axis[1:])), axis)
            seen[width, expected[0]] = seen.get((width, expected[0]), 0) + 1
        self.assertEqual(set(seen), set(itertools.product(veltzuma.WIDTHS, (0, 5, 6, 10))))
        self.assertGreater(min(seen.values()), 50)

    def test_before_7_and_the_queries(self):
        nan = math.nan
        for width, mode in itertools.product(veltzuma.WIDTHS, MODES):
            flat, rising = self.grid(width, self.RISING, self.FLAT)[0], self.grid(width, self.RISING, self.RISING)[0]
            for length in (0, 1, 3):
                for name in ('interp', 'interp_grad'):
                    # Four coordinates are two queries, for which the buffer has a wrong length.
                    given = [0.5] * 4, array.array(CODE[width], [-7.0] * length), mode
                    for grid, told in ((flat, (10, 0, 1)), (rising, (7, 0, 0))):
                        self.assertEqual(self.number(functools.partial(getattr(grid, name), *given)), told, (width, mode, length, name))
                    self.assertEqual(given[1].tolist(), [-7.0] * length)
            for x in ([nan, nan], [0.5, nan]):
                self.assertEqual([self.number(call) for call in self.calls(flat, x, mode)[1:]], [(10, 0, 1)] * 5)
                self.assertEqual([self.number(call) for call in self.calls(rising, x, mode)[1:]], [(9, 0, 0 if x[0] != x[0] else 1)] * 5)

    def test_short_slices(self):
        """Straight calls: too little room to write is 7, and 10 before it; too few counts or coordinates, or a mode without a name, are 3, which is before 10."""
        for width in veltzuma.WIDTHS:
            grids = {'flat': (10, self.grid(width, self.RISING, self.FLAT)[1]), 'disorder': (6, self.grid(width, self.DISORDER, self.FLAT)[1]),
                     'rising': (7, self.grid(width, self.RISING, self.RISING)[1])}
            for number, direct in grids.values():
                for length in (0, 1):
                    self.assertEqual(direct.ask('new', None, refusal=[77] * length)[:2], (number, [77] * length))
                for name in ('get_loc', 'interp_one', 'interp_one_grad'):
                    for length in (0, 1):
                        self.assertEqual(direct.ask(name, ('cubic', [0.5, 0.5]), *direct.rooms(name), refusal=[77] * length)[:2], (number, [77] * length))
                    for k, room in enumerate(direct.rooms(name)):
                        rooms = direct.rooms(name)
                        rooms[k] = (room._type_ * (len(room) - 1))()
                        self.assertEqual(direct.ask(name, ('cubic', [0.5, 0.5]), *rooms)[0], number, (name, k))
                    for given in (('cubic', [0.5]), ('cubic', []), (3, [0.5, 0.5])):
                        for length in (1, 2):
                            found = direct.ask(name, given, *direct.rooms(name), refusal=[77] * length)
                            self.assertEqual(found[:2], (3, [77] if length == 1 else [0, 0]))
                for name, length in (('interp', 1), ('interp_grad', 2)):
                    self.assertEqual(direct.ask(name, ('cubic', [0.5, 0.5]), (direct.float * length)(), refusal=[77])[:2], (number, [77]))
                    self.assertEqual(direct.ask(name, ('cubic', [0.5, 0.5]), (direct.float * 3)())[0], number)
                    self.assertEqual(direct.ask(name, (3, [0.5, 0.5]), (direct.float * 3)(), refusal=[77])[:2], (3, [77]))
                for counts in (0, 1):
                    direct.grid[2] = ctypes.c_size_t(counts)
                    for length in (1, 2):
                        self.assertEqual(direct.ask('new', None, refusal=[77] * length)[0], 3)
                direct.grid[2] = ctypes.c_size_t(2)

    def test_equal_as_numbers(self):
        inf = math.inf
        for width in veltzuma.WIDTHS:
            for axis in ([-1, -0.0, 0.0, 1], [-1, 0.0, -0.0, 1], [0, 1, inf, inf], [-inf, 1, inf, inf], [0, 1, 2, 3, 3], [-3, -2, -2, -1]):
                for axes, at in (([axis], 0), ([self.RISING, axis], 1)):
                    self.assertEqual(self.number(self.grid(width, *axes)[0].new), (10, 0, at), (width, axis))
            # And one of each is taken.
            for axis in ([-1, -0.0, 1, 2], [-inf, 0, 1, inf], [-inf, -1, -0.0, 1]):
                self.assertEqual(self.number(self.grid(width, axis)[0].new), (0, 0, 0), (width, axis))
            # At the start of an axis it is 5.
            for axis in ([-0.0, 0.0, 1, 2], [0.0, -0.0, 1, 2], [-inf, -inf, 0, 1], [inf, inf, inf, inf]):
                self.assertEqual(self.number(self.grid(width, axis)[0].new), (5, 0, 0), (width, axis))

    def test_beside_each_other(self):
        """Neighbours that are one unit in the last place apart are taken and answered, each with its own number; as f32 those of f64 are equal."""
        for width, mode in itertools.product(veltzuma.WIDTHS, MODES):
            up = beside(1.0, True, width)
            made, _ = self.grid(width, [0.0, 1.0, up, 2.0, 3.0])
            self.assertEqual([self.number(call) for call in self.calls(made, [up], mode)], [(0, 0, 0)] * 6)
            self.assertEqual([made.interp_one([x], mode) for x in (1.0, up, 2.0)], [1.0, 4.0, 9.0])
            self.assertEqual([made.get_loc([x], mode)[0].origin for x in (1.0, up, beside(up, True, width))], [0, 0, 1])
            tiny = beside(0.0, True, width)
            for axis in ([-tiny, 0.0, tiny, 2 * tiny], [-1.0, -tiny, tiny, 1.0]):
                self.assertEqual([self.number(call) for call in self.calls(self.grid(width, axis)[0], [0.0], mode)], [(0, 0, 0)] * 6)
        made, _ = self.grid('f32', [0.0, 1.0, beside(1.0, True, 'f64'), 2.0])
        self.assertEqual(self.number(made.new), (10, 0, 0))

    def test_regular(self):
        """Nodes that are equal as rounded are no refusal: start + step·k is not compared."""
        for width, mode, (start, step) in itertools.product(veltzuma.WIDTHS, MODES, ((1e16, 0.1), (-1e16, 0.1), (2.0 ** 70, 1.0))):
            made = veltzuma.MulticubicRegular([4, 4], [0.0, start], [1.0, step], [float(k) for k in range(16)], width)
            self.assertEqual([self.number(call) for call in self.calls(made, [1.0, start], mode)], [(0, 0, 0)] * 6)


class Inputs(unittest.TestCase):
    def forms(self, numbers, code):
        """The same numbers in every form."""
        own = array.array(code, numbers)
        wide = array.array(code, [entry for number in numbers for entry in (number, -1.0)])
        other = array.array('f' if code == 'd' else 'd', numbers)
        kind = ctypes.c_double if code == 'd' else ctypes.c_float
        return {'list': list(numbers), 'tuple': tuple(numbers), 'iterator': iter(numbers), 'array': own, 'view': memoryview(own), 'strided': memoryview(wide)[::2],
                'backwards': memoryview(array.array(code, numbers[::-1]))[::-1], 'read-only': memoryview(own).toreadonly(), 'other width': other,
                'whole numbers': array.array('i', [int(number) for number in numbers]), 'ctypes': (kind * len(numbers))(*numbers),
                'big-endian ctypes': (kind.__ctype_be__ * len(numbers))(*numbers),
                'whole numbers of ctypes': (ctypes.c_long * len(numbers))(*map(int, numbers)), 'extended ctypes': (ctypes.c_longdouble * len(numbers))(*numbers),
                'misaligned': self.misaligned(own)}

    @staticmethod
    def misaligned(own):
        raw = bytearray(own.itemsize * len(own) + 1)
        raw[1:] = own.tobytes()
        return memoryview(raw)[1:].cast(own.typecode)

    def test_forms(self):
        for width, code in CODE.items():
            for name in self.forms([0.0], code):
                grid = veltzuma.MulticubicRegular([4], self.forms([0.0], code)[name], self.forms([1.0], code)[name], self.forms(CUBE[3], code)[name], width)
                # All slices are aligned, and none overlaps another.
                for a, b in itertools.combinations(grid._lent, 2):
                    self.assertFalse(a.overlaps(b))
                self.assertTrue(all(part.address % (part.size // part.length) == 0 for part in grid._lent))
                self.assertEqual(grid.interp(self.forms([1.0, 2.0], code)[name]).tolist(), [1.0, 8.0], (name, width))
                self.assertEqual(grid.interp_one(self.forms([2.0], code)[name]), 8.0)

    @unittest.skipUnless(numpy, 'numpy is not installed: its arrays are not tried')
    def test_numpy(self):
        for dtype in ('f8', 'f4', '>f8', '>f4', 'i4', '>i8', 'f2', 'longdouble', 'bool', 'object'):
            vals = numpy.array([[i % 2 for _ in range(5)] for i in range(4)], dtype=dtype)
            for given in (vals, numpy.asfortranarray(vals), numpy.repeat(vals, 2, axis=1)[:, ::2]):
                for width in veltzuma.WIDTHS:
                    grid = veltzuma.MulticubicRegular(numpy.array([4, 5]), numpy.zeros(2), numpy.ones(2), given, width)
                    found = grid.interp(numpy.array([[1, 2], [3, 3]], dtype=dtype if dtype != 'bool' else 'f8'))
                    self.assertIsInstance(found, numpy.ndarray)
                    self.assertEqual((found.tolist(), found.dtype), ([1.0, 0.0], numpy.dtype('f8' if width == 'f64' else 'f4')))
                self.assertEqual(veltzuma.MulticubicRegular([4, 5], [0, 0], [1, 1], given).width, 'f32' if dtype in ('f4', '>f4') else 'f64')
        out = numpy.full(2, 7.0)
        grid = veltzuma.MulticubicRegular(*CUBE, axis_count=numpy.uint64(1))
        self.assertIs(grid.interp([1.0, 2.0], out, numpy.int8(0)), out)
        self.assertEqual(out.tolist(), [1.0, 8.0])
        # A list of columns, as interpn takes them; and numbers of no dimension.
        found = grid.interp([numpy.array([1.0, 2.0])])
        self.assertIsInstance(found, numpy.ndarray)
        self.assertEqual((found.tolist(), grid.interp_one(numpy.float64(2.0)), grid.interp_one([numpy.array(2.0)])), ([1.0, 8.0], 8.0, 8.0))

    def test_lent_memory(self):
        """What is lent is seen when it changes, outlives its name, and cannot be moved."""
        vals = array.array('d', CUBE[3])
        grid = veltzuma.MulticubicRegular([4], [0.0], [1.0], vals)
        vals[2] = 80.0
        self.assertEqual(grid.interp_one([2.0]), 80.0)
        with self.assertRaises(BufferError):
            vals.append(1.0)
        del vals
        gc.collect()
        self.assertEqual(grid.interp_one([2.0]), 80.0)

    def test_out(self):
        grid = veltzuma.MulticubicRegular(*CUBE)
        for out in (array.array('f', [0.0]), array.array('q', [0]), memoryview(array.array('d', [0.0])).toreadonly(), memoryview(array.array('d', [0.0] * 4))[::2],
                    self.misaligned(array.array('d', [0.0])), [0.0], bytearray(8)):
            with self.assertRaises(TypeError):
                grid.interp([1.5], out)
        vals = array.array('d', CUBE[3] + [0.0] * 4)
        grid = veltzuma.MulticubicRegular([4], [0.0], [1.0], memoryview(vals)[:4])
        for first in (0, 3):
            with self.assertRaises(ValueError):
                grid.interp([1.5] * 2, memoryview(vals)[first:first + 2])
        self.assertEqual(grid.interp([1.5], memoryview(vals)[4:5])[0], 3.375)
        queries = array.array('d', [1.5, 2.0])
        with self.assertRaises(ValueError):
            grid.interp(queries, queries)
        self.assertEqual((vals.tolist(), queries.tolist()), (CUBE[3] + [3.375, 0.0, 0.0, 0.0], [1.5, 2.0]))
        for length in (0, 1, 3):
            out = array.array('d', [5.0] * length)
            with self.assertRaises(veltzuma.Refusal) as caught:
                grid.interp([1.5, 2.0], out)
            self.assertEqual((caught.exception.number, out.tolist()), (7, [5.0] * length))
        self.assertEqual(len(grid.interp([])), 0)

    def test_no_number_wraps(self):
        for wrong in (-1, 2 ** 64):
            with self.assertRaises(OverflowError):
                veltzuma.MulticubicRegular([wrong], *CUBE[1:])
            with self.assertRaises(OverflowError):
                veltzuma.MulticubicRegular(*CUBE, axis_count=wrong)
        grid = veltzuma.MulticubicRegular(*CUBE)
        for wrong in (-1, 256):
            with self.assertRaises(OverflowError):
                grid.interp_one([1.5], wrong)
        for mode in (3, 255):
            with self.assertRaises(veltzuma.Refusal) as caught:
                grid.interp_one([1.5], mode)
            self.assertEqual(caught.exception.number, 3)
        for wrong, error in (('flat', ValueError), (None, TypeError), (1.0, TypeError)):
            with self.assertRaises(error):
                grid.interp_one([1.5], wrong)
        for wrong in ('12', b'12', [None], ['x'], [b'1'], [['x']], 5, None):
            with self.assertRaises(TypeError):
                grid.interp_one(wrong)
        with self.assertRaises(ValueError):
            veltzuma.MulticubicRegular(*CUBE, width='f16')

    def test_of_axes(self):
        grid = veltzuma.MulticubicRectilinear.of_axes([[0, 1, 2, 4], [0, 1, 2, 3, 9]], range(20))
        self.assertEqual(grid.interp_one([4, 9]), 19.0)
        self.assertEqual([place.saturation for place in grid.get_loc([5, 1.5])], ['OutsideHigh', 'None'])

    def test_other_libraries(self):
        for path, said in (('/none/none.so', 'none.so'), (os.path.join(TOP, 'README.md'), 'README.md'), (TOP, 'Is a directory'),
                           (self.libc(), 'is not the library: it has no veltzuma_regular_new')):
            with self.assertRaisesRegex(OSError, said):
                veltzuma.load(path)

    def test_other_versions(self):
        with tempfile.TemporaryDirectory() as folder:
            for name, (versions, said) in OTHERS.items():
                path = stand_in(folder, name, versions)
                with self.assertRaises(OSError) as caught:
                    veltzuma.load(path)
                self.assertEqual(str(caught.exception), f"{folder}/{said}; './veltzuma build' builds that where VELTZUMA_LIBRARY is not set")
            # What has none of the calls is no older library; and the version alone is not the library either.
            for name, versions, symbol in (('none.so', {}, 'new'), ('f64.so', {'': veltzuma.VERSION}, 'new_f32'), ('bare.so', {'': veltzuma.VERSION, '_f32': veltzuma.VERSION}, 'new')):
                path = stand_in(folder, name, versions, symbols=False)
                with self.assertRaises(OSError) as caught:
                    veltzuma.load(path)
                self.assertEqual(str(caught.exception), f'{path} is not the library: it has no veltzuma_regular_{symbol}')
            # And one of the right version is taken.
            veltzuma.load(stand_in(folder, 'right.so', {'': veltzuma.VERSION, '_f32': veltzuma.VERSION}))

    def test_copied_module(self):
        """Away from the repository it asks for the variable."""
        with tempfile.TemporaryDirectory() as folder:
            shutil.copy(os.path.join(TOP, 'bindings', 'python', 'veltzuma.py'), folder)
            for value, said in (('', b'OSError: no library: name it in VELTZUMA_LIBRARY'), (LIBRARY, b'')):
                done = subprocess.run([sys.executable, '-B', '-c', 'import veltzuma; veltzuma.load()'], cwd=folder, stderr=subprocess.PIPE,
                                      env={**os.environ, 'VELTZUMA_LIBRARY': value})
                self.assertIn(said, done.stderr)
                self.assertEqual(done.returncode, 1 if said else 0)

    @staticmethod
    def libc():
        with open('/proc/self/maps') as maps:
            return next(line.split()[-1] for line in maps if '/libc.so' in line or '/libc-' in line)


def shaped(numbers, shape, code='d'):
    """A view of this shape on an array of its own."""
    return memoryview(array.array(code, numbers)).cast('B').cast(code, list(shape))


def nested(numbers, shape):
    """The same as nested lists."""
    if len(shape) == 1:
        return list(numbers)
    size = len(numbers) // shape[0]
    return [nested(numbers[i * size:(i + 1) * size], shape[1:]) for i in range(shape[0])]


class WithT(list):
    """Nested lists that have a transpose, as an array of numpy has it."""
    T = None


class Shapes(unittest.TestCase):
    """What has more than one dimension has the right shape and is answered as the same numbers joined, or it is a ValueError that says so."""

    def error(self, call, *given, **more):
        with self.assertRaises(ValueError) as caught:
            call(*given, **more)
        self.assertIs(type(caught.exception), ValueError)
        return str(caught.exception)

    @staticmethod
    def forms(numbers, shape, code):
        """Every form that has this shape, of the same numbers, which are those of f32."""
        other, rows = 'f' if code == 'd' else 'd', nested(numbers, shape)
        kind = ctypes.c_double if code == 'd' else ctypes.c_float
        for size in shape[::-1]:
            kind = kind * size
        found = {'lists': rows, 'tuples': tuple(map(tuple, rows)), 'iterator': iter(rows), 'view': shaped(numbers, shape, code), 'other width': shaped(numbers, shape, other),
                 'read-only': shaped(numbers, shape, code).toreadonly(), 'backwards': shaped([x for row in rows[::-1] for x in flat(row)], shape, code)[::-1],
                 'ctypes': kind.from_buffer_copy(array.array(code, numbers).tobytes())}
        if len(shape) == 2:
            found['arrays'] = [array.array(code, row) for row in rows]
            found['views'] = tuple(memoryview(array.array(other, row)) for row in rows)
            found['iterators'] = (array.array(code, row) for row in rows)
        if ndarray:
            order = {'little': '>', 'big': '<'}[sys.byteorder]
            memory = [x for index in itertools.product(*map(range, shape[::-1])) for x in [at(rows, index[::-1])]]
            found['Fortran'] = ndarray(memory, shape=list(shape), format=code, flags=ND_FORTRAN | ND_WRITABLE)
            found['Fortran, other width'] = ndarray(memory, shape=list(shape), format=other, flags=ND_FORTRAN)
            found['other order of bytes'] = ndarray(list(numbers), shape=list(shape), format=order + code, flags=ND_WRITABLE)
            wide = [x for number in numbers for x in (number, -1.0)]
            size, strides = array.array(code).itemsize, []
            for i in range(len(shape)):
                strides.append(2 * size * math.prod(shape[i + 1:]))
            found['strided'] = ndarray(wide, shape=list(shape), strides=strides, format=code, flags=ND_WRITABLE)
        if numpy:
            plain = numpy.array(rows, dtype=code)
            found.update({'numpy': plain, 'numpy Fortran': numpy.asfortranarray(plain), 'numpy transposed': numpy.ascontiguousarray(plain.T).T,
                          'numpy strided': numpy.repeat(plain, 2, axis=-1)[..., ::2], 'numpy other bytes': plain.astype(plain.dtype.newbyteorder()),
                          'numpy other width': plain.astype(other), 'numpy rows': list(plain), 'numpy whole': numpy.array(rows, dtype='object')})
        return found

    @staticmethod
    def numbers(count, seed):
        return array.array('f', [random.Random(seed + k).uniform(-9, 9) for k in range(count)]).tolist()

    @staticmethod
    def grids(counts, vals, width):
        entries = [[k * 1.5 + (k == 2) * 0.25 for k in range(count)] for count in counts]
        return (veltzuma.MulticubicRegular(counts, [0.0] * len(counts), [1.5] * len(counts), vals() if callable(vals) else vals, width),
                veltzuma.MulticubicRectilinear(counts, sum(entries, []), vals() if callable(vals) else vals, width),
                veltzuma.MulticubicRectilinear.of_axes(entries, vals() if callable(vals) else vals, width))

    def test_forms(self):
        """That the forms hold what they are to hold."""
        for code, shape in itertools.product('df', ((2, 3), (3, 2, 4))):
            numbers = self.numbers(math.prod(shape), 1)
            for name, form in self.forms(numbers, shape, code).items():
                if name not in ('iterator', 'iterators', 'other order of bytes', 'numpy other bytes'):
                    self.assertEqual(list(flat(form.tolist() if hasattr(form, 'tolist') else form)), numbers, name)

    def test_values(self):
        """In every form they give the answers of the joined ones, by their bits."""
        for width, counts in itertools.product(veltzuma.WIDTHS, ((4, 5), (5, 4), (4, 6, 5), (4, 4, 5, 4))):
            vals = self.numbers(math.prod(counts), 2)
            queries = self.numbers(7 * len(counts), 3)
            expected = [(grid.interp(queries), grid.interp_grad(queries)) for grid in self.grids(counts, vals, width)]
            for name in self.forms(vals, counts, CODE[width]):
                for grid, (values, slopes) in zip(self.grids(counts, lambda: self.forms(vals, counts, CODE[width])[name], width), expected):
                    self.assertTrue(same(grid.interp(queries), values, width), (name, width, counts))
                    self.assertTrue(same(grid.interp_grad(queries), slopes, width), (name, width, counts))
                    for a, b in itertools.combinations(grid._lent, 2):
                        self.assertFalse(a.overlaps(b))

    def test_queries(self):
        for width, axes, count in itertools.product(veltzuma.WIDTHS, (1, 2, 3, 4), (1, 2, 5)):
            vals, queries = self.numbers(4 ** axes, 4), self.numbers(axes * count, 5)
            for grid in self.grids([4] * axes, vals, width):
                values, slopes = grid.interp(queries), grid.interp_grad(queries)
                # A query by itself, by its own numbers.
                self.assertTrue(same([grid.interp_one(queries[k::count]) for k in range(count)], values, width))
                for name in self.forms(queries, (axes, count), CODE[width]):
                    self.assertTrue(same(grid.interp(self.forms(queries, (axes, count), CODE[width])[name]), values, width), (name, width, axes))
                    self.assertTrue(same(grid.interp_grad(self.forms(queries, (axes, count), CODE[width])[name]), slopes, width), (name, width, axes))
                    if axes != count:
                        told = self.error(grid.interp, self.forms(queries, (count, axes), CODE[width])[name])
                        self.assertTrue(told.startswith(f'queries has shape ({count}, {axes}), where {axes} {"axis needs" if axes == 1 else "axes need"} ({axes}, n)'), told)
                        self.assertEqual(told.endswith(' has that shape'), True, told)

    def test_wrong_values(self):
        counts = {(4, 5): {(5, 4): '; {} has that shape', (2, 10): '', (20, 1): '', (1, 4, 5): '', (4, 5, 1): '', (4, 4): ''}, (4,): {(4, 1): '', (1, 4): ''},
                  (4, 5, 6): {(6, 5, 4): '; its transpose has that shape', (5, 4, 6): '; its transpose by (1, 0, 2) has that shape',
                              (6, 4, 5): '; its transpose by (1, 2, 0) has that shape', (4, 30): '', (4, 5, 7): ''},
                  # Two transposes have it, and only whoever made the values knows which is meant.
                  (4, 4, 5): {(4, 5, 4): '', (5, 4, 4): '; its transpose has that shape'}}
        for needed, shapes in counts.items():
            for shape, hint in shapes.items():
                numbers, text = [1.0] * math.prod(shape), f'vals has shape {shape}, where the counts need {needed}'
                for width, make in itertools.product(veltzuma.WIDTHS, (
                        lambda vals, width: veltzuma.MulticubicRegular(needed, [0] * len(needed), [1] * len(needed), vals, width),
                        lambda vals, width: veltzuma.MulticubicRectilinear(needed, [k for count in needed for k in range(count)], vals, width),
                        lambda vals, width: veltzuma.MulticubicRectilinear.of_axes(map(range, needed), vals, width))):
                    self.assertEqual(self.error(make, shaped(numbers, shape, CODE[width]), width), text + hint.format('its transpose'))
                    self.assertEqual(self.error(make, nested(numbers, shape), width), text + hint.format('list(zip(*vals))'))
                    hint_of_numpy = re.sub(r'its transpose by \((.*)\)', r'vals.transpose(\1)', hint).replace('its transpose', '{}').format('vals.T')
                    self.assertEqual(self.error(make, WithT(nested(numbers, shape)), width), text + hint_of_numpy)
                    if numpy:
                        vals = numpy.ones(shape)
                        self.assertEqual(self.error(make, vals, width), text + hint_of_numpy)
                        if hint:
                            make(eval(hint_of_numpy[2:].split(' ')[0] if '(' not in hint_of_numpy else hint_of_numpy[2:].split(' has')[0]), width).new()

    def test_wrong_queries(self):
        grid = veltzuma.MulticubicRegular([4, 5], [0, 0], [1, 1], [1.0] * 20)
        for shape, hint in (((3, 2), '; {} has that shape'), ((1, 2), '; {} has that shape'), ((3, 3), ''), ((1, 4), ''), ((2, 3, 1), ''), ((1, 2, 3), '')):
            for call, name in itertools.product((grid.interp, grid.interp_grad), ('{}', 'list(zip(*{}))', '{}.T')):
                queries = {'{}': shaped, 'list(zip(*{}))': nested, '{}.T': lambda *given: WithT(nested(*given))}[name]([1.0] * math.prod(shape), shape)
                transpose = 'its transpose' if name == '{}' else name.format('queries')
                self.assertEqual(self.error(call, queries), f'queries has shape {shape}, where 2 axes need (2, n)' + hint.format(transpose))
        # What is named is taken.
        queries = [[1.0, 2.0], [3.0, 1.0], [0.5, 1.5]]
        self.assertTrue(same(grid.interp(list(zip(*queries))), grid.interp([1.0, 3.0, 0.5, 2.0, 1.0, 1.5]), 'f64'))
        one = veltzuma.MulticubicRegular(*CUBE)
        self.assertEqual(self.error(one.interp, [[1.0], [2.0]]), 'queries has shape (2, 1), where 1 axis needs (1, n); list(zip(*queries)) has that shape')
        self.assertEqual([one.interp(queries).tolist() for queries in ([1.0, 2.0], [[1.0, 2.0]], [array.array('d', [1.0, 2.0])], shaped([1.0, 2.0], (1, 2)))], [[1.0, 8.0]] * 4)
        # No queries.
        self.assertEqual([len(call(queries)) for call in (grid.interp, grid.interp_grad) for queries in ([], [[], []], ([], array.array('d')))], [0] * 6)
        self.assertEqual(self.error(grid.interp, [[]]), 'queries has shape (1, 0), where 2 axes need (2, n)')
        # What is joined is as it was: a length that is no number of queries is for the library.
        with self.assertRaises(veltzuma.Refusal) as caught:
            grid.interp([1.0, 2.0, 3.0])
        self.assertEqual(str(caught.exception), 'refused 7 (batch): 3 coordinates, where each query on 2 axes has 2')

    def test_ragged(self):
        grid = veltzuma.MulticubicRegular([4, 5], [0, 0], [1, 1], [1.0] * 20)
        for queries, told in (([[1, 2], [3]], 'queries is ragged: entry 0 has shape (2,), and entry 1 has shape (1,)'),
                              ([[1, 2], 3], 'queries is ragged: entry 0 has shape (2,), and entry 1 is a number'),
                              ([1, array.array('d', [2])], 'queries is ragged: entry 0 is a number, and entry 1 has shape (1,)'),
                              ([[[1], [2]], [[1], [2, 3]]], 'queries[1] is ragged: entry 0 has shape (1,), and entry 1 has shape (2,)'),
                              ([array.array('d', [1, 2]), shaped([1, 2], (2, 1))], 'queries is ragged: entry 0 has shape (2,), and entry 1 has shape (2, 1)')):
            for call in (grid.interp, grid.interp_grad):
                self.assertEqual(self.error(call, queries), told)
            self.assertEqual(self.error(grid.interp_one, queries), told.replace('queries', 'x'))
        rows = nested([1.0] * 20, (4, 5))
        rows[2].pop()
        self.assertEqual(self.error(veltzuma.MulticubicRegular, [4, 5], [0, 0], [1, 1], rows), 'vals is ragged: entry 0 has shape (5,), and entry 2 has shape (4,)')

    def test_single(self):
        """One coordinate for each axis; before the grid is looked at, unless its axis count is refused."""
        for width, axes in itertools.product(veltzuma.WIDTHS, (1, 2, 3, 4)):
            of = f'{axes} {"axis" if axes == 1 else "axes"}'
            for grid in self.grids([4] * axes, self.numbers(4 ** axes, 6), width):
                x = self.numbers(axes, 7)
                for call in (grid.interp_one, grid.interp_one_grad, grid.get_loc):
                    expected = call(x)
                    for form in (tuple(x), iter(x), array.array('d', x), [[c] for c in x], shaped(x, (axes, 1)), shaped(x, (axes, 1), 'f'), [array.array('f', [c]) for c in x]):
                        found = call(form)
                        self.assertEqual(found, expected)
                        self.assertEqual(getattr(found, 'marks', ()), getattr(expected, 'marks', ()))
                    for length in {0, 1, 2, 3, 4, 5, 9} - {axes}:
                        told = f'a query of {length} coordinate{"s" * (length != 1)}, where the grid has {of}'
                        for wrong in ([1.0] * length, array.array('f', [1.0] * length), iter([math.nan] * length)):
                            self.assertEqual(self.error(call, wrong), told)
                    for shape in {(1, axes), (axes, 2), (2, axes), (axes, 1, 1)} - {(axes, 1)}:
                        self.assertEqual(self.error(call, shaped([1.0] * math.prod(shape), shape)), f'x has shape {shape}, where a query on {of} has shape ({axes},)')
        refused = veltzuma.MulticubicRegular([4], [0.0], [0.0], CUBE[3])
        self.assertEqual(self.error(refused.interp_one, [1.0, 2.0]), 'a query of 2 coordinates, where the grid has 1 axis')
        for axes in (0, 5, 2 ** 63):
            grid = veltzuma.MulticubicRegular([4] * 5, [0.0] * 5, [1.0] * 5, [1.0] * 1024, axis_count=axes)
            for call, x in itertools.product((grid.interp_one, grid.interp_one_grad, grid.get_loc), ([], [1.0] * 2, [1.0] * 5)):
                with self.assertRaises(veltzuma.Refusal) as caught:
                    call(x)
                self.assertEqual(caught.exception.number, 1)

    def test_no_dimension(self):
        """A buffer of no dimension is one number, as it was; a plain number is no list."""
        grid = veltzuma.MulticubicRegular(*CUBE)
        for one in (ctypes.c_double(2.0), memoryview(ctypes.c_double(2.0)), memoryview(array.array('d', [2.0])).cast('B').cast('d', [])):
            self.assertEqual((grid.interp_one(one), grid.interp(one).tolist()), (8.0, [8.0]))
        for given in (2.0, 2, None):
            with self.assertRaises(TypeError) as caught:
                grid.interp_one(given)
            self.assertEqual(str(caught.exception), f'x: a list or a buffer of numbers is expected, not {type(given).__name__}')

    def test_counts_starts_and_steps(self):
        for name, wrong, told in (('counts', [[4, 5]], '(1, 2)'), ('counts', shaped([4, 5], (2, 1), 'L'), '(2, 1)'), ('starts', [[0.0, 0.0]], '(1, 2)'),
                                  ('starts', shaped([0.0, 0.0], (2, 1)), '(2, 1)'), ('steps', shaped([1.0, 1.0], (1, 2), 'f'), '(1, 2)'), ('steps', [[1.0], [1.0]], '(2, 1)')):
            given = {'counts': [4, 5], 'starts': [0.0, 0.0], 'steps': [1.0, 1.0], 'vals': [1.0] * 20}
            veltzuma.MulticubicRegular(**given).new()
            given[name] = wrong
            self.assertEqual(self.error(veltzuma.MulticubicRegular, **given), f'{name} has shape {told}, where one dimension is needed')
        self.assertEqual(self.error(veltzuma.MulticubicRectilinear, [[4], [4]], range(8), [1.0] * 16), 'counts has shape (2, 1), where one dimension is needed')

    def test_axes(self):
        """Joined, or a list of axes that goes with the counts."""
        first, second = [0.0, 1.0, 2.0, 4.0], [0.0, 1.0, 2.5, 3.0, 9.0]
        vals, queries = self.numbers(20, 8), self.numbers(10, 9)
        for width, code in CODE.items():
            expected = veltzuma.MulticubicRectilinear([4, 5], first + second, vals, width).interp(queries)
            for axes in ([first, second], (tuple(first), second), iter([first, second]), [array.array('d', first), memoryview(array.array('f', second))],
                         [array.array(code, first), second]):
                self.assertTrue(same(veltzuma.MulticubicRectilinear([4, 5], axes, vals, width).interp(queries), expected, width))
            square = veltzuma.MulticubicRectilinear([4, 4], first + second[1:], vals[:16], width).interp(queries)
            for axes in ([first, second[1:]], shaped(first + second[1:], (2, 4)), shaped(first + second[1:], (2, 4), code)):
                self.assertTrue(same(veltzuma.MulticubicRectilinear([4, 4], axes, vals[:16], width).interp(queries), square, width))
                self.assertTrue(same(veltzuma.MulticubicRectilinear.of_axes(axes, vals[:16], width).interp(queries), square, width))
        wide = [[0.0, 1.0], [1.0, 2.0], [2.0, 3.0], [3.0, 4.0]]
        for counts, axes, told in (
                ([4, 5], [first, first], 'axes has shape (2, 4), where the counts are [4, 5]'), ([4, 5], shaped(first * 2, (2, 4)), 'axes has shape (2, 4), where the counts are [4, 5]'),
                ([5, 4], [first, second], 'axes is a list of 2 axes of [4, 5] entries, where the counts are [5, 4]'),
                ([4, 5], [first, second, [0.0]], 'axes is a list of 3 axes of [4, 5, 1] entries, where the counts are [4, 5]'),
                ([4, 4], wide, 'axes has shape (4, 2), where the counts need (2, 4); list(zip(*axes)) has that shape'),
                ([4, 4], shaped(sum(wide, []), (4, 2)), 'axes has shape (4, 2), where the counts need (2, 4); its transpose has that shape'),
                ([4, 4], shaped(first * 2, (2, 4, 1)), 'axes has shape (2, 4, 1), where the counts need (2, 4)'),
                ([4, 5], [0.0, first], 'axes[0] is a number, where an axis has one dimension'), ([4, 5], [first, [second]], 'axes[1] has shape (1, 5), where an axis has one dimension')):
            self.assertEqual(self.error(veltzuma.MulticubicRectilinear, counts, axes, [1.0] * math.prod(counts)), told)
        self.assertEqual(self.error(veltzuma.MulticubicRectilinear.of_axes, [first, [second]], vals), 'axes[1] has shape (1, 5), where an axis has one dimension')
        with self.assertRaisesRegex(TypeError, r'^axes\[0\]: a list or a buffer of numbers is expected, not float$'):
            veltzuma.MulticubicRectilinear.of_axes(first, vals)

    def test_out(self):
        for width, code in CODE.items():
            grid = veltzuma.MulticubicRegular([4, 5], [0, 0], [1, 1], self.numbers(20, 10), width)
            queries = self.numbers(6, 11)
            expected, room = grid.interp_grad(queries), shaped([7.0] * 6, (2, 3), code)
            self.assertIs(grid.interp_grad(nested(queries, (2, 3)), room), room)
            self.assertTrue(same([x for row in room.tolist() for x in row], expected, width))
            for call, shape, needed in ((grid.interp_grad, (3, 2), '(2, 3)'), (grid.interp_grad, (6, 1), '(2, 3)'), (grid.interp_grad, (2, 4), '(2, 3)'),
                                        (grid.interp_grad, (1, 2, 3), '(2, 3)'), (grid.interp, (1, 3), '(3,)'), (grid.interp, (3, 1), '(3,)'), (grid.interp, (2, 3), '(3,)')):
                numbers = array.array(code, [7.0] * math.prod(shape))
                out = memoryview(numbers).cast('B').cast(code, list(shape))
                told = None
                try:
                    call(queries, out)
                except ValueError as error:
                    told = error
                self.assertEqual((str(told), numbers.tolist()), (f'out has shape {shape}, where {needed} is needed', [7.0] * len(numbers)))
                # The buffers are the caller's again, though the exception is kept.
                out.release()
                numbers.append(1.0)

    def test_lent(self):
        """What is in one piece is lent in any right shape, and a query's buffer is let go."""
        for width, code in CODE.items():
            numbers = array.array(code, self.numbers(20, 12))
            grid = veltzuma.MulticubicRegular([4, 5], [0, 0], [1, 1], memoryview(numbers).cast('B').cast(code, [4, 5]), width)
            numbers[5 * 2 + 3] = 80.0
            self.assertEqual(grid.interp_one([2, 3]), 80.0)
            rows = [array.array(code, [1.0] * 5) for _ in range(4)]
            grid = veltzuma.MulticubicRegular([4, 5], [0, 0], [1, 1], rows, width)
            rows[2][3] = 80.0
            self.assertEqual(grid.interp_one([2, 3]), 1.0)
            x, kept = array.array(code, [1.0, math.nan]), []
            for call in (grid.interp_one, grid.interp_one_grad, grid.get_loc, grid.interp):
                try:
                    call(x)
                except veltzuma.Refusal as refusal:
                    kept.append(refusal)
            x.append(1.0)
            for call in (grid.interp_one, grid.interp_one_grad, grid.get_loc):
                try:
                    call(x)
                except ValueError as error:
                    kept.append(error)
            x.append(1.0)
            self.assertEqual(len(kept), 7)

    def test_answers_of_numpy(self):
        """A batch answers with an array of numpy where the queries are one, or a list of such columns; with a stand-in for the module."""
        grid = veltzuma.MulticubicRegular([4, 5], [0, 0], [1, 1], [1.0] * 20)
        column, square = memoryview(array.array('d', [1.0, 2.0])), shaped([1.0, 2.0, 1.0, 2.0], (2, 2))
        for kind, ours, others in ((memoryview, (square, square[::-1], memoryview(array.array('d', [1.0] * 4)), [column, column], (column, [1.0, 2.0]), iter([column, column])),
                                    ([1.0] * 4, [[1.0, 2.0], [1.0, 2.0]], array.array('d', [1.0] * 4), [array.array('d', [1.0, 2.0])] * 2)),
                                   (array.array, (array.array('d', [1.0] * 4), [array.array('f', [1.0, 2.0])] * 2), (square, [column, column], [1.0] * 4))):
            with mock.patch.dict(sys.modules, numpy=types.SimpleNamespace(ndarray=kind, asarray=lambda made: ('asarray', made))):
                for queries in ours:
                    self.assertEqual(grid.interp(queries), ('asarray', array.array('d', [1.0, 1.0])))
                for queries in others:
                    self.assertEqual(grid.interp(queries), array.array('d', [1.0, 1.0]))
                out = array.array('d', [0.0, 0.0])
                self.assertIs(grid.interp(ours[0], out), out)


def flat(entries):
    for entry in entries:
        if hasattr(entry, '__len__'):
            yield from flat(entry.tolist() if hasattr(entry, 'tolist') else entry)
        else:
            yield entry


def at(rows, index):
    return functools.reduce(lambda found, i: found[i], index, rows)


class WidthOfValues(unittest.TestCase):
    """Where no width is named it is that of the values."""

    def test_width(self):
        numbers = CUBE[3]
        raw = array.array('f', numbers).tobytes()
        single = {'array': array.array('f', numbers), 'view': memoryview(array.array('f', numbers)), 'read-only': memoryview(raw).cast('f'),
                  'backwards': memoryview(array.array('f', numbers))[::-1], 'ctypes': (ctypes.c_float * 4)(*numbers),
                  'big-endian': (ctypes.c_float.__ctype_be__ * 4)(*numbers)}
        double = {'list': numbers, 'tuple': tuple(numbers), 'iterator': iter(numbers), 'array': array.array('d', numbers), 'view': memoryview(array.array('d', numbers)),
                  'ctypes': (ctypes.c_double * 4)(*numbers), 'big-endian': (ctypes.c_double.__ctype_be__ * 4)(*numbers), 'whole': array.array('i', [0, 1, 8, 27]),
                  'empty': [], 'bytes': memoryview(bytes([0, 1, 8, 27]))}
        for expected, forms in (('f32', single), ('f64', double)):
            for name, vals in forms.items():
                made = [veltzuma.MulticubicRegular(*CUBE[:3], vals)]
                if name != 'iterator':
                    made += [veltzuma.MulticubicRectilinear([4], range(4), vals), veltzuma.MulticubicRectilinear.of_axes([range(4)], vals)]
                    # One that is named is taken.
                    for width in veltzuma.WIDTHS:
                        self.assertEqual(veltzuma.MulticubicRegular(*CUBE[:3], vals, width).width, width)
                self.assertEqual({grid.width for grid in made}, {expected}, name)
        self.assertEqual(veltzuma.MulticubicRegular(*CUBE[:3], single['array']).interp([1.5]).typecode, 'f')
        rows = [1.0] * 4
        for vals, expected in ((shaped(rows * 4, (4, 4), 'f'), 'f32'), ([array.array('f', rows)] * 4, 'f32'), ([array.array('f', rows)] * 3 + [rows], 'f64'),
                               ([array.array('f', rows)] * 3 + [array.array('d', rows)], 'f64'), ([rows] * 4, 'f64'), (shaped(rows * 4, (4, 4)), 'f64')):
            self.assertEqual(veltzuma.MulticubicRegular([4, 4], [0, 0], [1, 1], vals).width, expected)
        # Only that of the values.
        self.assertEqual(veltzuma.MulticubicRegular([4], array.array('f', [0]), array.array('f', [1]), numbers).width, 'f64')

    def test_lent(self):
        """An array of f32 is lent as it is, since its width is the grid's."""
        vals = array.array('f', CUBE[3])
        grid = veltzuma.MulticubicRegular(*CUBE[:3], vals)
        vals[2] = 80.0
        self.assertEqual(grid.interp_one([2.0]), 80.0)


class WordsOfRefusals(unittest.TestCase):
    """A refusal says what is wrong with what was given, as it was then."""

    def told(self, call, *given):
        with self.assertRaises(veltzuma.Refusal) as caught:
            call(*given)
        return str(caught.exception)

    def test_of_the_grid(self):
        nan, ones = math.nan, [1.0] * 20
        regular, rectilinear = veltzuma.MulticubicRegular, veltzuma.MulticubicRectilinear
        for width in veltzuma.WIDTHS:
            for grid, words in (
                    (regular([4] * 5, [0] * 5, [1] * 5, [1.0]), '1 (axes): 5 axes, where a grid has 1 to 4'), (regular([], [], [], []), '1 (axes): 0 axes, where a grid has 1 to 4'),
                    (regular([4, 5], [0, 0], [1, 1], ones, axis_count=2 ** 64 - 1), '1 (axes): 18,446,744,073,709,551,615 axes, where a grid has 1 to 4'),
                    (regular([4, 4097], [0, 0], [1, 1], ones), '2 (size): axis 1 has 4,097 entries, where an axis has at most 4,096'),
                    (regular([1024, 1025], [0, 0], [1, 1], ones), '2 (size): 1,024 × 1,025 = 1,049,600 points, where a grid has at most 1,048,576'),
                    (regular([4, 5], [0, 0], [1, 1], ones[1:], width), '3 (mismatch): 19 values, where 4 × 5 = 20 are needed'),
                    (regular([4], [0], [1], ones[:1], width), '3 (mismatch): 1 value, where 4 are needed'),
                    # Counts past the axis count are not looked at.
                    (regular([4, 5, 6], [0] * 2, [1] * 2, ones[1:], width, axis_count=2), '3 (mismatch): 19 values, where 4 × 5 = 20 are needed'),
                    (regular([4, 5], [0, 0, 0], [1, 1, 1], ones, width, axis_count=3), '3 (mismatch): 2 counts, where there are 3 axes'),
                    (regular([4, 5], [0], [1, 1], ones, width), '3 (mismatch): 1 start, where there are 2 axes'),
                    (regular([4, 5], [0, 0], [], ones, width), '3 (mismatch): 0 steps, where there are 2 axes'),
                    (rectilinear([4, 5], range(8), ones, width), '3 (mismatch): 8 entries on the axes, where 4 + 5 = 9 are needed'),
                    (rectilinear([4], range(1), ones[:4], width), '3 (mismatch): 1 entry on the axes, where 4 are needed'),
                    (rectilinear([5, 3], range(8), ones[:15], width), '4 (short): axis 1 has 3 entries, where an axis has at least 4'),
                    (regular([1], [0], [1], ones[:1], width), '4 (short): axis 0 has 1 entry, where an axis has at least 4'),
                    (regular([5, 4], [0, 0], [1, -0.1], ones, width), '5 (not rising): axis 1: its step, -0.1, is not above 0'),
                    (regular([5, 4], [0, 0], [nan, 1], ones, width), '5 (not rising): axis 0: its step, nan, is not above 0'),
                    (rectilinear([5, 4], [0, 1, 2, 3, 4, 0.3, 0.3, 2, 3], ones, width), '5 (not rising): axis 1, entry 1: 0.3 is not above the entry before it, 0.3'),
                    (rectilinear([5, 4], [0, 1, 2, 3, 4, 0, 1, 3.4, 3.2], ones, width), '6 (disorder): axis 1, entry 3: 3.2 is below the entry before it, 3.4'),
                    (rectilinear([5, 4], [0, 1, nan, 3, 4, 0, 1, 2, 3], ones, width), '6 (disorder): axis 0, entry 2 is not a number, nan'),
                    (rectilinear([5, 4], [0, 1, 2, 2, 2, 0, 1, 1, 2], ones, width), '10 (flat): axis 0, entry 3: 2 equals the entry before it'),
                    (rectilinear([4, 5], [0, 1, 2, 3, -1, -0.5, -0.0, 0.0, 1], ones, width), '10 (flat): axis 1, entry 3: 0 equals the entry before it, -0')):
                self.assertEqual(self.told(grid.new), 'refused ' + words)
                x = [1.0] * min(grid.axis_count, 5)
                for call in (grid.interp_one, grid.interp_one_grad, grid.get_loc, grid.interp, grid.interp_grad):
                    self.assertEqual(self.told(call, x), 'refused ' + words)

    def test_of_a_query(self):
        """The coordinate, start and step of the query and axis that are refused."""
        inf, nan = math.inf, math.nan
        for width in veltzuma.WIDTHS:
            grid = veltzuma.MulticubicRegular([4, 5], [0.5, -3.25], [0.1, 2], [1.0] * 20, width)
            other = veltzuma.MulticubicRectilinear([4, 5], [0, 1, 2, 3, 0, 1, 2, 3, 4], [1.0] * 20, width)
            unplaceable = 'is not a finite number from -2^63 to below 2^63'
            for x, words in (([1, inf], f'8 (unplaceable): axis 1: (inf - -3.25) / 2 {unplaceable}'), ([-1e30, nan], f'8 (unplaceable): axis 0: (-1e+30 - 0.5) / 0.1 {unplaceable}'),
                             ([1, nan], '9 (missing): axis 1: no reading (nan)'), ([nan, inf], '9 (missing): axis 0: no reading (nan)')):
                for call in (grid.interp_one, grid.interp_one_grad, grid.get_loc):
                    self.assertEqual(self.told(call, x), 'refused ' + words)
                # Among other queries, each of another number.
                for k in (0, 3):
                    columns = [[0.25 + i for i in range(5)], [8.25 + i for i in range(5)]]
                    columns[0][k], columns[1][k] = x
                    columns[1][4] = nan
                    for call, queries in itertools.product((grid.interp, grid.interp_grad), (columns, columns[0] + columns[1])):
                        self.assertEqual(self.told(call, queries), 'refused ' + words.replace('axis', f'query {k}, axis'))
            self.assertEqual(self.told(other.interp, [[1, 1, 1], [1, 1, nan]]), 'refused 9 (missing): query 2, axis 1: no reading (nan)')
            self.assertEqual(self.told(other.get_loc, [nan, 1]), 'refused 9 (missing): axis 0: no reading (nan)')
        far = [0.5] * 5000
        far[4321] = nan
        self.assertEqual(self.told(veltzuma.MulticubicRegular(*CUBE).interp, far), 'refused 9 (missing): query 4321, axis 0: no reading (nan)')

    def test_of_a_batch(self):
        for width, code in CODE.items():
            grid = veltzuma.MulticubicRegular([4, 5], [0, 0], [1, 1], [1.0] * 20, width)
            for call, queries, room, words in (
                    (grid.interp, 3, None, '3 coordinates, where each query on 2 axes has 2'), (grid.interp_grad, 1, None, '1 coordinate, where each query on 2 axes has 2'),
                    (grid.interp, 6, 2, 'out has 2 entries, where 3 are needed'), (grid.interp, 2, 0, 'out has 0 entries, where 1 is needed'),
                    (grid.interp_grad, 6, 3, 'out has 3 entries, where 2 × 3 = 6 are needed'), (grid.interp_grad, 6, 1, 'out has 1 entry, where 2 × 3 = 6 are needed')):
                out = None if room is None else array.array(code, [0.0] * room)
                self.assertEqual(self.told(call, [1.0] * queries, out), 'refused 7 (batch): ' + words)
            self.assertEqual(self.told(grid.interp, array.array(code, bytes(2 * (veltzuma.MAX_QUERIES + 1) * array.array(code).itemsize))),
                             'refused 7 (batch): 1,048,577 queries, where a batch has at most 1,048,576')
            for mode in (3, 255):
                for call in (grid.interp_one, grid.interp_one_grad, grid.get_loc):
                    self.assertEqual(self.told(call, [1.0, 1.0], mode), f'refused 3 (mismatch): mode {mode}, where 0 to 2 are taken')
                for call in (grid.interp, grid.interp_grad):
                    self.assertEqual(self.told(call, [1.0, 1.0], None, mode), f'refused 3 (mismatch): mode {mode}, where 0 to 2 are taken')

    def test_of_the_moment(self):
        """What is lent may change after the refusal: the words are of what was refused. And they hold no buffer of the query."""
        for width, code in CODE.items():
            axes, steps, starts = array.array(code, [0, 1, 2, 2]), array.array(code, [0.0]), array.array(code, [0.0])
            kept = []
            for grid in (veltzuma.MulticubicRectilinear([4], axes, CUBE[3], width), veltzuma.MulticubicRegular([4], starts, steps, CUBE[3], width)):
                try:
                    grid.new()
                except veltzuma.Refusal as refusal:
                    kept.append(refusal)
            axes[3], steps[0], x = 1.0, 1.0, array.array(code, [math.inf])
            try:
                grid.interp_one(x)
            except veltzuma.Refusal as refusal:
                kept.append(refusal)
            x[0], steps[0], starts[0] = 0.0, 5.0, 7.0
            x.append(1.0)
            self.assertEqual([refusal.words for refusal in kept], ['axis 0, entry 3: 2 equals the entry before it', 'axis 0: its step, 0, is not above 0',
                                                                   'axis 0: (inf - 0) / 1 is not a finite number from -2^63 to below 2^63'])

    def test_without_words(self):
        """A refusal that is made by hand has words by its number."""
        said = {1: 'axes): the number of axes is not 1 to 4', 2: 'size): an axis has more than 4,096 entries, or the grid more than 1,048,576 points',
                3: 'mismatch): the lengths of what is given do not go together, or the mode is above 2', 4: 'short): axis 1 has fewer than 4 entries',
                5: 'not rising): axis 1: its step is not above 0, or entry 1 is not above entry 0',
                6: 'disorder): axis 1: an entry is not a number, or below the entry before it', 7: 'batch): more than 1,048,576 queries, or a buffer of the wrong length',
                8: 'unplaceable): query 5000, axis 1: a coordinate that has no place', 9: 'missing): query 5000, axis 1: no reading',
                10: 'flat): axis 1: an entry equals the entry before it', 11: 'unknown): query 5000, axis 1'}
        for number, words in said.items():
            for made in (veltzuma.Refusal(number, 5000, 1), veltzuma.Refusal(number, 5000, 1, lambda: None)):
                self.assertEqual((str(made), made.args), (f'refused {number} ({words}', (number, 5000, 1)))
        self.assertEqual(set(said) - {11}, set(veltzuma.REFUSALS))

    def test_when_they_are_made(self):
        """On demand, and once; copies have them."""
        asked = []
        made = veltzuma.Refusal(4, 0, 1, lambda: asked.append(1) or 'as it was')
        made.number_of_the_line = 7
        self.assertEqual(asked, [])
        self.assertEqual((str(made), str(made), made.words, asked), ('refused 4 (short): as it was', 'refused 4 (short): as it was', 'as it was', [1]))
        for again in (copy.copy(made), copy.deepcopy(made), *(pickle.loads(pickle.dumps(made, protocol)) for protocol in range(pickle.HIGHEST_PROTOCOL + 1))):
            self.assertEqual((type(again), str(again), again.args, again.number_of_the_line), (veltzuma.Refusal, str(made), (4, 0, 1), 7))
        self.assertEqual(veltzuma.Refusal(4, 0, 1, 'given').words, 'given')
        # A call that is refused asks for none.
        grid = veltzuma.MulticubicRectilinear([4], [0, 1, 2, 2], CUBE[3])
        with mock.patch.object(veltzuma.Words, 'flat', return_value='asked') as flat_words, self.assertRaises(veltzuma.Refusal) as caught:
            grid.new()
        flat_words.assert_not_called()
        self.assertEqual(str(caught.exception), 'refused 10 (flat): asked')
        flat_words.assert_called_once_with(0, array.array('d', [0, 1, 2, 2]))

    def test_as_the_tool_says_them(self):
        """Of a table and of its grid, but for the names."""
        from table_tool import files, words
        nan = math.nan
        cases = [('regular', [4, 5], [[0, 0], [1, 0]], 20), ('regular', [4, 3], [[0, 0], [1, 1]], 12), ('regular', [4, 4097], [[0, 0], [1, 1]], 1),
                 ('regular', [1024, 1025], [[0, 0], [1, 1]], 1), ('regular', [4, 5], [[0, 0], [1, 1]], 15), ('regular', [4] * 5, [[0] * 5, [1] * 5], 1),
                 ('rectilinear', [4, 4], [[0, 1, 2, 3], [0.1, 0.1, 2, 3]], 16), ('rectilinear', [4, 4], [[0, 1, 2, 3], [0, 1, 0.1, 3]], 16),
                 ('rectilinear', [4, 4], [[0, nan, 2, 3], [0, 1, 2, nan]], 16), ('rectilinear', [4, 4], [[0, 1, 2, 3], [-1, -0.1, -0.1, 3]], 16)]
        numbers = set()
        for width, (kind, counts, parts, length) in itertools.product(veltzuma.WIDTHS, cases):
            lines = ['veltzuma table 1', 'title: t', f'kind: {kind}']
            for i, count in enumerate(counts):
                lines += [f'axis: a{i}', 'unit: 1'] + ([f'start: {parts[0][i]}', f'step: {parts[1][i]}', f'count: {count}'] if kind == 'regular'
                                                       else ['entries: ' + ','.join(map(str, parts[i]))])
            lines += ['value: v', 'unit: 1', 'values:'] + [','.join(['1'] * min(counts[-1], length))] * max(1, length // counts[-1])
            found = files.read_table('t', width, ('\n'.join(lines) + '\n').encode())
            grid = (veltzuma.MulticubicRegular(counts, *parts, [1.0] * length, width) if kind == 'regular'
                    else veltzuma.MulticubicRectilinear(counts, sum(parts, []), [1.0] * length, width))
            with self.assertRaises(veltzuma.Refusal) as caught:
                grid.new()
            told = re.sub(r'axis (\d)', r"axis \1 'a\1'", str(caught.exception)).replace('a grid has', 'a table has')
            self.assertEqual(words.of_grid(found, caught.exception)[1], told)
            numbers.add(caught.exception.number)
        self.assertEqual(numbers, {1, 2, 3, 4, 5, 6, 10})
        for width in veltzuma.WIDTHS:
            found = files.read_table('t', width, b'veltzuma table 1\nkind: regular\naxis: a0\nunit: 1\nstart: 0.1\nstep: 0.3\ncount: 4\nvalue: v\nunit: 1\nvalues:\n1,2,3,4\n')
            grid = veltzuma.MulticubicRegular([4], [0.1], [0.3], [1, 2, 3, 4], width)
            for x in ([math.inf], [1e30], [nan]):
                with self.assertRaises(veltzuma.Refusal) as caught:
                    grid.interp_one(x)
                self.assertEqual(words.of_query(found, caught.exception, array.array(CODE[width], x)), str(caught.exception).replace('axis 0', "axis 0 'a0'"))

    def test_numbers_as_the_tool_writes_them(self):
        from table_tool import floats
        chosen = random.Random(22)
        for width, code in CODE.items():
            word = 'Q' if code == 'd' else 'I'
            for _ in range(4000):
                number = array.array(code, array.array(word, [chosen.getrandbits(64 if code == 'd' else 32)]).tobytes())[0]
                short = array.array(code, [float('%.*g' % (chosen.randrange(1, 8), chosen.uniform(-1e3, 1e3)))])[0]
                for x in (number, short, -0.0, math.inf, 16777216.0):
                    self.assertEqual(veltzuma._shown(x, width), floats.show(x, width))


class OfTheModule(unittest.TestCase):
    def test_repr(self):
        library = veltzuma.load(LIBRARY)
        for made, said in (
                (veltzuma.MulticubicRegular(*CUBE), "MulticubicRegular(counts=[4], starts=[0.0], steps=[1.0], vals=<4 values>, width='f64')"),
                (veltzuma.MulticubicRegular([4, 5], [0.1, -math.inf], [1e30, math.nan], array.array('f', [1.0])),
                 "MulticubicRegular(counts=[4, 5], starts=[0.1, -inf], steps=[1e+30, nan], vals=<1 value>, width='f32')"),
                (veltzuma.MulticubicRectilinear([4, 5], range(9), range(20)), "MulticubicRectilinear(counts=[4, 5], axes=<9 entries>, vals=<20 values>, width='f64')"),
                (veltzuma.MulticubicRectilinear([], [], [], axis_count=5), "MulticubicRectilinear(counts=[], axes=<0 entries>, vals=<0 values>, width='f64', axis_count=5)"),
                (veltzuma.MulticubicRegular(range(2000), range(2000), range(9), range(3000), 'f32'),
                 "MulticubicRegular(counts=<2,000 counts>, starts=<2,000 numbers>, steps=<9 numbers>, vals=<3,000 values>, width='f32')"),
                (library, f'Library({LIBRARY!r})'), (veltzuma.MulticubicRegular(*CUBE).interp_one([1.5]), '3.375'),
                (veltzuma.MulticubicRegular(*CUBE).interp_one_grad([1.5]), '[6.25]'), (veltzuma.Refusal(4, 0, 1), 'Refusal(4, 0, 1)')):
            self.assertEqual(repr(made), said)
        # Of what is lent, as it is now.
        steps = array.array('d', [1.0])
        grid = veltzuma.MulticubicRegular([4], [0.0], steps, CUBE[3])
        steps[0] = 0.5
        self.assertIn('steps=[0.5]', repr(grid))

    def test_hints(self):
        """Every public function and method says what it takes and what it gives, and each hint can be read."""
        seen = set()
        for name in veltzuma.__all__ + ['Words', 'product_words']:
            thing = getattr(veltzuma, name)
            functions = {name: thing} if inspect.isfunction(thing) else {}
            if inspect.isclass(thing):
                typing.get_type_hints(thing)
                for base in thing.__mro__:
                    if base.__module__ == 'veltzuma':
                        functions.update({f'{name}.{method}': getattr(found, '__func__', None) or getattr(found, 'fget', None) or found for method, found in vars(base).items()
                                          if (method in ('__init__', '__new__', '__repr__', '__str__', '__reduce__') or not method.startswith('_'))
                                          and isinstance(found, (types.FunctionType, property, classmethod, staticmethod))})
                if issubclass(thing, tuple):
                    self.assertEqual(set(typing.get_type_hints(thing)), set(thing._fields))
                    continue
            for of, function in functions.items():
                hints = typing.get_type_hints(function)
                parameters = [parameter for parameter in inspect.signature(function).parameters if parameter not in ('self', 'cls')]
                self.assertEqual([parameter for parameter in parameters + ['return'] if parameter not in hints], [], of)
                seen.add(of)
        for of in ('load', 'product_words', 'Library.__init__', 'Library.call', 'Refusal.__init__', 'Refusal.words', 'Value.__new__', 'Gradient.__init__', 'Words.flat',
                   *(f'{kind}.{method}' for kind in ('MulticubicRegular', 'MulticubicRectilinear')
                     for method in ('__init__', 'axis_count', 'new', 'get_loc', 'interp_one', 'interp_one_grad', 'interp', 'interp_grad')), 'MulticubicRectilinear.of_axes'):
            self.assertIn(of, seen)
        for name in ('MulticubicRegular', 'MulticubicRectilinear'):
            self.assertIs(inspect.signature(getattr(veltzuma, name)).parameters['width'].default, None)


if __name__ == '__main__':
    unittest.main()
