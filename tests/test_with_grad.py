"""interp_one_with_grad, for C and from Python: value, gradient and marks are those of the calls apart, by bits; the number of sums; what a refusal leaves."""
import array
import copy
import ctypes
import itertools
import json
import math
import pickle
import random
import unittest

from support import Direct, EARLIER, InFolder, LARGEST, MARKS, MODES, SUMS, VERSION, alike, run_process, stand_in, table
from table_tool import files, floats, plot
import test_bindings
import veltzuma

CODE = {'f64': 'd', 'f32': 'f'}
NAME = 'interp_one_with_grad'
# What stands in every entry before a call.
KEPT = 77


def filled(rooms):
    for room in rooms:
        room[:] = [KEPT] * len(room)
    return rooms


def asked(direct, name, x, mode, rooms=None, refusal=2):
    """Number, what is then in `refusal`, and what is then in the rooms."""
    number, told, rooms = direct.ask(name, (mode, x), *filled(rooms if rooms is not None else direct.rooms(name)), refusal=[KEPT] * refusal)
    return number, told, [list(room) for room in rooms]


def untouched(direct, name):
    return [[KEPT] * len(room) for room in direct.rooms(name)]


def of_python(direct):
    """The binding's grid of the same numbers."""
    made = {'regular': veltzuma.MulticubicRegular, 'rectilinear': veltzuma.MulticubicRectilinear}[direct.kind]
    return made(direct.counts, *direct.lent, list(direct.grid[-2]), direct.width)


class AsTheCallsApart(unittest.TestCase):
    """The two calls apart are asked beside it; what they answer is proved and tested elsewhere."""

    def compare(self, direct, x, mode):
        """Asks the three; returns the number."""
        given = direct.kind, direct.width, mode, x
        apart = [asked(direct, name, x, mode) for name in ('interp_one', 'interp_one_grad')]
        number, refusal, (value, slopes, marks, sums) = asked(direct, NAME, x, mode)
        self.assertEqual([found[:2] for found in apart], [(number, refusal)] * 2, given)
        if number:
            # Nothing is written, but that no sum was taken.
            self.assertEqual([value, slopes, marks, sums], untouched(direct, NAME)[:3] + [[0]], given)
            return number
        (own_value, own_marks), (own_slopes, same_marks) = (rooms for _, _, rooms in apart)
        self.assertTrue(alike(value, own_value, direct.width), (given, value, own_value))
        self.assertTrue(alike(slopes, own_slopes, direct.width), (given, slopes, own_slopes))
        self.assertEqual((marks, marks, sums), (own_marks, same_marks, [SUMS[direct.axes]]), given)
        return 0

    def compare_from_python(self, made, x, mode):
        """The same by the binding: equal answers, or equal refusals in equal words."""
        found = []
        for name in ('interp_one', 'interp_one_grad', NAME):
            try:
                found.append(getattr(made, name)(x, mode))
            except veltzuma.Refusal as refusal:
                found.append((refusal.number, refusal.query, refusal.axis, str(refusal)))
        value, slopes, whole = found
        if not isinstance(value, float):
            self.assertEqual(found, [value] * 3)
            return value[0]
        self.assertEqual([type(part) for part in (whole, *whole)], [veltzuma.ValueAndGradient, veltzuma.Value, veltzuma.Gradient, int])
        self.assertTrue(alike([whole.value, *whole.gradient], [value, *slopes], made.width), (found, x, mode))
        self.assertEqual((whole.value.marks, whole.gradient.marks, whole.sums), (value.marks, slopes.marks, SUMS[made.axis_count]))
        return 0

    def test_random(self):
        """On 900 random grids, some of which are refused, with queries inside, outside, at no number, and far off; a part of the values is no finite number."""
        chosen, seen, seen_by_python = random.Random(27), set(), set()
        for turn in range(900):
            width = veltzuma.WIDTHS[turn % 2]
            direct = test_bindings.Calls.grids(chosen, width)[1]
            vals = direct.grid[-2]
            if turn % 5 == 0:
                for _ in range(1 + len(vals) // 9):
                    vals[chosen.randrange(len(vals))] = chosen.choice([math.nan, math.inf, -math.inf, -0.0, 1e38])
            made = of_python(direct)
            for mode in MODES:
                x = [chosen.choice([chosen.uniform(-6, 9)] * 9 + [0.0, 1.0, math.inf, -math.inf, 2.0 ** 70, -1e30, *([math.nan] * (turn % 3 == 0))]) for _ in range(min(direct.axes, 5))]
                x = array.array(CODE[width], x).tolist()
                seen.add((direct.kind, width, mode, self.compare(direct, x, mode)))
                seen_by_python.add((direct.kind, width, mode, self.compare_from_python(made, x, mode)))
        # A regular grid is not refused with 6 or 10, a rectilinear one not with 8, and held no number is without a place on these axes.
        self.assertEqual(seen, {(kind, width, mode, number) for kind, width, mode in itertools.product(('regular', 'rectilinear'), veltzuma.WIDTHS, MODES)
                                for number in (0, 1, 2, 3, 4, 5, 9, *((6, 10) if kind == 'rectilinear' else () if mode == 'held' else (8,)))})
        self.assertEqual(seen_by_python, seen)

    @staticmethod
    def grids(width, axes, vals=None):
        """The same grid of each kind, for straight calls: four or five entries from 0 on."""
        counts, chosen = [4, 5, 4, 4][:axes], random.Random(axes)
        vals = vals or [chosen.uniform(-9, 9) for _ in range(math.prod(counts))]
        joined = [float(k) for count in counts for k in range(count)]
        return Direct('regular', counts, [[0.0] * axes, [1.0] * axes], vals, width), Direct('rectilinear', counts, [joined], vals, width)

    def test_number_of_sums(self):
        """For each j from 1 to the number of axes 4^(axes - j) × (1 + j): inside, at nodes, past each end, at infinities, and whatever the values are."""
        self.assertEqual({axes: sum(4 ** (axes - j) * (1 + j) for j in range(1, axes + 1)) for axes in (1, 2, 3, 4)}, SUMS)
        for axes, width, mode in itertools.product(SUMS, veltzuma.WIDTHS, MODES):
            for vals in (None, [math.nan] * math.prod([4, 5, 4, 4][:axes]), [0.0] * math.prod([4, 5, 4, 4][:axes])):
                for direct in self.grids(width, axes, vals):
                    for x in itertools.product([1.5, 2.0, -1.0, 9.0], repeat=axes):
                        self.assertEqual(self.compare(direct, list(x), mode), 0)
                    if direct.kind == 'rectilinear' or mode == 'held':
                        self.assertEqual(self.compare(direct, [math.inf, -math.inf, 1.0, 2.5][:axes], mode), 0)

    def test_held(self):
        """Past an end the surface is level along the axis: its slope is +0 or -0, or NaN as the call apart has it; and as many sums are taken."""
        for axes, width in itertools.product(SUMS, veltzuma.WIDTHS):
            for direct in self.grids(width, axes):
                for past in itertools.product((None, -0.5, 7.5), repeat=axes):
                    x = [1.25 if at is None else at for at in past]
                    self.assertEqual(self.compare(direct, x, 'held'), 0)
                    _, _, (value, slopes, marks, sums) = asked(direct, NAME, x, 'held')
                    self.assertEqual([slope == 0 for slope in slopes], [at is not None for at in past])
                    self.assertEqual([MARKS[mark] for mark in marks], ['' if at is None else 'below' if at < 0 else 'above' for at in past])
            for direct in self.grids(width, axes, [math.inf] * math.prod([4, 5, 4, 4][:axes])):
                self.assertEqual(self.compare(direct, [-0.5] * axes, 'held'), 0)
                self.assertTrue(all(math.isnan(slope) for slope in asked(direct, NAME, [-0.5] * axes, 'held')[2][1]))

    def test_stored_points(self):
        """Each answers its own number, in every setting: these grids are within the premises."""
        for axes, width, mode in itertools.product((1, 2, 3), veltzuma.WIDTHS, MODES):
            for direct in self.grids(width, axes):
                for k, x in enumerate(itertools.product(*map(range, direct.counts))):
                    self.assertEqual(asked(direct, NAME, x, mode)[2][0], [direct.grid[-2][k]])

    def test_block(self):
        """What stands elsewhere than in a query's block, whatever it is, is not seen."""
        for width, mode in itertools.product(veltzuma.WIDTHS, MODES):
            chosen = random.Random(28)
            vals = [chosen.uniform(-9, 9) for _ in range(7 * 8)]
            for kind, lent in (('regular', [[0.0, 0.0], [1.0, 1.0]]), ('rectilinear', [[float(k) for count in (7, 8) for k in range(count)]])):
                for x, origin in (([1.5, 4.5], (0, 3)), ([-1.0, 9.0], (0, 4)), ([3.5, 3.5], (2, 2))):
                    answers = [asked(Direct(kind, [7, 8], lent, [number if origin[0] <= k // 8 < origin[0] + 4 and origin[1] <= k % 8 < origin[1] + 4 else other
                                                                 for k, number in enumerate(vals)], width), NAME, x, mode) for other in (0.5, math.nan, -math.inf)]
                    self.assertEqual(answers[0][0], 0)
                    self.assertEqual(answers, [answers[0]] * 3)


class Rooms(unittest.TestCase):
    """What is lent to be written. Its entries are checked by the number, so that none past the end is looked at or written."""

    def grids(self, width):
        """On two axes: one that is taken, and one that the last check of its kind refuses, each of either kind."""
        vals = [float(k * k % 13) for k in range(20)]
        rising, flat = [0, 1, 2, 3, 0, 1, 2, 3, 4], [0, 1, 2, 3, 0, 1, 2, 2, 4]
        return [(Direct('regular', [4, 5], [[0, 0], [1, 1]], vals, width), Direct('regular', [4, 5], [[0, 0], [1, 0]], vals, width), 5),
                (Direct('rectilinear', [4, 5], [rising], vals, width), Direct('rectilinear', [4, 5], [flat], vals, width), 10)]

    def test_too_short(self):
        """By one entry: 7, and nothing at all is written. A refusal of the grid comes first, and where there is room for it no sum is told."""
        for width, mode in itertools.product(veltzuma.WIDTHS, MODES):
            for taken, refused, number in self.grids(width):
                lengths = [len(room) for room in taken.rooms(NAME)]
                self.assertEqual(lengths, [1, 2, 2, 1])
                for short in range(4):
                    def rooms(short=short):
                        return [(room._type_ * (len(room) - (k == short)))() for k, room in enumerate(taken.rooms(NAME))]

                    as_it_was = [[KEPT] * (length - (k == short)) for k, length in enumerate(lengths)]
                    # The query is not looked at.
                    for x in ([1.5, 2.5], [-9.0, 9.0], [math.nan, math.nan], [math.inf, 1.0]):
                        self.assertEqual(asked(taken, NAME, x, mode, rooms()), (7, [KEPT, KEPT], as_it_was), (short, x))
                        self.assertEqual(asked(refused, NAME, x, mode, rooms()), (number, [0, 1], as_it_was[:3] + [[0] * len(as_it_was[3])]), (short, x))
                for refusal in (0, 1):
                    as_it_was = [[KEPT] * length for length in lengths]
                    self.assertEqual(asked(taken, NAME, [1.5, 2.5], mode, refusal=refusal), (7, [KEPT] * refusal, as_it_was))
                    self.assertEqual(asked(refused, NAME, [1.5, 2.5], mode, refusal=refusal), (number, [KEPT] * refusal, as_it_was[:3] + [[0]]))
                # All of them empty, by null pointers.
                empty = [(room._type_ * 0)() for room in taken.rooms(NAME)]
                self.assertEqual(asked(taken, NAME, [1.5, 2.5], mode, empty, 0), (7, [], [[], [], [], []]))
                words = [*taken.grid, ctypes.c_uint8(0), (taken.float * 2)(1.5, 2.5), ctypes.c_size_t(2), *[None, ctypes.c_size_t(0)] * 5]
                self.assertEqual(taken.dll[f'veltzuma_{taken.kind}_{NAME}' + ('_f32' if width == 'f32' else '')](*words) & 255, 7)

    def test_longer(self):
        """The first entries alone are written: one of value and of sums, one for each axis of gradient and marks."""
        for width, mode in itertools.product(veltzuma.WIDTHS, MODES):
            for taken, refused, number in self.grids(width):
                def rooms():
                    return [(room._type_ * 4)() for room in taken.rooms(NAME)]

                _, _, exact = asked(taken, NAME, [-1.5, 2.5], mode)
                self.assertEqual(asked(taken, NAME, [-1.5, 2.5], mode, rooms(), 3),
                                 (0, [0, 0, KEPT], [part + [KEPT] * (4 - len(part)) for part in exact]))
                self.assertEqual(asked(refused, NAME, [-1.5, 2.5], mode, rooms(), 3), (number, [0, 1, KEPT], [[KEPT] * 4] * 3 + [[0] + [KEPT] * 3]))

    def test_mismatch(self):
        """Too few counts, starts, steps or coordinates, or a mode that nobody named: 3, whatever the rooms are, and no sum."""
        for width in veltzuma.WIDTHS:
            for taken, _, _ in self.grids(width):
                told = (3, [0, 0], untouched(taken, NAME)[:3] + [[0]])
                for x, mode in (([1.5], 'cubic'), ([], 'held'), ([1.5, 2.5], 3), ([1.5, 2.5], 255), ([math.nan], 'straight')):
                    self.assertEqual(asked(taken, NAME, x, mode), told)
                for length in range(2, len(taken.grid), 2):
                    kept = taken.grid[length]
                    taken.grid[length] = ctypes.c_size_t(kept.value - 1)
                    self.assertEqual(asked(taken, NAME, [1.5, 2.5], 'cubic'), told, length)
                    taken.grid[length] = kept
                self.assertEqual(asked(taken, NAME, [1.5, 2.5], 'cubic')[0], 0)
                # Coordinates past the axis count are not looked at.
                self.assertEqual(asked(taken, NAME, [1.5, 2.5, math.nan, math.nan], 'cubic'), asked(taken, NAME, [1.5, 2.5], 'cubic'))

    def test_queries(self):
        """Of a query that is refused: number and axis, and no sum."""
        nan, far = math.nan, 2.0 ** 63
        for width, mode in itertools.product(veltzuma.WIDTHS, MODES):
            for taken, _, _ in self.grids(width):
                lower = (8, 0) if taken.kind == 'regular' and mode != 'held' else (9, 1)
                for x, (number, axis) in (([nan, 1.0], (9, 0)), ([1.0, nan], (9, 1)), ([nan, far], (9, 0)), ([far, nan], lower)):
                    self.assertEqual(asked(taken, NAME, x, mode), (number, [0, axis], untouched(taken, NAME)[:3] + [[0]]))


class FromPython(unittest.TestCase):
    def test_what_it_gives(self):
        """A tuple of a float, a list and a number, by name and in this order; copies have the marks."""
        grid = veltzuma.MulticubicRegular([4], [0.0], [1.0], [0.0, 1.0, 8.0, 27.0])
        whole = grid.interp_one_with_grad([4.0], 'straight')
        value, slopes, sums = whole
        marks = (veltzuma.Marks(below=False, above=True),)
        self.assertEqual((whole, whole._fields), ((52.0, [25.0], 2), ('value', 'gradient', 'sums')))
        self.assertEqual((value.marks, slopes.marks, json.dumps(whole)), (marks, marks, '[52.0, [25.0], 2]'))
        for again in (copy.copy(whole), copy.deepcopy(whole), *(pickle.loads(pickle.dumps(whole, protocol)) for protocol in range(pickle.HIGHEST_PROTOCOL + 1))):
            self.assertEqual((type(again), again, again.value.marks, again.gradient.marks), (veltzuma.ValueAndGradient, whole, marks, marks))
        self.assertEqual(grid.interp_one_with_grad([1.5]), grid.interp_one_with_grad([1.5], mode=0))
        self.assertEqual([grid.interp_one_with_grad([4.0], mode) for mode in MODES], [(58.0, [37.0], 2), (52.0, [25.0], 2), (27.0, [0.0], 2)])
        for axes, number in SUMS.items():
            for width in veltzuma.WIDTHS:
                grid = veltzuma.MulticubicRectilinear([4] * axes, [0, 1, 2, 3] * axes, [1.0] * 4 ** axes, width)
                self.assertEqual(grid.interp_one_with_grad([1.5] * axes), (1.0, [0.0] * axes, number))

    def test_what_it_takes(self):
        """As the other calls of a single query take it, or do not, with the same words."""
        grid = veltzuma.MulticubicRegular([4, 5], [0, 0], [1, 1], [1.0] * 20)
        for given in (([1.0],), ([1.0] * 3,), ([[1.0, 2.0]],), ('12',), ([None, 1],), (None,), ([1.0, 2.0], 'flat'), ([1.0, 2.0], None), ([1.0, 2.0], 256), ([1.0, 2.0], -1),
                      ([1.0, 2.0], 1.0)):
            told = []
            for call in (grid.interp_one, grid.interp_one_with_grad):
                with self.assertRaises((ValueError, TypeError, OverflowError)) as caught:
                    call(*given)
                told.append((type(caught.exception), str(caught.exception)))
            self.assertEqual(*told)
        # A query that the values themselves hold is not lent twice.
        vals = array.array('d', [0.0, 1.0, 8.0, 27.0])
        grid = veltzuma.MulticubicRegular([4], [0.0], [1.0], vals)
        self.assertEqual(grid.interp_one_with_grad(memoryview(vals)[1:2]), grid.interp_one_with_grad([1.0]))

    def test_words_of_a_refusal(self):
        for made, x, told in ((([4], [0.0], [0.0], [1.0] * 4), [1.0], 'refused 5 (not rising): axis 0: its step, 0, is not above 0'),
                              (([4], [0.0], [1.0], [1.0] * 3), [1.0], 'refused 3 (mismatch): 3 values, where 4 are needed'),
                              (([4], [0.0], [1.0], [1.0] * 4), [math.nan], 'refused 9 (missing): axis 0: no reading (nan)'),
                              (([4], [0.0], [1.0], [1.0] * 4), [math.inf], 'refused 8 (unplaceable): axis 0: (inf - 0) / 1 is not a finite number from -2^63 to below 2^63')):
            for width in veltzuma.WIDTHS:
                with self.assertRaises(veltzuma.Refusal) as caught:
                    veltzuma.MulticubicRegular(*made, width).interp_one_with_grad(x)
                self.assertEqual(str(caught.exception), told)

    def test_example(self):
        """What the call's own text shows."""
        grid = veltzuma.MulticubicRegular([4], [0.0], [1.0], [0.0, 1.0, 8.0, 27.0])
        shown = 'ValueAndGradient(value=3.375, gradient=[6.25], sums=2)'
        self.assertEqual(repr(grid.interp_one_with_grad([1.5])), shown)
        self.assertIn(shown, grid.interp_one_with_grad.__doc__)

    def test_release(self):
        """Calls that came with a later release than the first of the version came with this one or before it."""
        releases = [tuple(map(int, release.split('.'))) for release in ['%d.1' % veltzuma.VERSION, *veltzuma._LATER.values(), veltzuma.__version__]]
        self.assertEqual(releases, sorted(releases))


class Earlier(InFolder):
    """A library of this version that lacks the call."""

    def test_from_python(self):
        for name, (lacking, said) in EARLIER.items():
            with self.assertRaises(OSError) as caught:
                veltzuma.load(stand_in(self.folder, name, {'': VERSION, '_f32': VERSION}, lacking=lacking))
            self.assertEqual(str(caught.exception), f"{self.folder}/{said}; './veltzuma build' builds that where VELTZUMA_LIBRARY is not set")

    def test_the_tool(self):
        for name, (lacking, said) in EARLIER.items():
            path = stand_in(self.folder, name, {'': VERSION, '_f32': VERSION}, lacking=lacking)
            for words in (['check', LARGEST], ['eval', LARGEST, '--at', '1,2,3'], ['diff', LARGEST, LARGEST], ['build']):
                self.assertOneLine(run_process(*words, VELTZUMA_LIBRARY=path), 2, f'{self.folder}/{said}; ')


class Curves(InFolder):
    def test_value_and_slope_of_each_point(self):
        """Along each axis, in every setting and width: by bits what the library answers, and the slope is that along the axis."""
        numbers = [math.sin(k) * 9 for k in range(5 * 4 * 4)]
        for kind, axes, lent in (('rectilinear', [('a', [0, 1, 2, 4, 7]), ('b', [-1, 0, 2, 3]), ('c', [0, 0.5, 1, 9])], [[0, 1, 2, 4, 7, -1, 0, 2, 3, 0, 0.5, 1, 9]]),
                                 ('regular', [('a', 0, 1, 5), ('b', -1, 0.5, 4), ('c', 0, 3, 4)], [[0, -1, 0], [1, 0.5, 3]])):
            path = self.write(table(axes, lambda i, j, k: repr(numbers[16 * i + 4 * j + k]), kind))
            for width, mode, along in itertools.product(('f64', 'f32'), MODES, range(3)):
                found = files.read_table(path, width)
                grid = Direct(kind, [5, 4, 4], lent, [floats.round_to(number, width) for number in numbers], width)
                for at in (None, [1.5, 0.25, 0.75], [9.0, -3.0, math.nan]):
                    line = plot.Line(found, found.grid(veltzuma.load()), along, at, mode)
                    self.assertGreater(len(line.curve), 400)
                    for x, value, slope in line.curve[::7]:
                        answer = grid.one([x if axis == along else line.at[axis] for axis in range(3)], mode)
                        if len(answer) == 2:
                            self.assertEqual((value, slope), (None, None))
                        else:
                            self.assertTrue(alike([value, slope], [answer[0], answer[1][along]], width), (kind, width, mode, along, x))


if __name__ == '__main__':
    unittest.main()
