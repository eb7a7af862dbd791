"""veltzuma check: every refusal of a grid in words with its line, and the premises of the node rule on both sides of each bound."""
import math
import os
import re
import unittest
from decimal import Decimal

from support import InFolder, SAMPLES, TOP, run, table, text_of


def line_of(text, start, nth=1):
    return [i + 1 for i, line in enumerate(text.split('\n')) if line.startswith(start)][nth - 1]


class Refusals(InFolder):
    def refused(self, text, line, said, width='f64'):
        path = self.write(text)
        self.assertEqual(run('check', path, '--width', width), (1, f'{path}:{line}: {said}\n', ''))
        for words in (['eval', path, '--at', '1'], ['nodes', path], ['plot', path, '--along', '0', '-o', path + '.svg']):
            if words[0] == 'eval':
                words[-1] = ','.join(['1'] * text.count('axis:'))
            if words[0] != 'nodes' and 'axis:' not in text:
                continue
            self.assertOneLine(run(*words, '--width', width), 1, f'{path}:{line}: {said}')

    def test_1_axes(self):
        axes = [(f'a{i}', [0, 1, 2, 3]) for i in range(5)]
        text = table(axes, lambda *_: 1)
        self.refused(text, line_of(text, 'axis: a4'), 'refused 1 (axes): 5 axes, where a table has 1 to 4')
        text = table([], [['1']])
        self.refused(text, text.count('\n'), 'refused 1 (axes): 0 axes, where a table has 1 to 4')

    def test_2_size(self):
        text = table([('a', list(range(4097)))], lambda i: i)
        self.refused(text, line_of(text, 'entries'), "refused 2 (size): axis 0 'a' has 4,097 entries, where an axis has at most 4,096")
        text = table([('a', 0, 1, 4), ('b', 0, 1, 4097)], [['1']], 'regular')
        self.refused(text, line_of(text, 'count', 2), "refused 2 (size): axis 1 'b' has 4,097 entries, where an axis has at most 4,096")
        text = table([('a', 0, 1, 1024), ('b', 0, 1, 1025)], [['1']], 'regular')
        self.refused(text, line_of(text, 'axis: b'), 'refused 2 (size): 1,024 × 1,025 = 1,049,600 points, where a table has at most 1,048,576')
        text = table([('a', 0, 1, 18446744073709551615)], [['1']], 'regular')
        self.refused(text, line_of(text, 'count'), "refused 2 (size): axis 0 'a' has 18,446,744,073,709,551,615 entries, where an axis has at most 4,096")

    def test_3_mismatch(self):
        axes = [('a', [0, 1, 2, 3]), ('b', [0, 1, 2, 3, 4])]
        rows = [['1'] * 5 for _ in range(4)]
        rows[2] = ['1'] * 4
        text = table(axes, rows)
        self.refused(text, line_of(text, 'values') + 3, "refused 3 (mismatch): 4 values in this row, where axis 1 'b' has 5 entries; 19 values in all, "
                     'and 4 × 5 = 20 are needed')
        rows[2] = ['1', '2', '5', '3', '4', '5']
        text = table(axes, rows)
        self.refused(text, line_of(text, 'values') + 3, "refused 3 (mismatch): 6 values in this row, where axis 1 'b' has 5 entries; 21 values in all, "
                     'and 4 × 5 = 20 are needed; a decimal comma makes two values of one')
        text = table(axes, [['1'] * 5 for _ in range(3)])
        self.refused(text, text.count('\n'), 'refused 3 (mismatch): 15 values, where 4 × 5 = 20 are needed')

    def test_rows_that_make_up_for_each_other(self):
        rows = [['1'] * 5, ['1'] * 4, ['1'] * 6, ['1'] * 5]
        text = table([('a', [0, 1, 2, 3]), ('b', [0, 1, 2, 3, 4])], rows)
        path = self.write(text)
        self.assertOneLine(run('check', path), 2, f'{path}:{line_of(text, "values") + 2}: 4 values in a row, where axis \'b\' has 5 entries')

    def test_4_short(self):
        text = table([('a', [0, 1, 2, 3]), ('b', [0, 1, 2])], lambda *_: 1)
        self.refused(text, line_of(text, 'entries', 2), "refused 4 (short): axis 1 'b' has 3 entries, where an axis has at least 4")

    def test_5_not_rising(self):
        text = table([('a', 0, 1, 4), ('b', 0, 'nan', 4)], lambda *_: 1, 'regular')
        self.refused(text, line_of(text, 'step', 2), "refused 5 (not rising): axis 1 'b': its step, nan, is not above 0")
        text = table([('a', [0.5, 0.5, 2, 3])], lambda *_: 1)
        self.refused(text, line_of(text, 'entries'), "refused 5 (not rising): axis 0 'a', entry 1: 0.5 is not above the entry before it, 0.5")

    def test_6_disorder(self):
        text = table([('flow', [0, 1, 2, 3]), ('pressure', [0, 1, 2, 2.5, 3, 3.3, 3.4, 3.2])], lambda *_: 1)
        self.refused(text, line_of(text, 'entries', 2), "refused 6 (disorder): axis 1 'pressure', entry 7: 3.2 is below the entry before it, 3.4")
        text = table([('a', [0, 1, 1, 0.5])], lambda *_: 1)
        self.refused(text, line_of(text, 'entries'), "refused 6 (disorder): axis 0 'a', entry 3: 0.5 is below the entry before it, 1")
        text = table([('a', [0, 1, 'nan', 3])], lambda *_: 1)
        self.refused(text, line_of(text, 'entries'), "refused 6 (disorder): axis 0 'a', entry 2 is not a number, nan")

    def test_10_flat(self):
        for entries, said in (([0, 1, 2, 2.5, 3, 3.3, 3.4, 3.4], 'entry 7: 3.4 equals the entry before it'), ([0, 1, 2, '2.0', 5], 'entry 3: 2 equals the entry before it'),
                              # Of several the first.
                              ([0, 1, 1, 1, 2, 2], 'entry 2: 1 equals the entry before it'), ([-1, '-0', 0, 1], 'entry 2: 0 equals the entry before it, -0'),
                              ([-1, 0, '-0', 1], 'entry 2: -0 equals the entry before it, 0'), ([0, 1, 'inf', 'inf'], 'entry 3: inf equals the entry before it'),
                              (['-inf', 0, 'inf', 'inf'], 'entry 3: inf equals the entry before it')):
            text = table([('flow', [0, 1, 2, 3]), ('heat', entries)], lambda *_: 1)
            for width in ('f64', 'f32'):
                self.refused(text, line_of(text, 'entries', 2), f"refused 10 (flat): axis 1 'heat', {said}", width)

    def test_10_after_5_and_6(self):
        """Each looks at all axes before the next."""
        flat, line = [0, 1, 1, 2], ('entries', 2)
        for entries, said in (([0, 0, 1, 2], "refused 5 (not rising): axis 1 'b', entry 1: 0 is not above the entry before it, 0"),
                              ([0, 1, 3, 2], "refused 6 (disorder): axis 1 'b', entry 3: 2 is below the entry before it, 3"),
                              ([0, 1, 2, 'nan'], "refused 6 (disorder): axis 1 'b', entry 3 is not a number, nan"),
                              ([0, 1, 2, 1], "refused 6 (disorder): axis 1 'b', entry 3: 1 is below the entry before it, 2")):
            text = table([('a', flat), ('b', entries)], lambda *_: 1)
            self.refused(text, line_of(text, *line), said)
        # Of two flat axes the lowest.
        text = table([('a', [0, 1, 2, 3]), ('b', flat), ('c', flat)], lambda *_: 1)
        self.refused(text, line_of(text, *line), "refused 10 (flat): axis 1 'b', entry 2: 1 equals the entry before it")

    def test_in_f32_alone(self):
        """Two entries that f32 does not tell apart: 5 at the start of an axis, 10 after it. Both are told as the file has them."""
        for entries, said in (([1, 1.00000001, 2, 3], "5 (not rising): axis 0 'a', entry 1: 1 (1.00000001 in the file) is not above the entry before it, 1"),
                              ([0, 1, 1.00000001, 3], "10 (flat): axis 0 'a', entry 2: 1.00000001 and the entry before it, 1, are both 1 in f32"),
                              ([0, 1, 16777216, 16777217], "10 (flat): axis 0 'a', entry 3: 16777217 and the entry before it, 16777216, are both 16777216 in f32"),
                              ([0, 1, '1e39', '1e40'], "10 (flat): axis 0 'a', entry 3: 1e+40 and the entry before it, 1e+39, are both inf in f32"),
                              ([-1, -0.5, '-1e-50', '1e-50'], "10 (flat): axis 0 'a', entry 3: 1e-50 and the entry before it, -1e-50, are both 0 in f32")):
            text = table([('a', entries)], lambda *_: 1)
            self.assertEqual(run('check', self.write(text), '--width', 'f64')[0], 0)
            self.refused(text, line_of(text, 'entries'), 'refused ' + said, 'f32')
        # In f64 they are out of order.
        text = table([('a', [0, 1.00000001, 1, 3])], lambda *_: 1)
        self.refused(text, line_of(text, 'entries'), "refused 6 (disorder): axis 0 'a', entry 2: 1 is below the entry before it, 1.00000001")
        self.refused(text, line_of(text, 'entries'), "refused 10 (flat): axis 0 'a', entry 2: 1 and the entry before it, 1.00000001, are both 1 in f32", 'f32')

    def test_in_f64_alone(self):
        """Texts that are one f64, the middle between two numbers of f32, and in f32 lie on either side of it."""
        text = table([('a', [0, '1.00000005960464477539062499999999', '1.00000005960464477539062500000001', 3])], lambda *_: 1)
        self.refused(text, line_of(text, 'entries'), "refused 10 (flat): axis 0 'a', entry 2: 1.0000000596046448 equals the entry before it")
        self.assertEqual(run('check', self.write(text), '--width', 'f32')[0], 0)

    def test_words_of_the_document(self):
        """docs/TABLES.md quotes what is said."""
        told = re.findall(r'`(refused 10 [^`]+)`', ' '.join(text_of(os.path.join(TOP, 'docs', 'TABLES.md')).split()))
        self.assertEqual(len(told), 2)
        text = ' '.join(text_of(os.path.join(TOP, 'docs', 'TABLES.md')).split())
        self.assertIn("`refused 5 (not rising): axis 1 'heat', entry 1: 3.4 (3.40000001 in the file) is not above the entry before it, 3.4`", text)
        found = table([('flow', [0, 1, 2, 3]), ('heat', [3.4, 3.40000001, 5, 6])], lambda *_: 1)
        self.refused(found, line_of(found, 'entries', 2), re.search('`(refused 5 [^`]+)`', text)[1], 'f32')
        for said, width, last in zip(told, ('f64', 'f32'), ('3.4', '3.40000001')):
            text = table([('flow', [0, 1, 2, 3]), ('heat', [0, 1, 2, 2.5, 3, 3.3, 3.4, last])], lambda *_: 1)
            self.refused(text, line_of(text, 'entries', 2), said, width)


class Premises(InFolder):
    def told(self, text, width):
        path = self.write(text)
        status, out, err = run('check', path, '--width', width)
        self.assertEqual((status, err), (0, ''))
        lines = out.rstrip('\n').split('\n')
        self.assertIn(f'{path}: taken, in {width}: ', lines[0])
        return [line.replace(path, 'T') for line in lines[1:]]

    def within(self, text, *widths):
        for width in widths or ('f64', 'f32'):
            self.assertEqual(self.told(text, width), [f'T: within the premises of the node rule, in {width}: each stored point answers its own number'])

    def outside(self, text, start, said, *widths):
        line = line_of(text, *start) if isinstance(start, tuple) else line_of(text, start)
        for width in widths or ('f64', 'f32'):
            told = self.told(text, width)
            self.assertEqual([line for line in told if ': way out, in' not in line], [f'T:{line}: outside the premises of the node rule, in {width}: {said}'])
            self.assertEqual(len(told), 2)

    def test_samples(self):
        for path in SAMPLES:
            for width in ('f64', 'f32'):
                status, out, _ = run('check', path, '--width', width)
                self.assertEqual(status, 0)
                self.assertIn(f'within the premises of the node rule, in {width}', out)

    def test_gaps(self):
        least, most = 2.0 ** -20, 2 ** 20
        self.within(table([('a', [0, least, 1, 1 + most])], lambda i: i))
        self.outside(table([('a', [0, 1, 1 + 2.0 ** -21, 3])], lambda i: i), 'entries',
                     "axis 0 'a', entry 2: its gap to the entry before it, 4.76837158203125e-07, is below 2^-20", 'f64')
        self.outside(table([('a', [0, 1, 2, 2.0 ** 20 + 3])], lambda i: i), 'entries',
                     "axis 0 'a', entry 3: its gap to the entry before it, 1048577, is above 2^20")
        # Neighbours that are one unit in the last place apart are taken, the least numbers of all too.
        for width, beside, gap in (('f64', '1.0000000000000002', '2.220446049250313e-16'), ('f32', '1.00000012', '1.1920929e-07')):
            self.outside(table([('a', [0, 1, beside, 3])], lambda i: i), 'entries',
                         f"axis 0 'a', entry 2: its gap to the entry before it, {gap}, is below 2^-20", width)
        for width, tiny in (('f64', '5e-324'), ('f32', '1.4013e-45')):
            self.outside(table([('a', [-1, 0, tiny, 2 * float(tiny), 2])], lambda i: i), 'entries',
                         f"axis 0 'a', entry 2: its gap to the entry before it, {tiny}, is below 2^-20; so are 1 more", width)
        self.outside(table([('a', [0, 1, 2, 'inf'])], lambda i: i), 'entries', "axis 0 'a', entry 3: its gap to the entry before it, inf, is above 2^20")
        self.outside(table([('a', ['-inf', 0, 1, 'inf'])], lambda i: i), 'entries',
                     "axis 0 'a', entry 1: its gap to the entry before it, inf, is above 2^20; so are 1 more")

    def test_gaps_are_rounded_in_the_width(self):
        """A difference of 2^20 + 0.01, which f32 rounds to 2^20."""
        text = table([('a', [-1, '-0.97', '1048575.04', 2 ** 20 + 1])], lambda i: i)
        self.within(text, 'f32')
        self.outside(text, 'entries', "axis 0 'a', entry 2: its gap to the entry before it, 1048576.01, is above 2^20", 'f64')

    def test_steps_and_starts(self):
        for step in (2.0 ** -20, 1, 2 ** 20):
            for steps in (0, 1, -2 ** 20, 2 ** 20):
                self.within(table([('a', steps * step, step, 4)], lambda i: i, 'regular'))
        self.within(table([('a', '-0', 1, 4)], lambda i: i, 'regular'))
        for start, step, line, said in (
                (0, 2.0 ** -21, 'step', 'its step, 4.76837158203125e-07, is below 2^-20'), (0, 2 ** 21, 'step', 'its step, 2097152, is above 2^20'),
                (0, 0.75, 'step', 'its step, 0.75, is not a power of two'), (0, 'inf', 'step', 'its step, inf, is not a power of two'),
                (0.5, 1, 'start', 'its start, 0.5, is not a whole number of steps of 1'), ('nan', 1, 'start', 'its start, nan, is not a whole number of steps of 1'),
                ('5e-324', 2, 'start', 'its start, 5e-324, is not a whole number of steps of 2'),
                ('1e308', 2.0 ** -20, 'start', 'its start, 1e+308, is more than 2^20 steps of 9.5367431640625e-07 from 0'),
                (2 ** 20 + 1, 1, 'start', 'its start, 1048577, is more than 2^20 steps of 1 from 0'),
                (-2 ** 20 - 1, 1, 'start', 'its start, -1048577, is more than 2^20 steps of 1 from 0')):
            self.outside(table([('a', start, step, 4)], lambda i: i, 'regular'), line, f"axis 0 'a': {said}", 'f64')
        self.outside(table([('a', 0, 1, 4), ('b', 0, 0.1, 4)], lambda *_: 1, 'regular'), ('step', 2), "axis 1 'b': its step, 0.1, is not a power of two")

    def test_values(self):
        axes = [('a', [0, 1, 2, 3]), ('b', [0, 1, 2, 3.5])]
        self.outside(table(axes, lambda i, j: 'nan' if i == 2 else i), 'nan',
                     "the value at entries 2, 0 ('a' 2, 'b' 0) is nan, not a finite number; so are 3 more")
        text = table(axes, lambda i, j: '1e39' if (i, j) == (1, 3) else i)
        self.within(text, 'f64')
        self.outside(text, '1,1,1,1e39', "the value at entries 1, 3 ('a' 1, 'b' 3.5) is inf (1e39 in the file), not a finite number", 'f32')


class BothWidths(InFolder):
    """Without --width: what is the same in both widths is said once, and a refusal in either is status 1."""

    def judged(self, text, status, *lines):
        path = self.write(text)
        self.assertEqual(run('check', path), (status, ''.join(f'{path}{line}\n' for line in lines), ''))

    def test_taken(self):
        self.judged(table([('a', [0, 1, 2, 3.5]), ('b', [0, 1, 2, 3, 4])], lambda i, j: i * j), 0, ': taken, in both widths: rectilinear, 20 points: a 4 × b 5',
                    ': within the premises of the node rule, in both widths: each stored point answers its own number')

    def test_refused_by_the_handset(self):
        """The handset reads in f32."""
        self.judged(table([('a', [0, 1, 1.00000001, 3])], lambda i: i), 1, ': taken, in f64: rectilinear, 4 points: a 4',
                    ":6: outside the premises of the node rule, in f64: axis 0 'a', entry 2: its gap to the entry before it, 9.99999993922529e-09, is below 2^-20",
                    ":6: way out, in f64: axis 0 'a': with its entries times 10^2, in a smaller unit, it is within the premises",
                    ":6: in f32: refused 10 (flat): axis 0 'a', entry 2: 1.00000001 and the entry before it, 1, are both 1 in f32")

    def test_refused_in_f64_alone(self):
        self.judged(table([('a', [0, '1.00000005960464477539062499999999', '1.00000005960464477539062500000001', 3])], lambda i: i), 1,
                    ":6: in f64: refused 10 (flat): axis 0 'a', entry 2: 1.0000000596046448 equals the entry before it", ': taken, in f32: rectilinear, 4 points: a 4',
                    ":6: outside the premises of the node rule, in f32: axis 0 'a', entry 2: its gap to the entry before it, 1.1920929e-07, is below 2^-20",
                    ":6: way out, in f32: axis 0 'a': its gaps are from 1.1920929e-07 to 1.9999999, and in no unit, its entries times a power of ten, are all of "
                    'them within the premises')

    def test_refused_in_both(self):
        self.judged(table([('a', [0, 1, 3, 2])], lambda i: i), 1, ":6: refused 6 (disorder): axis 0 'a', entry 3: 2 is below the entry before it, 3")
        self.judged(table([('a', [0, 1.00000001, 1, 3])], lambda i: i), 1,
                    ":6: in f64: refused 6 (disorder): axis 0 'a', entry 2: 1 is below the entry before it, 1.00000001",
                    ":6: in f32: refused 10 (flat): axis 0 'a', entry 2: 1 and the entry before it, 1.00000001, are both 1 in f32")

    def test_within_in_one(self):
        self.judged(table([('a', [0, 1, 2, 3])], [[0, 1, '-1e39', 3]]), 0, ': taken, in both widths: rectilinear, 4 points: a 4',
                    ': within the premises of the node rule, in f64: each stored point answers its own number',
                    ":10: outside the premises of the node rule, in f32: the value at entries 2 ('a' 2) is -inf (-1e39 in the file), not a finite number",
                    ":10: way out, in f32: a query whose block holds such a value is answered with nan or an infinity; in a larger unit of 'volume' this one is a "
                    'number of f32')

    def test_the_files_own_text(self):
        """Beside the number as rounded, where f32 has made another of it."""
        for entries, said in (([1, '1.00000001', 2, 3], '5 (not rising): axis 0 \'a\', entry 1: 1 (1.00000001 in the file) is not above the entry before it, 1'),
                              (['1.00000001', 1, 2, 3], '5 (not rising): axis 0 \'a\', entry 1: 1 is not above the entry before it, 1 (1.00000001 in the file)'),
                              ([0, 1, '16777219', '2e3'], '6 (disorder): axis 0 \'a\', entry 3: 2000 is below the entry before it, 1.677722e+07 (16777219 in the file)'),
                              ([0.1, 0.2, 0.4, 0.3], '6 (disorder): axis 0 \'a\', entry 3: 0.3 is below the entry before it, 0.4')):
            found = run('check', self.write(table([('a', entries)], lambda i: i)), '--width', 'f32')
            self.assertEqual((found[0], found[1].split(':6: refused ')[1:], found[2]), (1, [said + '\n'], ''))
        path = self.write(table([('a', 0, '1e-50', 4)], lambda i: i, 'regular'))
        self.assertEqual(run('check', path, '--width', 'f32'), (1, f"{path}:7: refused 5 (not rising): axis 0 'a': its step, 0 (1e-50 in the file), is not above 0\n", ''))
        found = run('check', self.write(table([('a', '16777217', '1e39', 4)], lambda i: i, 'regular')), '--width', 'f32')
        self.assertIn("axis 0 'a': its step, inf (1e39 in the file), is not a power of two\n", found[1])
        found = run('check', self.write(table([('a', '0.50000000001', 1, 4)], lambda i: i, 'regular')), '--width', 'f32')
        self.assertIn("axis 0 'a': its start, 0.5 (0.50000000001 in the file), is not a whole number of steps of 1\n", found[1])

    def test_several(self):
        """Each is judged, whatever the others are; the status is the greatest."""
        good, bad = self.write(table([('a', [0, 1, 2, 3])], lambda i: i), 'good.table'), self.write('no table\n', 'bad.table')
        flat, none = self.write(table([('a', [0, 1, 1, 3])], lambda i: i), 'flat.table'), os.path.join(self.folder, 'none.table')
        told = {path: run('check', path) for path in (good, bad, flat, none)}
        self.assertEqual([told[path][0] for path in (good, flat, bad, none)], [0, 1, 2, 2])
        for paths, status in (([good, good], 0), ([good, flat], 1), ([flat, good], 1), ([bad, flat, good], 2), ([good, none, flat, bad], 2)):
            self.assertEqual(run('check', *paths), (status, *(''.join(told[path][i] for path in paths) for i in (1, 2))))
        self.assertEqual(run('check', good, flat, '--width', 'f32')[0], 1)


class WaysOut(InFolder):
    """What is said to bring a table within the premises does so when it is done."""

    def way(self, text, width='f64'):
        path = self.write(text)
        found = run('check', path, '--width', width)
        self.assertEqual((found[0], found[2]), (0, ''))
        return [line.split(f': way out, in {width}: ')[1] for line in found[1].split('\n') if ': way out, ' in line]

    def within(self, text):
        path = self.write(text, 'u.table')
        self.assertIn(f'{path}: within the premises of the node rule, in both widths: ', run('check', path)[1])

    def test_as_entries(self):
        text = table([('a', 0, 0.1, 5), ('b', 0.5, 1, 4)], lambda i, j: i - j, 'regular')
        said = "written as entries, 'kind: rectilinear' and for each axis its entries as f64 rounds them, the axes are within the premises"
        self.assertEqual((self.way(text), self.way(text, 'f32')), ([said], [said]))
        # As `nodes --list` has them.
        points = [line.split(',')[:2] for line in run('nodes', self.write(text), '--list', '--mode', 'cubic')[1].split('\n')[1:-1]]
        axes = [sorted({point[axis] for point in points}, key=float) for axis in (0, 1)]
        self.assertEqual(axes, [['0', '0.1', '0.2', '0.30000000000000004', '0.4'], ['0.5', '1.5', '2.5', '3.5']])
        self.within(table([('a', axes[0]), ('b', axes[1])], lambda i, j: i - j))

    def test_as_entries_in_another_unit(self):
        text = table([('a', 0, 2.0 ** -21, 4), ('b', 0, 3e7, 4), ('c', 0, 1, 4)], lambda i, j, k: i - j, 'regular')
        self.assertEqual(self.way(text), ["written as entries, 'kind: rectilinear' and for each axis its entries as f64 rounds them, those of axis 0 'a' times 10^1, in a "
                                          "smaller unit and axis 1 'b' times 10^-2, in a larger unit, the axes are within the premises"])
        self.within(table([('a', [i * 2.0 ** -21 * 10 for i in range(4)]), ('b', [0, 3e5, 6e5, 9e5]), ('c', [0, 1, 2, 3])], lambda i, j, k: i - j))

    def test_not_as_entries(self):
        for axis in (('b', 0, 'inf', 4), ('b', 'nan', 1, 4), ('b', 2 ** 60, 1, 4)):
            self.assertEqual(self.way(table([('a', 0, 0.1, 5), axis], lambda i, j: i - j, 'regular')),
                             ["written as entries axis 0 'a' would be within the premises, but axis 1 'b' would not"])
            self.assertEqual(self.way(table([axis], lambda i: i, 'regular')), ["written as entries axis 0 'b' would not be within the premises"])

    def test_another_unit(self):
        for entries, shift, unit in (([0, 1, 1 + 2.0 ** -21, 3], 1, 'smaller'), ([0, 1, 2, 2 ** 20 + 3], -1, 'larger'), (['0', '1e-9', '3e-9', '4e-9'], 3, 'smaller'),
                                     (['-1e300', '0', '1e300', '1.5e300'], -294, 'larger')):
            self.assertEqual(self.way(table([('a', entries)], lambda i: i)), [f"axis 0 'a': with its entries times 10^{shift}, in a {unit} unit, it is within the premises"])
            self.within(table([('a', [Decimal(str(entry)).scaleb(shift) for entry in entries])], lambda i: i))

    def test_no_unit(self):
        self.assertEqual(self.way(table([('a', [0, 1e-7, 1, 1e6])], lambda i: i)),
                         ["axis 0 'a': its gaps are from 1e-07 to 999999, and in no unit, its entries times a power of ten, are all of them within the premises"])
        self.assertEqual(self.way(table([('a', [0, 1, 2, 'inf'])], lambda i: i)), ["axis 0 'a': with an infinite entry it is within the premises in no unit"])

    def test_values(self):
        told = 'a query whose block holds such a value is answered with nan or an infinity; '
        axes = [('a', [0, 1, 2, 3]), ('b', [0, 1, 2, 3.5, 4])]
        text = table(axes, lambda i, j: 'nan' if j == 2 else i + j)
        self.assertEqual(self.way(text), [told + "measure the points, or leave out entry 2 of axis 1 'b'"])
        self.within(table([axes[0], ('b', [0, 1, 3.5, 4])], lambda i, j: i + j))
        self.assertEqual(self.way(table(axes, lambda i, j: 'inf' if (i, j) == (3, 4) else 1)), [told + "measure the point, or leave out entry 4 of axis 1 'b'"])
        self.assertEqual(self.way(table(axes[:1], [[0, 1, 'nan', 3]])), [told + 'measure the point'])
        # Of a regular axis entries are left out at the ends alone.
        axes = [('a', 0, 1, 4), ('b', 0, 1, 6)]
        self.assertEqual(self.way(table(axes, lambda i, j: 'nan' if j in (0, 5) else 1, 'regular')), [told + "measure the points, or leave out entries 0, 5 of axis 1 'b'"])
        self.assertEqual(self.way(table(axes, lambda i, j: 'nan' if j in (1, 5) else 1, 'regular')), [told + 'measure the points'])

    def test_what_such_a_block_answers(self):
        """Never a finite number, in any setting: so it is said."""
        for value in ('nan', 'inf', '-inf'):
            path = self.write(table([('a', [0, 1, 2, 3, 4, 5, 6])], [[0, 1, 2, value, 4, 5, 6]]))
            for mode in ('cubic', 'straight', 'held'):
                answers = [float(line) for line in run('eval', path, '--mode', mode, '--values', '--at', '-1', '0', '0.5', '1', '2', '3', '4.5', '5', '6', '7')[1]
                           .replace(',\n', '\n').split('\n')[1:-1]]
                self.assertEqual([math.isfinite(answer) for answer in answers], [False] * 10)


if __name__ == '__main__':
    unittest.main()
