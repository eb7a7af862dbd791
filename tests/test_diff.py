"""veltzuma diff: the stored points at which two tables differ, by how much, and which queries read them."""
import csv
import io
import itertools
import math
import random
import unittest

from support import Direct, InFolder, MODES, SAMPLES, run, table
from table_tool import diff, files, floats
import veltzuma

RAMP = table([('a', [0, 1, 2, 3]), ('b', [0, 10, 20, 30, 45])], lambda i, j: i * 100 + j)
BOXES = 'queries in the boxes of these points may be answered differently (8.5)'


class Diff(InFolder):
    def test_none(self):
        for path in SAMPLES:
            status, out, err = run('diff', path, path)
            self.assertEqual((status, out), (0, ''))
            self.assertRegex(err, r'^veltzuma: 0 of \d+ stored points differ, in f64; at no stored point the tables answer differently')

    def test_some(self):
        one = self.write(RAMP, 'one.table')
        other = self.write(RAMP.replace('204', '204.5').replace('\n0,1,', '\n-0,7,'), 'other.table')
        status, out, err = run('diff', one, other)
        self.assertEqual(status, 1)
        self.assertEqual(out.split('\n'), [f'entry on a,entry on b,a,b,volume in {one},volume in {other},difference,% of the first,seen above a,seen to a,seen above b,'
                                           'seen to b', '0,1,0,10,1,7,6,600,-inf,inf,-inf,inf', '2,4,2,45,204,204.5,0.5,0.245098,-inf,inf,20,inf', ''])
        self.assertEqual(err, 'veltzuma: 2 of 20 stored points differ, in f64; among the stored points these and no others answer differently '
                         f'(docs/SPECIFICATION.md 8.4); between them {BOXES}\n')

    def test_differences(self):
        """Of the numbers as they are shown, and in % of the first; of 0 none."""
        pairs = [('0.1', '0.3', '0.2', '200'), ('103', '103.1', '0.1', '0.0970874'), ('0', '2', '2', ''), ('-0', '-3', '-3', ''), ('-10', '-11', '-1', '10'), ('4', '0', '-4', '-100'),
                 ('nan', '1', 'nan', ''), ('1', 'inf', 'inf', ''), ('1e300', '-1e300', '-2e+300', '-200'), ('5e-324', '1', '1', 'inf'), ('3', '4', '1', '33.3333')]
        for width, count in (('f64', 11), ('f32', 8)):
            axes = [('a', list(range(count)))]
            one, other = (self.write(table(axes, [[pair[i] for pair in pairs[:count]]]), name) for i, name in ((0, 'one.table'), (1, 'other.table')))
            rows = list(csv.reader(io.StringIO(run('diff', one, other, '--width', width)[1])))[1:]
            self.assertEqual([row[4:6] for row in rows], [list(pair[2:]) for pair in pairs[:count]])

    def test_in_the_width_asked(self):
        one, other = self.write(RAMP, 'one.table'), self.write(RAMP.replace('204', '204.000001'), 'other.table')
        self.assertEqual([run('diff', one, other, '--width', width)[0] for width in ('f64', 'f32')], [1, 0])

    def test_nan(self):
        """Two NaNs are no difference, a NaN and a number are one; and the node rule does not apply."""
        one = self.write(table([('a', [0, 1, 2, 3])], [['nan', 2, 'nan', 4]]), 'one.table')
        other = self.write(table([('a', [0, 1, 2, 3])], [['-nan', 2, 3, 4]]), 'other.table')
        status, out, err = run('diff', one, other)
        self.assertEqual((status, out.split('\n')[1:]), (1, ['2,2,nan,3,nan,,-inf,inf', '']))
        self.assertEqual(err, 'veltzuma: 1 of 4 stored points differ, in f64; outside the premises of the node rule, so that nothing is proved of what the stored points '
                         f'answer: {one}, {other}; {BOXES}\n')

    def test_answers_differ_where_diff_says(self):
        """The numbers that the two tables answer with at each stored point differ at the listed ones alone."""
        one, other = self.write(RAMP, 'one.table'), self.write(RAMP.replace('103', '99').replace('304', '-5'), 'other.table')
        found = [line.split(',')[2:4] for line in run('diff', one, other)[1].split('\n')[1:-1]]
        lists = [run('nodes', path, '--list', '--mode', 'cubic')[1].split('\n')[1:-1] for path in (one, other)]
        told = [a.split(',')[:2] for a, b in zip(*lists) if a.split(',')[4:] != b.split(',')[4:]]
        self.assertEqual((found, len(found)), (told, 2))

    def test_other_axes(self):
        one = self.write(RAMP, 'one.table')
        cases = [
            (RAMP.replace('0, 10, 20', '0, 11, 20'), 9, "axis 1 'b', entry 1: 11, where the first has 10"),
            (RAMP.replace('axis: b', 'axis: c'), 7, "axis 1 is 'c' in mm, where the first has 'b' in mm"),
            (RAMP.replace('unit: mm', 'unit: cm', 1), 4, "axis 0 is 'a' in cm, where the first has 'a' in mm"),
            (RAMP.replace('unit: mL', 'unit: L'), 10, "'volume' is in L, where the first has 'volume' in mL"),
            (table([('a', [0, 1, 2, 3])], [[1, 2, 3, 4]]), 4, '1 axis, where the first has 2'),
            (table([('a', [0, 1, 2, 3]), ('b', [0, 10, 20, 30])], lambda *_: 1), 7, "axis 1 'b' has 4 entries, where the first has 5"),
            (table([('a', 0, 1, 4), ('b', 0, 1, 5)], lambda *_: 1, 'regular'), 3, 'regular, where the first is rectilinear')]
        for text, line, said in cases:
            other = self.write(text, 'other.table')
            self.assertOneLine(run('diff', one, other), 2, f'{other}:{line}: not on the axes of {one}: {said}')
        one = self.write(table([('a', 0, 1, 4)], lambda i: i, 'regular'), 'one.table')
        for start, step, line, said in ((1, 1, 6, 'start: 1, where the first has 0'), (0, 2, 7, 'step: 2, where the first has 1')):
            other = self.write(table([('a', start, step, 4)], lambda i: i, 'regular'), 'other.table')
            self.assertOneLine(run('diff', one, other), 2, f"{other}:{line}: not on the axes of {one}: axis 0 'a', {said}")

    def test_refused(self):
        one, other = self.write(RAMP, 'one.table'), self.write(RAMP.replace('0, 10, 20', '0, 0, 20'), 'other.table')
        self.assertOneLine(run('diff', one, other), 2, f'{other}:9: refused 5 (not rising)')
        self.write(RAMP.replace('20, 30', '20, 20'), 'other.table')
        for first, second in ((one, other), (other, one)):
            self.assertOneLine(run('diff', first, second), 2, f"{other}:9: refused 10 (flat): axis 1 'b', entry 3: 20 equals the entry before it")


class Boxes(InFolder):
    """Exactly the queries that read a point are those that its row names, held as they are used: by the library's own places, at the ends and beside them."""
    TABLES = [table([('a', axis)], lambda i: i) for axis in (range(4), [-1.5, 0, 0.1, 3, 8, 8.5, 9, 20, 21.5], [-3, -2, '-1e-40', 0, '1e-40', 1, 5])]
    TABLES += [table([('a', start, step, count)], lambda i: i, 'regular') for start, step, count in (
        (16, 8, 11), (0, 1, 4), (0, 1, 5), (-4, 1, 9), (-0.3, 0.1, 12), (0.3, 0.7, 9), (-1e-3, 1e-3, 9), (1e6, 0.01, 9), ('1e300', '1e-300', 9), ('-inf', 1, 9), ('nan', 1, 9),
        (0, 'inf', 9), ('1e308', '1e308', 9), (0, '1e-45', 9), (16777216, 1, 9))]

    def rows(self, text, width):
        """The row of every stored point."""
        lines = text.split('values:\n')
        one = self.write(text, 'one.table')
        other = self.write(lines[0] + 'values:\n' + ','.join(f'{number}.5' for number in lines[1].strip().split(',')) + '\n', 'other.table')
        status, out, _ = run('diff', one, other, '--width', width)
        header, *rows = list(csv.reader(io.StringIO(out)))
        self.assertEqual((status, len(rows)), (1, text.count(',', text.index('values:')) + 1))
        return header[-2:], [tuple(floats.parse(cell, width) for cell in row[-2:]) for row in rows]

    def test_as_the_library_places_them(self):
        asked = 0
        for text, width in itertools.product(self.TABLES, ('f64', 'f32')):
            found = files.read_table(self.write(text), width)
            if width == 'f32' and any(number in text for number in ('1e300', '1e308', '1e-45')):
                # A start or a step that is no number of f32.
                continue
            axis, regular = found.axes[0], found.kind == 'regular'
            names, rows = self.rows(text, width)
            self.assertEqual(names, ['seen from a', 'seen below a'] if regular else ['seen above a', 'seen to a'])
            grid = Direct(found.kind, found.counts, [[axis.start], [axis.step]] if regular else [axis.entries], found.vals, width)
            most = floats.order(math.inf, width)
            places = {0, most, -most}
            for number in [end for row in rows for end in row] + axis.entries:
                if not math.isnan(number):
                    places |= {max(-most, min(most, floats.order(number, width) + beside)) for beside in (-2, -1, 0, 1, 2)}
            for place, mode in itertools.product(sorted(places), MODES):
                x = floats.in_order(place, width)
                number, _, (origins, _, _) = grid.ask('get_loc', (mode, [x]), *grid.rooms('get_loc'))
                if number:
                    continue
                asked += 1
                if mode == 'held':
                    # As used.
                    x = axis.entries[0] if x < axis.entries[0] else axis.entries[-1] if x > axis.entries[-1] else x
                for i, (low, high) in enumerate(rows):
                    # Past an end there is no bound.
                    above = low == -math.inf or (x >= low if regular else x > low)
                    below = high == math.inf or (x < high if regular else x <= high)
                    self.assertEqual(above and below, origins[0] <= i <= origins[0] + 3, (text, width, mode, x, i, low, high, origins[0]))
        self.assertGreater(asked, 3000)

    def test_answers(self):
        """Of two axes: outside the box both tables answer with the same bits, and inside they differ somewhere."""
        text = table([('a', [-1.5, 0, 0.1, 3, 8, 8.5, 9, 20]), ('b', list(range(10)))], lambda i, j: i * i - j)
        one, chosen = self.write(text, 'one.table'), random.Random(9)
        other = self.write(text.replace('\n16,15,14,13,12,', '\n16,15,14,13,12.5,'), 'other.table')
        row = list(csv.reader(io.StringIO(run('diff', one, other)[1])))[1]
        self.assertEqual(row, ['4', '4', '8', '4', '12', '12.5', '0.5', '4.16667', '0.1', 'inf', '2', '6'])
        queries = '\n'.join(f'{chosen.choice([chosen.uniform(-3, 10)] * 8 + [0.1, 9])},{chosen.choice([chosen.uniform(0, 9)] * 8 + [2, 6])}' for _ in range(3000)).encode()
        for mode in MODES:
            answers = [list(csv.reader(io.StringIO(run('eval', path, '--mode', mode, '--hex', stdin=queries)[1])))[1:] for path in (one, other)]
            inside = [float(line.split(',')[0]) > 0.1 and 2 < float(line.split(',')[1]) <= 6 for line in queries.decode().split('\n')]
            differ = [a != b for a, b in zip(*answers)]
            self.assertEqual([i for i, seen in enumerate(inside) if not seen and differ[i]], [])
            self.assertGreater(sum(differ), 300)

    def test_many(self):
        """Each bound of a long axis is looked for once."""
        text = table([('a', -3, 0.1, 400), ('b', 0, 1, 4)], lambda i, j: 1, 'regular')
        table_read, asked = files.read_table(self.write(text), 'f64'), []
        box = diff.Box(table_read, 0, veltzuma.load())
        reached = box._reached
        box._reached = lambda *words: asked.append(words) or reached(*words)
        first = [box.ends(i) for i in range(400)]
        count = len(asked)
        self.assertEqual([box.ends(i) for i in range(400)], first)
        self.assertEqual((len(asked), sorted({low for low, _ in first}) == [low for low, _ in first][3:]), (count, True))


if __name__ == '__main__':
    unittest.main()
