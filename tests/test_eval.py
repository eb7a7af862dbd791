"""veltzuma eval: every number against the library's own bits, asked straight; refused queries; long files."""
import array
import csv
import io
import itertools
import math
import os
import pty
import random
import subprocess
import sys
import time
import unittest

from support import Direct, InFolder, MARKS, MODES, SAMPLES, LARGEST, TOOL, bits, c_number, run, table, text_of
import veltzuma
from table_tool import evaluate, files, floats

REGULAR = table([('flow', -1.5, 0.1, 7), ('heat', 10, 4, 5)], lambda i, j: i * 3.7 - j * j / 7, 'regular')
RECTILINEAR = table([('flow', [-1.5, 0, 0.1, 3, 8]), ('heat', [10, 11.3, 11.4, 20]), ('head', [-4, 0, 1, 2, 5])], lambda i, j, k: i * j - k * k / 3)
DECIMAL_LINE = '-1.25,12.7'
NAMES = {8: 'unplaceable', 9: 'missing'}


def numbers(text, width):
    return [c_number(field, width) for field in text.split(',')]


def direct(text, width):
    """The grid of a table's text, for straight calls."""
    counts, starts, steps, axes, vals, kind, in_values = [], [], [], [], [], None, False
    for line in text.split('\n'):
        key, _, rest = line.partition(': ')
        if in_values:
            vals += numbers(line, width) if line and not line.startswith('#') else []
        elif key == 'kind':
            kind = rest
        elif key == 'entries':
            axes += numbers(rest.replace(' ', ''), width)
            counts.append(rest.count(',') + 1)
        elif key == 'start':
            starts += numbers(rest, width)
        elif key == 'step':
            steps += numbers(rest, width)
        elif key == 'count':
            counts.append(int(rest))
        elif line == 'values:':
            in_values = True
    return Direct(kind, counts, [starts, steps] if kind == 'regular' else [axes], vals, width)


def read(out):
    lines = list(csv.reader(io.StringIO(out)))
    return lines[0], lines[1:]


class Answers(InFolder):
    def queries(self, axes, count=60):
        """Inside, outside, at nodes, and what is no finite number."""
        chosen = random.Random(17)
        odd = ['nan', 'inf', '-inf', '1e300', '-1e300', '0', '-0', '1e-320', '10', '-1.5', '9.223372036854775807e18', '-9.3e18']
        return [','.join(chosen.choice(odd) if chosen.random() < 0.15 else repr(round(chosen.uniform(-20, 40), chosen.randrange(8))) for _ in range(axes))
                for _ in range(count)]

    def expected(self, grid, line, width, mode, shown):
        x = numbers(line, width)
        found = grid.one(x, mode)
        if len(found) == 2:
            return [shown(number) for number in x] + [''] * (1 + 4 * len(x)), found
        value, slopes, origins, classes, marks = found
        cells = [shown(number) for number in x + [value] + slopes]
        for origin, name in zip(origins, classes):
            cells += [str(origin), name]
        return cells + marks, None

    def test_bits(self):
        texts = [REGULAR, RECTILINEAR] + [text_of(path) for path in SAMPLES]
        refused, seen = [], set()
        for text in texts:
            lines = self.queries(text.count('axis:'))
            path, queries = self.write(text), self.write('\n'.join(lines) + '\n', 'q.csv')
            for width in ('f64', 'f32'):
                grid = direct(text, width)
                for mode in MODES:
                    status, out, err = run('eval', path, '--queries', queries, '--mode', mode, '--width', width, '--hex')
                    header, rows = read(out)
                    self.assertEqual(err, '')
                    self.assertEqual(len(rows), len(lines))
                    self.assertEqual({len(row) for row in rows}, {len(header)})
                    some = False
                    for line, row in zip(lines, rows):
                        cells, refusal = self.expected(grid, line, width, mode, lambda number: bits(number, width))
                        # Which payload a NaN has is not said.
                        nans = [i for i, cell in enumerate(cells) if cell.startswith('0x') and int(cell[2:], 16) & (1 << len(cell) * 4 - 9) - 1
                                > (0x7f800000 if width == 'f32' else 0x7ff0000000000000)]
                        for i in nans:
                            self.assertGreater(int(row[i][2:], 16) & (1 << len(row[i]) * 4 - 9) - 1, 0x7f800000 if width == 'f32' else 0x7ff0000000000000)
                            row[i] = cells[i]
                        self.assertEqual(row[:-1], cells, (line, mode, width))
                        self.assertEqual(bool(row[-1]), refusal is not None, row)
                        if refusal is None:
                            seen |= {(mode, mark) for mark in row[-1 - grid.axes:-1]}
                        else:
                            some = True
                            refused.append((grid.kind, refusal[0]))
                            self.assertIn(f"refused {refusal[0]} ({NAMES[refusal[0]]}): axis {refusal[1]} '", row[-1])
                        # A missing reading is answered nowhere, and a rectilinear axis refuses nothing else.
                        if 'nan' in line or grid.kind == 'rectilinear':
                            self.assertEqual(refusal is not None, 'nan' in line, (line, mode, width))
                    self.assertEqual(status, 1 if some else 0)
        self.assertEqual(set(refused), {('regular', 8), ('regular', 9), ('rectilinear', 9)})
        self.assertGreater(min(refused.count(one) for one in set(refused)), 10)
        self.assertEqual(seen, set(itertools.product(MODES, MARKS)))

    def test_decimals_read_back(self):
        for text in (REGULAR, RECTILINEAR):
            lines = self.queries(text.count('axis:'))
            path, given = self.write(text), '\n'.join(lines).encode()
            for width in ('f64', 'f32'):
                in_bits, in_decimals = (read(run('eval', path, '--width', width, *more, stdin=given)[1])[1] for more in (['--hex'], []))
                for a, b in zip(in_bits, in_decimals):
                    for cell, decimal in zip(a, b):
                        if cell.startswith('0x') and decimal != 'nan':
                            self.assertEqual(bits(c_number(decimal, width), width), cell)
                        elif not cell.startswith('0x'):
                            self.assertEqual(cell, decimal)

    def test_header_and_at(self):
        path = self.write(REGULAR)
        status, out, err = run('eval', path, '--at', '-1.25,12.7', '-1,2', '--at=0,1e3', '--mode', 'straight')
        header, rows = read(out)
        self.assertEqual((status, err), (0, ''))
        self.assertEqual(header, ['flow', 'heat', 'volume', 'slope along flow', 'slope along heat', 'origin on flow', 'class on flow', 'origin on heat',
                                  'class on heat', 'outside on flow', 'outside on heat', 'refusal'])
        self.assertEqual([row[:2] for row in rows], [['-1.25', '12.7'], ['-1', '2'], ['0', '1000']])
        self.assertEqual([row[5:] for row in rows], [['1', 'None', '0', 'InsideLow', '', '', ''], ['3', 'InsideHigh', '0', 'OutsideLow', '', 'below', ''],
                                                     ['3', 'OutsideHigh', '1', 'OutsideHigh', 'above', 'above', '']])

    def test_outside_is_no_class(self):
        """Of the query as given, held ends or not; at an end a query is not outside."""
        regular, rectilinear = self.write(table([('a', 0, 1, 5)], [[0, 1, 8, 27, 64]], 'regular')), self.write(table([('a', [0, 1, 2, 4, 7])], [[0, 1, 8, 64, 343]]), 'u.table')
        for path, mode, at, place in ((regular, 'cubic', '-0.5', 'OutsideLow,below'), (regular, 'cubic', '0', 'InsideLow,'), (regular, 'cubic', '4', 'OutsideHigh,'),
                                      (regular, 'held', '-0.5', 'InsideLow,below'), (regular, 'held', 'inf', 'OutsideHigh,above'), (rectilinear, 'cubic', '0', 'OutsideLow,'),
                                      (rectilinear, 'straight', '8', 'OutsideHigh,above'), (rectilinear, 'held', '8', 'InsideHigh,above'),
                                      (rectilinear, 'cubic', 'inf', 'OutsideHigh,above')):
            for width in ('f64', 'f32'):
                row = read(run('eval', path, '--at', at, '--mode', mode, '--width', width)[1])[1][0]
                self.assertEqual(','.join(row[4:]), place + ',', (path, mode, at))

    def test_outside_as_rounded(self):
        """The last entry is 0.3 + 0.7·3 as rounded, in either width less than 2.4."""
        path = self.write(table([('a', 0.3, 0.7, 4)], [[0, 1, 8, 27]], 'regular'))
        for width, last in (('f64', '2.3999999999999995'), ('f32', '2.3999998')):
            rows = read(run('eval', path, '--at', last, '--at', '2.4', '--width', width)[1])[1]
            self.assertEqual([row[5] for row in rows], ['', 'above'])

    def test_known_numbers(self):
        """Clause 9.2."""
        path = self.write(table([('a', 0, 1, 4)], [[0, 1, 8, 27]], 'regular'))
        for width in ('f64', 'f32'):
            for mode, at, value, slope in (('cubic', '1.5', '3.375', '6.25'), ('straight', '4', '52', '25'), ('cubic', '4', '58', None), ('held', '4', '27', '0'),
                                           ('held', 'inf', '27', '0'), ('held', '-inf', '0', '0')):
                row = read(run('eval', path, '--at', at, '--mode', mode, '--width', width)[1])[1][0]
                self.assertEqual(row[1], value)
                if slope:
                    self.assertEqual(row[2], slope)

    def test_queries_may_name_the_axes(self):
        path = self.write(REGULAR)
        plain = run('eval', path, stdin=b'-1.25,12.7\n')
        self.assertEqual(run('eval', path, '--queries', '-', stdin=b'# asked\n\nflow,heat\n\n -1.25 ,12.7\n'), plain)
        self.assertEqual(run('eval', path, '--queries', self.write('flow,"heat"\n-1.25,12.7', 'q.csv')), plain)
        found = run('eval', path, stdin=b'heat,flow\n1,2\n')
        self.assertEqual((found[0], found[2]), (2, 'standard input:1: the columns are heat, flow, and the table has its axes as flow, heat\n'))

    def test_no_queries(self):
        status, out, err = run('eval', self.write(REGULAR), stdin=b'flow,heat\n# none\n')
        self.assertEqual((status, out.count('\n'), err), (0, 1, ''))


class Batches(InFolder):
    """What is answered in batches is what each query answers alone, wherever the batches end."""

    def near(self, found):
        """Coordinates at the ends of places on an axis, and beside them in its width, some far away, and some that are refused."""
        width, chosen, columns = found.width, random.Random(23), []
        for axis in found.axes:
            near = [floats.in_order(floats.order(entry, width) + beside, width) for entry in axis.entries for beside in (-2, -1, 0, 1, 2)]
            span = axis.entries[-1] - axis.entries[0]
            columns.append(near + [floats.round_to(chosen.uniform(axis.entries[0] - span, axis.entries[-1] + span), width) for _ in range(60)]
                           + [0.0, -0.0, 1e30, -1e30, math.inf, -math.inf, math.nan])
        return [[chosen.choice(column) for column in columns] for _ in range(1500)]

    def test_each_alone(self):
        odd = table([('a', -0.3, 0.1, 9), ('b', 1000000, 0.01, 6)], lambda i, j: i * 3.7 - j * j / 7, 'regular')
        for text in (REGULAR, RECTILINEAR, odd, text_of(LARGEST)):
            for width, mode in itertools.product(('f64', 'f32'), MODES):
                found, grid = files.read_table(self.write(text), width), direct(text, width)
                queries = self.near(found)
                numbers = array.array(floats.CODE[width], [coordinate for x in queries for coordinate in x])
                for size in (7, 1500):
                    out, size = io.StringIO(), size * len(found.axes)
                    refused = evaluate.write(found, found.grid(veltzuma.load()), [numbers[i:i + size] for i in range(0, len(numbers), size)], mode, False, False, out)
                    rows = read(out.getvalue())[1]
                    self.assertEqual(len(rows), len(queries))
                    for x, row in zip(queries, rows):
                        alone = grid.one(x, mode)
                        cells = [floats.show(number, width) for number in x]
                        if len(alone) == 2:
                            refused -= 1
                            self.assertEqual(row[:-1], cells + [''] * (1 + 4 * len(x)))
                            self.assertIn(f'refused {alone[0]} (', row[-1])
                            continue
                        cells += [floats.show(number, width) for number in [alone[0]] + alone[1]]
                        cells += [str(cell) for pair in zip(alone[2], alone[3]) for cell in pair] + alone[4] + ['']
                        self.assertEqual(row, cells, (x, mode, width))
                    self.assertEqual(refused, 0)

    def test_as_before(self):
        """As each query was asked before there were batches of lines."""
        for text, width, mode in itertools.product((REGULAR, RECTILINEAR), ('f64', 'f32'), MODES):
            found = files.read_table(self.write(text), width)
            grid, queries = found.grid(veltzuma.load()), self.near(found)[:500]
            given = '\n'.join(','.join(floats.show(number, width) for number in x) for x in queries).encode()
            rows = read(run('eval', self.write(text), '--mode', mode, '--width', width, stdin=given)[1])[1]
            for row, (x, value, slopes, places, refusal) in zip(rows, evaluate.answers(found, grid, queries, mode)):
                self.assertEqual(row[len(x):2 * len(x) + 1], [''] * (1 + len(x)) if refusal else [floats.show(number, width) for number in [*value, *slopes]])
                self.assertEqual(row[-1], refusal or '')
                if not refusal:
                    self.assertEqual(row[2 * len(x) + 1:-1], [str(cell) for place in places for cell in place[:2]]
                                     + ['below' if place.below else 'above' if place.above else '' for place in places])

    def test_values(self):
        """The value alone, beside the refusal; as decimals and as bits."""
        for text, bad in ((REGULAR, 'inf,3'), (RECTILINEAR, '1,nan,2')):
            path, found = self.write(text), files.read_table(self.write(text), 'f64')
            lines = [','.join(map(repr, x)) for x in self.near(found)[:300]] + [bad, ','.join(['1'] * text.count('axis:'))]
            for mode, width, more in itertools.product(MODES, ('f64', 'f32'), ([], ['--hex'])):
                words = ['eval', path, '--mode', mode, '--width', width, *more]
                status, whole, _ = run(*words, stdin='\n'.join(lines).encode())
                found = run(*words, '--values', stdin='\n'.join(lines).encode())
                at = text.count('axis:')
                self.assertEqual(found[1].split('\n')[0], 'volume,refusal')
                self.assertEqual(read(found[1])[1], [[row[at], row[-1]] for row in read(whole)[1]])
                self.assertEqual((found[0], found[2]), (status, ''))

    def test_as_the_stream_has_them(self):
        """Lines may come in any pieces, with what is no query between them; each is read once, and a bad line is told by its number."""
        class Pieces(io.BytesIO):
            def read1(self, size):
                return super().read1(min(size, chosen.randrange(1, most)))

        chosen = random.Random(6)
        lines = [f'{chosen.uniform(-9, 9)!r},{chosen.randrange(9)}' for _ in range(2000)]
        found = files.read_table(self.write(REGULAR), 'f64')
        expected = [float(field) for line in lines for field in line.split(',')]
        for i, more in ((0, 'flow,heat'), (700, '# a note'), (701, ''), (1200, ' \t'), (1500, '"1.5", 2'), (1501, ' 3 ,\t4')):
            lines.insert(i, more)
        numbers = expected[:2 * 1496] + [1.5, 2.0, 3.0, 4.0] + expected[2 * 1496:]
        for most, end in itertools.product((3, 100, 30000, 1 << 20), ('', '\n')):
            parts = list(files.Queries('q', Pieces('\n'.join(lines).encode() + end.encode()), found))
            self.assertEqual([number for part in parts for number in part], numbers)
            parts = []
            with self.assertRaises(files.BadInput) as told:
                for part in files.Queries('q', Pieces('\n'.join(lines + ['1,2', '1,2,3', '1,2']).encode()), found):
                    parts += part
            self.assertEqual((str(told.exception).split(': ')[0], parts), (f'q:{len(lines) + 2}', numbers + [1.0, 2.0]))

    def test_texts_as_they_are(self):
        """What is shown of the queries is the same where their texts are at hand, with refused ones between them."""
        chosen, refused = random.Random(24), set()
        path = self.write(table([('a', 0, 0.00001, 9), ('b', -20, 10, 6)], lambda i, j: i * 3.7 - j * j / 7, 'regular'))
        plain = [lambda: '%.*f' % (chosen.randrange(3), chosen.uniform(-99, 99)), lambda: str(chosen.randrange(-999, 999)),
                 lambda: chosen.choice(('0', '-0.0', '5.'))]
        odd = plain + [lambda: chosen.choice(('1e3', '+7', '.25', '007', '0.00001', '123456789012345678', 'nan', 'inf')), lambda: repr(chosen.uniform(-99, 99))]
        for width, far in (('f64', '999999999999999'), ('f32', '')):
            found = files.read_table(path, width)
            for made, size in itertools.product((plain, odd), (1, 10, 3000)):
                lines = [(far if far and chosen.random() < 0.01 else chosen.choice(made)()) + ',' + chosen.choice(made)() for _ in range(3000)]
                parts = [part for i in range(0, 3000, size) for part in files.Queries('q', io.BytesIO(('\n'.join(lines[i:i + size]) + '\n').encode()), found)]
                self.assertEqual({hasattr(part, 'texts') for part in parts}, {True})
                outs = []
                for given in (parts, [array.array(part.typecode, part) for part in parts]):
                    out = io.StringIO()
                    refused.add(min(evaluate.write(found, found.grid(veltzuma.load()), given, 'cubic', False, False, out), 1))
                    outs.append(out.getvalue())
                self.assertEqual(*outs)
                self.assertEqual([row[:2] for row in read(outs[0])[1]],
                                 [[floats.show(floats.parse(field, width), width) for field in line.split(',')] for line in lines])
        self.assertEqual(refused, {0, 1})

    def test_answers_come_with_their_queries(self):
        """A program that waits for each answer before it asks again gets it."""
        process = subprocess.Popen([sys.executable, '-S', '-B', TOOL, 'eval', LARGEST, '--values'], stdin=subprocess.PIPE, stdout=subprocess.PIPE)
        for i in range(3):
            process.stdin.write(b'55,31.5,-120\n')
            process.stdin.flush()
            if not i:
                self.assertEqual(process.stdout.readline(), b'delivery,refusal\n')
            self.assertRegex(process.stdout.readline(), rb'^[0-9.]+,\n$')
        process.stdin.close()
        self.assertEqual((process.stdout.read(), process.wait()), (b'', 0))
        process.stdout.close()


class Refused(InFolder):
    """A refused query has its own line, and those around it their answers."""

    def test_each_place_in_a_part(self):
        for text, asked, bad, said in (
                (REGULAR, DECIMAL_LINE, 'inf,3', "refused 8 (unplaceable): axis 0 'flow': (inf - -1.5) / 0.1 is not a finite number from -2^63 to below 2^63"),
                (REGULAR, DECIMAL_LINE, '3,nan', "refused 9 (missing): axis 1 'heat': no reading (nan)"),
                (RECTILINEAR, DECIMAL_LINE + ',0.5', '3,nan,nan', "refused 9 (missing): axis 1 'heat': no reading (nan)")):
            path = self.write(text)
            good = read(run('eval', path, '--at', asked)[1])[1][0]
            for count, places in ((9, {0}), (9, {8}), (9, {0, 1, 2, 3}), (9, set(range(9))), (9, {2, 4, 5}), (9000, {0, 4095, 4096, 4097, 8191, 8999})):
                status, out, err = run('eval', path, stdin='\n'.join(bad if i in places else asked for i in range(count)).encode())
                rows = read(out)[1]
                self.assertEqual((status, err, len(rows)), (1, '', count))
                for i, row in enumerate(rows):
                    if i in places:
                        self.assertEqual(row, bad.split(',') + [''] * (1 + 4 * len(bad.split(','))) + [said])
                    else:
                        self.assertEqual(row, good)

    def test_a_missing_reading_in_the_middle(self):
        """In every setting and width, on both kinds: the rows around it are those of a file without it."""
        for text, before, middle, after, axis in ((REGULAR, ['-1.25,12.7', '-3,40'], '-1.2,nan', ['-1,11', '0,12'], "1 'heat'"),
                                                  (REGULAR, ['-1.25,12.7'], 'nan,1e300', ['-1,11'], "0 'flow'"),
                                                  (RECTILINEAR, ['1,12,0.5', '-3,40,9'], '1,12,nan', ['0,0,0', '2,11,-4'], "2 'head'"),
                                                  (RECTILINEAR, ['1,12,0.5'], 'nan,12,nan', ['2,11,-4'], "0 'flow'")):
            path = self.write(text)
            for mode, width, more in itertools.product(MODES, ('f64', 'f32'), ([], ['--hex'])):
                words = ['eval', path, '--mode', mode, '--width', width, *more]
                status, plain, _ = run(*words, stdin='\n'.join(before + after).encode())
                self.assertEqual(status, 0)
                status, out, err = run(*words, '--queries', self.write('\n'.join(before + [middle] + after), 'q.csv'))
                self.assertEqual((status, err), (1, ''))
                plain, out = plain.split('\n'), out.split('\n')
                row = out.pop(1 + len(before)).split(',')
                self.assertEqual(out, plain)
                self.assertEqual(row[len(middle.split(',')):], [''] * (1 + 4 * len(middle.split(','))) + [f'refused 9 (missing): axis {axis}: no reading (nan)'])

    def test_a_refusal_of_the_grid_is_no_line(self):
        """Only 8 and 9 are about a query, whatever numbers there are beside them."""
        class Refusing:
            def interp(self, *_):
                raise veltzuma.Refusal(self.number, 0, 0)
            interp_grad = interp

        found = files.read_table(self.write(REGULAR), 'f64')
        for number in range(1, 12):
            grid = Refusing()
            grid.number = number
            asked = evaluate.answers(found, grid, [[-1.25, 12.7]], 'cubic')
            if number in (8, 9):
                self.assertIn(f'refused {number} ({NAMES[number]}): ', next(asked)[4])
            else:
                with self.assertRaises(veltzuma.Refusal):
                    next(asked)

    def test_a_bad_line_ends_the_run(self):
        """The queries before it have their answers."""
        for count in (0, 1, 5000):
            status, out, err = run('eval', self.write(REGULAR), stdin=(f'{DECIMAL_LINE}\n' * count + '1,x\n1,2\n').encode())
            self.assertEqual((status, max(0, out.count('\n') - 1), err), (2, count, f"standard input:{count + 1}: 'x' is not a number\n"))


class LongFiles(InFolder):
    def test_bounded_memory(self):
        """A file four times as long takes no more memory, by the system's own count; all of its queries are different."""
        # Told by the process itself: what is told of it from outside begins with the memory of whoever started it.
        code = f"""if True:
            import re, runpy, sys
            sys.argv[0] = {TOOL!r}
            try:
                runpy.run_path(sys.argv[0], run_name='__main__')
            finally:
                with open('/proc/self/status') as told:
                    print(re.search(r'VmHWM:\\s*(\\d+) kB', told.read())[1], file=sys.stderr)"""
        for more in ([], ['--values']):
            peaks = []
            for count in (100000, 400000):
                path = os.path.join(self.folder, 'q.csv')
                with open(path, 'w') as queries:
                    for i in range(count):
                        queries.write(f'{i / 4096 % 97},{i / 1024 % 43},{i / 512 % 700 - 250}\n')
                done = subprocess.run([sys.executable, '-S', '-B', '-c', code, 'eval', LARGEST, '--queries', path, *more], stdout=subprocess.DEVNULL, stderr=subprocess.PIPE)
                self.assertEqual(done.returncode, 0, done.stderr)
                peaks.append(int(done.stderr))
            self.assertLess(peaks[1] - peaks[0], 2048, peaks)

    def test_few_single_calls(self):
        """Between two queries of one place none is asked alone: the calls grow with the places, not with the queries."""
        found, chosen = files.read_table(LARGEST, 'f64'), random.Random(4)
        grid, asked = found.grid(veltzuma.load()), []
        get_loc = grid.get_loc
        grid.get_loc = lambda x, mode: asked.append(x) or get_loc(x, mode)
        numbers = array.array('d', [chosen.uniform(-300, 500) for _ in range(3 * 100000)])
        evaluate.write(found, grid, [numbers[i:i + 9000] for i in range(0, len(numbers), 9000)], 'cubic', False, False, io.StringIO())
        self.assertLess(len(asked), 1500)

    def test_progress_on_a_terminal_alone(self):
        master, slave = pty.openpty()
        for errors in (slave, subprocess.PIPE):
            with open(os.path.join(self.folder, 'out'), 'wb') as out:
                process = subprocess.Popen([sys.executable, '-S', '-B', TOOL, 'eval', LARGEST], stdin=subprocess.PIPE, stdout=out, stderr=errors)
                # Two parts, and a while between them.
                for _ in range(2):
                    process.stdin.write(b'33.25,37.125,80.5\n' * 4096)
                    process.stdin.flush()
                    time.sleep(0.7)
                shown = process.communicate()[1]
                self.assertEqual(process.returncode, 0)
            if errors is slave:
                os.close(slave)
                shown = os.read(master, 4096)
                os.close(master)
                self.assertRegex(shown, rb'^\r[0-9,]+ queries ')
                self.assertTrue(shown.endswith(b'\r\x1b[K'), shown[-20:])
            else:
                self.assertEqual(shown, b'')

    def test_reader_that_leaves(self):
        queries = self.write('33.25,37.125,80.5\n' * 20000, 'q.csv')
        process = subprocess.Popen([sys.executable, '-S', TOOL, 'eval', LARGEST, '--queries', queries], stdout=subprocess.PIPE, stderr=subprocess.PIPE)
        process.stdout.readline()
        process.stdout.close()
        self.assertEqual((process.stderr.read(), process.wait()), (b'', 141))
        process.stderr.close()

    def test_full_disk(self):
        with open('/dev/full', 'wb') as full:
            done = subprocess.run([sys.executable, '-S', TOOL, 'eval', LARGEST, '--at', '1,2,3'], stdout=full, stderr=subprocess.PIPE)
        self.assertEqual((done.returncode, done.stderr), (2, b'veltzuma: [Errno 28] No space left on device\n'))


if __name__ == '__main__':
    unittest.main()
