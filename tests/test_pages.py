"""veltzuma nodes, plot and report: what they say, draw and write."""
import array
import hashlib
import html.parser
import itertools
import math
import os
import re
import subprocess
import sys
import unittest
import xml.etree.ElementTree

from support import bits, Direct, InFolder, LARGEST, LIBRARY, MODES, SAMPLES, TOP, run, run_process, table, text_of
from table_tool import floats, plot, report
import veltzuma

SVG = '{http://www.w3.org/2000/svg}'
EVIL = 'a<script>alert(1)</script>&"\'--> x'
# The widths of the letters of DejaVu Sans from U+0020 on, in thousandths of their size: it is wider than Helvetica and Arial.
PLAIN = [318, 401, 460, 838, 636, 950, 780, 275, 390, 390, 500, 838, 318, 361, 318, 337, *[636] * 10, 337, 337, 838, 838, 838, 531, 1000, 684, 686, 698, 770,
         632, 575, 775, 752, 295, 295, 656, 557, 863, 748, 787, 603, 787, 695, 635, 611, 732, 684, 989, 685, 611, 685, 390, 337, 390, 838, 500, 500, 613, 635,
         550, 635, 615, 352, 635, 634, 278, 278, 579, 278, 974, 634, 612, 635, 635, 411, 521, 392, 634, 592, 818, 592, 592, 525, 636, 337, 636, 838]
BOLD = [348, 456, 521, 838, 696, 1002, 872, 306, 457, 457, 523, 838, 380, 415, 380, 365, *[696] * 10, 400, 400, 838, 838, 838, 580, 1000, 774, 762, 734, 830,
        683, 683, 821, 837, 372, 372, 775, 637, 995, 837, 850, 733, 850, 770, 720, 682, 812, 774, 1103, 771, 724, 725, 457, 365, 457, 838, 500, 500, 675, 716,
        593, 716, 678, 435, 716, 712, 343, 343, 665, 343, 1042, 712, 687, 716, 716, 493, 595, 478, 712, 652, 924, 645, 652, 582, 712, 365, 712, 838]
FAR = {'−': 838, '…': 1000, '°': 500, '\u00b7': 318}
LONG = 'a name of an axis that is as long as any may be, which is eighty characters in a'
RAMP = table([('a', [0, 1, 2, 3]), ('b', [0, 10, 20, 30, 45])], lambda i, j: i * 100 + j)


class Samples(InFolder):
    def test_made_by_the_formula(self):
        subprocess.run([os.path.join(TOP, 'tools', 'synthetic'), self.folder], check=True)
        self.assertEqual(sorted(os.listdir(self.folder)), [os.path.basename(path) for path in SAMPLES])
        for path in SAMPLES:
            self.assertEqual(text_of(os.path.join(self.folder, os.path.basename(path))), text_of(path))

    def test_marked_as_synthetic(self):
        self.assertEqual(len(SAMPLES), 3)
        for path in SAMPLES:
            self.assertTrue(os.path.basename(path).startswith('synthetic-'))
            self.assertIn('title: Synthetic sample', text_of(path))
            self.assertIn('note: SYNTHETIC.', text_of(path))
        self.assertIn('756 points: strokes 7 × temperature 9 × pressure 12', run('check', LARGEST)[1])


class Nodes(InFolder):
    def test_samples(self):
        for path in SAMPLES:
            for width in ('f64', 'f32'):
                count = sum(line.count(',') + 1 for line in text_of(path).split('values:\n')[1].split('\n') if line and line[0] != '#')
                status, out, err = run('nodes', path, '--width', width)
                self.assertEqual((status, err), (0, ''))
                self.assertEqual(out.split('\n')[1:4], [f'{mode:8}  alone: {count} of {count} answer their own number   '
                                                        f'in one batch: {count} of {count} answer their own number' for mode in ('cubic', 'straight', 'held')])
                self.assertIn('within the premises', out)

    def test_list(self):
        path = self.write(RAMP)
        status, out, err = run('nodes', path, '--list', '--mode', 'held')
        self.assertEqual((status, out.count('\n')), (0, 21))
        self.assertEqual(out.split('\n')[:3], ['a,b,mode,stored,alone,in one batch', '0,0,held,0,0,0', '0,10,held,1,1,1'])
        self.assertIn('20 of 20', err)

    def test_points_that_do_not(self):
        """Outside the premises: a NaN in a block leaves no number to answer with."""
        path = self.write(table([('a', list(range(9)))], [['nan', 2, 3, 4, 5, 6, 7, 8, 9]]))
        status, out, _ = run('nodes', path, '--mode', 'cubic')
        self.assertEqual(status, 1)
        self.assertIn('alone: 6 of 9 answer their own number', out)
        self.assertIn('  alone: the point at entries 2 stores 3, and the answer is nan\n', out)
        self.assertIn(f'{path}:10: outside the premises of the node rule: the value at entries 0', out)

    def test_refused_point(self):
        path = self.write(table([('a', 'inf', 1, 4)], [[1, 2, 3, 4]], 'regular'))
        status, out, _ = run('nodes', path, '--mode', 'straight')
        self.assertEqual(status, 1)
        self.assertIn('0 of 4', out)
        self.assertIn('query 0: refused 8 (unplaceable)', out)
        for how in ('alone', 'in one batch'):
            self.assertIn(f'  {how}: the point at entries 3 stores 4, and the answer is none\n', out)
        # Its first node is 0 + inf·0, a NaN, and its last an infinity.
        path = self.write(table([('a', 0, 1, 4), ('b', 0, 'inf', 4)], lambda i, j: i + j, 'regular'))
        status, out, _ = run('nodes', path, '--mode', 'held')
        self.assertEqual(status, 1)
        self.assertIn("  in one batch, query 0: refused 9 (missing): axis 1 'b': no reading (nan)\n", out)
        self.assertIn('alone: 0 of 16', out)


class Box:
    """From where to where something goes in a drawing."""

    def __init__(self, left, top, right, bottom):
        self.left, self.top, self.right, self.bottom = left, top, right, bottom

    def __repr__(self):
        return f'{self.left:.1f} to {self.right:.1f}, {self.top:.1f} to {self.bottom:.1f}'

    def within(self, other):
        return other.left <= self.left and self.right <= other.right and other.top <= self.top and self.bottom <= other.bottom

    def apart(self, other):
        return self.right <= other.left or other.right <= self.left or self.bottom <= other.top or other.bottom <= self.top


def box_of(rect):
    left, top, width, height = (float(rect.get(name, 0)) for name in ('x', 'y', 'width', 'height'))
    return Box(left, top, left + width, top + height)


class Drawing:
    """What stands where in a picture, in its own units."""

    def __init__(self, root):
        self.root = root
        self.whole = Box(0, 0, *map(float, root.get('viewBox').split()[2:]))
        self.frames = [box_of(rect) for rect in root.iter(SVG + 'rect') if rect.get('fill') == 'none' and rect.get('height') == '300']
        self.shaded = [box_of(rect) for rect in root.iter(SVG + 'rect') if (rect.get('fill') or '').startswith('url(') and rect.get('height') == '300']
        self.dots = [(float(dot.get('cx')), float(dot.get('cy')), float(dot.get('r'))) for dot in root.iter(SVG + 'circle')
                     if dot.get('fill') != 'none' and dot.get('stroke')]
        # Of each panel's curve, the pieces.
        self.curves = [[[tuple(map(float, place.split())) for place in re.findall(r'[ML]([0-9. -]+)', piece)] for piece in re.findall('M[^M]*', group[0].get('d'))]
                       for group in root.iter(SVG + 'g')]
        # Level texts with their places, and those that stand upwards.
        self.texts, self.upright = [], []
        for text in root.iter(SVG + 'text'):
            said = ''.join(text.itertext()) if not len(text) else text[0].tail
            size, x, y = float(text.get('font-size', 13)), float(text.get('x')), float(text.get('y'))
            wide = sum(FAR.get(letter, 1100) if not letter.isascii() else (BOLD if text.get('font-weight') else PLAIN)[ord(letter) - 32] for letter in said) * size / 1000
            left = x - wide * {'start': 0, 'middle': 0.5, 'end': 1}[text.get('text-anchor', 'start')]
            if text.get('transform'):
                # About the place of the first line: a line below it is one to the right of it.
                first = float(text.get('transform').split()[2][:-1])
                self.upright.append((said, Box(x + y - first - 0.8 * size, first - wide / 2, x + y - first + 0.25 * size, first + wide / 2)))
            else:
                self.texts.append((said, Box(left, y - 0.8 * size, left + wide, y + 0.25 * size)))

    def across(self):
        """The labels along the axis."""
        return [(said, box) for said, box in self.texts if abs(box.bottom - 0.25 * 13 - self.frames[-1].bottom - 19) < 0.1]

    def beside(self, frame):
        """The labels beside a frame."""
        return [(said, box) for said, box in self.texts if box.right <= frame.left and frame.top - 20 < box.top < frame.bottom + 10]

    def marks(self, filled=True):
        """The marks at the edges of the frames: where their points are, and whether upwards."""
        found = []
        for path in self.root.iter(SVG + 'path'):
            mark = re.fullmatch(r'M([0-9.-]+) ([0-9.-]+)l-[57] (-?)[0-9.]+h1[04]z', path.get('d'))
            if mark and (path.get('fill') != 'none') == filled and any(frame.top <= float(mark[2]) <= frame.bottom for frame in self.frames):
                found.append((float(mark[1]), float(mark[2]), not mark[3]))
        return found


def contrast(one, other):
    """How far two colours are from each other, as the guidelines for accessible pages count it: from 1 to 21."""
    def light(colour):
        parts = [int(colour[k:k + 2], 16) / 255 for k in (1, 3, 5)]
        return sum(weight * (part / 12.92 if part <= 0.04045 else ((part + 0.055) / 1.055) ** 2.4) for weight, part in zip((0.2126, 0.7152, 0.0722), parts))
    low, high = sorted((light(one), light(other)))
    return (high + 0.05) / (low + 0.05)


def number_of(label):
    return float(label.replace('−', '-'))


class Plot(InFolder):
    def drawn(self, *words):
        path = os.path.join(self.folder, 'out.svg')
        self.assertEqual(run('plot', *words, '-o', path), (0, f'written: {path}\n', ''))
        root = xml.etree.ElementTree.parse(path).getroot()
        self.room(Drawing(root), words)
        return root

    def room(self, found, words):
        """Every text has its room; the curve stays across the frame, no more than its height past it, and is clipped to it."""
        for said, box in found.texts + found.upright:
            self.assertTrue(box.within(found.whole), (said, box, words))
        for (one, box), (other, second) in itertools.combinations(found.texts + found.upright, 2):
            self.assertTrue(box.apart(second), (one, box, other, second, words))
        for _, box in found.upright:
            self.assertTrue(any(frame.top <= box.top and box.bottom <= frame.bottom for frame in found.frames), (box, words))
        self.assertGreaterEqual(len(found.across()), 2 if len(found.frames) else 0, words)
        clips = {clip.get('id'): box_of(clip[0]) for clip in found.root.iter(SVG + 'clipPath')}
        self.assertEqual([repr(clip) for clip in clips.values()], [repr(frame) for frame in found.frames])
        for group, curve in zip(found.root.iter(SVG + 'g'), found.curves):
            clip = clips[re.fullmatch(r'url\(#(.+)\)', group.get('clip-path'))[1]]
            for x, y in itertools.chain(*curve):
                self.assertTrue(clip.left - 0.01 <= x <= clip.right + 0.01 and clip.top - 300.01 <= y <= clip.bottom + 300.01, (x, y, words))
        for (x, y, radius), (a, b, _) in itertools.combinations(found.dots, 2) if len(found.dots) < 500 else ():
            self.assertGreaterEqual(math.hypot(x - a, y - b), 2 * radius + 0.97, words)
        for x, y, _ in found.dots:
            self.assertTrue(found.frames[0].left <= x <= found.frames[0].right and found.frames[0].top < y < found.frames[0].bottom, words)

    def level(self, found, frame, number, low, high):
        """The height at which a number stands in a frame of that range."""
        return frame.bottom - (number - low) / (high - low) * (frame.bottom - frame.top)

    def test_range_of_what_lies_inside(self):
        """The frame is as high as the stored points and the answers inside the span, and 6 parts of a hundred more on either side, whatever the line does outside."""
        for values, entries in (([0, 1, 8, 27], None), ([0, 1, 0, 1, 0, 400], None), ([5, 3, 2, -9, 1e6, 3], None), ([1, 2, 4, 3], [-1, 0, 10, 11])):
            kind = 'rectilinear' if entries else 'regular'
            axis = ('a', entries) if entries else ('a', 0, 1, len(values))
            grid = Direct(kind, [len(values)], [entries] if entries else [[0.0], [1.0]], values, 'f64')
            first, last = (entries[0], entries[-1]) if entries else (0, len(values) - 1)
            for mode in MODES:
                found = Drawing(self.drawn(self.write(table([axis], [values], kind)), '--along', 'a', '--mode', mode, '--slope'))
                low, high = first - 0.15 * (last - first), last + 0.15 * (last - first)
                xs = [low + (high - low) * k / 480 for k in range(481)]
                inside = [grid.one([x], mode) for x in xs + (entries or list(range(len(values)))) if first <= x <= last]
                for frame, curve, numbers in zip(found.frames, found.curves, ([one[0] for one in inside] + values, [one[1][0] for one in inside])):
                    least, most = min(numbers), max(numbers)
                    room = 0.06 * (most - least)
                    for label, box in found.beside(frame):
                        y = (box.top + 0.8 * 13) - 4
                        self.assertAlmostEqual(y, self.level(found, frame, number_of(label), least - room, most + room), delta=0.02, msg=(values, mode, label))
                    self.assertGreater(len(found.beside(frame)), 2)
                    # Inside the span the curve never leaves the frame.
                    for x, y in itertools.chain(*curve):
                        if found.shaded[0].right <= x <= found.shaded[1].left:
                            self.assertTrue(frame.top < y < frame.bottom, (x, y))

    def test_leaving_the_range(self):
        """A mark where the line leaves the frame, and the farthest answer beside it; none where it does not leave."""
        values = [0, 1, 0, 1, 0, 400]
        grid = Direct('regular', [6], [[0.0], [1.0]], values, 'f64')
        path = self.write(table([('a', 0, 1, 6)], [values], 'regular'))
        for mode in MODES:
            root = self.drawn(path, '--along', 'a', '--mode', mode)
            found, said = Drawing(root), [said for said, _ in Drawing(root).texts]
            frame = found.frames[0]
            if mode == 'held':
                self.assertEqual(found.marks(), [])
                self.assertNotIn('leaves the range', said)
                continue
            (x, y, up), = found.marks()
            self.assertEqual((y, up), (frame.top + 2, True))
            # Where the line crosses the edge.
            crossing = next(b[0] for a, b in zip(found.curves[0][0], found.curves[0][0][1:]) if a[1] >= frame.top > b[1])
            self.assertAlmostEqual(x, crossing, delta=3)
            self.assertGreater(x, found.shaded[1].left)
            self.assertIn('to %.4g' % grid.one([5.75], mode)[0], said)
            self.assertIn('leaves the range', said)
            # The word is inside the frame and on no dot.
            word = next(box for text, box in found.texts if text.startswith('to '))
            self.assertTrue(word.within(frame))
            for a, b, radius in found.dots:
                self.assertTrue(word.apart(Box(a - radius, b - radius, a + radius, b + radius)))
        # Downwards, and on both sides.
        found = Drawing(self.drawn(self.write(table([('a', 0, 1, 4)], [[-27, 0, 0, -27]], 'regular')), '--along', 'a'))
        self.assertEqual([(y, up) for _, y, up in found.marks()], [(found.frames[0].bottom - 2, False)] * 2)
        self.assertLess(found.marks()[0][0], found.shaded[0].right)
        self.assertGreater(found.marks()[1][0], found.shaded[1].left)
        # In as many digits as it takes to see that it is past the frame.
        found = Drawing(self.drawn(self.write(table([('a', 0, 1, 4)], [['1e15', '1000000000000001', '1000000000000002', '1000000000000003']], 'regular')), '--along', 'a'))
        told = [number_of(said[3:]) for said, _ in found.texts if said.startswith('to ')]
        self.assertEqual(len(told), 2)
        self.assertTrue(told[0] < 1e15 - 0.18 and told[1] > 1e15 + 3.18, told)

    def test_farther_than_any_drawing(self):
        """Past the ends the cubic reaches 1e300 and more: the line is cut off a frame's height past the frame, on its way there."""
        grid = Direct('rectilinear', [4], [[0, 1, 2, 3]], [0, 1, 8, 27], 'f64')
        for at, edge, mode in (('30', 34.5, 'cubic'), ('1e300', 1.15e300, 'straight')):
            found = Drawing(self.drawn(self.write(table([('a', [0, 1, 2, 3])], [[0, 1, 8, 27]])), '--along', 'a', '--at', at, '--slope', '--mode', mode))
            self.assertEqual([len(found.frames), len(found.curves)], [2, 2])
            frame, heights = found.frames[0], [y for _, y in itertools.chain(*found.curves[0])]
            self.assertAlmostEqual(min(heights), frame.top - 300, delta=0.02)
            self.assertIn('to ' + ('%.4g' % grid.one([edge], mode)[0]).replace('e+', 'e'), [said for said, _ in found.texts])

    def test_dots_do_not_touch(self):
        """However many points are stored; the ends, the lowest and the highest have a dot, and the legend says how many have."""
        cases = [([k for k in range(count)], [math.sin(k / count * 9) + (k == count // 3) * 5 for k in range(count)]) for count in (5, 60, 90, 400, 4096)]
        cases.append(([0, 1, 1.001, 1.002, 5, 9.999, 10], [1, 2, 2, 2, 3, 1, 1.0001]))
        shown = []
        for entries, values in cases:
            found = Drawing(self.drawn(self.write(table([('a', entries)], [values])), '--along', 'a'))
            shown.append((len(found.dots), found.dots[0][2]))
            frame, said = found.frames[0], [said for said, _ in found.texts]
            self.assertIn('stored points' + (f', {len(found.dots):,} of {len(entries):,}' if len(found.dots) < len(entries) else ''), said)
            near = sorted(found.dots)
            for k, (x, y, radius) in enumerate(near):
                for a, b, _ in near[k + 1:k + 12]:
                    self.assertGreaterEqual(math.hypot(x - a, y - b), 2 * radius + 0.97)
            low, high = found.shaded[0].right, found.shaded[1].left
            self.assertAlmostEqual(near[0][0], low, delta=0.02)
            self.assertAlmostEqual(near[-1][0], high, delta=0.02)
            for pick, y in ((max, min(y for _, y, _ in found.dots)), (min, max(y for _, y, _ in found.dots))):
                x, = {x for x, b, _ in found.dots if b == y}
                entry = entries[values.index(pick(values))]
                self.assertAlmostEqual(x, low + (high - low) * (entry - entries[0]) / (entries[-1] - entries[0]), delta=0.02)
        # All of them while there is room, in three sizes; then as many as have room.
        self.assertEqual(shown[:3], [(5, 4), (60, 3), (90, 2)])
        self.assertEqual([radius for _, radius in shown[3:]], [2, 2, 2])
        self.assertTrue(80 < shown[3][0] < 400 and 80 < shown[4][0] < 400, shown)
        self.assertEqual(shown[5][0], 4)

    def test_labels_have_room(self):
        """Long labels, names, titles and units: `drawn` holds that each has its room, and what is cut has the whole as its title."""
        for name, bold in ((PLAIN, False), (BOLD, True)):
            for k, wide in enumerate(name):
                self.assertGreaterEqual(plot.text_width(chr(32 + k), 1000, bold), wide, chr(32 + k))
        lefts = {}
        for case, entries, values in (('short', [0, 1, 2, 3], [1, 2, 3, 4]), ('huge', ['-1.7e308', 0, '1e308', '1.7e308'], ['1.7e308', '-1.7e308', '1e308', 0]),
                                      ('fine', ['1e15', '1.000000000000001e15', '1.000000000000002e15', '1.000000000000003e15'],
                                       ['-1000000000000000', '-1000000000000001', '-1000000000000002', '-1000000000000005']),
                                      ('negative', ['-1.2345678e-7', 0, '1e-7', '1.2e-7'], ['-1.23456789012e-300', '1e-300', '2e-300', '2.5e-300'])):
            for more in ([], ['--slope'], ['--at', '1e-7', '--slope']):
                found = Drawing(self.drawn(self.write(table([('a', entries)], [values])), '--along', 'a', *more))
                for frame in found.frames:
                    for said, box in found.beside(frame):
                        self.assertGreaterEqual(box.left, max(upright.right for _, upright in found.upright), (case, said))
            lefts[case] = found.frames[0].left
        self.assertGreater(lefts['fine'], lefts['short'] + 50)
        whole = 'A title ' * 40 + 'to its end'
        text = table([(LONG, [0, 1, 2, 3]), ('W' * 80, [0, 1, 2, 3])], lambda i, j: i * j, title=whole, unit='W' * 200)
        for along in '01':
            root = self.drawn(self.write(text), '--along', along, '--slope', '--at', '1.3333333333333333,1e-300')
            titles = [found.text for found in root.iter(SVG + 'title')]
            self.assertIn(whole, titles)
            self.assertIn('volume, ' + 'W' * 200, titles)
            self.assertGreaterEqual(len([said for said, _ in Drawing(root).texts if said.endswith('…')]), 1)
            self.assertEqual(titles[0], f'volume along {[LONG, "W" * 80][int(along)]}')

    def test_ticks(self):
        """Round numbers, in order, of one form, as many as asked for and one more at most; exact in any range."""
        from fractions import Fraction
        for low, high, labels in ((0, 1, ['0', '0.2', '0.4', '0.6', '0.8', '1.0']), (-3, 11, ['−2', '0', '2', '4', '6', '8', '10']),
                                  (-1.7e308, 1.7e308, ['−1.5e308', '−1e308', '−5e307', '0', '5e307', '1e308', '1.5e308']),
                                  (0, 5e-324, ['0', '1e−324', '2e−324', '3e−324', '4e−324']), (250, 420, ['250', '300', '350', '400']),
                                  (1234567, 1234568, ['1234567.0', '1234567.2', '1234567.4', '1234567.6', '1234567.8', '1234568.0'])):
            self.assertEqual([label for _, label in plot.ticks(Fraction(low), Fraction(high))], labels)
        for low, high in itertools.combinations([Fraction(x) for x in (-1.7e308, -1e15, -3, -1e-9, -5e-324, 0, 1e-320, 0.3, 7, 1e15, 1e15 + 1, 1.7e308)], 2):
            for most in range(1, 10):
                found = plot.ticks(low, high, most)
                self.assertTrue(len(found) <= most + 1 and all(low <= number <= high for number, _ in found), (low, high, most))
                self.assertEqual([Fraction(label.replace('−', '-')) for _, label in found], [number for number, _ in found])
                self.assertGreaterEqual(len(found), math.floor(most / 2.5), (low, high, most))

    def test_breaks_have_a_word(self):
        values = [1, 2, 3, 4, 5, 'nan', 7, 8, 9, 10, 11, 'inf']
        root = self.drawn(self.write(table([('a', list(range(12)))], [values])), '--along', 'a')
        found = Drawing(root)
        said = [said for said, _ in found.texts]
        self.assertEqual([said.count(word) for word in ('nan', '−inf, nan, inf', 'no number is answered', 'stored points, 10 of 12')], [1, 1, 1, 1])
        # Where the curve is broken there is a bar, and the word is above it.
        pieces = [piece for piece in found.curves[0] if len(piece) > 1]
        self.assertEqual(len(pieces), 2)
        bars = [re.fullmatch(r'M([0-9.]+) ([0-9.]+)H([0-9.]+)', path.get('d')) for path in root.iter(SVG + 'path') if path.get('stroke-width') == '3']
        bars = [(float(bar[1]), float(bar[3])) for bar in bars if float(bar[2]) < found.frames[0].bottom]
        self.assertEqual(len(bars), 2)
        self.assertTrue(pieces[0][-1][0] < bars[0][0] + 2 and bars[0][1] - 2 < pieces[1][0][0], (bars, pieces[0][-1], pieces[1][0]))
        self.assertLess(bars[0][0] - pieces[0][-1][0], 3)
        word = next(box for text, box in found.texts if text == 'nan')
        self.assertTrue(bars[0][0] < word.left and word.right < bars[0][1] and word.within(found.frames[0]))
        # Nowhere a number: that is said, and there is no scale to read one from.
        for values in (['nan'] * 4, ['inf'] * 4):
            found = Drawing(self.drawn(self.write(table([('a', [0, 1, 2, 3])], [values])), '--along', 'a', '--slope'))
            self.assertEqual([len(found.beside(frame)) for frame in found.frames], [0, 0])
            self.assertEqual(sum(any(box.within(frame) for frame in found.frames) for text, box in found.texts if text == 'no number is answered'), 2)
        # Along an axis whose queries are all refused.
        found = Drawing(self.drawn(self.write(table([('a', 'nan', 1, 4)], [[1, 2, 3, 4]], 'regular')), '--along', '0'))
        self.assertEqual(found.curves, [])

    def test_level(self):
        """A table of one number is drawn as one level, and what rounding adds is not made to fill the frame."""
        for value, low, high in ((3.3, 2.97, 3.63), (0, -1, 1), (-1e300, -1.1e300, -0.9e300), ('5e-324', None, None)):
            root = self.drawn(self.write(table([('a', [0, 1, 2.3, 3])], [[value] * 4])), '--along', 'a', '--slope')
            found = Drawing(root)
            for frame, curve in zip(found.frames, found.curves):
                middle = (frame.top + frame.bottom) / 2
                self.assertTrue(all(abs(y - middle) < 0.02 for _, y in itertools.chain(*curve)), value)
            if low is not None:
                frame = found.frames[0]
                for label, box in found.beside(frame):
                    self.assertAlmostEqual(box.top + 0.8 * 13 - 4, self.level(found, frame, number_of(label), low, high), delta=0.02)
            self.assertEqual(found.marks(), [])
        # Stored points that differ by a unit are no noise.
        found = Drawing(self.drawn(self.write(table([('a', [0, 1, 2, 3])], [['1', '1.0000000000000002', '1', '1']])), '--along', 'a'))
        self.assertGreater(found.dots[0][1] - found.dots[1][1], 50)

    def test_outside_on_another_axis(self):
        """Then every query of the line is outside, and all the ground is shaded."""
        for at, said in (('7,12.5', '(above the last entry)'), ('-1,12.5', '(below the first entry)'), ('3,12.5', None), ('0,-100', None)):
            root = self.drawn(self.write(RAMP), '--along', 'b', '--at', at)
            found = Drawing(root)
            self.assertEqual(len(found.shaded), 2 if said is None else 1)
            text = ''.join(root.itertext())
            self.assertEqual([word in text for word in ('(above the last entry)', '(below the first entry)')],
                             [said == '(above the last entry)', said == '(below the first entry)'])
            if said:
                self.assertEqual(repr(found.shaded[0]), repr(found.frames[0]))

    def test_infinite_ends(self):
        """An axis whose last entry is infinite has no end there: nothing of what is drawn lies past it."""
        found = Drawing(self.drawn(self.write(table([('a', [0, 1, 2, 'inf'])], [[1, 2, 3, 4]])), '--along', 'a'))
        self.assertEqual(len(found.shaded), 1)
        self.assertEqual(found.shaded[0].left, found.frames[0].left)

    def test_asked_past_the_frame(self):
        """It has an open mark at the edge in place of the ring, and the legend says so."""
        path = self.write(table([('a', 0, 1, 6)], [[0, 1, 0, 1, 0, 400]], 'regular'))
        for at, edge, said in (('9', 'top', 'asked at 9: 6010, past the frame'), ('4.5', None, 'asked at 4.5: 149.875'), ('5', None, 'asked at 5: 400')):
            root = self.drawn(path, '--along', 'a', '--at', at)
            found = Drawing(root)
            self.assertIn(said, [text for text, _ in found.texts])
            self.assertEqual(len(self.circles(root, True)), 0 if edge else 2)
            self.assertEqual([(y, up) for _, y, up in found.marks(False)], [(found.frames[0].top + 2, True)] if edge else [])
        low, high = found.shaded[0].right, found.shaded[1].left
        x, = [x for x, _, _ in Drawing(self.drawn(path, '--along', 'a', '--at', '9')).marks(False)]
        self.assertTrue(low < x < found.frames[0].right)

    def test_light_and_dark(self):
        """Each thing that has a colour has one on a dark ground too, that can be told from it; without styles, and on paper, it is black on white."""
        root = self.drawn(self.write(RAMP), '--along', 'b', '--at', '1,77', '--slope')
        style = root.find(SVG + 'style').text
        wrapped = re.fullmatch(r'@media screen and \(prefers-color-scheme: dark\) \{\n(.*)\n\}', style, re.S)
        dark = {}
        for name, what, colour in re.findall(r'\.veltzuma(?: \.(\w+))? \{ (fill|stroke): (#[0-9a-f]{6}) \}', wrapped[1]):
            dark[name, what] = colour
        self.assertEqual(len(dark), wrapped[1].count('{'))
        self.assertEqual((root.get('class'), root.get('fill')), ('veltzuma', '#000'))
        for found in root.iter():
            for what in ('fill', 'stroke'):
                if found is not root and (found.get(what) or '').startswith('#'):
                    self.assertIn((found.get('class'), what), dark, found.attrib)
        ground = dark['ground', 'fill']
        self.assertEqual(dark['rim', 'stroke'], ground)
        for name, light in ((('', 'fill'), '#000000'), (('line', 'stroke'), '#000000')):
            self.assertGreater(contrast(dark[name], ground), 12)
            self.assertGreater(contrast(light, '#ffffff'), 12)
        self.assertGreater(contrast(dark['', 'fill'], dark['hatch', 'stroke']), 4.5)
        self.assertGreater(contrast(dark['hatch', 'stroke'], dark['shade', 'fill']), 1.5)

    def circles(self, root, hollow):
        return [found for found in root.iter(SVG + 'circle') if (found.get('fill') == 'none') == hollow]

    def test_curve_and_points(self):
        root = self.drawn(self.write(RAMP), '--along', 'b')
        points = self.circles(root, False)
        # Five stored points and the one in the legend; equal steps of the values are equal steps of the picture.
        self.assertEqual(len(points), 6)
        ys = [float(found.get('cy')) for found in points[:5]]
        steps = [a - b for a, b in zip(ys, ys[1:])]
        self.assertTrue(all(abs(step - steps[0]) < 0.02 and step > 0 for step in steps), ys)
        xs = [float(found.get('cx')) for found in points[:5]]
        self.assertTrue(all(abs((x - xs[0]) / (xs[4] - xs[0]) - entry / 45) < 1e-3 for x, entry in zip(xs, (0, 10, 20, 30, 45))), xs)
        # The curve goes through each of them.
        curve = [found.get('d') for found in root.iter(SVG + 'path') if found.get('stroke-width') == '1.8'][0]
        places = [tuple(map(float, place.split())) for place in re.findall(r'[ML]([0-9. -]+)', curve)]
        for x, y in zip(xs, ys):
            self.assertTrue(any(abs(x - a) < 0.011 and abs(y - b) < 0.011 for a, b in places), (x, y))
        # Outside the span, on both sides, the ground is shaded, up to the ends.
        shaded = [found for found in root.iter(SVG + 'rect') if found.get('fill') == 'url(#outside)' and float(found.get('height')) > 20]
        self.assertEqual(len(shaded), 2)
        self.assertAlmostEqual(float(shaded[0].get('x')) + float(shaded[0].get('width')), xs[0], 1)
        self.assertAlmostEqual(float(shaded[1].get('x')), xs[4], 1)
        self.assertLess(places[0][0], xs[0])
        self.assertGreater(places[-1][0], xs[4])

    def test_modes(self):
        """Past the last point the three settings draw three lines; held, a level one."""
        ends = {}
        for mode in ('cubic', 'straight', 'held'):
            root = self.drawn(self.write(table([('a', 0, 1, 4)], [[0, 1, 8, 27]], 'regular')), '--along', '0', '--mode', mode)
            last = float(self.circles(root, False)[3].get('cy'))
            curve = [found.get('d') for found in root.iter(SVG + 'path') if found.get('stroke-width') == '1.8'][0]
            scale = float(self.circles(root, False)[0].get('cy')) - last
            ends[mode] = (last - float(curve.split(' ')[-1])) / scale
        self.assertAlmostEqual(ends['held'], 0)
        self.assertGreater(ends['straight'], 0.3)
        self.assertGreater(ends['cubic'], ends['straight'] + 0.005)

    def test_between_nodes_no_point_is_stored(self):
        root = self.drawn(self.write(RAMP), '--along', 'b', '--at', '1.5,12.5')
        self.assertEqual(self.circles(root, False), [])
        self.assertEqual(len(self.circles(root, True)), 2)
        self.assertIn('asked at 12.5: 151.25', ''.join(root.itertext()))
        self.assertIn('at a 1.5 mm', ''.join(root.itertext()))
        # At nodes they are.
        self.assertEqual(len(self.circles(self.drawn(self.write(RAMP), '--along', '1', '--at', '2,-100'), False)), 6)

    def test_missing_reading(self):
        """Along the axis itself the line is drawn, and nothing is ringed; on another axis no point of it is answered."""
        for text in (RAMP, table([('a', 0, 1, 4), ('b', 0, 10, 5)], lambda i, j: i * 100 + j, 'regular')):
            for mode in ('cubic', 'straight', 'held'):
                for at, said, lines in (('1.5,12.5', 'asked at 12.5: 151.25', 2), ('1.5,nan', 'asked at nan: refused', 2), ('nan,12.5', 'asked at 12.5: refused', 1)):
                    root = self.drawn(self.write(text), '--along', 'b', '--at', at, '--mode', mode)
                    self.assertIn(said, ''.join(root.itertext()))
                    # One of each stands in the legend.
                    self.assertEqual(len([found for found in root.iter(SVG + 'path') if found.get('stroke-width') == '1.8']), lines)
                    self.assertEqual(len(self.circles(root, True)), 2 if 'nan' not in at else 1)

    def test_slope(self):
        plain, both = (self.drawn(LARGEST, '--along', 'pressure', *more) for more in ([], ['--slope']))
        self.assertEqual([len([found for found in root.iter(SVG + 'path') if found.get('stroke-width') == '1.8' and len(found.get('d')) > 99])
                          for root in (plain, both)], [1, 2])
        self.assertIn('slope, mL/min per mmHg', ''.join(both.itertext()))

    def test_text_is_escaped(self):
        root = self.drawn(self.write(table([(EVIL, [0, 1, 2, 3])], [[1, 2, 3, 4]], unit=EVIL)), '--along', '0')
        self.assertIn(f'volume along {EVIL}', ''.join(root.itertext()))
        self.assertEqual([found.tag for found in root.iter() if found.tag not in {SVG + name for name in ('svg', 'title', 'style', 'defs', 'pattern', 'clipPath', 'g', 'rect', 'path', 'text', 'circle')}], [])

    def test_numbers_at_the_edge(self):
        for values in (['nan'] * 4, ['inf', '-inf', 1, 2], ['1.7e308', '-1.7e308', '1e308', 0], ['5e-324', 0, 0, '1e-323'], [3, 3, 3, 3]):
            for entries in ([0, 1, 2, 3], ['-1.7e308', 0, '1e308', '1.7e308'], ['5e-324', '1e-323', '2e-323', '3e-323'], [0, 1, 2, 'inf'], ['-inf', 0, '5e-324', 'inf'],
                            ['-inf', 1, '1.0000000000000002', 2], ['1e15', '1.000000000000001e15', '1.1e15', '1.2e15'], ['1.79e308', '1.792e308', '1.795e308', '1.7976931348623157e308']):
                for more in ([], ['--slope', '--at', 'inf'], ['--at', '1e300', '--mode', 'held']):
                    root = self.drawn(self.write(table([('a', entries)], [values])), '--along', 'a', *more)
                    text = xml.etree.ElementTree.tostring(root).decode()
                    for wrong in ('"nan', 'nan ', '"inf', ' nan', 'e+'):
                        self.assertNotIn(wrong, re.sub(r'>[^<]*<', '><', text.replace('inf, ', '')), (values, entries))

                    whole = [float(number) for number in re.findall(r'c[xy]="([^"]*)"', text)]
                    self.assertTrue(all(-1 < number < 900 for number in whole), (values, entries, whole))
        for start, step in (('1e17', 1), ('1e300', 1), (0, 'inf'), ('nan', 1), ('5e-324', '5e-324')):
            self.drawn(self.write(table([('a', start, step, 4)], [[1, 2, 3, 4]], 'regular')), '--along', '0', '--slope')
        entries = ['3.401e38', '3.4015e38', '3.402e38', '3.4028235e38']
        root = self.drawn(self.write(table([('a', entries)], [entries])), '--along', '0', '--width', 'f32')
        self.assertEqual(len(self.circles(root, False)), 5)


class Readme(InFolder):
    """What it shows works as written."""
    TEXT = text_of(os.path.join(TOP, 'README.md'))

    def test_commands(self):
        commands = [line.split('#')[0].split() for line in self.TEXT.split('\n') if line.startswith('    ./veltzuma ')]
        self.assertEqual(commands[0], ['./veltzuma', 'report', os.path.relpath(LARGEST, TOP), '-o', 'report.html'])
        for words in commands:
            words = [LARGEST if word == 'TABLE' else word for word in words[1:]]
            if '-o' in words:
                words[words.index('-o') + 1] = os.path.join(self.folder, 'out')
            status, out, err = run_process(*words, cwd=TOP)
            self.assertEqual(status, 0, err)
            if '-o' in words:
                self.assertGreater(os.path.getsize(os.path.join(self.folder, 'out')), 1000)

    def test_python(self):
        code = re.search(r"(    import sys; .*?)\n\n", self.TEXT, re.S)[1].replace('\n    ', '\n').strip()
        found = subprocess.run([sys.executable, '-B', '-c', code], cwd=TOP, stdout=subprocess.PIPE)
        self.assertEqual(found.stdout, b"3.375 [25.0] array('d', [1.0, 3.375])\n(Marks(below=False, above=True),)\n")

    def test_picture(self):
        words = re.search(r'\./veltzuma (plot .*) -o (docs/\S+\.svg)', self.TEXT)
        path = os.path.join(self.folder, 'again.svg')
        self.assertEqual(run_process(*words[1].split(), '-o', path, cwd=TOP), (0, f'written: {path}\n', ''))
        self.assertEqual(text_of(path), text_of(os.path.join(TOP, words[2])))


class _Page(html.parser.HTMLParser):
    """What tags a page has, whether they are closed in order, and its text; the tags with their classes in order; and what each table stands in."""
    VOID = ('meta', 'br')

    def __init__(self, text):
        super().__init__()
        self.tags, self.open, self.text, self.wrong, self.links = set(), [], [], [], []
        self.order, self.around = [], []
        self.feed(text)
        self.close()
        self.wrong += self.open

    def handle_starttag(self, tag, attrs):
        self.tags.add(tag)
        if tag == 'table':
            self.around.append(self.order[-1])
        self.order.append((tag, dict(attrs).get('class')))
        self.links += [value for name, value in attrs if name in ('src', 'href', 'xlink:href', 'action', 'data') or name.startswith('on')]
        if tag not in self.VOID:
            self.open.append(tag)

    def handle_startendtag(self, tag, attrs):
        self.handle_starttag(tag, attrs)
        self.handle_endtag(tag)

    def handle_endtag(self, tag):
        if not self.open or self.open.pop() != tag:
            self.wrong.append(tag)

    def handle_data(self, data):
        self.text.append(data)


def _rules(text):
    """What the page's own style says of each thing that it names, outside of media and pages."""
    style = re.sub(r'@(media|page)[^{]*\{(?:[^{}]*\{[^{}]*\})*[^{}]*\}', '', text[text.index('<style>') + 7:text.index('</style>')])
    found = {}
    for names, rules in re.findall(r'([^{}]+)\{([^{}]*)\}', style):
        for name in names.split(','):
            found.setdefault(' '.join(name.split()), {}).update(tuple(map(str.strip, rule.split(':', 1))) for rule in rules.split(';') if ':' in rule)
    return found


def _boxed(text):
    """What stands in the margin of each printed page."""
    page = re.search(r'@page \{.*\}', text)[0]
    found = re.findall(r'@([a-z]+-[a-z]+) \{ content: ([^;]*);', page)
    return {where: re.sub(r'\\([0-9a-f]{6})', lambda letter: chr(int(letter[1], 16)), what[1:-1]) if what.startswith('"') else what for where, what in found}


class Report(InFolder):
    def page(self, path, status=0, *more):
        out = os.path.join(self.folder, 'out.html')
        found = run('report', path, '-o', out, *more)
        # What is refused is said on standard error too.
        self.assertEqual((*found[:2], bool(found[2])), (status, f'written: {out}\n', status == 1))
        text = text_of(out)
        page = _Page(text)
        self.assertEqual(page.wrong, [])
        self.assertEqual(page.links, [])
        self.assertEqual(page.tags & {'script', 'link', 'img', 'iframe', 'object', 'embed', 'base', 'form'}, set())
        self.assertNotIn('url(http', text)
        return text, ' '.join(' '.join(page.text).split())

    def test_samples(self):
        for path in SAMPLES:
            text, said = self.page(path)
            source = text_of(path)
            self.assertIn('SYNTHETIC', said)
            self.assertIn('Taken in both widths, and within the premises of the node rule', said)
            with open(path, 'rb') as data:
                self.assertIn(hashlib.sha256(data.read()).hexdigest(), said)
            self.assertEqual(text.count('<svg'), source.count('axis:'))
            # Each stored figure, in the file's order.
            figures = [float(cell) for cell in re.findall(r'<td>([0-9.e+-]+)</td>', text[text.index('Stored figures'):])]
            stored = [float(cell) for line in source.split('values:\n')[1].split('\n') if line and line[0] != '#' for cell in line.split(',')]
            # A whole row stands side by side on paper.
            self.assertEqual(len(re.findall('<th scope="col">', re.search(r'class="figures".*?</thead>', text, re.S)[0])),
                             len(source.split('values:\n')[1].split('\n')[-2].split(',')))
            self.assertEqual(figures, stored)
            for section in ('What is proved about every answer', 'docs/SPECIFICATION.md 8.5', 'docs/EVIDENCE.md', 'Not proved'):
                self.assertIn(section, said)
            self.assertIn('refuses with one of ten numbers', said)
            self.assertEqual(len(veltzuma.REFUSALS), 10)
            self.assertIn('Axes rise strictly. On each axis of a rectilinear table that is taken, every entry is above the one before it', said)
            self.assertRegex(said, 'Truly outside. .* is marked on no axis. This table is within them in f64 and in f32. '
                             r'\(docs/SPECIFICATION.md 3.8 and 8.8; docs/EVIDENCE.md, “Marks”\)')

    def test_clauses_that_it_cites(self):
        """Each is there, and each section of the evidence."""
        _, said = self.page(LARGEST)
        cited = re.findall(r'\(docs/SPECIFICATION.md ([^;)]+); docs/EVIDENCE.md, “([^”]+)”\)', said)
        self.assertEqual(len(cited), 7)
        specification, evidence = (text_of(os.path.join(TOP, 'docs', name)) for name in ('SPECIFICATION.md', 'EVIDENCE.md'))
        for clauses, section in cited:
            for clause in re.findall(r'[0-9.]+', clauses):
                self.assertTrue(re.search(rf'^- \*\*{re.escape(clause)}\b' if '.' in clause else f'^## {clause} ', specification, re.M), clause)
            self.assertTrue(re.search(f'^## {section}', evidence, re.M), section)

    def test_version(self):
        made = veltzuma.load(LIBRARY).build
        _, said = self.page(LARGEST)
        for what in ('commit', 'kit', 'sources'):
            self.assertIn(made[what], said)

    def test_text_is_escaped(self):
        text, said = self.page(self.write(table([(EVIL, [0, 1, 2, 3]), ('b' + EVIL, [0, 1, 2, 3])], lambda *_: 1, title=EVIL, unit=EVIL, notes=[EVIL])))
        self.assertIn(f'{EVIL}', said)

    def test_refused(self):
        text, said = self.page(self.write(table([('a', [0, 1, 3, 2])], [[1, 2, 3, 4]])), 1)
        self.assertIn("Refused: no query on this table is answered", said)
        self.assertIn("line 6: refused 6 (disorder): axis 0 'a', entry 3: 2 is below the entry before it, 3", said)
        for axes in ([], [(f'a{i}', [0, 1, 2, 3]) for i in range(5)], [('a', [])]):
            self.page(self.write(table(axes, [['1']])), 1)
        text, said = self.page(self.write(table([('a', [0, 1, 1, 3])], [[1, 2, 3, 4]])), 1)
        self.assertEqual(said.count("line 6: refused 10 (flat): axis 0 'a', entry 2: 1 equals the entry before it"), 2)
        self.assertNotIn('<svg', text)
        for entries, told in (([1, 1.00000001, 2, 3], "5 (not rising): axis 0 'a', entry 1: 1 is not above the entry before it, 1"),
                              ([0, 1, 1.00000001, 3], "10 (flat): axis 0 'a', entry 2: 1.00000001 and the entry before it, 1, are both 1 in f32")):
            text, said = self.page(self.write(table([('a', entries)], [[1, 2, 3, 4]])), 1)
            self.assertIn('Taken in f64 alone', said)
            self.assertIn(f'f32 line 6: refused {told} –', said)

    def test_verdict_comes_first(self):
        """Before the notes and anything else; of a refused table the name in the browser and on paper says so too."""
        for entries, status, boxed, begins, named in (
                ([0, 1, 2, 3], 0, 'verdict', 'Taken in both widths, and within', 'A table'), ([0, 1, 3, 2], 1, 'verdict refused', 'Refused: no query', 'Refused: A table'),
                ([0, 1, 1.00000001, 3], 1, 'verdict refused', 'Taken in f64 alone. Refused in f32: no query is answered there.', 'A table')):
            text, said = self.page(self.write(table([('a', entries)], [[1, 2, 3, 4]], notes=['a note'])), status)
            order = [found for found in _Page(text).order if found[0] not in ('html', 'head', 'meta', 'title', 'style', 'body')]
            self.assertEqual(order[:2], [('h1', None), ('p', boxed)])
            self.assertLess(text.index(f'<p class="{boxed}">{begins}'), text.index('<p>a note</p>'))
            self.assertIn(f'<title>{named}</title>', text)
            self.assertEqual(_boxed(text)['top-left'], named)
            if begins.startswith('Refused'):
                self.assertEqual(said.count('This table is refused, so nothing is answered at its stored points.'), 2)
                self.assertNotIn('Stored points, asked', said)

    def test_points_that_are_off(self):
        """How many stored points do not answer their own number, in each width, the largest distance in units in the last place, and where."""
        values, start, step = [1.1, 2.2, 3.3, 4.7, 5.9, 7.3, 8.8, 9.1, 2.2], 0.3, 0.1
        _, said = self.page(self.write(table([('a', start, step, 9)], [values], 'regular')))
        for width in ('f64', 'f32'):
            def rounded(x):
                return array.array('f' if width == 'f32' else 'd', [x])[0]

            stored = [rounded(number) for number in values]
            grid = Direct('regular', [9], [[rounded(start)], [rounded(step)]], stored, width)
            for mode in MODES:
                found = {}
                for k, number in enumerate(stored):
                    answer = grid.one([rounded(rounded(start) + rounded(rounded(step) * k))], mode)[0]
                    if answer != number:
                        found[k] = abs(int(bits(answer, width), 16) - int(bits(number, width), 16)), answer
                self.assertTrue(found)
                worst = max(found, key=lambda k: (found[k][0], -k))
                units, answer = found[worst]
                self.assertRegex(said, rf'{width} (each setting|[a-z, ]*{mode}[a-z, ]*) {9 - len(found)} of 9 {len(found)}, by at most {units} units? in the last place '
                                 rf'\(entries {worst}: stores {values[worst]}, answers {re.escape(floats.show(answer, width))}\) 0')
        # None of them, and those that answer no number.
        self.assertEqual(self.page(LARGEST)[1].count('each setting 756 of 756 0 0'), 2)
        _, said = self.page(self.write(table([('a', list(range(9)))], [['nan', 2, 3, 4, 5, 6, 7, 8, 9]])))
        self.assertEqual(said.count('each setting 6 of 9 0 3 (first at entries 0: stores nan, answers nan)'), 2)
        _, said = self.page(self.write(table([('a', 'inf', 1, 4)], [[1, 2, 3, 4]], 'regular')))
        self.assertEqual(said.count('each setting 0 of 4 0 4 (first at entries 0: stores 1, refused)'), 2)
        # Units are counted through zero.
        for one, other, width, units in ((1.0, 1.0000000000000002, 'f64', 1), (5e-324, -5e-324, 'f64', 2), (0.0, -0.0, 'f64', 0), (1.0, 2.0, 'f32', 1 << 23),
                                         (-1.0, -1.0000001192092896, 'f32', 1), (2.0 ** -149, -(2.0 ** -149), 'f32', 2), (1.0, 2.0, 'f64', 1 << 52)):
            self.assertEqual(report.units_apart(one, other, width), units)

    def test_broken_curve(self):
        text, said = self.page(self.write(table([('a', list(range(9)))], [[1, 2, 3, 4, 'nan', 6, 7, 8, 9]])))
        self.assertRegex(said, r'The curve is broken\. Of the places asked for it, these answer no number: from a 2\.0\d* to 6 \(nan\)\.')
        self.assertIn('>nan</text>', text)
        self.assertIn('<td class="none">nan</td>', text)
        self.assertIn('from 1 to 9; 1 is no finite number', said)
        self.assertNotIn('The curve is broken', self.page(LARGEST)[1])

    def test_large(self):
        """A table of 262,144 points: the time is that of its points and not of their square, with which it would be minutes (`run_process` waits for two)."""
        out = os.path.join(self.folder, 'out.html')
        path = self.write(table([(name, list(range(64))) for name in 'abc'], lambda i, j, k: (i * j + k) / 8))
        self.assertEqual(run_process('report', path, '-o', out)[0], 0)
        self.assertEqual(text_of(out).count('each setting</td><td class="name">262,144 of 262,144</td>'), 2)

    def test_drawings_have_room(self):
        """The narrow drawings of the page too: what `Plot.room` holds, and no word lies on a stored point."""
        for path in SAMPLES:
            for drawing in re.findall(r'<svg.*?</svg>', self.page(path)[0], re.S):
                found = Drawing(xml.etree.ElementTree.fromstring(drawing))
                Plot.room(self, found, path)
                self.assertEqual(found.whole.right, 520)
                words = [box for said, box in found.texts if said.startswith('to ')]
                self.assertEqual(len(words), len(found.marks()))
                for box, (x, y, radius) in itertools.product(words, found.dots):
                    self.assertTrue(box.apart(Box(x - radius, y - radius, x + radius, y + radius)), (box, x, y))

    def test_on_a_phone(self):
        """At 390 units across nothing makes the page scroll sideways: each table stands in a box that scrolls by itself, drawings shrink, long words are broken."""
        text, _ = self.page(self.write(table([(LONG.replace(' ', '_'), [0, 1, 2, 3]), ('b', list(range(60)))], lambda i, j: f'{i}.{j:015}', title='T' * 300,
                                             unit='W' * 200, notes=['N' * 500])))
        page = _Page(text)
        self.assertGreater(len(page.around), 6)
        self.assertEqual(set(page.around), {('div', 'wide')})
        self.assertIn('<meta name="viewport" content="width=device-width, initial-scale=1">', text)
        style = _rules(text)
        self.assertEqual(style['.wide'], {'overflow-x': 'auto', 'max-width': '100%'})
        self.assertEqual([style['svg'][name] for name in ('max-width', 'height')], ['100%', 'auto'])
        for tag in ('h1', 'h2', 'h3', 'p', 'li', 'figcaption', 'code'):
            self.assertEqual(style[tag]['overflow-wrap'], 'anywhere', tag)
        # Lines that are not broken, and widths in units, are in such boxes alone.
        for names, found in style.items():
            if found.get('white-space') == 'nowrap':
                self.assertTrue(names.startswith('.figures '), names)
            if re.fullmatch(r'\d+(px|pt|mm|em)', found.get('width', '')) or 'min-width' in found:
                self.assertEqual((names, found['max-width']), ('svg', '100%'))
        self.assertEqual(set(_Page(text).tags) - {'html', 'head', 'meta', 'title', 'style', 'body', 'h1', 'h2', 'h3', 'p', 'div', 'table', 'thead', 'tbody', 'tr', 'th', 'td',
                         'sup', 'code', 'figure', 'figcaption', 'svg', 'defs', 'pattern', 'rect', 'path', 'clippath', 'text', 'g', 'circle', 'section', 'ul', 'li', 'b', 'span'}, set())
        # The smallest letters of a drawing: 390 less two edges of 14, for so many units.
        for drawing in re.findall(r'<svg.*?</svg>', text, re.S):
            across = float(re.search(r'viewBox="0 0 (\d+) \d+"', drawing)[1])
            self.assertGreater(min(map(float, re.findall(r'font-size="(\d+)"', drawing))) * (390 - 28) / across, 8)
        self.assertIn('padding: 0 14px', text)

    def test_light_and_dark(self):
        """Every colour of the page is one of two sets, and can be read in both; the drawings have theirs."""
        text, _ = self.page(LARGEST)
        style = text[text.index('<style>'):text.index('</style>')]
        light, dark = (dict(re.findall(r'--(\w+): (#[0-9a-f]+)', found)) for found in re.findall(r':root \{(.*?)\}', style))
        self.assertEqual(sorted(light), sorted(dark))
        self.assertIn('@media screen and (prefers-color-scheme: dark) {\n:root {', style)
        rest = re.sub(r':root \{.*?\}|@page.*', '', style).replace(plot.STYLE, '')
        self.assertNotRegex(rest, r'#[0-9a-f]{3}')
        self.assertEqual(sorted(set(re.findall(r'var\(--(\w+)\)', rest))), sorted(light))
        for colours in (light, dark):
            full = {name: colour if len(colour) == 7 else '#' + ''.join(2 * digit for digit in colour[1:]) for name, colour in colours.items()}
            for name in ('ink', 'soft'):
                for ground in ('ground', 'raised', 'head'):
                    self.assertGreater(contrast(full[name], full[ground]), 7, (name, ground))
        self.assertEqual(style.count(plot.STYLE), 1)
        self.assertEqual(text.count('<style>'), 1)
        self.assertEqual(plot.STYLE.count(dark['ground']), 2)

    def test_on_paper(self):
        """Each printed page has the table's name, its number, and the file's name with the beginning of its sum."""
        for title in ('A table', EVIL, 'Übergröße "1" \\ 50 % </style>', 'x' * 200):
            path = self.write(table([('a', [0, 1, 2, 3])], [[1, 2, 3, 4]], title=title), 'a "file".table')
            text, _ = self.page(path)
            found = _boxed(text)
            with open(path, 'rb') as data:
                total = hashlib.sha256(data.read()).hexdigest()
            self.assertEqual(found, {'top-left': title if len(title) <= 90 else title[:89] + '…', 'top-right': 'counter(page) " of " counter(pages)',
                                     'bottom-left': f'a "file".table, SHA-256 {total[:16]}…'})
            self.assertIn('@page { size: A4; margin: 20mm 15mm 18mm;', text)
            self.assertEqual(text.count('</style>'), 1)

    def test_outside_the_premises(self):
        text, said = self.page(self.write(table([('a', 0, 0.1, 4)], [[1, 2, 3, 4]], 'regular')), 0, '--mode', 'held')
        self.assertIn("outside: line 7: axis 0 'a': its step, 0.1, is not a power of two", said)
        self.assertEqual(said.count('This table is outside them, so nothing is claimed here of its stored points.'), 2)

    def test_many_axes(self):
        text, said = self.page(self.write(table([(name, [0, 1, 2, 3, 5]) for name in 'abcd'], lambda *index: sum(index))))
        self.assertEqual(text.count('<svg'), 4)
        self.assertEqual(text.count('class="figures"'), 25)
        self.assertEqual(len(set(re.findall(r'<pattern id="([^"]*)"', text))), 4)
        # An axis that is too long for a page is broken into parts.
        text, said = self.page(self.write(table([('a', list(range(100)))], lambda i: i / 7)))
        self.assertGreater(text.count('class="figures"'), 10)


if __name__ == '__main__':
    unittest.main()
