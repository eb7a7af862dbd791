"""Numbers as text: read by one rounding, written so that they read back to the same bits. The C library's strtod and strtof are the judges."""
import array
import math
import random
import struct
import unittest
from fractions import Fraction

import support
from table_tool import floats


def float_of(word):
    return struct.unpack('<f', struct.pack('<I', word))[0]


def decimal(exact):
    """A fraction over a power of two, written out in full."""
    places = exact.denominator.bit_length()
    return f'{exact.numerator * 10 ** places // exact.denominator}e-{places}'


class Numbers(unittest.TestCase):
    def near_middles(self):
        """Decimals at the middle between two numbers of f32, and barely beside it: where two roundings differ from one."""
        chosen = random.Random(15)
        words = [0, 1, 2, 0x7ffffe, 0x7fffff, 0x800000, 0x3f800000, 0x7f7ffffe] + [chosen.randrange(0x7f7fffff) for _ in range(400)]
        for word in words:
            middle = (Fraction(float_of(word)) + Fraction(float_of(word + 1))) / 2
            for moved in (0, 1, -1):
                yield decimal(middle + moved * middle / (1 << 80))
        overflow = Fraction(2) ** 128 - Fraction(2) ** 103
        for moved in (0, 1, -1):
            yield decimal(overflow + moved)

    def test_text_is_rounded_once(self):
        texts = [sign + text for text in self.near_middles() for sign in ('', '-')]
        texts += ['0', '-0', '.5', '5.', '1e-400', '1e400', '-1e400', '16777217', '0.1', '1E5', '+3', 'inf', '-Infinity', 'INF', '1' + '0' * 400, '1e-45',
                  '7.006492321624085e-46', '7.006492321624086e-46', '3.4028235677973366e38', '3.4028235677973365e38']
        for width in ('f64', 'f32'):
            for text in texts:
                with self.subTest(text=text[:60], width=width):
                    self.assertEqual(support.bits(floats.parse(text, width), width), support.bits(support.c_number(text, width), width))
        # The cases are hard ones: rounded by way of f64, some differ.
        self.assertGreater(sum(floats.to_f32(float(text)) != floats.parse(text, 'f32') for text in texts), 200)

    def test_many_at_once(self):
        """As each by itself."""
        texts = [sign + text for text in self.near_middles() for sign in ('', '-')]
        texts += ['0', '-0', ' 1.5\t', '.5', '5.', '1e-400', '1e400', '16777217', '0.1', 'inf', '-Infinity', 'nan', '1e-45', '7.006492321624085e-46', '1.17549428e-38']
        for width in ('f64', 'f32'):
            self.assertEqual([support.bits(x, width) for x in floats.parse_all(texts, width)], [support.bits(floats.parse(text, width), width) for text in texts])
            for text in ('', ' ', 'e5', 'in', '1 2', '--1', '1.5.2', 'nan1', 'aaa'):
                self.assertEqual(text.encode().translate(None, floats.LETTERS), b'')
                with self.assertRaises(ValueError):
                    floats.parse_all(['1', text], width)
        chosen = random.Random(18)
        words = [0, 1 << 31, 1, 0x7f800000, 0xff800000, 0x7fc00000] + [exponent << 23 for exponent in range(255)] + [chosen.getrandbits(32) for _ in range(20000)]
        numbers = array.array('f', array.array('I', words).tobytes())
        self.assertEqual(floats.show_f32(numbers), [floats.show(x, 'f32') for x in numbers])
        self.assertEqual(floats.show_f32(array.array('f')), [])

    def test_one_that_the_text_decides(self):
        """Among others that need no second look it is found, whatever it is; so are numbers that f32 has no full digits for."""
        for text in [*self.near_middles(), '1e-45', '7.006492321624085e-46', '1.17549428e-38', '-1e-40', '0', '-0', '1e-400']:
            self.assertEqual([support.bits(x, 'f32') for x in floats.parse_all(['1.5', text, '0.1'], 'f32')],
                             [support.bits(support.c_number(one, 'f32'), 'f32') for one in ('1.5', text, '0.1')], text[:60])
        chosen = random.Random(21)
        for digits in (5, 6, 7, 8, 12):
            numbers = array.array('f', [float('%.*g' % (digits, chosen.uniform(-1, 1) * 10.0 ** chosen.randrange(-30, 38))) for _ in range(3000)])
            self.assertEqual(floats.show_f32(numbers), [floats.show(x, 'f32') for x in numbers])

    def test_as_shown(self):
        """Plain texts are shown as they are but for zeros behind; one that is not plain is found among others."""
        chosen = random.Random(22)
        for width, most in (('f64', 15), ('f32', 6)):
            texts = ['0', '-0', '0.0', '-0.000', '10', '100.', '-20.50', '0.0001', '7.0000', '1' * most,
                     '-' + '9' * most, '9' * (most - 1) + '.9', '0.' + '3' * (most - 1)]
            for _ in range(5000):
                whole = str(chosen.randrange(10 ** chosen.randrange(most)))
                point = chosen.randrange(most - len(whole) + 1)
                texts.append(chosen.choice(('', '-')) + whole + ('.' + '%0*d' % (point, chosen.randrange(10 ** point)) if point else chosen.choice(('', '.'))))
            texts = [text for text in texts if not text.lstrip('-').startswith('0.0000')]
            self.assertEqual(floats.as_shown(texts, width), [floats.show(floats.parse(text, width), width) for text in texts])
            for text in ('+1', '00', '01', '-01.5', '00.5', '.5', '-.5', '0.00001', '-0.00001', '0.0000', '1e5', '1E5', 'inf', 'nan', ' 1', '1\t', '1' * (most + 1),
                         '-1.' + '3' * most, '0.' + '3' * most):
                for beside in ([], ['1.5'], ['0', '0']):
                    self.assertIsNone(floats.as_shown(beside + [text] + beside, width), (text, width))

    def test_order(self):
        """Neighbours stand one apart, through both zeros, up to the infinities."""
        for width, size in (('f64', 5e-324), ('f32', 2.0 ** -149)):
            self.assertEqual([floats.order(x, width) for x in (-size, -0.0, 0.0, size)], [-1, 0, 0, 1])
            most = floats.order(math.inf, width)
            self.assertEqual([floats.in_order(place, width) for place in (most, -most, most - 1)], [math.inf, -math.inf, floats.GREATEST[width]])
            for place in (1, 12345, most // 2, most - 1):
                for side in (place, -place):
                    self.assertEqual(floats.order(floats.in_order(side, width), width), side)
            self.assertEqual(floats.in_order(floats.order(1.0, 'f64') + 1, 'f64'), math.nextafter(1.0, 2.0))

    def test_nan_is_a_number(self):
        for text in ('nan', 'NaN', '-nan', '+NAN'):
            self.assertTrue(math.isnan(floats.parse(text, 'f32')) and math.isnan(floats.parse(text, 'f64')))

    def test_other_text_is_none(self):
        for text in ('', ' ', 'abc', '1,5', '1_000', '0x10', '1e', 'e5', '.', '+', '--1', '1 2', '١', '1.5.2', 'infinit', 'nan(1)', '½', '1d5', '1\n', '²'):
            self.assertIsNone(floats.parse(text, 'f64'), text)

    def test_shown_reads_back(self):
        chosen = random.Random(16)
        for width, size, code in (('f64', 64, 'Qd'), ('f32', 32, 'If')):
            words = [0, 1 << size - 1, 1, 2] + [chosen.getrandbits(size) for _ in range(20000)]
            for word in words:
                x = struct.unpack('<' + code[1], struct.pack('<' + code[0], word))[0]
                text = floats.show(x, width)
                if x != x:
                    self.assertEqual(text, 'nan')
                else:
                    self.assertEqual(support.bits(support.c_number(text, width), width), support.bits(x, width), text)
                    self.assertEqual(support.bits(floats.parse(text, width), width), support.bits(x, width), text)
        self.assertEqual([floats.show(x, 'f64') for x in (27.0, -0.0, 0.1, 1e300, math.inf)], ['27', '-0', '0.1', '1e+300', 'inf'])
        self.assertEqual([floats.show(floats.to_f32(x), 'f32') for x in (27.0, -0.0, 0.1, 16777216.0)], ['27', '-0', '0.1', '16777216'])


if __name__ == '__main__':
    unittest.main()
