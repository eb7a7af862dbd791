"""Numbers of either width, as text and as bits. A number of f32 is kept as the Python float that equals it."""
import array
import math
import operator
import re
import struct
import sys
from decimal import Decimal

_NUMBER = re.compile(r'[+-]?(?:(?:[0-9]+(?:\.[0-9]*)?|\.[0-9]+)(?:[eE][+-]?[0-9]+)?|inf|infinity|nan)', re.IGNORECASE | re.ASCII)
CODE = {'f64': 'd', 'f32': 'f'}
GREATEST = {'f64': sys.float_info.max, 'f32': 2.0 ** 128 - 2.0 ** 104}
_WORD = {'f64': 'Q', 'f32': 'I'}
_DIGITS = {'f64': 16, 'f32': 8}


def to_f32(x):
    """x rounded to f32."""
    return array.array('f', (x,))[0]


def round_to(x, width):
    return to_f32(x) if width == 'f32' else x


def _beside(x, up):
    """The number of f32 next to x, upwards or downwards; from an infinity the greatest finite one."""
    word = array.array('I', array.array('f', (x,)).tobytes())
    if x == 0:
        word[0] = 1 if up else 0x80000001
    else:
        word[0] += 1 if (x > 0) == up else -1
    return array.array('f', word.tobytes())[0]


def order(x, width):
    """Where a number stands among those of its width, counted from 0; both zeros are one."""
    word = array.array(_WORD[width], array.array(CODE[width], (abs(x),)).tobytes())[0]
    return -word if x < 0 else word


def in_order(place, width):
    """The number that stands there."""
    x = array.array(CODE[width], array.array(_WORD[width], (abs(place),)).tobytes())[0]
    return -x if place < 0 else x


def parse(text, width):
    """The number that the text names, rounded once to the width; None where it names none."""
    text = text.strip(' \t')
    if not _NUMBER.fullmatch(text):
        return None
    x = float(text)
    if width == 'f64':
        return x
    near = to_f32(x)
    # Rounded twice: where the f64 lies in the middle between two numbers of f32, the text itself decides. Where f32 is normal, such an f64 has
    # these last bits.
    if near == x or x != x or abs(x) == math.inf or abs(x) >= 2.0 ** -126 and _word_of(x) & 0x1fffffff != 0x10000000:
        return near
    low, high = (_beside(near, False), near) if near > x else (near, _beside(near, True))
    middle = (max(low, -2.0 ** 128) + min(high, 2.0 ** 128)) / 2
    if x == middle:
        exact = Decimal(text)
        if exact != Decimal(middle):
            return low if exact < Decimal(middle) else high
    return near


def _word_of(x):
    return struct.unpack('<Q', struct.pack('<d', x))[0]


# The characters of numbers, and of blanks beside them: a text of these alone names a number exactly where Python makes it a float.
LETTERS = b'0123456789+-.eE \tnNaAiIfFtTyY'
_SIZE, _LEAST_NORMAL = (1 << 63) - 1, 897 << 52
# The first bytes of an f64 that is normal in f32 whatever the others are, and the last 32 bits of one that may lie between two numbers of f32.
_NORMAL, _MIDDLES = bytes(first for first in range(256) if first & 0x7f > 0x38), frozenset(range(0x10000000, 1 << 32, 0x20000000))


def parse_all(texts, width):
    """The numbers of texts that have no other characters than LETTERS, in an array of the width. Raises ValueError where one names none."""
    numbers = array.array('d', list(map(float, texts)))
    if width == 'f64':
        return numbers
    found = array.array('f', numbers)
    # As in `parse`: where f32 is not normal, or the f64 has these last bits, the text decides. Mostly there is none of these, which few bytes tell.
    raw = numbers.tobytes() if sys.byteorder == 'little' else b''
    if raw and not raw[7::8].translate(None, _NORMAL) and _MIDDLES.isdisjoint(memoryview(raw).cast('I')[::2].tolist()):
        return found
    for i, word in enumerate(memoryview(numbers).cast('B').cast('Q')):
        if word & 0x1fffffff == 0x10000000 or 0 < word & _SIZE < _LEAST_NORMAL:
            found[i] = parse(texts[i], 'f32')
    return found


class Told(float):
    """A number beside the text that the file has for it, which is shown too where rounding to f32 has made another number of it."""
    __slots__ = ('text',)

    @classmethod
    def of(cls, number, text):
        made = cls(number)
        made.text = None if text is None else text.strip(' \t')
        return made


def show(x, width):
    """A decimal that reads back to the same bits (any NaN as `nan`)."""
    if type(x) is Told:
        plain, own = show(float(x), width), x.text
        if width == 'f64' or own is None or show(float(own), 'f64') == plain:
            return plain
        return f'{plain} ({own if len(own) <= 40 else own[:37] + "..."} in the file)'
    if width == 'f64':
        text = repr(x)
    else:
        for digits in (6, 7, 8, 9):
            text = '%.*g' % (digits, x)
            if digits == 9 or parse(text, 'f32') == x:
                break
    return text[:-2] if text.endswith('.0') else text


def _decimals(numbers, digits):
    """The decimals of so many digits, and whether each reads back."""
    texts = (f'%.{digits}g,' * len(numbers) % tuple(numbers)).split(',')[:-1]
    return texts, map(operator.eq, numbers, parse_all(texts, 'f32'))


def show_f32(numbers):
    """The decimals of an array of f32, each as `show` has it."""
    fits, others, left = [], [], []
    # Most need seven or eight digits. Where seven do not do, six do not either; that holds for the powers of two as well, which the tests try one by one.
    found, seven = _decimals(numbers, 7)
    for i, fit in enumerate(seven):
        (fits if fit else others).append(i)
    for i, text, fit in zip(fits, *_decimals([numbers[i] for i in fits], 6)):
        if fit:
            found[i] = text
    for i, text, fit in zip(others, *_decimals([numbers[i] for i in others], 8)):
        found[i] = text
        if not fit:
            left.append(i)
    for i in left:
        found[i] = '%.9g' % numbers[i]
    return found


# A decimal of so many digits is the shortest of the number that it names, since no other of so many digits names the same.
_SURE = {'f64': 15, 'f32': 6}
_ONES, _NO_ONES = bytes.maketrans(b'23456789', b'11111111'), bytes.maketrans(b'123456789', b'000000000')


def as_shown(texts, width):
    """The numbers of texts, each as `show` has it, made of the texts alone; None where one of them is not plain enough for that."""
    joined = (',' + ','.join(texts) + ',').encode('ascii')
    # Nothing but digits and points, each digit 0 or 1; and the digits alone, as zeros.
    sizes, digits = joined.translate(_ONES, b'-'), joined.translate(_NO_ONES, b'-.')
    # No needless zeros in front, and not so many digits that others do as well; what is less than 0.0001 may be shown with an exponent.
    if digits.translate(None, b'0,') or any(odd in sizes for odd in (b',00', b',01', b',.', b',0.0000')) or b'0' * (_SURE[width] + 1) in digits:
        return None
    return [text.rstrip('0').rstrip('.') if '.' in text else text for text in texts]


def bits(numbers, width):
    """The bits of an array of the width, each as hexadecimal digits."""
    return ['0x%0*x' % (_DIGITS[width], word) for word in memoryview(numbers).cast('B').cast(_WORD[width])]
