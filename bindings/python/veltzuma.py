"""Veltzuma from Python: the calls of include/veltzuma.h, in both widths, over ctypes. Needs Python's standard library alone.

    import sys; sys.path.insert(0, 'bindings/python')
    import veltzuma

    grid = veltzuma.MulticubicRegular([4], [0.0], [1.0], [0.0, 1.0, 8.0, 27.0])
    grid.interp_one([1.5])                      # 3.375
    grid.interp_one([4.0], mode='straight')     # 52.0
    grid.interp_one([4.0]).marks                # (Marks(below=False, above=True),)
    grid.get_loc([3.0])                         # [Place(origin=0, saturation='OutsideHigh', below=False, above=False)]
    grid.interp([1.0, 1.5])                     # array('d', [1.0, 3.375])
    grid.interp([[1.0, 1.5]])                   # array('d', [1.0, 3.375])
    grid.interp_one([float('nan')])             # raises Refusal: refused 9 (missing): axis 0: no reading (nan)

The marks of a single answer say for each axis whether the query as given, in the grid's width, lay below its first entry or above its last. The
class does not say that, and a batch has no marks. Whoever wants value and slopes of one query asks for both in one call, which takes each four-term
sum that they share once, and tells how many it took.

Numbers are given as a list, an `array`, any other buffer of numbers, or a numpy array. What has one dimension is taken as it is: the values with the
last axis fastest, the queries of a batch joined, all coordinates on axis 0, then all on axis 1. What has more, nested lists too, must have the right
shape, else it is a ValueError: the values the counts; the queries of a batch (axes, queries), or a list of columns, one for each axis; the `axes` of a
rectilinear grid a list of axes with as many entries each as the counts say; the `out` of `interp_grad` (axes, queries). It is read by its indices, in
whatever order it lies in memory. A single query has one coordinate for each axis, else it is a ValueError, where the grid has 1 to 4 of them.

The width is 'f64' or 'f32'. Where none is named it is that of the values: f32 where they are an array of f32, or a list of such arrays, and else f64.
A buffer of the grid's own width that can be written, in one piece, is lent as it is, so that a later change of it is seen; everything else is copied,
each number as Python makes it a float, and for f32 rounded once more.

But for shapes nothing is judged before a call: what the library refuses is raised as a Refusal, which says in words what is wrong.
docs/SPECIFICATION.md says what is answered. A NaN in a query is a missing reading, which is refused with 9 unless a lower axis refuses with 8; a NaN
among the values is not refused. Of a rectilinear axis, entry 1 that equals entry 0 is refused with 5, and a later entry that equals the one before it
with 10: where such a grid is taken, each axis rises strictly.

The first grid loads the library: see `load`. One of another version than VERSION is turned away: its calls take other arguments, or answer otherwise.
So is one of an earlier release of that version, which lacks some of the calls.
"""
from __future__ import annotations

import array
import ctypes
import functools
import itertools
import math
import operator
import os
import struct
import subprocess
import sys
from typing import Any, Callable, Iterable, NamedTuple, Optional, Sequence, Union

__all__ = ['MulticubicRegular', 'MulticubicRectilinear', 'Refusal', 'Place', 'Marks', 'Value', 'Gradient', 'ValueAndGradient', 'Library', 'load',
           'MODES', 'WIDTHS', 'REFUSALS', 'SATURATION', 'MAX_ENTRIES', 'MAX_POINTS', 'MAX_QUERIES', 'VERSION']

# Of the calls, as VELTZUMA_VERSION in include/veltzuma.h.
VERSION = 4
# Of this release: the version of the calls, and which release with these calls it is.
__version__ = '4.2'
# Calls that came after the first release of this version, and with which one: a library may have all others, and is turned away all the same.
_LATER = {'interp_one_with_grad': '4.2'}
MODES = {'cubic': 0, 'straight': 1, 'held': 2}
WIDTHS = ('f64', 'f32')
# Clause 2.2.
REFUSALS = {1: 'axes', 2: 'size', 3: 'mismatch', 4: 'short', 5: 'not rising', 6: 'disorder', 7: 'batch', 8: 'unplaceable', 9: 'missing', 10: 'flat'}
SATURATION = ('None', 'InsideLow', 'OutsideLow', 'InsideHigh', 'OutsideHigh')
MAX_ENTRIES, MAX_POINTS, MAX_QUERIES = 4096, 1 << 20, 1 << 20

# A list, an array, any other buffer, an array of numpy, or a nest of these.
Numbers = Iterable[Any]
Mode = Union[str, int]

_CODE = {'f64': 'd', 'f32': 'f'}
_LIMIT = 1 << (8 * ctypes.sizeof(ctypes.c_size_t))


class Place(NamedTuple):
    """Where a query lies on an axis: the first index of its block of four, its class, and its marks."""
    origin: int
    saturation: str
    below: bool
    above: bool


class Marks(NamedTuple):
    """Whether a query, as given, lies below the first entry of an axis, or above its last."""
    below: bool
    above: bool


# By the number that the library writes.
_MARKS = (Marks(False, False), Marks(True, False), Marks(False, True))


class Value(float):
    """The value at a query, a float; `marks` has the Marks of each axis."""
    __slots__ = ('marks',)
    marks: tuple[Marks, ...]

    def __new__(cls, number: float, marks: tuple[Marks, ...] = ()) -> Value:
        made = super().__new__(cls, number)
        made.marks = marks
        return made

    def __reduce__(self) -> tuple[Any, ...]:
        return type(self), (float(self), self.marks)


class Gradient(list[float]):
    """The gradient at a query, a list of one slope for each axis; `marks` has the Marks of each axis."""
    __slots__ = ('marks',)
    marks: tuple[Marks, ...]

    def __init__(self, slopes: Iterable[float] = (), marks: tuple[Marks, ...] = ()) -> None:
        super().__init__(slopes)
        self.marks = marks

    def __reduce__(self) -> tuple[Any, ...]:
        return type(self), (list(self), self.marks)


class ValueAndGradient(NamedTuple):
    """Value and gradient at a query, each with its `marks`, and how many four-term sums were taken for both."""
    value: Value
    gradient: Gradient
    sums: int


def _counted(number: int, one: str, many: str = '') -> str:
    """1 value, 1,000 values."""
    return f'{number:,} {one if number == 1 else many or one + "s"}'


def _worked_out(numbers: Sequence[int], sign: str, total: int) -> str:
    return f'{total:,}' if len(numbers) == 1 else f' {sign} '.join(f'{number:,}' for number in numbers) + f' = {total:,}'


def product_words(counts: Sequence[int]) -> str:
    """7 × 9 × 12 = 756."""
    return _worked_out(counts, '×', math.prod(counts))


def _shown(number: float, width: str) -> str:
    """A decimal that reads back to the same number, without the '.0' of a whole one."""
    text = repr(float(number))
    if width == 'f32':
        for digits in (6, 7, 8, 9):
            text = '%.*g' % (digits, number)
            if array.array('f', (float(text),))[0] == number:
                break
    return text[:-2] if text.endswith('.0') else text


class Words:
    """What is wrong, in words: those of every Refusal, and those of the table tool, which has names for the axes, another word for the `whole`, and a
    `show` of its own that writes the numbers. None where nothing is wrong."""

    def __init__(self, show: Callable[[float], str], names: Sequence[str] = (), whole: str = 'grid') -> None:
        self.show, self.names, self.whole = show, names, whole

    def axis(self, axis: int) -> str:
        return f"axis {axis} '{self.names[axis]}'" if self.names else f'axis {axis}'

    def axes(self, count: int) -> str:
        return f'{_counted(count, "axis", "axes")}, where a {self.whole} has 1 to 4'

    def size(self, counts: Sequence[int]) -> str:
        for axis, count in enumerate(counts):
            if count > MAX_ENTRIES:
                return f'{self.axis(axis)} has {count:,} entries, where an axis has at most {MAX_ENTRIES:,}'
        return f'{product_words(counts)} points, where a {self.whole} has at most {MAX_POINTS:,}'

    def needed(self, numbers: Sequence[int], sign: str = '×') -> str:
        total = math.prod(numbers) if sign == '×' else sum(numbers)
        return f'{_worked_out(numbers, sign, total)} {"is" if total == 1 else "are"} needed'

    def mismatch(self, axes: int, counts: Sequence[int], lengths: dict[str, int], mode: Optional[int]) -> Optional[str]:
        """`lengths` of what was given: starts, steps, axes, vals."""
        for found, one in ((len(counts), 'count'), (lengths.get('starts', axes), 'start'), (lengths.get('steps', axes), 'step')):
            if found < axes:
                return f'{_counted(found, one)}, where there are {_counted(axes, "axis", "axes")}'
        counts = counts[:axes]
        if lengths['vals'] != math.prod(counts):
            return f'{_counted(lengths["vals"], "value")}, where {self.needed(counts)}'
        if lengths.get('axes', sum(counts)) != sum(counts):
            return f'{_counted(lengths["axes"], "entry", "entries")} on the axes, where {self.needed(counts, "+")}'
        return None if mode is None or mode <= 2 else f'mode {mode}, where 0 to 2 are taken'

    def short(self, axis: int, count: int) -> str:
        return f'{self.axis(axis)} has {_counted(count, "entry", "entries")}, where an axis has at least 4'

    def step(self, axis: int, step: float) -> str:
        return f'{self.axis(axis)}: its step, {self.show(step)}, is not above 0'

    def rise(self, axis: int, entries: Sequence[float]) -> str:
        return f'{self.axis(axis)}, entry 1: {self.show(entries[1])} is not above the entry before it, {self.show(entries[0])}'

    def disorder(self, axis: int, entries: Sequence[float]) -> Optional[str]:
        for i, entry in enumerate(entries):
            if entry != entry:
                return f'{self.axis(axis)}, entry {i} is not a number, {self.show(entry)}'
            if i and entry < entries[i - 1]:
                return f'{self.axis(axis)}, entry {i}: {self.show(entry)} is below the entry before it, {self.show(entries[i - 1])}'
        return None

    def flat(self, axis: int, entries: Sequence[float], given: Sequence[float] = (), width: str = 'f64') -> Optional[str]:
        """`given` are the entries as they were in f64, where they were rounded to the width."""
        for i in range(1, len(entries)):
            if entries[i] == entries[i - 1]:
                before, entry = (_shown(number, 'f64') for number in given[i - 1:i + 1]) if given else map(self.show, entries[i - 1:i + 1])
                if given and given[i] != given[i - 1]:
                    words = f'{entry} and the entry before it, {before}, are both {self.show(entries[i])} in {width}'
                else:
                    # Of 0 and -0 both are told.
                    words = f'{entry} equals the entry before it' + (f', {before}' if before != entry else '')
                return f'{self.axis(axis)}, entry {i}: {words}'
        return None

    def batch(self, axes: int, coordinates: int, room: int, columns: int) -> Optional[str]:
        """`columns` of answers: 1 of values, or as many as axes."""
        if coordinates % axes:
            return f'{_counted(coordinates, "coordinate")}, where each query on {_counted(axes, "axis", "axes")} has {axes}'
        queries = coordinates // axes
        if room != columns * queries:
            return f'out has {_counted(room, "entry", "entries")}, where {self.needed([columns, queries] if columns > 1 else [queries])}'
        return f'{queries:,} queries, where a batch has at most {MAX_QUERIES:,}' if queries > MAX_QUERIES else None

    def unplaceable(self, axis: int, x: float, start: float, step: float, query: Optional[int] = None) -> str:
        at, start_shown, step_shown = map(self.show, (x, start, step))
        return f'{self._query(query)}{self.axis(axis)}: ({at} - {start_shown}) / {step_shown} is not a finite number from -2^63 to below 2^63'

    def missing(self, axis: int, x: float, query: Optional[int] = None) -> str:
        return f'{self._query(query)}{self.axis(axis)}: no reading ({self.show(x)})'

    @staticmethod
    def _query(query: Optional[int]) -> str:
        return '' if query is None else f'query {query}, '


# Of a refusal that is made without words.
_GENERAL = {1: 'the number of axes is not 1 to 4', 2: f'an axis has more than {MAX_ENTRIES:,} entries, or the grid more than {MAX_POINTS:,} points',
            3: 'the lengths of what is given do not go together, or the mode is above 2', 4: 'axis {axis} has fewer than 4 entries',
            5: 'axis {axis}: its step is not above 0, or entry 1 is not above entry 0',
            6: 'axis {axis}: an entry is not a number, or below the entry before it',
            7: f'more than {MAX_QUERIES:,} queries, or a buffer of the wrong length', 8: 'query {query}, axis {axis}: a coordinate that has no place',
            9: 'query {query}, axis {axis}: no reading', 10: 'axis {axis}: an entry equals the entry before it'}


class Refusal(Exception):
    """What the library refuses: number and name as in clause 2.2, the query and axis beside them, 0 where the clause names none, and `words` that say
    what was wrong when the call was made. A function may stand for the words, and is asked when they are needed."""

    def __init__(self, number: int, query: int, axis: int, words: Union[str, Callable[[], Optional[str]], None] = None) -> None:
        super().__init__(number, query, axis)
        self.number, self.query, self.axis = number, query, axis
        self.name = REFUSALS.get(number, 'unknown')
        self._words = words

    @property
    def words(self) -> str:
        if not isinstance(self._words, str):
            told = self._words() if self._words else None
            self._words = told or _GENERAL.get(self.number, 'query {query}, axis {axis}').format(query=self.query, axis=self.axis)
        return self._words

    def __str__(self) -> str:
        return f'refused {self.number} ({self.name}): {self.words}'

    def __reduce__(self) -> tuple[Any, ...]:
        return type(self), (self.number, self.query, self.axis), {**self.__dict__, '_words': self.words}


class Library:
    """The shared library at a path: its 28 calls, of the version VERSION, and what it was built from."""

    def __init__(self, path: Union[str, os.PathLike[str]]) -> None:
        self.path: str = os.fspath(path)
        # A bare name would be looked up in the system's folders.
        dll = ctypes.CDLL(os.path.abspath(self.path))
        self._ask_version(dll)
        size, pointer, number = ctypes.c_size_t, ctypes.c_void_p, ctypes.c_uint8
        lent = [pointer, size]
        grid = {'regular': [size] + 4 * lent, 'rectilinear': [size] + 3 * lent}
        query = [number] + lent
        shapes = {'new': lent, 'get_loc': query + 4 * lent}
        for name in ('interp_one', 'interp_one_grad'):
            shapes[name] = query + 3 * lent
        for name in ('interp', 'interp_grad'):
            shapes[name] = query + 2 * lent
        shapes['interp_one_with_grad'] = query + 5 * lent
        self._calls, later = {}, []
        for kind, given in grid.items():
            for name, rest in shapes.items():
                for width in WIDTHS:
                    symbol = f'veltzuma_{kind}_{name}' + ('_f32' if width == 'f32' else '')
                    try:
                        call = dll[symbol]
                    except AttributeError:
                        if name not in _LATER:
                            raise self._not_the_library(symbol) from None
                        later.append((symbol, _LATER[name]))
                        continue
                    call.argtypes, call.restype = given + rest, number
                    self._calls[kind, name, width] = call
        if later:
            raise self._another(f'no {later[0][0]}, so it is an earlier release', f'{later[0][1]} or a later one')
        # Name and content of what it was built from, one to a line; a library that was linked otherwise has none.
        try:
            text = ctypes.string_at(ctypes.addressof(ctypes.c_char.in_dll(dll, 'veltzuma_build'))).decode('utf-8', 'replace')
        except ValueError:
            text = ''
        self.build: dict[str, str] = dict(line.split(' ', 1) for line in text.splitlines() if ' ' in line)

    def __repr__(self) -> str:
        return f'Library({self.path!r})'

    def _ask_version(self, dll: ctypes.CDLL) -> None:
        """Turns a library of another version away, before any other call of it is bound: its calls take other arguments, or answer otherwise."""
        for ending, half in (('', ''), ('_f32', ' in f32')):
            try:
                call = dll['veltzuma_version' + ending]
            except AttributeError:
                # Before version 2 there was no such call.
                if not hasattr(dll, 'veltzuma_regular_new' + ending):
                    raise self._not_the_library('veltzuma_regular_new' + ending) from None
                told = f'no version{half}, so it is an older library'
            else:
                call.argtypes, call.restype = [], ctypes.c_uint32
                found = call()
                if found == VERSION:
                    continue
                told = f'version {found}{half}'
            raise self._another(told, f'version {VERSION}')

    def _another(self, found: str, needed: str) -> OSError:
        return OSError(f"{self.path} has {found}, and {needed} is needed; './veltzuma build' builds that where VELTZUMA_LIBRARY is not set")

    def _not_the_library(self, symbol: str) -> OSError:
        return OSError(f'{self.path} is not the library: it has no {symbol}')

    def call(self, kind: str, name: str, width: str) -> Callable[..., int]:
        return self._calls[kind, name, width]


_default: Optional[Library] = None


def load(path: Union[str, os.PathLike[str], None] = None) -> Library:
    """The library at `path`; or that of the environment's VELTZUMA_LIBRARY; or the one that `./veltzuma build` of this repository keeps, which proves and
    builds it on first use, in minutes."""
    global _default
    if path is not None:
        return Library(path)
    if _default is None:
        named = os.environ.get('VELTZUMA_LIBRARY')
        if not named:
            top = os.path.dirname(os.path.dirname(os.path.dirname(os.path.realpath(__file__))))
            tool = os.path.join(top, 'veltzuma')
            if not (os.path.isfile(tool) and os.access(tool, os.X_OK)):
                raise OSError('no library: name it in VELTZUMA_LIBRARY')
            built = subprocess.run([tool, 'build'], stdout=subprocess.PIPE)
            named = os.fsdecode(built.stdout).rstrip('\n')
            if built.returncode or not named:
                raise OSError(f'no library: {tool} build ended with status {built.returncode}')
        _default = Library(named)
    return _default


class _Lent:
    """Numbers as C takes them: an address and a length. The memory stays where it is until this is let go."""
    __slots__ = ('address', 'length', 'size', '_export')

    def __init__(self, buffer: Any, code: str) -> None:
        view = memoryview(buffer)
        self.size = view.nbytes
        self.length = self.size // array.array(code).itemsize
        self._export = ctypes.c_char.from_buffer(buffer) if self.size else None
        self.address = ctypes.addressof(self._export) if self._export is not None else None

    def overlaps(self, other: _Lent) -> bool:
        if self.address is None or other.address is None:
            return False
        return self.address < other.address + other.size and other.address < self.address + self.size

    def let_go(self) -> None:
        self._export = None


def _read(address: Optional[int], code: str, first: int, count: int) -> array.array:
    """A copy of numbers that are lent."""
    size = array.array(code).itemsize
    return array.array(code, ctypes.string_at(address + first * size, count * size) if address and count else b'')


_NATIVE = '<' if sys.byteorder == 'little' else '>'


def _format(view: memoryview) -> tuple[str, str]:
    """The order of a buffer's bytes, '<' or '>', or '@' for the machine's own sizes; and what it holds."""
    kind = view.format.lstrip('@=<>!')
    order = view.format[:1] if kind != view.format else '@'
    return {'=': _NATIVE, '!': '>'}.get(order, order), kind


def _is_own(view: memoryview, code: str) -> bool:
    """Whether a buffer holds floats of the type `code`, by the machine's order, in one piece, where C looks for them, to be read and written."""
    order, kind = _format(view)
    if kind != code or order not in ('@', _NATIVE) or view.readonly or not view.c_contiguous:
        return False
    return not view.nbytes or ctypes.addressof(ctypes.c_char.from_buffer(view)) % view.itemsize == 0


_PLAIN = {float, int, bool}


def _has_length(entry: Any) -> bool:
    """Whether an entry of a list is itself a row: text is none, nor is an array of no dimension."""
    if isinstance(entry, (str, bytes, bytearray)):
        return False
    try:
        len(entry)
    except TypeError:
        return False
    return True


def _rows(values: Sequence[Any], what: str) -> Optional[list[tuple[Any, tuple[int, ...]]]]:
    """The entries of a list with their shapes; None where all of them are numbers."""
    kinds = set(map(type, values))
    # Of many numbers this is quick.
    if kinds <= _PLAIN or not any(hasattr(kind, '__len__') for kind in kinds) or not any(map(_has_length, values)):
        return None
    return [_measured(entry, f'{what}[{i}]') if _has_length(entry) else (entry, ()) for i, entry in enumerate(values)]


def _listed(values: Any, what: str) -> Any:
    """What is given as a list, where it is no buffer."""
    try:
        memoryview(values)
        return values
    except TypeError:
        pass
    try:
        entries = iter(values)
    except TypeError:
        raise TypeError(f'{what}: a list or a buffer of numbers is expected, not {type(values).__name__}') from None
    return list(entries)


def _measured(values: Any, what: str) -> tuple[Any, tuple[int, ...]]:
    """What is given, a list or a buffer afterwards, and its shape."""
    if not isinstance(values, (list, tuple)):
        values = _listed(values, what)
        if not isinstance(values, list):
            return values, memoryview(values).shape
    rows = _rows(values, what)
    if rows is None:
        return values, (len(values),)
    shape = rows[0][1]
    for i, (_, other) in enumerate(rows):
        if other != shape:
            raise ValueError(f'{what} is ragged: entry 0 {_shape_words(shape)}, and entry {i} {_shape_words(other)}')
    return [row for row, _ in rows], (len(rows), *shape)


def _shape_words(shape: tuple[int, ...]) -> str:
    return f'has shape {shape}' if shape else 'is a number'


def _numbers(values: Any, what: str) -> tuple[Any, tuple[int, ...]]:
    """The same of what holds the floats of a grid or of a query."""
    if isinstance(values, (bytes, bytearray, str)):
        raise TypeError(f'{what}: numbers are expected, not {type(values).__name__}')
    return _measured(values, what)


def _wrong_shape(what: str, values: Any, shape: tuple[int, ...], why: str, needed: Sequence[Optional[int]]) -> ValueError:
    """Both shapes, None for any number; and the transpose that has the needed one, where there is one alone or it is that of all axes."""
    def fits(order: Sequence[int]) -> bool:
        return all(size is None or shape[axis] == size for axis, size in zip(order, needed))

    hint, axes = '', range(len(shape))
    if len(shape) == len(needed) <= 4:
        found = [axes[::-1]] if fits(axes[::-1]) else [order for order in itertools.permutations(axes) if fits(order)]
        if len(found) == 1:
            backwards, order = found[0] == axes[::-1], ', '.join(map(str, found[0]))
            if hasattr(values, 'T'):
                hint = f'{what}.T' if backwards else f'{what}.transpose({order})'
            elif isinstance(values, (list, tuple)) and len(shape) == 2:
                hint = f'list(zip(*{what}))'
            else:
                hint = 'its transpose' if backwards else f'its transpose by ({order})'
            hint = f'; {hint} has that shape'
    sizes = ', '.join('n' if size is None else str(size) for size in needed) + (',' if len(needed) == 1 else '')
    return ValueError(f'{what} has shape {shape}, where {why} ({sizes}){hint}')


def _is_f32(values: Any, shape: tuple[int, ...]) -> bool:
    """Whether these are an array of f32, or a list of such."""
    if isinstance(values, list):
        return len(shape) > 1 and bool(values) and all(_is_f32(row, shape[1:]) for row in values)
    return not isinstance(values, tuple) and _format(memoryview(values))[1] == 'f'


def _flat(entries: Iterable[Any]) -> Iterable[Any]:
    for entry in entries:
        if isinstance(entry, (list, tuple, ctypes.Array)):
            yield from _flat(entry)
        else:
            yield entry


def _copied(values: Any, code: str, dimensions: int) -> array.array:
    """The numbers of a list, nested or not, or of a buffer of any shape, in an array of their own: by their indices, the last one fastest."""
    if isinstance(values, (list, tuple)):
        if dimensions < 2:
            return array.array(code, values)
        joined = array.array(code)
        for row in values:
            joined += _copied(row, code, dimensions - 1)
        return joined
    view = memoryview(values)
    order, kind = _format(view)
    if kind == code:
        found = array.array(code, view.tobytes())
        if order not in ('@', _NATIVE):
            found.byteswap()
        return found
    if kind in tuple('bBhHiIlLqQefd?'):
        return array.array(code, struct.unpack(f'{order}{view.nbytes // view.itemsize}{kind}', view.tobytes()))
    # What else there is, whoever holds it knows how to read it.
    try:
        entries = values if isinstance(values, ctypes.Array) else values.tolist()
    except (AttributeError, NotImplementedError):
        raise TypeError(f'a buffer of format {view.format!r}: numbers are expected') from None
    return array.array(code, _flat([entries]))


def _lend(values: Any, code: str, shape: tuple[int, ...] = (0,), others: Iterable[_Lent] = ()) -> _Lent:
    """A list or a buffer of this shape as numbers of the type `code`: as it is where it can be, apart from `others`; else a copy."""
    # The memory of a ctypes array may move while it is lent.
    if not isinstance(values, (list, tuple, ctypes.Array)) and _is_own(memoryview(values), code):
        lent = _Lent(values, code)
        # The slices of one call must not overlap.
        if not any(lent.overlaps(other) for other in others):
            return lent
    return _Lent(_copied(values, code, len(shape)), code)


def _in_range(number: Any, limit: int, what: str) -> int:
    number = operator.index(number)
    if not 0 <= number < limit:
        raise OverflowError(f'{what} is from 0 to {limit - 1}, not {number}')
    return number


class _Grid:
    """The calls that both kinds of grid have. `mode` is what is followed past the ends: 'cubic', 'straight' or 'held', or its number."""
    kind: str
    width: str

    def __init__(self, axis_count: Optional[int], counts: Numbers, parts: dict[str, Numbers], vals: Numbers, width: Optional[str],
                 library: Union[Library, str, os.PathLike[str], None]) -> None:
        if width is not None and width not in WIDTHS:
            raise ValueError(f'width {width!r}: f64 or f32')
        found, shape = _measured(counts, 'counts')
        if len(shape) > 1:
            raise ValueError(f'counts has shape {shape}, where one dimension is needed')
        self._counts = [_in_range(count, _LIMIT, 'a count') for count in found]
        self._axis_count = len(self._counts) if axis_count is None else _in_range(axis_count, _LIMIT, 'an axis count')
        used = tuple(self._counts[:self._axis_count])
        given = {name: self._part(name, part, used) for name, part in parts.items()}
        values, shape = given['vals'] = _numbers(vals, 'vals')
        if len(shape) > 1 and shape != used:
            raise _wrong_shape('vals', vals, shape, 'the counts need', used)
        self.width = width or ('f32' if _is_f32(values, shape) else 'f64')
        self._code = _CODE[self.width]
        self._said = Words(functools.partial(_shown, width=self.width))
        self._library = library if isinstance(library, Library) else load(library)
        # size_t is as wide as an unsigned long on the machine that the archives are for.
        self._lent = [_lend(self._counts, 'L')]
        self._parts = {}
        for name, (part, shape) in given.items():
            self._parts[name] = _lend(part, self._code, shape, self._lent)
            self._lent.append(self._parts[name])
        self._given = [self._axis_count]
        for lent in self._lent:
            self._given += [lent.address, lent.length]
        self._calls = {name: self._library.call(self.kind, name, self.width)
                       for name in ('new', 'get_loc', 'interp_one', 'interp_one_grad', 'interp_one_with_grad', 'interp', 'interp_grad')}

    @staticmethod
    def _part(name: str, part: Numbers, counts: tuple[int, ...]) -> tuple[Any, tuple[int, ...]]:
        """What is given for the axes, and its shape."""
        found, shape = _numbers(part, name)
        if len(shape) > 1:
            raise ValueError(f'{name} has shape {shape}, where one dimension is needed')
        return found, shape

    def __repr__(self) -> str:
        said = [f'counts={self._counts if len(self._counts) <= 8 else f"<{len(self._counts):,} counts>"}']
        for name, lent in self._parts.items():
            if name in ('starts', 'steps') and lent.length <= 8:
                # In f32 as few digits as tell the number.
                said.append(f'{name}={[float(_shown(number, self.width)) for number in _read(lent.address, self._code, 0, lent.length)]}')
            else:
                said.append(f'{name}=<{_counted(lent.length, *{"vals": ["value"], "axes": ["entry", "entries"]}.get(name, ["number"]))}>')
        said.append(f'width={self.width!r}')
        if self._axis_count != len(self._counts):
            said.append(f'axis_count={self._axis_count}')
        return f'{type(self).__name__}({", ".join(said)})'

    @property
    def axis_count(self) -> int:
        return self._axis_count

    def _ask(self, name: str, mode: int = 0, x: Optional[_Lent] = None, after: Sequence[Any] = (), columns: int = 0) -> None:
        """Makes a call: mode and `x` stand before the slice `refusal`, `after` behind it. Raises what is refused. A batch has `columns` of answers."""
        refusal = (ctypes.c_size_t * 2)()
        before = () if x is None else (mode, x.address, x.length)
        number = self._calls[name](*self._given, *before, ctypes.addressof(refusal), 2, *after)
        if number:
            query, axis = refusal
            raise Refusal(number, query, axis, self._why(number, query, axis, mode, x, after[1] if columns else 0, columns))

    def _why(self, number: int, query: int, axis: int, mode: int, x: Optional[_Lent], room: int, columns: int) -> Optional[Callable[[], Optional[str]]]:
        """What tells the words of a refusal. It has copies of what it needs: what is lent may change before it is asked, and is not to be held."""
        said, counts, axes, code, tell = self._said, self._counts, self._axis_count, self._code, functools.partial
        if number == 1:
            return tell(said.axes, axes)
        if number == 2:
            return tell(said.size, counts[:axes])
        if number == 3:
            return tell(said.mismatch, axes, counts, {name: lent.length for name, lent in self._parts.items()}, None if x is None else mode)
        if number == 4:
            return tell(said.short, axis, counts[axis])
        if number == 7 and x is not None and columns:
            return tell(said.batch, axes, x.length, room, columns)
        if number in (5, 6, 10):
            if self.kind == 'regular':
                return tell(said.step, axis, _read(self._parts['steps'].address, code, axis, 1)[0])
            entries = _read(self._parts['axes'].address, code, sum(counts[:axis]), counts[axis])
            return tell({5: said.rise, 6: said.disorder, 10: said.flat}[number], axis, entries)
        if number in (8, 9) and x is not None:
            at = _read(x.address, code, axis * (x.length // axes) + query, 1)[0]
            which = query if columns else None
            if number == 9:
                return tell(said.missing, axis, at, which)
            return tell(said.unplaceable, axis, at, *(_read(self._parts[name].address, code, axis, 1)[0] for name in ('starts', 'steps')), which)
        return None

    @staticmethod
    def _mode(mode: Mode) -> int:
        if isinstance(mode, str):
            if mode not in MODES:
                raise ValueError(f'mode {mode!r}: cubic, straight or held')
            return MODES[mode]
        return _in_range(mode, 256, 'a mode')

    def new(self) -> None:
        """Whether the grid is taken: returns, or raises the Refusal."""
        self._ask('new')

    def _query(self, x: Numbers) -> _Lent:
        """One coordinate for each axis; of a grid that has none, or more than four, any number of them, since it is refused as it is."""
        axes = self._axis_count
        found, shape = _numbers(x, 'x')
        if len(shape) > 1 and shape != (axes, 1):
            raise ValueError(f'x has shape {shape}, where a query on {_counted(axes, "axis", "axes")} has shape ({axes},)')
        if math.prod(shape) != axes and 1 <= axes <= 4:
            raise ValueError(f'a query of {_counted(math.prod(shape), "coordinate")}, where the grid has {_counted(axes, "axis", "axes")}')
        return _lend(found, self._code, shape, self._lent)

    def _one(self, name: str, x: Numbers, mode: Mode, rooms: Sequence[Any], behind: Sequence[Any] = ()) -> tuple[Marks, ...]:
        """Asks about a query. What is answered is written to the rooms before the marks and `behind` them, addresses and lengths; returns the marks."""
        lent, number = self._query(x), self._mode(mode)
        marks = (ctypes.c_uint8 * min(self._axis_count, 4))()
        try:
            self._ask(name, number, lent, (*rooms, ctypes.addressof(marks), len(marks), *behind))
        finally:
            # An exception keeps the frame, and the caller's buffers are not to be held by it.
            lent.let_go()
        return tuple(_MARKS[mark] for mark in marks)

    def get_loc(self, x: Numbers, mode: Mode = 'cubic') -> list[Place]:
        """The Place of a query on each axis. Held, origin and class are those of the query as used; the marks are always of the query as given."""
        room = min(self._axis_count, 4)
        origins, classes = (ctypes.c_size_t * room)(), (ctypes.c_uint8 * room)()
        marks = self._one('get_loc', x, mode, (ctypes.addressof(origins), room, ctypes.addressof(classes), room))
        return [Place(origin, SATURATION[number], *mark) for origin, number, mark in zip(origins, classes, marks)]

    def _floats(self, length: int) -> array.array:
        return array.array(self._code, bytes(length * array.array(self._code).itemsize))

    def interp_one(self, x: Numbers, mode: Mode = 'cubic') -> Value:
        """The value at a query, a float with `marks`."""
        value = self._floats(1)
        marks = self._one('interp_one', x, mode, value.buffer_info())
        return Value(value[0], marks)

    def interp_one_grad(self, x: Numbers, mode: Mode = 'cubic') -> Gradient:
        """The gradient at a query, a list of one slope for each axis, with `marks`."""
        slopes = self._floats(min(self._axis_count, 4))
        marks = self._one('interp_one_grad', x, mode, slopes.buffer_info())
        return Gradient(slopes, marks)

    def interp_one_with_grad(self, x: Numbers, mode: Mode = 'cubic') -> ValueAndGradient:
        """Value and gradient at a query in one call, as `interp_one` and `interp_one_grad` give them, and the number of four-term sums that it took: 2, 11,
        48 or 197 on one to four axes, since a sum that several of them need is taken once. On the grid that the module shows `interp_one_with_grad([1.5])`
        is ValueAndGradient(value=3.375, gradient=[6.25], sums=2)."""
        value, slopes, sums = self._floats(1), self._floats(min(self._axis_count, 4)), (ctypes.c_size_t * 1)()
        marks = self._one('interp_one_with_grad', x, mode, (*value.buffer_info(), *slopes.buffer_info()), (ctypes.addressof(sums), 1))
        return ValueAndGradient(Value(value[0], marks), Gradient(slopes, marks), sums[0])

    def _batch(self, name: str, queries: Numbers, out: Any, mode: Mode, columns: int) -> Any:
        axes = self._axis_count
        found, shape = _numbers(queries, 'queries')
        if len(shape) > 1 and (len(shape) != 2 or shape[0] != axes):
            raise _wrong_shape('queries', queries, shape, _counted(axes, 'axis needs', 'axes need'), (axes, None))
        number, lent, to = self._mode(mode), _lend(found, self._code, shape, self._lent), None
        try:
            count = lent.length // axes if axes else 0
            given = out
            if out is None:
                given = out = self._floats(columns * count)
                numpy = sys.modules.get('numpy')
                columns_given = found if isinstance(found, list) and len(shape) == 2 else []
                if numpy and any(isinstance(part, numpy.ndarray) for part in [queries, *columns_given]):
                    given = numpy.asarray(out)
            else:
                with memoryview(out) as view:
                    own, shape = _is_own(view, self._code), view.shape
                if not own:
                    raise TypeError(f'out: a buffer of {self.width} that can be written, in one piece')
                needed = (axes, count) if name == 'interp_grad' else (count,)
                if len(shape) > 1 and shape != needed:
                    raise ValueError(f'out has shape {shape}, where {needed} is needed')
            to = _Lent(out, self._code)
            if any(to.overlaps(part) for part in self._lent + [lent]):
                raise ValueError('out overlaps what is read')
            self._ask(name, number, lent, (to.address, to.length), columns)
        finally:
            # As above.
            lent.let_go()
            if to:
                to.let_go()
        return given

    def interp(self, queries: Numbers, out: Any = None, mode: Mode = 'cubic') -> Any:
        """The values of a batch. `queries` holds the coordinates of all queries on axis 0, then on axis 1, and so on: joined, as a list of such
        columns, or as an array of shape (axes, queries). The values stand in `out`, or in an array of their own, one of numpy where the queries are.
        Where query k is refused, `out` holds the answers of those before it."""
        return self._batch('interp', queries, out, mode, 1)

    def interp_grad(self, queries: Numbers, out: Any = None, mode: Mode = 'cubic') -> Any:
        """The gradients of a batch, joined columns as the queries are: all slopes along axis 0, then along axis 1. An `out` of two dimensions has
        the shape (axes, queries)."""
        return self._batch('interp_grad', queries, out, mode, self._axis_count)


class MulticubicRegular(_Grid):
    """A regular grid: axis i has the entries starts[i] + steps[i] * k, for k below counts[i]. The last axis of vals varies fastest."""
    kind = 'regular'

    def __init__(self, counts: Numbers, starts: Numbers, steps: Numbers, vals: Numbers, width: Optional[str] = None, axis_count: Optional[int] = None,
                 library: Union[Library, str, os.PathLike[str], None] = None) -> None:
        super().__init__(axis_count, counts, {'starts': starts, 'steps': steps}, vals, width, library)


class MulticubicRectilinear(_Grid):
    """A rectilinear grid: `axes` holds the entries of all axes, counts[i] of them for axis i, joined or as a list of axes; each axis rises strictly.
    The last axis of vals varies fastest."""
    kind = 'rectilinear'

    def __init__(self, counts: Numbers, axes: Numbers, vals: Numbers, width: Optional[str] = None, axis_count: Optional[int] = None,
                 library: Union[Library, str, os.PathLike[str], None] = None) -> None:
        super().__init__(axis_count, counts, {'axes': axes}, vals, width, library)

    @staticmethod
    def _part(name: str, part: Numbers, counts: tuple[int, ...]) -> tuple[Any, tuple[int, ...]]:
        found = part if isinstance(part, (list, tuple, bytes, bytearray, str)) else _listed(part, name)
        rows = _rows(found, name) if isinstance(found, (list, tuple)) else None
        if rows is None:
            found, shape = _numbers(found, name)
            lengths = [shape[1]] * shape[0] if len(shape) == 2 else []
        else:
            found, shapes = [row for row, _ in rows], [shape for _, shape in rows]
            for i, shape in enumerate(shapes):
                if len(shape) != 1:
                    raise ValueError(f'{name}[{i}] {_shape_words(shape)}, where an axis has one dimension')
            lengths = [length for length, in shapes]
            shape = (len(lengths), lengths[0]) if len(set(lengths)) == 1 else (len(lengths), -1)
        if len(shape) > 1 and lengths != list(counts):
            # Axes of one length have a shape.
            if shape[-1] >= 0 and len(set(counts)) == 1:
                raise _wrong_shape(name, part, shape, 'the counts need', (len(counts), counts[0]))
            told = f'has shape {shape}' if shape[-1] >= 0 else f'is a list of {len(lengths)} axes of {lengths[:8]} entries'
            raise ValueError(f'{name} {told}, where the counts are {list(counts[:8])}')
        return found, shape

    @classmethod
    def of_axes(cls, axes: Iterable[Numbers], vals: Numbers, width: Optional[str] = None,
                library: Union[Library, str, os.PathLike[str], None] = None) -> MulticubicRectilinear:
        """The same from a list of axes, each a list of its entries."""
        # Of more than one dimension a view has no rows of its own.
        given = [_numbers(axis, f'axes[{i}]') for i, axis in enumerate(axes.tolist() if isinstance(axes, memoryview) else axes)]
        for i, (_, shape) in enumerate(given):
            if len(shape) != 1:
                raise ValueError(f'axes[{i}] has shape {shape}, where an axis has one dimension')
        return cls([shape[0] for _, shape in given], [axis for axis, _ in given], vals, width, library=library)
