"""What the tests share: running the tool, writing tables, and calls straight into the shared library, by none of the tool's own code."""
import ctypes
import io
import itertools
import os
import re
import shutil
import struct
import subprocess
import sys
import tempfile
import unittest

TOP = os.path.dirname(os.path.dirname(os.path.abspath(__file__)))
TOOL = os.path.join(TOP, 'veltzuma')
TABLES = os.path.join(TOP, 'tables')
SAMPLES = [os.path.join(TABLES, name) for name in sorted(os.listdir(TABLES))]
LARGEST = os.path.join(TABLES, 'synthetic-strokes-temperature-pressure.table')
sys.path[:0] = [os.path.join(TOP, 'tools'), os.path.join(TOP, 'bindings', 'python')]
MODES = ('cubic', 'straight', 'held')
CLASSES = ('None', 'InsideLow', 'OutsideLow', 'InsideHigh', 'OutsideHigh')
MARKS = ('', 'below', 'above')
# The four-term sums that value and gradient take together, by the number of axes.
SUMS = {1: 2, 2: 11, 3: 48, 4: 197}
# Of the calls, by the header.
with open(os.path.join(TOP, 'include', 'veltzuma.h'), encoding='utf-8') as header:
    VERSION = int(re.search(r'^#define VELTZUMA_VERSION (\d+)$', header.read(), re.M).group(1))


if not os.environ.get('VELTZUMA_LIBRARY'):
    os.environ['VELTZUMA_LIBRARY'] = subprocess.run([TOOL, 'build'], stdout=subprocess.PIPE, check=True).stdout.decode().rstrip('\n')
LIBRARY = os.environ['VELTZUMA_LIBRARY']


def run_process(*words, stdin=b'', cwd=None, **env):
    """The tool in a process of its own: status, output, errors."""
    done = subprocess.run([sys.executable, '-S', '-B', TOOL, *words], input=stdin, stdout=subprocess.PIPE, stderr=subprocess.PIPE, cwd=cwd,
                          env={**os.environ, **env}, timeout=120)
    return done.returncode, done.stdout.decode(), done.stderr.decode()


def run(*words, stdin=b''):
    """The same in this process, which is quicker. An exception that the tool lets through fails the test."""
    from table_tool import main
    kept = sys.stdin, sys.stdout, sys.stderr
    streams = [io.TextIOWrapper(io.BytesIO(content), encoding='utf-8', newline='\n') for content in (stdin, b'', b'')]
    sys.stdin, sys.stdout, sys.stderr = streams
    try:
        try:
            status = main.main(list(words))
        except SystemExit as ended:
            status = ended.code
        for stream in streams[1:]:
            stream.flush()
        return (status, *(stream.buffer.getvalue().decode('utf-8', 'surrogateescape') for stream in streams[1:]))
    finally:
        sys.stdin, sys.stdout, sys.stderr = kept


def text_of(path):
    with open(path, encoding='utf-8') as found:
        return found.read()


class InFolder(unittest.TestCase):
    """A test with a folder of its own."""
    maxDiff = None

    def setUp(self):
        self.folder = tempfile.mkdtemp(prefix='veltzuma')
        self.addCleanup(shutil.rmtree, self.folder, ignore_errors=True)

    def write(self, content, name='t.table'):
        path = os.path.join(self.folder, name)
        with open(path, 'wb') as out:
            out.write(content if isinstance(content, bytes) else content.encode())
        return path

    def assertOneLine(self, found, status, *parts):
        """A run that ended with this status, wrote nothing to standard output and one line to standard error that has these parts."""
        self.assertEqual((found[0], found[1]), (status, ''), found)
        self.assertEqual(found[2].count('\n'), 1, found[2])
        for part in parts:
            self.assertIn(part, found[2])


def table(axes, vals, kind='rectilinear', title='A table', unit='mL', notes=()):
    """The text of a table. `axes`: name, and entries or start, step and count. `vals`: rows of values, or a function of the indices."""
    lines = ['veltzuma table 1', f'title: {title}', *(f'note: {note}' for note in notes), f'kind: {kind}']
    counts = []
    for name, *rest in axes:
        lines += [f'axis: {name}', 'unit: mm']
        if kind == 'regular':
            lines += [f'{key}: {number}' for key, number in zip(('start', 'step', 'count'), rest)]
            counts.append(int(rest[2]))
        else:
            lines.append('entries: ' + ', '.join(map(str, rest[0])))
            counts.append(len(rest[0]))
    lines += ['value: volume', f'unit: {unit}', 'values:']
    if callable(vals):
        every = [str(vals(*index)) for index in itertools.product(*map(range, counts))]
        vals = [every[i:i + counts[-1]] for i in range(0, len(every), counts[-1])]
    lines += [','.join(map(str, row)) for row in vals]
    return '\n'.join(lines) + '\n'


class Direct:
    """Straight calls of the C functions for one grid."""

    def __init__(self, kind, counts, lent, vals, width):
        self.dll = ctypes.CDLL(LIBRARY)
        self.kind, self.axes, self.width = kind, len(counts), width
        self.counts, self.lent = counts, lent
        self.float = ctypes.c_float if width == 'f32' else ctypes.c_double
        self.grid = [ctypes.c_size_t(len(counts)), (ctypes.c_size_t * len(counts))(*counts), ctypes.c_size_t(len(counts))]
        for part in [*lent, vals]:
            self.grid += [(self.float * len(part))(*part), ctypes.c_size_t(len(part))]

    def ask(self, name, before, *rooms, refusal=(0, 0)):
        """Number, refusal, and what is written to the rooms."""
        refusal = (ctypes.c_size_t * len(refusal))(*refusal)
        words = list(self.grid)
        if before:
            mode, x = before
            words += [ctypes.c_uint8(MODES.index(mode) if mode in MODES else mode), (self.float * len(x))(*x), ctypes.c_size_t(len(x))]
        words += [refusal, ctypes.c_size_t(len(refusal))]
        for room in rooms:
            words += [room, ctypes.c_size_t(len(room))]
        call = self.dll[f'veltzuma_{self.kind}_{name}' + ('_f32' if self.width == 'f32' else '')]
        call.restype = ctypes.c_uint8
        return call(*words), list(refusal), rooms

    def rooms(self, name):
        """Room for what a single query's call writes; the marks are at the end, but for the number of sums behind them."""
        axes = min(self.axes, 4)
        value, slopes, marks = self.float * 1, self.float * axes, ctypes.c_uint8 * axes
        rooms = {'get_loc': [ctypes.c_size_t * axes, ctypes.c_uint8 * axes, marks], 'interp_one': [value, marks], 'interp_one_grad': [slopes, marks],
                 'interp_one_with_grad': [value, slopes, marks, ctypes.c_size_t * 1]}[name]
        return [room() for room in rooms]

    def one(self, x, mode):
        """Value, slopes, origins, classes and marks of a query; or number and axis of the refusal."""
        found = [self.ask(name, (mode, x), *self.rooms(name)) for name in ('interp_one', 'interp_one_grad', 'get_loc')]
        number, refusal, (value, marks) = found[0]
        (slopes, _), (origins, classes, _) = found[1][2], found[2][2]
        others = [(other, list(rooms[-1])) for other, _, rooms in found]
        assert others == [(number, list(marks))] * 3, others
        if number:
            return number, refusal[1]
        return value[0], list(slopes), list(origins), [CLASSES[found] for found in classes], [MARKS[found] for found in marks]


def stand_in(folder, name, versions, symbols=True, lacking=None):
    """A shared library that has the calls of the library, all of which end the process, but for those that have `lacking`, a pattern, in their names; and those of
    `versions` that tell a version, by their ending."""
    calls = [f'{kind}_{call}{ending}' for kind in ('regular', 'rectilinear') for ending in ('', '_f32')
             for call in ('new', 'get_loc', 'interp_one', 'interp_one_grad', 'interp_one_with_grad', 'interp', 'interp_grad')]
    lines = ['#include <stdint.h>', '#include <stdlib.h>', 'int other;',
             *(f'uint8_t veltzuma_{call}(void) {{ abort(); }}' for call in calls if symbols and (lacking is None or not re.search(lacking, call))),
             *(f'uint32_t veltzuma_version{ending}(void) {{ return {number}; }}' for ending, number in versions.items())]
    path = os.path.join(folder, name)
    subprocess.run(['gcc', '-shared', '-fPIC', '-x', 'c', '-o', path, '-'], input='\n'.join(lines).encode() + b'\n', check=True)
    return path


# Libraries of another version, by the name of a file: what stand_in makes them of, and what is said of them.
OTHERS = {'old.so': ({}, f'old.so has no version, so it is an older library, and version {VERSION} is needed'),
          'before.so': ({'': VERSION - 1, '_f32': VERSION - 1}, f'before.so has version {VERSION - 1}, and version {VERSION} is needed'),
          'new.so': ({'': VERSION + 1, '_f32': VERSION + 1}, f'new.so has version {VERSION + 1}, and version {VERSION} is needed'),
          'half.so': ({'': VERSION, '_f32': VERSION - 1}, f'half.so has version {VERSION - 1} in f32, and version {VERSION} is needed'),
          'half_old.so': ({'': VERSION}, f'half_old.so has no version in f32, so it is an older library, and version {VERSION} is needed')}
# Libraries of this version and of an earlier release: the calls that each lacks, and what is said of it.
EARLIER = {'earlier.so': ('with_grad', 'earlier.so has no veltzuma_regular_interp_one_with_grad, so it is an earlier release, and 4.2 or a later one is needed'),
           'half_earlier.so': ('rectilinear_interp_one_with_grad_f32',
                               'half_earlier.so has no veltzuma_rectilinear_interp_one_with_grad_f32, so it is an earlier release, and 4.2 or a later one is needed')}


def bits(x, width):
    """The bits of a number, as the tool's --hex writes them."""
    if width == 'f32':
        return '0x%08x' % struct.unpack('<I', struct.pack('<f', x))[0]
    return '0x%016x' % struct.unpack('<Q', struct.pack('<d', x))[0]


def alike(a, b, width):
    """Whether these are the same numbers, by their bits; any NaN is as any other."""
    return len(a) == len(b) and all((x != x and y != y) or bits(x, width) == bits(y, width) for x, y in zip(a, b))


_libc = ctypes.CDLL(None)
_libc.strtod.restype, _libc.strtof.restype = ctypes.c_double, ctypes.c_float
_libc.strtod.argtypes = _libc.strtof.argtypes = [ctypes.c_char_p, ctypes.c_void_p]


def c_number(text, width):
    """The number of a text, as the C library reads it."""
    return (_libc.strtof if width == 'f32' else _libc.strtod)(text.encode(), None)
