"""Reads text files line by line, and tables from them (docs/TABLES.md). Whatever is wrong with a file is one line that names the file and the line."""
import array
import copy
import csv
import functools
import hashlib
import io
import math
import unicodedata

import veltzuma

from . import floats

MARK = 'veltzuma table 1'
# A table has at most 1,048,576 values; so many bytes hold them with room to spare.
MOST_BYTES = 64 << 20
MOST_LINE = 1 << 20
# Of a query file: the longest line, and what is read at a time.
MOST_QUERY = 1 << 16
MOST_NAME = 80
# What is over these is refused whatever it holds, and is not kept.
MOST_AXES, MOST_ENTRIES, MOST_VALUES = 64, 4097, (1 << 20) + 1
MOST_COUNT = (1 << 64) - 1


class BadInput(Exception):
    """Input that is no table, no query or no number: the text of one line."""


def shown(text):
    """A piece of a file as a message quotes it."""
    text = text.strip(' \t')
    return repr(text if len(text) <= 40 else text[:37] + '...')


def _decoded(raw, where, line):
    """One line's text, without its end. Refuses what is no plain text."""
    at = f'{where}:{line}: '
    if line == 1 and raw.startswith((b'\xef\xbb\xbf', b'\xff\xfe', b'\xfe\xff')):
        raise BadInput(at + 'the file begins with a byte-order mark; save it as UTF-8 without one')
    crlf = raw.endswith(b'\r\n')
    if raw.endswith(b'\n'):
        raw = raw[:-1]
    try:
        text = raw.decode('utf-8')
    except UnicodeDecodeError as error:
        raise BadInput(at + f'not a text file: byte 0x{raw[error.start]:02x} is no UTF-8') from None
    if not text.isprintable():
        for letter in text:
            # Controls, line separators, what turns the direction of writing, and what is no character.
            if letter not in '\t\r' and (unicodedata.category(letter) in ('Cc', 'Zl', 'Zp', 'Cf') or ord(letter) & 0xfffe == 0xfffe):
                kind = 'not a text file' if ord(letter) < 32 or ord(letter) == 127 else 'a character that does not show'
                raise BadInput(at + f'{kind}: U+{ord(letter):04X}')
        if '\r' in text:
            raise BadInput(at + f'the line {"ends with CR LF" if crlf else "has a CR in it"}; save the file with LF line ends')
    return text


def lines_of(stream, where, most=MOST_LINE, line=0):
    """The lines of a binary stream, numbered from 1, or behind `line`."""
    while True:
        try:
            raw = stream.readline(most + 1)
        except OSError as error:
            raise BadInput(f'{where}:{line + 1}: {error.strerror}') from None
        if not raw:
            return
        line += 1
        if len(raw) > most:
            raise BadInput(f'{where}:{line}: the line is longer than {most:,} bytes')
        yield line, _decoded(raw, where, line)


def opened(path):
    """A file to read, or one line that says why not."""
    try:
        return open(path, 'rb')
    except (OSError, ValueError) as error:
        raise BadInput(f'{path}: {getattr(error, "strerror", None) or error}') from None


def number_in(text, where, line, width):
    """The number of a field."""
    number = floats.parse(text, width)
    if number is None:
        if not text.strip():
            raise BadInput(f'{where}:{line}: a number is missing')
        hint = ': numbers take a decimal point, and a comma stands between two of them' if ',' in text or ';' in text else ''
        raise BadInput(f'{where}:{line}: {shown(text)} is not a number{hint}')
    return number


def fields_of(text):
    """The fields of a line of CSV; a quoted one may hold commas."""
    if '"' not in text:
        return text.split(',')
    try:
        return next(csv.reader([text], skipinitialspace=True, strict=True))
    except csv.Error:
        return [text]


def numbers_in(text, where, line, width):
    if ';' in text:
        raise BadInput(f'{where}:{line}: a semicolon: commas stand between numbers, and numbers take a decimal point')
    return [number_in(field, where, line, width) for field in fields_of(text)]


class Axis:
    """One axis as the file has it, in one width."""

    def __init__(self, name, line, width):
        self.name, self.line, self.width, self.unit = name, line, width, None
        self.start = self.step = self.count = None
        # Of a rectilinear axis: the entries in the width, and as the file has them; of a regular one the texts of start and step.
        self.listed = self.text = None
        self.lines, self.texts = {}, {}

    @functools.cached_property
    def entries(self):
        """The nodes: of a regular axis, start + step * k, each operation rounded in the width. Of an axis that is too long, the first of them."""
        if self.listed is not None:
            return self.listed
        steps = (floats.round_to(self.step * k, self.width) for k in range(min(self.count, MOST_ENTRIES)))
        return [floats.round_to(self.start + part, self.width) for part in steps]

    def fields(self):
        """The entries of a rectilinear axis as the file has them."""
        return [field.strip(' \t') for field in fields_of(self.text)]

    def decimals(self):
        """The entries of a regular axis as f64 rounds them, written as decimals."""
        base = Axis(self.name, self.line, 'f64')
        base.start, base.step = (floats.parse(self.texts[key], 'f64') for key in ('start', 'step'))
        base.count = self.count
        return [floats.show(entry, 'f64') for entry in base.entries]

    def told(self):
        """The same axis, its numbers beside their texts."""
        found = copy.copy(self)
        found.__dict__.pop('entries', None)
        if self.listed is None:
            found.start, found.step = (floats.Told.of(getattr(self, key), self.texts[key]) for key in ('start', 'step'))
        else:
            found.listed = [floats.Told.of(entry, text) for entry, text in zip(self.listed, self.fields())]
        return found


class Table:
    """A table in one width: axes, values in the order of the file, and the line that each row of values stands in."""

    def __init__(self, path, width):
        self.path, self.width = path, width
        self.title, self.notes, self.kind, self.kind_line = None, [], None, None
        self.axes, self.name, self.unit, self.value_line = [], None, None, None
        # `cut`: the file has more values than a table may have, and the last one here stands for them.
        self.vals, self.rows, self.cut = [], [], False
        # The first value that is not finite, as the file has it.
        self.odd = None
        self.last_line = 1

    @property
    def counts(self):
        return [axis.count for axis in self.axes]

    def grid(self, library):
        """The grid as the library takes it."""
        if self.kind == 'regular':
            return veltzuma.MulticubicRegular(self.counts, [axis.start for axis in self.axes], [axis.step for axis in self.axes], self.vals,
                                              self.width, library=library)
        return veltzuma.MulticubicRectilinear(self.counts, [entry for axis in self.axes for entry in axis.entries], self.vals, self.width, library=library)

    def told(self):
        """The same table for a message, the numbers of its axes beside their texts."""
        found = copy.copy(self)
        found.axes = [axis.told() for axis in self.axes]
        return found

    def indices(self, at):
        """The index on each axis of the value that stands at a place in vals."""
        found = []
        for count in reversed(self.counts):
            found.append(at % count)
            at //= count
        return found[::-1]

    def line_of(self, at):
        """The line of a value."""
        for line, first, count in self.rows:
            if first <= at < first + count:
                return line
        return self.last_line

    def axis_named(self, name):
        """The number of the axis of that name, or of that number."""
        names = [axis.name for axis in self.axes]
        for found in (names, [str(i) for i in range(len(names))]):
            if name in found:
                return found.index(name)
        there = 'the axes are ' + ', '.join(f"{i} '{name}'" for i, name in enumerate(names)) if names else 'there is none'
        raise BadInput(f'{self.path}: no axis {shown(name)}; {there}')


def read_bytes(path):
    """The bytes of a table's file."""
    with opened(path) as stream:
        try:
            data = stream.read(MOST_BYTES + 1)
        except OSError as error:
            raise BadInput(f'{path}: {error.strerror}') from None
    if len(data) > MOST_BYTES:
        raise BadInput(f'{path}: longer than {MOST_BYTES:,} bytes, which no table is')
    if not data:
        raise BadInput(f'{path}:1: the file is empty')
    return data


def begins_as_table(path):
    """Whether a file begins as a table does, of this format or another."""
    with open(path, 'rb') as stream:
        return stream.read(32).removeprefix(b'\xef\xbb\xbf').startswith(b'veltzuma table')


def sum_of(data):
    return hashlib.sha256(data).hexdigest()


def read_table(path, width, data=None):
    """The table in a file, its numbers rounded to the width."""
    table = Table(path, width)
    reading = _Reading(table)
    for line, text in lines_of(io.BytesIO(read_bytes(path) if data is None else data), path):
        table.last_line = line
        reading.take(line, text)
        if table.cut:
            break
    reading.close()
    return table


class _Reading:
    """The header's lines in their order, then the rows of values."""

    def __init__(self, table):
        self.table, self.path, self.width = table, table.path, table.width
        self.started = self.in_values = False
        self.unit_of = None
        self.axis = None

    def bad(self, line, text):
        raise BadInput(f'{self.path}:{line}: {text}')

    def take(self, line, text):
        if not self.started:
            if text.rstrip(' \t') != MARK:
                self.bad(line, f"not a table: the first line is not '{MARK}'")
            self.started = True
        elif not text.strip() or text.lstrip().startswith('#'):
            pass
        elif self.in_values:
            numbers = numbers_in(text, self.path, line, self.width)
            if self.table.odd is None and not all(map(math.isfinite, numbers)):
                self.table.odd = next(field for field, number in zip(fields_of(text), numbers) if not math.isfinite(number))
            self.table.rows.append((line, len(self.table.vals), len(numbers)))
            self.table.vals += numbers
            if len(self.table.vals) >= MOST_VALUES:
                del self.table.vals[MOST_VALUES:]
                self.table.cut = True
        else:
            key, colon, rest = text.partition(':')
            if not colon:
                self.bad(line, f"{shown(text)}: a line of the header is 'key: text'")
            self.header(line, key.strip(), rest.strip())

    def header(self, line, key, rest):
        table, axis = self.table, self.axis
        if key in ('title', 'kind', 'value') and getattr(table, 'name' if key == 'value' else key) is not None:
            self.bad(line, f"a second '{key}:'")
        if key == 'title':
            table.title = rest or self.bad(line, "'title:' is empty")
        elif key == 'note':
            table.notes.append(rest)
        elif key == 'kind':
            if rest not in ('regular', 'rectilinear'):
                self.bad(line, f"kind {shown(rest)}: it is 'regular' or 'rectilinear'")
            table.kind, table.kind_line = rest, line
        elif key == 'axis':
            if table.kind is None:
                self.bad(line, "'kind:' stands before the first axis")
            self.close_axis()
            if len(table.axes) == MOST_AXES:
                self.bad(line, f'more than {MOST_AXES} axes, where a table has 1 to 4')
            self.axis = self.unit_of = Axis(self.name(line, rest), line, self.width)
            table.axes.append(self.axis)
        elif key == 'value':
            self.close_axis()
            self.axis = None
            table.name, table.value_line = self.name(line, rest), line
            self.unit_of = table
        elif key == 'unit':
            if self.unit_of is None or self.unit_of.unit is not None:
                self.bad(line, "'unit:' follows an 'axis:' or 'value:', once")
            self.unit_of.unit = rest or self.bad(line, "'unit:' is empty; a pure number has the unit 1")
        elif key in ('start', 'step', 'count', 'entries'):
            if axis is None:
                self.bad(line, f"'{key}:' belongs to an axis")
            if (key == 'entries') == (table.kind == 'regular'):
                self.bad(line, f"a {table.kind} axis has " + ('start, step and count' if table.kind == 'regular' else 'entries'))
            if key in axis.lines:
                self.bad(line, f"a second '{key}:' of axis '{axis.name}'")
            axis.lines[key] = line
            if key == 'entries':
                axis.listed, axis.text = numbers_in(rest, self.path, line, self.width) if rest else [], rest
                axis.count = len(axis.listed)
                del axis.listed[MOST_ENTRIES:]
            elif key == 'count':
                if not (rest.isascii() and rest.isdigit() and len(rest) <= 20 and int(rest) <= MOST_COUNT):
                    self.bad(line, f'{shown(rest)} is not a count')
                axis.count = int(rest)
            else:
                axis.texts[key] = rest
                setattr(axis, key, number_in(rest, self.path, line, self.width))
        elif key == 'values':
            if rest:
                self.bad(line, "the numbers begin on the line after 'values:'")
            self.close_axis()
            if table.kind is None:
                self.bad(line, "no 'kind:' before the values")
            if table.name is None:
                self.bad(line, "no 'value:' before the values")
            if table.unit is None:
                self.bad(line, f"value '{table.name}' has no 'unit:'")
            self.in_values = True
        else:
            self.bad(line, f'{shown(key)} is no key of a table')

    def name(self, line, text):
        if not text or not text[0].isalpha() or len(text) > MOST_NAME:
            self.bad(line, f'{shown(text)}: a name begins with a letter and has at most {MOST_NAME} characters')
        if floats.parse(text, 'f64') is not None:
            self.bad(line, f'{shown(text)} is a number, and no name')
        if text in [axis.name for axis in self.table.axes] + [self.table.name]:
            self.bad(line, f'a second {shown(text)}')
        return text

    def close_axis(self):
        axis = self.axis
        if axis is None:
            return
        for key in ('unit', 'start', 'step', 'count') if self.table.kind == 'regular' else ('unit', 'listed'):
            if getattr(axis, key) is None:
                self.bad(axis.line, f"axis '{axis.name}' has no '{'entries' if key == 'listed' else key}:'")

    def close(self):
        if not self.in_values:
            self.bad(self.table.last_line, "the file ends before 'values:'")
        # A dropped cell that another row makes up for would shift every number between them.
        if self.table.axes and math.prod(self.table.counts) == len(self.table.vals):
            last = self.table.axes[-1]
            for line, _, count in self.table.rows:
                if count != last.count:
                    self.bad(line, f"{count} values in a row, where axis '{last.name}' has {last.count} entries")


class Part(array.array):
    """Numbers of queries beside the texts that they have in the file."""
    __slots__ = ('texts',)


class Queries:
    """The queries of a stream, in parts: arrays of the table's width that have the coordinates of one query after the other. A first line may name the
    axes. A part is what the stream has at a time, and ends before a line that is no query, which is told when the next part is asked for."""

    def __init__(self, path, stream, table):
        self.path, self.stream, self.table = path, stream, table
        self.names = [axis.name for axis in table.axes]
        # The lines that were read, and whether one of them may still name the axes.
        self.line, self.first = 0, True

    def __iter__(self):
        rest, more = b'', True
        while more:
            try:
                more = self.stream.read1(MOST_QUERY)
            except OSError as error:
                raise BadInput(f'{self.path}:{self.line + 1}: {error.strerror}') from None
            block = rest + more
            # Whole lines; at the end what is left, and a line that is too long whether it ends or not.
            end = block.rfind(b'\n') + 1
            if not more or len(block) - end > MOST_QUERY:
                end = len(block)
            block, rest = block[:end], block[end:]
            numbers = self.at_once(block)
            if numbers:
                yield numbers
            elif block:
                yield from self.line_by_line(block)
        if not self.line:
            raise BadInput(f'{self.path}:1: no query: the file is empty')

    def at_once(self, block):
        """The numbers of lines that hold nothing but queries; None where there is anything else."""
        end = block.find(b'\n') + 1
        # No line but the first can be longer than what is read at a time.
        if not self.names or not 0 < end <= MOST_QUERY:
            return None
        line = b',' * (len(self.names) - 1) + b'\n'
        left = block.translate(None, floats.LETTERS)
        if not block.endswith(b'\n') or left != line * (len(left) // len(line)):
            return None
        fields = block.decode('ascii').replace('\n', ',').split(',')
        del fields[-1]
        try:
            numbers = Part(floats.CODE[self.table.width], floats.parse_all(fields, self.table.width))
        except ValueError:
            return None
        numbers.texts = fields
        self.line += len(left) // len(line)
        self.first = False
        return numbers

    def line_by_line(self, block):
        numbers = array.array(floats.CODE[self.table.width])
        try:
            for self.line, text in lines_of(io.BytesIO(block), self.path, MOST_QUERY, self.line):
                if not text.strip() or text.lstrip().startswith('#'):
                    continue
                if self.first:
                    self.first = False
                    fields = [field.strip() for field in fields_of(text)]
                    if fields == self.names:
                        continue
                    if sorted(fields) == sorted(self.names):
                        raise BadInput(f'{self.path}:{self.line}: the columns are {", ".join(fields)}, and the table has its axes as {", ".join(self.names)}')
                numbers.extend(coordinates(text, f'{self.path}:{self.line}: ', self.table))
        except BadInput:
            if numbers:
                yield numbers
            raise
        if numbers:
            yield numbers


def coordinates(text, at, table):
    """The coordinates of a query, one for each axis."""
    names = [axis.name for axis in table.axes]
    if ';' in text:
        raise BadInput(at + 'a semicolon: commas stand between coordinates, and numbers take a decimal point')
    fields = fields_of(text)
    if len(fields) != len(names):
        hint = '; a decimal comma makes two of one' if len(fields) > len(names) > 0 else ''
        raise BadInput(at + f'{len(fields)} coordinate{"s" * (len(fields) != 1)}, where the table has {len(names)}: {", ".join(names)}{hint}')
    found = []
    for field in fields:
        number = floats.parse(field, table.width)
        if number is None:
            hint = ': numbers take a decimal point' if ',' in field else ''
            raise BadInput(at + (f'{shown(field)} is not a number{hint}' if field.strip() else 'a field is empty'))
        found.append(number)
    return found
