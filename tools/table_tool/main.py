"""The commands of ./veltzuma. Status 0: done; 1: the library refuses, or what is asked about differs; 2: the input or the command is not right."""
import argparse
import array
import os
import re
import sys

import veltzuma

from . import build, diff, evaluate, files, floats, nodes, plot, premises, report, words

SAMPLE = 'tables/synthetic-strokes-temperature-pressure.table'


class Stop(Exception):
    """An end with a status and one line on standard error."""

    def __init__(self, status, text):
        super().__init__(text)
        self.status = status


class _Parser(argparse.ArgumentParser):
    """Errors on one line."""

    def error(self, message):
        raise Stop(2, f'{self.prog}: {message}; see {self.prog} --help')


def parser():
    whole = _Parser(prog='veltzuma', description='Checks, reads and shows tables of pump delivery with the proved reader.',
                    formatter_class=argparse.RawDescriptionHelpFormatter,
                    epilog=f"example: ./veltzuma report {SAMPLE} -o report.html\n\n"
                           "'./veltzuma COMMAND --help' says more of each. docs/TABLES.md describes a table's file.\n"
                           f"{build.VARIABLE} names a built library to use; otherwise it is built on first use, which takes minutes.\n"
                           'Exit status: 0 done; 1 the library refuses, or there is a difference; 2 bad input.')
    whole.add_argument('--version', action=_Version, nargs=0, help='say which version this is, and of what the library at hand was built')
    commands = whole.add_subparsers(metavar='COMMAND', dest='command', parser_class=_Parser)
    commands.required = True

    def command(name, run, text, example, more=''):
        found = commands.add_parser(name, help=text, description=text[0].upper() + text[1:] + '.' + more,
                                    epilog=f'example: ./veltzuma {example}', formatter_class=argparse.RawDescriptionHelpFormatter)
        found.set_defaults(run=run)
        return found

    def width(found):
        found.add_argument('--width', choices=veltzuma.WIDTHS, default='f64', help="f64, or f32 as the handset asks (default f64)")

    def mode(found, default='cubic'):
        found.add_argument('--mode', choices=list(veltzuma.MODES), default=default,
                           help='what is followed past the ends of an axis' + (f' (default {default})' if default else ' (default: each in turn)'))

    found = command('check', check, 'says whether tables are taken, and whether they are within the premises of the node rule, or what brings them within',
                    f'check {SAMPLE}', '\nEach table is judged in f64 and in f32, in which the handset reads it.'
                    '\nExit status: 0 taken in both, 1 refused, 2 not a table; of several tables the greatest.')
    found.add_argument('table', nargs='+')
    found.add_argument('--width', choices=veltzuma.WIDTHS, help='judge in this width alone')

    found = command('eval', evaluated, 'answers queries: value, slope along each axis, place and class on each axis, and past which end of it they are, as CSV',
                    f'eval {SAMPLE} --at 55,31.5,-120 --at 55,31.5,0 --mode held',
                    "\n'outside on' an axis is 'below' where the query, as given, is below its first entry, 'above' where it is above its last, and else empty;"
                    '\nquery and entries are compared as rounded to the width, so 2.4 is above an axis of four entries from 0.3 in steps of 0.7.'
                    '\nA query that is refused, such as one with nan for a missing reading, says so in its line, and the others are answered.'
                    '\nExit status: 0 all answered, 1 some refused, 2 bad input.')
    found.add_argument('table')
    found.add_argument('--at', action='append', metavar='X,Y,..', help='a query, one coordinate for each axis; there may be several')
    found.add_argument('--queries', metavar='FILE.csv', help="a query in each line, '-' for standard input (the default without --at)")
    mode(found)
    width(found)
    found.add_argument('--values', action='store_true', help='value and refusal alone, without coordinates, slopes, places and marks, which is quicker')
    found.add_argument('--hex', action='store_true', help='numbers as their bits, in hexadecimal')

    found = command('nodes', asked_nodes, 'asks every stored point, alone and in one batch, and shows that each answers its own number', f'nodes {SAMPLE}',
                    '\nExit status: 0 all do, 1 some do not or the table is refused, 2 bad input.')
    found.add_argument('table')
    found.add_argument('--list', action='store_true', help='a line of CSV for each point: what it stores, what it answers alone and in the batch')
    mode(found, None)
    width(found)

    found = command('plot', plotted, 'draws the table along one axis, as SVG',
                    f'plot {SAMPLE} --along pressure --at 55,31.5,-120 --slope -o plot.svg',
                    '\nThe other coordinates are those of --at, or of the stored point in the middle. With --at the query itself is ringed.'
                    '\nA file that is a table is not overwritten.'
                    '\nExit status: 0 written, 1 the table is refused, 2 bad input.')
    found.add_argument('table')
    found.add_argument('-o', '--output', metavar='OUT.svg', required=True, help="the file to write, '-' for standard output")
    found.add_argument('--along', metavar='AXIS', required=True, help='the axis, by name or number')
    found.add_argument('--at', action='append', metavar='X,Y,..', help='one coordinate for each axis')
    found.add_argument('--slope', action='store_true', help='the slope too, below')
    mode(found)
    width(found)

    found = command('report', reported, 'writes one page about a table: verdict, premises, plots, stored figures, what is proved', f'report {SAMPLE} -o report.html',
                    '\nA file that is a table is not overwritten.'
                    '\nExit status: 0 written, 1 written of a table that is refused, 2 bad input.')
    found.add_argument('table')
    found.add_argument('-o', '--output', metavar='OUT.html', required=True, help="the file to write, '-' for standard output")
    mode(found)

    found = command('diff', differ, 'lists the stored points at which two tables on the same axes hold different numbers, as CSV',
                    f'diff {SAMPLE} changed.table',
                    "\nBeside the two numbers stand the difference, the second less the first, and what it is in % of the first; then on each axis the queries that"
                    "\nread the point: 'from' and 'to' include the number, 'above' and 'below' do not. A query that lies so on every axis may be answered"
                    '\ndifferently, also where it is at no stored point; any other query is not.'
                    '\nExit status: 0 none, 1 some, 2 bad input, or tables that are refused or on different axes.')
    found.add_argument('table')
    found.add_argument('other')
    width(found)

    found = command('build', built, 'builds the library where it is not built yet, and prints its path', 'build')
    return whole


def _rejoined(words_given):
    """`--at -1,2 3,4` as `--at=-1,2 --at=3,4`: argparse takes -1,2 for an option."""
    found, after = [], False
    for word in words_given:
        if found and found[-1] == '--at' and not word.startswith('--'):
            found[-1], after = '--at=' + word, True
        elif after and all(floats.parse(field, 'f64') is not None for field in word.split(',')):
            found.append('--at=' + word)
        else:
            found.append(word)
            after = False
    return found


def refused(table, grid):
    """Why the library refuses the grid of a table, line and words; None where it takes it."""
    try:
        grid.new()
    except veltzuma.Refusal as refusal:
        # Where two entries are one number in f32, the words have the file's own already.
        return words.of_grid(table if refusal.number == 10 else table.told(), refusal)
    return None


def taken(table, library):
    """The grid of a table that has to be taken."""
    grid = table.grid(library)
    why = refused(table, grid)
    if why:
        raise Stop(1, f'{table.path}:{why[0]}: {why[1]}')
    return grid


def load():
    return loaded(build.library())


def loaded(path):
    try:
        return veltzuma.load(path)
    except OSError as error:
        raise Stop(2, f'the library cannot be loaded: {error}') from None


def save(path, text, table):
    """Writes what a command makes, and says so. A file that is a table is not overwritten, whichever it is."""
    if path == '-':
        sys.stdout.write(text)
        return
    try:
        if os.path.isfile(path):
            if os.path.samefile(path, table):
                raise Stop(2, f'{path}: this is the table itself')
            if files.begins_as_table(path):
                raise Stop(2, f'{path}: this is a table, and is not overwritten')
        with open(path, 'w', encoding='utf-8', newline='\n') as out:
            out.write(text)
    except (OSError, ValueError) as error:
        raise Stop(2, f'{path}: {getattr(error, "strerror", None) or error}') from None
    print(one_line(f'written: {path}'))


def tell(text):
    """One line on standard error, behind what was written before it."""
    sys.stdout.flush()
    print(one_line(text), file=sys.stderr)


def check(given):
    widths = [given.width] if given.width else veltzuma.WIDTHS
    worst, library = 0, None
    for path in given.table:
        try:
            data = files.read_bytes(path)
            tables = [files.read_table(path, width, data) for width in widths]
        except files.BadInput as bad:
            # The others are judged all the same.
            tell(bad)
            worst = 2
            continue
        library = library or load()
        worst = max(worst, _judged(tables, library))
    return worst


def _judged(tables, library):
    """Says what there is to say of one table in one width or in both, what is the same in both once. Returns the status."""
    verdicts = [_verdict(table, library) for table in tables]
    for table, found in zip(tables, verdicts):
        for line, what, text in found:
            same = len(tables) > 1 and all((line, what, text) in other for other in verdicts)
            if same and table is not tables[0]:
                continue
            if what is None:
                told = text if same or len(tables) == 1 else f'in {table.width}: {text}'
            else:
                told = f'{what}, in {"both widths" if same else table.width}: {text}'
            print(one_line(f'{table.path}:{line}: {told}' if line else f'{table.path}: {told}'))
    return 1 if any(what is None for found in verdicts for _, what, _ in found) else 0


def _verdict(table, library):
    """Line, what is said, and more of it; what is said of a refusal is its own words, and None stands here."""
    why = refused(table, table.grid(library))
    if why:
        return [(why[0], None, why[1])]
    sizes = ' × '.join(f'{axis.name} {axis.count}' for axis in table.axes)
    outside = premises.outside(table)
    return ([(None, 'taken', f'{table.kind}, {len(table.vals):,} points: {sizes}')]
            + [(line, 'outside the premises of the node rule', text) for line, text in outside]
            + [(line, 'way out', text) for line, text in premises.ways_out(table)]
            + ([] if outside else [(None, 'within the premises of the node rule', 'each stored point answers its own number')]))


def evaluated(given):
    table = files.read_table(given.table, given.width)
    at = [files.coordinates(text, f'--at {files.shown(text)}: ', table) for text in given.at or []]
    if at and given.queries:
        raise Stop(2, 'veltzuma eval: --at or --queries, not both')
    if at:
        return _answered(given, table, [array.array(floats.CODE[table.width], [coordinate for x in at for coordinate in x])])
    if given.queries not in (None, '-'):
        with files.opened(given.queries) as stream:
            return _answered(given, table, files.Queries(given.queries, stream, table))
    if sys.stdin is None:
        raise Stop(2, 'standard input is closed')
    if sys.stdin.isatty():
        print('veltzuma: one query to a line: ' + ','.join(axis.name for axis in table.axes), file=sys.stderr)
    return _answered(given, table, files.Queries('standard input', sys.stdin.buffer, table))


def _answered(given, table, parts):
    grid = taken(table, load())
    return 1 if evaluate.write(table, grid, parts, given.mode, given.hex, given.values, sys.stdout) else 0


def asked_nodes(given):
    table = files.read_table(given.table, given.width)
    grid = taken(table, load())
    modes = [given.mode] if given.mode else list(veltzuma.MODES)
    return 0 if nodes.ask(table, grid, modes, given.list, sys.stdout, sys.stderr if given.list else sys.stdout) else 1


def plotted(given):
    table = files.read_table(given.table, given.width)
    along = table.axis_named(given.along)
    if given.at and len(given.at) > 1:
        raise Stop(2, 'veltzuma plot: one --at, not several')
    at = files.coordinates(given.at[0], f'--at {files.shown(given.at[0])}: ', table) if given.at else None
    grid = taken(table, load())
    save(given.output, plot.svg(plot.Line(table, grid, along, at, given.mode), given.slope), given.table)
    return 0


def reported(given):
    data = files.read_bytes(given.table)
    tables = {width: files.read_table(given.table, width, data) for width in veltzuma.WIDTHS}
    library = load()
    page, _ = report.page(tables, library, files.sum_of(data), given.mode)
    # The page tells of a refused table too.
    verdicts = [_verdict(table, library) for table in tables.values()]
    for width, found in zip(tables, verdicts):
        line, what, text = found[0]
        if what is None:
            tell(f'{given.table}:{line}: {text}' if verdicts[0] == verdicts[1] else f'{given.table}:{line}: in {width}: {text}')
        if verdicts[0] == verdicts[1]:
            break
    save(given.output, page, given.table)
    return 1 if any(found[0][1] is None for found in verdicts) else 0


def differ(given):
    one, other = (files.read_table(path, given.width) for path in (given.table, given.other))
    try:
        library = load()
        for table in (one, other):
            taken(table, library)
    except Stop as why:
        raise Stop(2, str(why)) from None
    why = diff.other_axes(one, other)
    if why:
        raise Stop(2, f'{other.path}:{why[0]}: not on the axes of {one.path}: {why[1]}')
    found = diff.write(one, other, library, sys.stdout)
    outside = [table.path for table in (one, other) if premises.outside(table)]
    boxes = 'queries in the boxes of these points may be answered differently (8.5)'
    if outside:
        told = f'outside the premises of the node rule, so that nothing is proved of what the stored points answer: {", ".join(outside)}' \
            + (f'; {boxes}' if found else '')
    elif found:
        told = f'among the stored points these and no others answer differently (docs/SPECIFICATION.md 8.4); between them {boxes}'
    else:
        told = 'at no stored point the tables answer differently (docs/SPECIFICATION.md 8.4)'
    tell(f'veltzuma: {found:,} of {len(one.vals):,} stored points differ, in {one.width}; {told}')
    return 1 if found else 0


def built(given):
    # Loaded, since a library that was named may be none, or of another version.
    print(load().path)
    return 0


class _Version(argparse.Action):
    """Says which version this is, and of what the library at hand was built; nothing is built for it."""

    def __call__(self, whole, *_):
        print(f'veltzuma {build.version()}, calls of version {veltzuma.VERSION}')
        path = build.at_hand()
        if path is None:
            print('library: none at hand')
        else:
            made = loaded(path).build
            print(f'library: {one_line(path)}')
            for what in ('commit', 'kit', 'sources'):
                print(f'  {what}: {one_line(made.get(what, "not told by the library"))}')
        whole.exit()


def one_line(text):
    """Text that may come from file names and arguments, on one line."""
    return re.sub('[\0-\x1f\x7f-\x9f\u2028\u2029]', lambda found: repr(found[0])[1:-1], str(text))


def _done(words_given):
    if sys.stdout is None:
        raise OSError('standard output is closed')
    for stream in (sys.stdout, sys.stderr):
        # CSV is UTF-8 whatever the terminal is; a file name may be any bytes.
        if stream is not None:
            stream.reconfigure(encoding='utf-8', errors='surrogateescape')
    try:
        given = parser().parse_args(_rejoined(words_given))
        status = given.run(given)
    except (Stop, files.BadInput, build.NotBuilt) as told:
        sys.stdout.flush()
        for line in (told, *getattr(told, 'more', ())):
            print(one_line(line), file=sys.stderr)
        status = getattr(told, 'status', 2)
    except SystemExit as ended:
        status = ended.code
    sys.stdout.flush()
    return status


def main(words_given):
    try:
        return _done(words_given)
    except KeyboardInterrupt:
        print('veltzuma: stopped', file=sys.stderr)
        status = 130
    except BrokenPipeError:
        # Whoever read the output has gone.
        status = 141
    except OSError as error:
        print(f'veltzuma: {one_line(error)}', file=sys.stderr)
        status = 2
    # What is left in the buffer has nowhere to go.
    os.dup2(os.open(os.devnull, os.O_WRONLY), 1)
    return status
