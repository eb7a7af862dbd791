"""Bad input of every kind: one clear line on standard error that names the file and the line, and status 2."""
import gzip
import os
import signal
import subprocess
import sys
import unittest

from support import InFolder, LARGEST, OTHERS, TOOL, TOP, run, run_process, stand_in, table

GOOD = table([('flow', [0, 1, 2, 3]), ('heat', [0, 1, 2, 3, 4])], lambda i, j: i + j)
REGULAR = table([('flow', 0, 1, 4)], lambda i: i, 'regular')


class BadTables(InFolder):
    """Of every command that reads a table; what the header may hold, of one of them."""

    def bad(self, content, line, said, commands=7):
        path = self.write(content) if content is not None else os.path.join(self.folder, 'none.table')
        at = f'{path}:{line}: {said}' if line else f'{path}: {said}'
        good = self.write(GOOD, 'good.table')
        out = os.path.join(self.folder, 'out')
        for words in (['check', path], ['eval', path, '--at', '1,2'], ['nodes', path], ['plot', path, '--along', 'flow', '-o', out], ['report', path, '-o', out],
                      ['diff', path, good], ['diff', good, path])[:commands]:
            self.assertOneLine(run(*words), 2, at)
            self.assertFalse(os.path.exists(out), words)

    def test_no_such_file(self):
        self.bad(None, None, 'No such file or directory')

    def test_folder(self):
        os.mkdir(os.path.join(self.folder, 'none.table'))
        self.bad(None, None, 'Is a directory')

    def test_empty_file(self):
        self.bad(b'', 1, 'the file is empty')

    def test_binary_file(self):
        self.bad(gzip.compress(b'x' * 1000), 1, 'not a text file: byte 0x8b is no UTF-8')
        self.bad(b'\x7fELF\x02\x01\x01\x00\x00', 1, 'not a text file: U+007F')
        self.bad(GOOD.encode() + b'\x00\x01\x02\n', 17, 'not a text file: U+0000')

    def test_endless_file(self):
        self.assertOneLine(run('check', '/dev/zero'), 2, '/dev/zero: longer than 67,108,864 bytes, which no table is')

    def test_long_line(self):
        self.bad(GOOD.encode() + b'1' * ((1 << 20) + 1), 17, 'the line is longer than 1,048,576 bytes')

    def test_byte_order_mark(self):
        self.bad(b'\xef\xbb\xbf' + GOOD.encode(), 1, 'the file begins with a byte-order mark')
        self.bad(GOOD.encode('utf-16'), 1, 'the file begins with a byte-order mark')

    def test_carriage_returns(self):
        self.bad(GOOD.replace('\n', '\r\n'), 1, 'the line ends with CR LF')
        self.bad(GOOD.replace('unit: mL\n', 'unit: mL\r\n'), 11, 'the line ends with CR LF')
        self.bad(GOOD.replace('\n', '\r'), 1, 'the line has a CR in it')

    def test_characters_that_do_not_show(self):
        self.bad(GOOD.replace('A table', 'A \u202etable'), 2, 'a character that does not show: U+202E')
        self.bad(GOOD.replace('A table', 'A \x1b[31mtable'), 2, 'not a text file: U+001B')
        self.bad(GOOD.replace('A table', 'A \ufffe'), 2, 'a character that does not show: U+FFFE')

    def test_text_for_a_number(self):
        self.bad(GOOD.replace('entries: 0, 1, 2, 3\n', 'entries: 0, one, 2, 3\n'), 6, "'one' is not a number")
        self.bad(GOOD.replace('\n1,2,', '\n1,#REF!,'), 14, "'#REF!' is not a number")
        self.bad(GOOD.replace('\n1,2,', '\n1,,'), 14, 'a number is missing')
        self.bad(REGULAR.replace('start: 0', 'start: x'), 6, "'x' is not a number")
        self.bad(REGULAR.replace('count: 4', 'count: 4.0'), 8, "'4.0' is not a count")
        self.bad(REGULAR.replace('count: 4', 'count: -4'), 8, "'-4' is not a count")
        self.bad(REGULAR.replace('count: 4', 'count: 18446744073709551616'), 8, "'18446744073709551616' is not a count")

    def test_quotes(self):
        self.bad(GOOD.replace('\n1,2,', '\n"1"0,2,'), 14, "'\"1\"0,2,3,4,5' is not a number", 1)
        self.bad(GOOD.replace('\n1,2,3,4,5\n', '\n1,2,3,4,"5\n'), 14, "'1,2,3,4,\"5' is not a number", 1)

    def test_decimal_comma(self):
        self.bad(REGULAR.replace('step: 1', 'step: 0,5'), 7, "'0,5' is not a number: numbers take a decimal point")
        self.bad(GOOD.replace('\n1,2,', '\n"1,5","2,5",'), 14, "'1,5' is not a number: numbers take a decimal point")
        self.bad(GOOD.replace('\n1,2,3,4,5\n', '\n1,5;2;3;4;5\n'), 14, 'a semicolon: commas stand between numbers, and numbers take a decimal point')

    def test_header(self):
        for old, new, line, said in (
                ('veltzuma table 1', 'veltzuma table 2', 1, "not a table: the first line is not 'veltzuma table 1'"),
                ('kind: rectilinear', 'kind: cubic', 3, "kind 'cubic': it is 'regular' or 'rectilinear'"),
                ('kind: rectilinear\n', '', 3, "'kind:' stands before the first axis"),
                ('kind:', 'kind', 3, "'kind rectilinear': a line of the header is 'key: text'"),
                ('kind:', 'colour:', 3, "'colour' is no key of a table"),
                ('title: A table', 'title:', 2, "'title:' is empty"),
                ('title: A table', 'title: a\ntitle: b', 3, "a second 'title:'"),
                ('axis: heat', 'axis: flow', 7, "a second 'flow'"),
                ('axis: heat', 'axis: 2nd', 7, "'2nd': a name begins with a letter"),
                ('axis: heat', 'axis: Inf', 7, "'Inf' is a number, and no name"),
                ('axis: heat', 'axis: =heat', 7, "'=heat': a name begins with a letter"),
                ('axis: heat', 'axis: ' + 'h' * 81, 7, f"'{'h' * 37}...': a name begins with a letter and has at most 80 characters"),
                ('value: volume', 'value: heat', 10, "a second 'heat'"),
                ('unit: mm', 'unit:', 5, "'unit:' is empty"),
                ('unit: mm', 'unit: mm\nunit: cm', 6, "'unit:' follows an 'axis:' or 'value:', once"),
                ('unit: mm\n', '', 4, "axis 'flow' has no 'unit:'"),
                ('unit: mL\n', '', 11, "value 'volume' has no 'unit:'"),
                ('value: volume\nunit: mL\n', '', 10, "no 'value:' before the values"),
                ('entries: 0, 1, 2, 3\n', '', 4, "axis 'flow' has no 'entries:'"),
                ('entries: 0, 1, 2, 3\n', 'start: 0\n', 6, 'a rectilinear axis has entries'),
                ('entries: 0, 1, 2, 3\n', 'entries: 0, 1, 2, 3\nentries: 1\n', 7, "a second 'entries:' of axis 'flow'"),
                ('axis: flow\n', 'entries: 1\naxis: flow\n', 4, "'entries:' belongs to an axis"),
                ('values:', 'values: 1', 12, "the numbers begin on the line after 'values:'"),
                ('values:', '#', 13, "'0,1,2,3,4': a line of the header is 'key: text'")):
            with self.subTest(new=new[:40]):
                self.bad(GOOD.replace(old, new, 1), line, said, 1)
        self.bad(GOOD.split('values:')[0], 11, "the file ends before 'values:'")
        self.bad(REGULAR.replace('step: 1\n', ''), 4, "axis 'flow' has no 'step:'")
        self.bad(REGULAR.replace('step: 1\n', 'entries: 1\n'), 7, 'a regular axis has start, step and count')

    def test_wrong_count_of_values(self):
        """A refusal of the library, 3, in words and with its line: status 1."""
        path = self.write(GOOD.replace('\n2,3,4,5,6\n', '\n2,3,4,5\n'))
        said = f"{path}:15: refused 3 (mismatch): 4 values in this row, where axis 1 'heat' has 5 entries; 19 values in all, and 4 × 5 = 20 are needed\n"
        self.assertEqual(run('check', path), (1, said, ''))
        self.assertEqual(run('eval', path, '--at', '1,2'), (1, '', said))

    def test_not_allowed(self):
        path = self.write(GOOD)
        os.chmod(path, 0)
        if os.access(path, os.R_OK):
            os.chmod(path, 0o644)
            return  # root reads everything
        self.assertOneLine(run('check', path), 2, f'{path}: Permission denied')


class Bounds(InFolder):
    """Files that are made to be slow or large."""

    def test_many_digits(self):
        digits = '1' * 100000
        self.assertEqual(run('check', self.write(GOOD.replace('\n1,2,', f'\n0.{digits},2e-{digits},')))[0], 0)
        self.assertOneLine(run('check', self.write(GOOD.replace('\n1,2,', f'\n{digits}x,2,'))), 2, 't.table:14: ', 'is not a number')
        # In the middle between two numbers of f32, but for the last digit.
        path = self.write(GOOD.replace('\n1,2,', '\n1.000000059604644775390625' + '0' * 5000 + '1,2,'))
        self.assertIn('1,0,1.0000001,', run('eval', path, '--at', '1,0', '--width', 'f32')[1])
        self.assertOneLine(run('plot', path, '--along', digits, '-o', path + '.svg'), 2, 'no axis')
        self.assertOneLine(run('eval', path, '--at', digits), 2, "--at '1111", '1 coordinate')

    def test_many_axes(self):
        axes = [(f'a{i}', 0, 1, 18446744073709551615) for i in range(64)]
        path = self.write(table(axes, [['1']], 'regular'))
        self.assertIn('refused 1 (axes): 64 axes', run('check', path)[1])
        self.assertEqual(run('report', path, '-o', path + '.html')[0], 1)
        path = self.write(table(axes + [('b', 0, 1, 4)], [['1']], 'regular'))
        self.assertOneLine(run('check', path), 2, 'more than 64 axes')

    def test_many_values(self):
        """No more is read than the library needs to refuse it."""
        path = self.write(table([('a', [0, 1, 2, 3])], []) + '1,2,3,4\n' * 300000)
        status, out, _ = run('check', path)
        self.assertEqual((status, out), (1, f'{path}:262154: refused 3 (mismatch): more than 1,048,576 values, where 4 are needed\n'))
        axis = ', '.join(map(str, range(60000)))
        self.assertIn("refused 2 (size): axis 0 'a' has 60,000 entries", run('check', self.write(GOOD.replace('axis: flow', 'axis: a').replace(
            'entries: 0, 1, 2, 3\n', f'entries: {axis}\n')))[1])

    def test_greatest_table(self):
        path = self.write(table([('a', 0, 1, 4096), ('b', 0, 1, 256)], lambda i, j: i ^ j, 'regular'))
        self.assertIn('1,048,576 points', run('check', path)[1])
        self.assertEqual(run('eval', path, '--at', '4095,255')[1].split('\n')[1].split(',')[2], str(4095 ^ 255))


class BadQueries(InFolder):
    def bad(self, content, line, said, table_text=GOOD):
        table_path, path = self.write(table_text), self.write(content, 'q.csv')
        for words, stdin, name in ((['--queries', path], b'', path), ([], content.encode() if isinstance(content, str) else content, 'standard input')):
            status, out, err = run('eval', table_path, *words, stdin=stdin)
            self.assertEqual((status, err), (2, f'{name}:{line}: {said}\n'))
            # The heading, and the queries before it.
            self.assertEqual(out.count('\n'), line if line > 1 else 0)

    def test_wrong_count(self):
        self.bad('1,2\n1\n', 2, '1 coordinate, where the table has 2: flow, heat')
        self.bad('1,2,3\n', 1, '3 coordinates, where the table has 2: flow, heat; a decimal comma makes two of one')
        self.bad('1,5\n', 1, '2 coordinates, where the table has 1: flow; a decimal comma makes two of one', REGULAR)

    def test_text(self):
        self.bad('1,two\n', 1, "'two' is not a number")
        # Left empty, it is not a missing reading, which is written nan.
        self.bad('1,2\n1,\n', 2, 'a field is empty')
        self.bad('1,"2,5"\n', 1, "'2,5' is not a number: numbers take a decimal point")
        self.bad('1,5;2,5\n', 1, 'a semicolon: commas stand between coordinates, and numbers take a decimal point')
        self.bad('1,1_000\n', 1, "'1_000' is not a number")

    def test_empty(self):
        self.bad('', 1, 'no query: the file is empty')

    def test_no_text(self):
        self.bad(b'\xef\xbb\xbf1,2\n', 1, 'the file begins with a byte-order mark; save it as UTF-8 without one')
        self.bad(b'1,2\r\n1,3\r\n', 1, 'the line ends with CR LF; save the file with LF line ends')
        self.bad(b'1,2\n\x00\x01\n', 2, 'not a text file: U+0000')
        self.bad(b'1,2\n\xff\xfe\n', 2, 'not a text file: byte 0xff is no UTF-8')
        self.bad(b'1,2\n' + b'1' * 70000, 2, 'the line is longer than 65,536 bytes')

    def test_files(self):
        path = self.write(GOOD)
        self.assertOneLine(run('eval', path, '--queries', self.folder), 2, 'Is a directory')
        self.assertOneLine(run('eval', path, '--queries', os.path.join(self.folder, 'none')), 2, 'none: No such file or directory')
        self.assertOneLine(run('eval', path, '--queries', path, '--at', '1,2'), 2, '--at or --queries, not both')

    def test_at(self):
        path = self.write(GOOD)
        self.assertOneLine(run('eval', path, '--at', '1,5,2'), 2, "--at '1,5,2': 3 coordinates, where the table has 2: flow, heat; a decimal comma makes two of one")
        self.assertOneLine(run('eval', path, '--at', '1,x'), 2, "--at '1,x': 'x' is not a number")
        self.assertOneLine(run('eval', path, '--at', ''), 2, '1 coordinate, where the table has 2')
        self.assertOneLine(run('plot', path, '--along', '0', '--at', '1', '-o', 'x.svg'), 2, "--at '1': 1 coordinate, where the table has 2")


class BadCommands(InFolder):
    def test_axis_that_is_not_there(self):
        path = self.write(GOOD)
        for name in ('pressure', '2', '-1', '', 'Flow'):
            self.assertOneLine(run('plot', path, f'--along={name}', '-o', path + '.svg'), 2, f"{path}: no axis '{name}'; the axes are 0 'flow', 1 'heat'")

    def test_output_that_cannot_be_written(self):
        path, out = self.write(GOOD), os.path.join(self.folder, 'none', 'x')
        self.assertOneLine(run('plot', path, '--along', '0', '-o', out), 2, f'{out}: No such file or directory')
        self.assertOneLine(run('report', path, '-o', out), 2, f'{out}: No such file or directory')
        self.assertOneLine(run('report', path, '-o', '/dev/full'), 2, '/dev/full: No space left on device')

    def test_words(self):
        for words, said in (([], 'COMMAND'), (['chek', 'x'], 'invalid choice'), (['check'], 'required: table'), (['check', LARGEST, '--width', 'f16'], 'invalid choice'),
                            (['eval', LARGEST, '--mode', 'flat'], 'invalid choice'), (['eval', LARGEST, '--at'], 'expected one argument'),
                            (['check', LARGEST, '--colour'], 'unrecognized arguments: --colour'), (['plot', LARGEST, '-o', 'x'], 'required: --along')):
            self.assertOneLine(run(*words), 2, said, '--help')

    def test_library(self):
        self.assertOneLine(run_process('check', LARGEST, VELTZUMA_LIBRARY=os.path.join(self.folder, 'none.so')), 2, 'the library cannot be loaded', 'none.so')
        self.assertOneLine(run_process('check', LARGEST, VELTZUMA_LIBRARY=self.write('text', 'text.so')), 2, 'the library cannot be loaded', 'text.so')
        self.assertOneLine(run_process('check', LARGEST, VELTZUMA_LIBRARY=self.write('text', 'text.so')), 2, 'the library cannot be loaded')

    def test_library_of_another_version(self):
        out = os.path.join(self.folder, 'out')
        for name, (versions, said) in OTHERS.items():
            path = stand_in(self.folder, name, versions)
            for words in (['check', LARGEST], ['eval', LARGEST, '--at', '1,2,3'], ['nodes', LARGEST], ['plot', LARGEST, '--along', '0', '-o', out],
                          ['report', LARGEST, '-o', out], ['diff', LARGEST, LARGEST]):
                self.assertOneLine(run_process(*words, VELTZUMA_LIBRARY=path), 2, f'the library cannot be loaded: {self.folder}/{said}; ')
        self.assertFalse(os.path.exists(out))
        path = stand_in(self.folder, 'none.so', {}, symbols=False)
        self.assertOneLine(run_process('check', LARGEST, VELTZUMA_LIBRARY=path), 2, f'the library cannot be loaded: {path} is not the library: it has no veltzuma_regular_new')

    def test_numbers_that_are_no_bad_input(self):
        """nan and inf go to the library as they are, and it is the library that refuses a query."""
        self.assertEqual(run('eval', self.write(GOOD), '--at', 'inf,-inf')[0], 0)
        status, out, err = run('eval', self.write(GOOD), '--at', 'nan,inf', '-inf,NaN')
        self.assertEqual((status, err), (1, ''))
        self.assertEqual([line.split(',')[-1] for line in out.split('\n')[1:-1]],
                         ["refused 9 (missing): axis 0 'flow': no reading (nan)", "refused 9 (missing): axis 1 'heat': no reading (nan)"])
        status, out, err = run('eval', self.write(REGULAR), '--at', '-nan', 'inf')
        self.assertEqual((status, err), (1, ''))
        self.assertEqual([line.split(',')[-1] for line in out.split('\n')[1:-1]],
                         ["refused 9 (missing): axis 0 'flow': no reading (nan)",
                          "refused 8 (unplaceable): axis 0 'flow': (inf - 0) / 1 is not a finite number from -2^63 to below 2^63"])
        self.assertEqual(run('check', self.write(GOOD.replace('\n1,2,', '\nnan,-inf,')))[0], 0)


    def test_output_is_the_table(self):
        path = self.write(GOOD)
        for words in (['plot', path, '--along', '0'], ['report', path]):
            self.assertOneLine(run(*words, '-o', os.path.join(self.folder, '.', 't.table')), 2, 'this is the table itself')
        self.assertEqual(run('check', path)[0], 0)

    def test_output_is_another_table(self):
        """No table is overwritten, not even one of another format, or one that is no good."""
        path = self.write(GOOD)
        for content in (GOOD, REGULAR, 'veltzuma table 1', 'veltzuma table 2\nkind: new\n', '\ufeff' + GOOD):
            other = self.write(content, 'other.table')
            for words in (['plot', path, '--along', '0'], ['report', path]):
                self.assertOneLine(run(*words, '-o', other), 2, f'{other}: this is a table, and is not overwritten')
                with open(other, encoding='utf-8') as kept:
                    self.assertEqual(kept.read(), content)
        # What is none is.
        for content in ('', 'veltzuma', 'a page about a veltzuma table 1\n'):
            other = self.write(content, 'other.svg')
            self.assertEqual(run('plot', path, '--along', '0', '-o', other), (0, f'written: {other}\n', ''))
            with open(other, encoding='utf-8') as found:
                self.assertTrue(found.read().startswith('<svg'))

    def test_standard_output(self):
        """Nothing else is written there, and no file of that name."""
        path, here = self.write(GOOD), os.getcwd()
        os.chdir(self.folder)
        self.addCleanup(os.chdir, here)
        for words in (['plot', path, '--along', '0'], ['report', path]):
            out = os.path.join(self.folder, 'out')
            self.assertEqual(run(*words, '-o', out), (0, f'written: {out}\n', ''))
            with open(out, encoding='utf-8') as found:
                self.assertEqual(run(*words, '-o', '-'), (0, found.read(), ''))
        self.assertFalse(os.path.exists(os.path.join(self.folder, '-')))
        self.assertEqual(self.closed(path), (2, '/dev/full'))

    def closed(self, path):
        """A full standard output, as a file that is full."""
        with open('/dev/full', 'wb') as full:
            done = subprocess.run([sys.executable, '-S', '-B', TOOL, 'report', path, '-o', '-'], stdout=full, stderr=subprocess.PIPE)
        self.assertEqual(done.stderr, b'veltzuma: [Errno 28] No space left on device\n')
        return done.returncode, full.name

    def test_report_of_a_refused_table(self):
        """Is written, and what is refused is said on standard error, once where it is the same in both widths."""
        out = os.path.join(self.folder, 'out')
        for text, said in ((GOOD.replace('0, 1, 2, 3\n', '0, 1, 3, 2\n'), ":6: refused 6 (disorder): axis 0 'flow', entry 3: 2 is below the entry before it, 3"),
                           (GOOD.replace('0, 1, 2, 3\n', '0, 1, 1.00000001, 3\n'),
                            ":6: in f32: refused 10 (flat): axis 0 'flow', entry 2: 1.00000001 and the entry before it, 1, are both 1 in f32")):
            path = self.write(text)
            self.assertEqual(run('report', path, '-o', out), (1, f'written: {out}\n', f'{path}{said}\n'))
            with open(out, encoding='utf-8') as found:
                page = found.read()
            self.assertEqual(run('report', path, '-o', '-'), (1, page, f'{path}{said}\n'))

    def test_names_with_odd_characters(self):
        for name in ('two\nlines.table', 'b\x1b[31m.table', os.fsdecode(b'bad\xff.table')):
            self.assertOneLine(run('check', os.path.join(self.folder, name)), 2, 'No such file or directory')
            path = self.write(GOOD, name)
            self.assertEqual(run('check', path)[0], 0)
            told = path.replace('\n', '\\n').replace('\x1b', '\\x1b')
            self.assertEqual(run('report', path, '-o', path + '.html'), (0, f'written: {told}.html\n', ''))


class Processes(InFolder):
    def test_as_from_a_shell(self):
        """The same in a process of its own: nothing else is written, and the status is the process's."""
        for words, status in ((['check', LARGEST], 0), (['check', self.write('')], 2), (['check', self.write(GOOD.replace('0, 1, 2', '0, 3, 2'), 'u.table')], 1),
                              (['eval', LARGEST, '--at', '1,2'], 2), ([], 2), (['--help'], 0)):
            found = run_process(*words)
            self.assertEqual(found[0], status, found)
            self.assertEqual(found, run(*words))

    def shell(self, command):
        done = subprocess.run(['sh', '-c', command], env={**os.environ, 'PYTHONUNBUFFERED': '', 'TOOL': f'{sys.executable} -S -B {TOOL}', 'TABLE': LARGEST}, stdout=subprocess.PIPE,
                              stderr=subprocess.PIPE)
        return done.returncode, done.stdout.decode(), done.stderr.decode()

    def test_streams(self):
        """Closed, full, or in another encoding."""
        for command, status, said in (('$TOOL check $TABLE >&-', 2, 'veltzuma: standard output is closed\n'), ('$TOOL eval $TABLE <&-', 2, 'standard input is closed\n'),
                                      ('$TOOL --help >/dev/full', 2, 'veltzuma: [Errno 28] No space left on device\n'), ('$TOOL check $TABLE 2>&-', 0, ''),
                                      ('PYTHONIOENCODING=ascii $TOOL check $TABLE', 0, ''), ('LC_ALL=C $TOOL check $TABLE', 0, '')):
            found = self.shell(command)
            self.assertEqual((found[0], found[2]), (status, said), command)
        self.assertIn('7 × temperature', self.shell('PYTHONIOENCODING=ascii $TOOL check $TABLE')[1])

    def test_interrupt(self):
        process = subprocess.Popen([sys.executable, '-S', '-B', TOOL, 'eval', LARGEST], stdin=subprocess.PIPE, stdout=subprocess.PIPE, stderr=subprocess.PIPE,
                                   preexec_fn=lambda: signal.signal(signal.SIGINT, signal.SIG_DFL))
        process.stdin.write(b'50,30,100\n' * 9000)
        process.stdin.flush()
        # It is at work once it has answered.
        process.stdout.readline()
        process.send_signal(signal.SIGINT)
        _, err = process.communicate()
        self.assertEqual((process.returncode, err), (130, b'veltzuma: stopped\n'))


class Help(InFolder):
    def test_each_example_works(self):
        self.assertEqual(run('--help')[0], 0)
        for command in ('check', 'eval', 'nodes', 'plot', 'report', 'diff', 'build'):
            status, out, err = run(command, '--help')
            self.assertEqual((status, err), (0, ''))
            example = out.split('example: ./veltzuma ')[1].split()
            if 'changed.table' in example:
                example[example.index('changed.table')] = LARGEST
            if '-o' in example:
                at = example.index('-o') + 1
                example[at] = os.path.join(self.folder, example[at])
            found = run_process(*example, cwd=TOP)
            self.assertEqual(found[0], 0, found)
            if '-o' in example:
                self.assertGreater(os.path.getsize(example[at]), 1000)


if __name__ == '__main__':
    unittest.main()
