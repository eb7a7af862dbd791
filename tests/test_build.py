"""First use, later uses, and what stops them; the gate's steps. In a copy of the repository, with a stand-in for the kit's command that hands out the
archives that were built from these very sources."""
import contextlib
import os
import pty
import re
import select
import shutil
import signal
import subprocess
import sys
import tempfile
import time
import unittest

from support import LIBRARY, OTHERS, TOP, VERSION, stand_in, text_of

# As the kit's own it is a script that starts what works in the background, where no interrupt is heard. In the step that HANG names it does not end: it and
# what it started tell their processes in PIDS, and what it started does not end when it is asked to where STUBBORN is set.
RT = '''#!/bin/sh
echo "$*" >>"$CALLS"
if [ "$1" = "${HANG:-}" ]; then
    sh -c '[ -z "${STUBBORN:-}" ] || trap "" TERM; echo $$ >>"$PIDS"; sleep 60; sleep 60' &
    echo $$ >>"$PIDS"
    wait
fi
case $1 in
version) echo "${KIT:-kit of the tests}"; exit "${TELLS:-0}" ;;
all)
    # In the folder of the crate that stands on all others, and for those below it.
    [ "$2 $3 ${PWD##*/}" = 'check --jobs capi_c_f32' ] || exit 99
    shape=new
    for name in $(cat "$BELOW"); do
        echo "== $name"
        # As one that is proved now; whose work is taken from elsewhere; that was proved before.
        case $shape in
        new) echo "fn $name::f: proved"; echo 'logic=proved functions=1 sum=0'; shape=taken ;;
        taken) echo "rt: $name: begins with what a check kept in /elsewhere"; shape=old ;;
        old) shape=new ;;
        esac
    done
    [ "${CHECKED:-0}" = 0 ] || printf '%s\\n' '== failing' 'fn failing::f: not proved' 'logic=not-proved' '== afterwards'
    printf '%s\\n' '== summary' 'capi: ok' '2 of 2 crates ok'
    sleep "${SLEEP:-0}"
    exit "${CHECKED:-0}" ;;
lib)
    archive=$(case ${PWD##*/} in capi_c) echo capi ;; capi_c_f32) echo capi_f32 ;; esac)
    [ "$# ${archive:-none}" != "1 none" ] || exit 99
    echo "logic=proved functions=1 sum=0"
    [ "$archive" != capi ] || sleep "${COMPILING:-0}"
    mkdir -p out && cp "$ARCHIVES/lib$archive.a" "out/lib${PWD##*/}.a"
    exit "${COMPILED:-0}" ;;
ci)
    # Of the whole checkout.
    [ $# = 1 ] && [ -f crates.txt ] || exit 99
    echo "jobs ${RT_JOBS:-none}"; printf "${OK-rt: ok; handles allowed: none; must-fail edits: 2 refused; and more\\n}"; printf "${SAID-3 passed, 0 failed\\n}"; exit "${GATE:-0}" ;;
esac
'''
SAMPLE = 'tables/synthetic-strokes.table'


def below(name):
    """The crate and all that it stands on, by crates.txt."""
    lines = (line.partition('#')[0].partition(':') for line in text_of(os.path.join(TOP, 'crates.txt')).split('\n'))
    named = {line[0].split()[0]: line[2].split() for line in lines if line[1]}
    found, left = set(), [name]
    while left:
        one = left.pop()
        if one in named and one not in found:
            found.add(one)
            left += named[one]
    return sorted(found)


class Copy(unittest.TestCase):
    def setUp(self):
        self.folder = tempfile.mkdtemp(prefix='veltzuma')
        self.addCleanup(shutil.rmtree, self.folder, ignore_errors=True)
        self.top, self.bin, self.calls = (os.path.join(self.folder, name) for name in ('top', 'bin', 'calls'))
        shutil.copytree(TOP, self.top, ignore=lambda folder, names: [name for name in names if folder == TOP and name in ('target', 'build', '.git', 'crates', 'docs')])
        os.mkdir(os.path.join(self.top, 'crates'))
        self.own_crates()
        with open(os.path.join(self.folder, 'below'), 'w') as out:
            out.write('\n'.join(below('capi_c_f32')))
        os.mkdir(self.bin)
        self.script('rt', RT)
        # What a machine has beside the kit.
        for name in ('sh', 'cc', 'gcc', 'ld', 'as', 'cp', 'mkdir', 'sleep', 'seq', 'env', 'dirname', 'cat', 'git', 'rustc', 'bash', 'tail', 'grep'):
            found = shutil.which(name)
            if found:
                os.symlink(found, os.path.join(self.bin, name))
        os.symlink(sys.executable, os.path.join(self.bin, 'python3'))

    def script(self, name, text):
        path = os.path.join(self.bin, name)
        with open(path, 'w') as out:
            out.write(text)
        os.chmod(path, 0o755)

    def own_crates(self, *names):
        """Copies of these crates, which a test may alter, and of those that the archives are written in; the others stay those of the repository."""
        crates = os.path.join(self.top, 'crates')
        shutil.rmtree(crates)
        os.mkdir(crates)
        for name in os.listdir(os.path.join(TOP, 'crates')):
            whence, to = os.path.join(TOP, 'crates', name), os.path.join(crates, name)
            if name in (*names, 'capi_c', 'capi_c_f32'):
                shutil.copytree(whence, to, ignore=shutil.ignore_patterns('out'))
            else:
                os.symlink(whence, to)

    def put(self, name, text):
        """Another file in place of one of the copy."""
        with open(os.path.join(self.top, name), 'w') as out:
            out.write(text)

    def environment(self, **env):
        return {'PATH': self.bin, 'CALLS': self.calls, 'ARCHIVES': os.path.dirname(LIBRARY), 'HOME': self.folder, 'PIDS': self.folder + '/pids',
                'BELOW': self.folder + '/below', **env}

    def tool(self, *words, **env):
        done = subprocess.run([sys.executable, os.path.join(self.top, 'veltzuma'), *words], stdout=subprocess.PIPE, stderr=subprocess.PIPE,
                              env=self.environment(**env), timeout=120)
        return done.returncode, done.stdout.decode(), done.stderr.decode()

    def check(self, **env):
        return self.tool('check', os.path.join(self.top, SAMPLE), **env)

    def called(self):
        """What the kit was asked for since the last look, but for its version."""
        if not os.path.exists(self.calls):
            return []
        with open(self.calls) as calls:
            found = [line.split()[0] for line in calls if line.strip() != 'version']
        os.remove(self.calls)
        return found


class Build(Copy):
    def test_first_and_later_uses(self):
        status, out, err = self.check()
        self.assertEqual(status, 0, err)
        self.assertIn('taken', out)
        lines = [line.split('veltzuma: ')[1] for line in err.rstrip('\n').split('\n')]
        self.assertIn('first use of these sources: the library is proved and built', lines[0])
        count = int(re.fullmatch(r'proving (\d+) crates', lines[1])[1])
        self.assertGreater(count, 30)
        self.assertRegex(lines[2], rf'0:00  1 of {count}: \w+ proved')
        self.assertRegex(lines[count + 1], rf'{count} of {count}: \w+ proved')
        lines[count + 2:-1] = [re.sub(r'^\d+:\d\d  ', '', line) for line in lines[count + 2:-1]]
        self.assertEqual([lines[count + 2], lines[-2], len(lines)], ['compiling capi and capi_f32', 'linking', count + 7])
        # Whichever is the first.
        self.assertIn(lines[count + 3:-2], [[f'{one} is compiled, {other} is left', f'{other} is compiled'] for one, other in (('capi', 'capi_f32'), ('capi_f32', 'capi'))])
        self.assertRegex(lines[-1], r'built in \d+:\d\d min')
        self.assertEqual(self.called(), ['all', 'lib', 'lib'])
        # Afterwards nothing is built, and nothing said.
        self.assertEqual(self.check(), (0, out, ''))
        self.assertEqual(self.called(), [])

    def test_keyed_by_the_sources(self):
        self.own_crates('interp_math', 'ieee', 'multicubic', 'slices_f32', 'cases', 'capi')
        self.check()
        self.called()
        for path, built in (('crates/interp_math/src/lib.rt', True), ('crates/ieee/proofs/New.antt', True), ('crates/multicubic/specs/New.antt', True),
                            ('crates/slices_f32/src/lib.rt', True),
                            ('crates/cases/src/main.rt', False), ('crates/capi/must-fail/new.edit', False), ('README.md', False)):
            with open(os.path.join(self.top, path), 'a') as source:
                source.write('\n// altered\n')
            self.assertEqual(self.check()[0], 0)
            self.assertEqual(bool(self.called()), built, path)
        # And by the kit.
        self.check(KIT='another kit')
        self.assertTrue(self.called())

    def test_library_of_the_environment(self):
        status, out, err = self.check(VELTZUMA_LIBRARY=LIBRARY)
        self.assertEqual((status, err, os.path.exists(self.calls)), (0, '', False))
        # Where there is no kit at all.
        os.remove(os.path.join(self.bin, 'rt'))
        self.assertEqual(self.check(VELTZUMA_LIBRARY=LIBRARY), (0, out, ''))

    def test_build_looks_at_the_library_that_is_named(self):
        self.assertEqual(self.tool('build', VELTZUMA_LIBRARY=LIBRARY), (0, LIBRARY + '\n', ''))
        said = 'the library cannot be loaded: '
        text = os.path.join(self.top, 'README.md')
        for path, why in (('/nonexistent', '/nonexistent: cannot open shared object file: No such file or directory\n'), (text, f'{text}: ')):
            status, out, err = self.tool('build', VELTZUMA_LIBRARY=path)
            self.assertEqual((status, out, err.count('\n'), err[:len(said + why)]), (2, '', 1, said + why))
        for name, (versions, told) in OTHERS.items():
            status, out, err = self.tool('build', VELTZUMA_LIBRARY=stand_in(self.folder, name, versions))
            self.assertEqual((status, out, err.count('\n')), (2, '', 1))
            self.assertIn(f'{said}{self.folder}/{told}; ', err)
        self.assertEqual(self.called(), [])

    def test_no_kit(self):
        os.remove(os.path.join(self.bin, 'rt'))
        told = self.check()
        self.assertEqual(told, (2, '', '''\
'rt', the command of the Rattle kit, is not found
The kit is what the library is proved and built with: a folder with compiler and prover for Linux, a product of its own. Its 'bin' goes on the PATH.
Without it, a library that was built elsewhere will do: on a machine with the kit './veltzuma build' prints its path, build/KEY/libveltzuma.so.
Copy that one file here, to x86-64 Linux, and name the copy: VELTZUMA_LIBRARY=PATH ./veltzuma check TABLE
'''))
        self.assertEqual(self.tool('build'), told)

    def test_kit_that_fails(self):
        self.assertEqual(self.check(TELLS='1'), (2, '', "'rt version' fails, so the kit cannot be used\n"))

    def test_no_compiler(self):
        for name in ('cc', 'gcc'):
            os.remove(os.path.join(self.bin, name))
        self.assertEqual(self.check(), (2, '', 'the library is not built: no C compiler is found (cc, gcc or clang)\n'))
        self.assertEqual(self.called(), [])

    def test_not_proved(self):
        status, out, err = self.check(CHECKED='1')
        self.assertEqual((status, out), (2, ''))
        told = err.rstrip('\n').split('\n')[-1]
        self.assertRegex(told, r"^the library is not built: 'rt all' ended with status 1; \S+ has what it printed$")
        with open(os.path.abspath(re.search(r'; (\S+) has', told)[1])) as log:
            said = log.read()
        for line in ('== ieee\n', 'fn capi::f: proved\n', '== failing\n'):
            self.assertIn(line, said)
        # What failed is not told as proved.
        self.assertIn(': ieee proved\n', err)
        self.assertNotIn('failing proved', err)
        # Nothing is left that a later use would take for the library.
        self.called()
        self.assertEqual(self.check()[0], 0)
        self.assertEqual(self.called(), ['all', 'lib', 'lib'])

    def test_not_compiled(self):
        status, out, err = self.check(COMPILED='3')
        self.assertEqual((status, out), (2, ''))
        self.assertIn("the library is not built: 'rt lib' ended with status 3; ", err)

    def test_not_linked(self):
        os.remove(os.path.join(self.bin, 'cc'))
        self.script('cc', '#!/bin/sh\nexit 7\n')
        status, out, err = self.check()
        self.assertEqual((status, out), (2, ''))
        self.assertRegex(err, r"the library is not built: 'cc -shared' ended with status 7; ")

    def test_two_at_once(self):
        words = [sys.executable, os.path.join(self.top, 'veltzuma'), 'check', os.path.join(self.top, SAMPLE)]
        both = [subprocess.Popen(words, stdout=subprocess.PIPE, stderr=subprocess.PIPE, env=self.environment(SLEEP='1')) for _ in range(2)]
        told = [process.communicate() for process in both]
        self.assertEqual([process.returncode for process in both], [0, 0])
        self.assertEqual(self.called(), ['all', 'lib', 'lib'])
        self.assertEqual(sum(b'another run builds the library' in err for _, err in told), 1)

    def test_what_the_library_says_of_itself(self):
        self.check()
        key = next(name for name in os.listdir(os.path.join(self.top, 'build')) if name != 'lock')
        with open(os.path.join(self.top, 'build', key, 'libveltzuma.so'), 'rb') as library:
            content = library.read()
        self.assertIn(b'commit unknown\nkit kit of the tests\nsources ', content)


class Progress(Copy):
    """Where a step takes long, the time is counted."""
    SLOW = 'import sys; sys.path[:0] = [sys.argv[1] + "/tools", sys.argv[1] + "/bindings/python"]; from table_tool import build, main; build.EVERY = 0.5; ' \
           'sys.exit(main.main(["build"]))'

    def test_a_line_after_a_while(self):
        done = subprocess.run([sys.executable, '-B', '-c', self.SLOW, self.top], stdout=subprocess.PIPE, stderr=subprocess.PIPE,
                              env=self.environment(SLEEP='1.8', COMPILING='1.8'))
        self.assertEqual(done.returncode, 0, done.stderr)
        lines = [re.sub(r'^veltzuma: \d+:\d\d  ', '', line) for line in done.stderr.decode().split('\n')]
        count = int(re.search(r'proving (\d+) crates', done.stderr.decode())[1])
        # Two or three in 1.8 seconds, a few more on a busy machine; after the first archive only the other is named.
        for line in (f'proving, {count} of {count} crates done', 'compiling capi'):
            self.assertIn(lines.count(line), range(2, 7), lines)
        self.assertEqual([line for line in lines if 'compil' in line and line != 'compiling capi'],
                         ['compiling capi and capi_f32', 'capi_f32 is compiled, capi is left', 'capi is compiled'])
        clocks = re.findall(r'^veltzuma: 0:0(\d)  compiling', done.stderr.decode(), re.M)
        self.assertGreater(clocks[-1], clocks[0])

    def test_on_a_terminal(self):
        """One line that is written over each second, and is gone before the next is written."""
        master, slave = pty.openpty()
        process = subprocess.Popen([sys.executable, os.path.join(self.top, 'veltzuma'), 'build'], stdout=subprocess.PIPE, stderr=slave,
                                   env=self.environment(COMPILING='2.5'))
        os.close(slave)
        shown = b''
        with contextlib.suppress(OSError):
            while True:
                part = os.read(master, 65536)
                if not part:
                    break
                shown += part
        os.close(master)
        process.communicate()
        self.assertEqual(process.returncode, 0, shown)
        shown = shown.decode()
        counted = re.findall(r'\rveltzuma: 0:0(\d)  compiling capi *(?=\r)', shown)
        self.assertIn(len(set(counted)), range(2, 7), shown)
        self.assertEqual(counted, sorted(set(counted)))
        self.assertRegex(shown, r'\r +\rveltzuma: 0:0\d  capi is compiled\r\n')


class Stopped(Copy):
    """Whatever ends a first build ends all that it has started, and leaves nothing that a later use would take for the library."""

    def begin(self, words, step, count=2, **env):
        """A build that has come to a step that does not end, in so many processes."""
        process = subprocess.Popen(words, cwd=self.top, stdout=subprocess.PIPE, stderr=subprocess.PIPE, env=self.environment(HANG=step, **env), start_new_session=True,
                                   preexec_fn=lambda: [signal.signal(number, signal.SIG_DFL) for number in (signal.SIGINT, signal.SIGTERM, signal.SIGHUP)])
        self.addCleanup(process.kill)
        self.wait_for(lambda: len(self.started()) == count)
        for pid in self.started():
            self.assertTrue(os.path.exists(f'/proc/{pid}'))
        return process

    def started(self):
        with contextlib.suppress(FileNotFoundError), open(self.folder + '/pids') as pids:
            return [int(line) for line in pids if line.endswith('\n')]
        return []

    def wait_for(self, found, seconds=20):
        until = time.monotonic() + seconds
        while not found():
            self.assertLess(time.monotonic(), until, 'waited in vain')
            time.sleep(0.02)

    def gone(self, pid):
        """Whether a process has ended, or is only left to be counted."""
        with contextlib.suppress(FileNotFoundError, ProcessLookupError), open(f'/proc/{pid}/stat') as told:
            return told.read().rsplit(')', 1)[1].split()[0] == 'Z'
        return True

    def all_gone(self):
        return all(map(self.gone, self.started()))

    def afterwards(self):
        """Nothing runs, and nothing that is left is taken for the library; the lock is free."""
        self.assertTrue(self.all_gone())
        for _, _, names in os.walk(os.path.join(self.top, 'build')):
            self.assertNotIn('libveltzuma.so', names)
        os.remove(self.folder + '/pids')
        self.called()
        status, _, err = self.check()
        self.assertEqual(status, 0, err)
        self.assertNotIn('another run', err)
        self.assertEqual(self.called(), ['all', 'lib', 'lib'])

    def last(self, process):
        out, err = process.communicate(timeout=20)
        return process.returncode, out.decode(), err.decode().split('\n')[-2:]

    def test_by_each_signal(self):
        for number, status in ((signal.SIGINT, 130), (signal.SIGTERM, 143), (signal.SIGHUP, 129)):
            process = self.begin([sys.executable, 'veltzuma', 'check', SAMPLE], 'all')
            process.send_signal(number)
            self.assertEqual(self.last(process), (status, '', ['veltzuma: stopped; the library is not built', '']))
            self.afterwards()
            shutil.rmtree(os.path.join(self.top, 'build'))

    def test_in_each_step(self):
        os.remove(os.path.join(self.bin, 'cc'))
        self.script('cc', RT.replace('case $1', f'exec {shutil.which("cc")} "$@"\ncase $1'))
        for step in ('lib', '-shared'):
            # The two archives are begun together.
            process = self.begin([sys.executable, 'veltzuma', 'build'], step, 4 if step == 'lib' else 2)
            process.send_signal(signal.SIGTERM)
            self.assertEqual(self.last(process), (143, '', ['veltzuma: stopped; the library is not built', '']))
            self.assertTrue(self.all_gone(), step)
            os.remove(self.folder + '/pids')
        self.assertEqual(self.tool('build')[0], 0)

    def test_what_does_not_end_when_asked(self):
        process = self.begin([sys.executable, 'veltzuma', 'build'], 'all', STUBBORN='1')
        process.send_signal(signal.SIGTERM)
        self.assertEqual(self.last(process)[0], 143)
        self.afterwards()

    def test_by_a_kill(self):
        """The tool is not asked, and can say nothing; the lock is held until what it started has ended."""
        process = self.begin([sys.executable, 'veltzuma', 'build'], 'all', STUBBORN='1')
        process.kill()
        self.assertEqual(self.last(process)[:2], (-signal.SIGKILL, ''))
        status, _, err = self.check()
        self.assertEqual((status, self.all_gone()), (0, True), err)
        self.assertIn('another run builds the library; waiting for it\n', err)

    def test_while_it_waits_for_another(self):
        first = self.begin([sys.executable, 'veltzuma', 'build'], 'all')
        for number, status in ((signal.SIGINT, 130), (signal.SIGTERM, 143)):
            second = subprocess.Popen([sys.executable, 'veltzuma', 'build'], cwd=self.top, stdout=subprocess.PIPE, stderr=subprocess.PIPE, env=self.environment(),
                                      preexec_fn=lambda: signal.signal(signal.SIGINT, signal.SIG_DFL))
            self.assertIn(b'another run', second.stderr.readline())
            second.send_signal(number)
            self.assertEqual(self.last(second), (status, '', ['veltzuma: stopped; the library is not built', '']))
        self.assertFalse(any(map(self.gone, self.started())))
        first.send_signal(signal.SIGINT)
        self.assertEqual(self.last(first)[0], 130)
        self.afterwards()

    def test_ignored_stays_ignored(self):
        self.script('nohup', f'#!{sys.executable}\nimport os, signal, sys\nsignal.signal(signal.SIGHUP, signal.SIG_IGN)\nos.execv(sys.executable, [sys.executable, *sys.argv[1:]])\n')
        process = self.begin([os.path.join(self.bin, 'nohup'), 'veltzuma', 'build'], 'all')
        process.send_signal(signal.SIGHUP)
        time.sleep(0.5)
        self.assertEqual([process.poll(), *map(self.gone, self.started())], [None, False, False])
        process.send_signal(signal.SIGTERM)
        self.assertEqual(self.last(process)[0], 143)
        self.afterwards()

    def test_from_the_binding(self):
        """An interrupt of a Python program, which kills the tool a moment later; and an end of it, which does not tell the tool."""
        words = [sys.executable, '-B', '-c', 'import sys; sys.path[:0] = ["bindings/python"]; import veltzuma; veltzuma.load()']
        for number in (signal.SIGINT, signal.SIGTERM, signal.SIGKILL):
            process = self.begin(words, 'all')
            process.send_signal(number)
            self.assertEqual(self.last(process)[0], -number)
            self.wait_for(self.all_gone, 10)
            os.remove(self.folder + '/pids')
        self.assertEqual(self.check()[0], 0)

    def test_from_the_scripts(self):
        """Ended by itself, a shell tells its commands nothing."""
        for step in ('width', 'version'):
            self.put('tools/' + step, '#!/bin/sh\n')
        for script in ('tests/run', 'examples/run.sh'):
            for number in (signal.SIGTERM, signal.SIGKILL):
                process = self.begin([script], 'all')
                process.send_signal(number)
                process.communicate(timeout=20)
                self.assertEqual(process.returncode, -number)
                self.wait_for(self.all_gone, 10)
                os.remove(self.folder + '/pids')
        # As a terminal does it: to all of them.
        process = self.begin(['examples/run.sh'], 'all')
        os.killpg(process.pid, signal.SIGINT)
        process.communicate(timeout=20)
        self.assertIn(process.returncode, (130, -signal.SIGINT))
        self.afterwards()

    def test_the_gate(self):
        """In either step, under either shell, alone or as a terminal does it."""
        self.put('tests/run', '#!/bin/sh\n./veltzuma build\n')
        for shell in ('sh', 'bash'):
            for step in ('ci', 'all'):
                for number, status, send in ((signal.SIGINT, 130, os.killpg), (signal.SIGINT, 130, os.kill), (signal.SIGTERM, 143, os.kill), (signal.SIGHUP, 129, os.kill)):
                    process = self.begin([shell, '.ci/run'], step)
                    send(process.pid, number)
                    found, out, err = self.last(process)
                    self.assertEqual((found, err[-2:], '3 passed' in out), (status, ['.ci/run: stopped', ''], step == 'all'), (shell, step, number))
                    self.assertTrue(self.all_gone(), (shell, step, number))
                    os.remove(self.folder + '/pids')
                process = self.begin([shell, '.ci/run'], step)
                process.kill()
                process.communicate(timeout=20)
                self.wait_for(self.all_gone, 10)
                os.remove(self.folder + '/pids')

    def test_one_archive_fails(self):
        """Then the other is not compiled to its end."""
        self.script('rt', RT.replace('[ "$archive" != capi ] || sleep', '[ "$archive" != capi_f32 ] || { while [ ! -s "$PIDS" ]; do sleep 0.1; done; exit 9; }; echo $$ >>"$PIDS"; sleep 60; sleep'))
        began = time.monotonic()
        status, _, err = self.check()
        self.assertEqual((status, len(self.started()), self.all_gone()), (2, 1, True))
        self.assertIn("the library is not built: 'rt lib' ended with status 9; ", err)
        self.assertLess(time.monotonic() - began, 30)


class Gate(Copy):
    """.ci/run: the kit's gate, then the tests on what it proved; its last line is the kit's."""
    OK = 'rt: ok; handles allowed: none; must-fail edits: 2 refused; and more\n'
    # What the kit prints above its last line.
    HEAD = 'jobs none\n' + OK

    def gate(self, **env):
        done = subprocess.run(['bash', '.ci/run'], cwd=self.top, stdout=subprocess.PIPE, stderr=subprocess.STDOUT, env=self.environment(**env), timeout=120)
        return done.returncode, done.stdout.decode()

    def test_steps(self):
        self.put('tests/run', '#!/bin/sh\necho tests >>"$CALLS"\npwd\necho told >&2\nexit 0\n')
        top = os.path.realpath(self.top)
        self.assertEqual(self.gate(), (0, f'{self.HEAD}3 passed, 0 failed\n{top}\ntold\n3 passed, 0 failed\n'))
        self.assertEqual(self.called(), ['ci', 'tests'])
        # Under the other shell, from another folder, and with the jobs that are asked for.
        done = subprocess.run([os.path.join(self.top, '.ci', 'run')], cwd='/', stdout=subprocess.PIPE, stderr=subprocess.STDOUT, env=self.environment(RT_JOBS='2'))
        self.assertEqual((done.returncode, done.stdout.decode()), (0, f'jobs 2\n{self.OK}3 passed, 0 failed\n{top}\ntold\n3 passed, 0 failed\n'))
        self.called()
        # A failing test: its status, and the kit's line is not the last.
        self.put('tests/run', '#!/bin/sh\necho one failed\nexit 3\n')
        self.assertEqual(self.gate(), (3, self.HEAD + '3 passed, 0 failed\none failed\n'))
        self.assertEqual(self.called(), ['ci'])
        os.remove(os.path.join(self.top, 'tests', 'run'))
        status, said = self.gate()
        self.assertEqual((status, said.startswith(self.HEAD + '3 passed, 0 failed\ntests/run: No such file'), said.count('\n')), (127, True, 4), said)

    def test_what_is_not_proved(self):
        """By the kit's status, and by its last line; then no test is run."""
        self.put('tests/run', '#!/bin/sh\necho tests >>"$CALLS"\n')
        head, said = self.HEAD, ".ci/run: the last line of 'rt ci' is not 'N passed, 0 failed'\n"
        for env, found in (({'GATE': '1'}, (1, head + '3 passed, 0 failed\n')), ({'GATE': '3', 'SAID': '2 passed, 1 failed\\n'}, (3, head + '2 passed, 1 failed\n')),
                           ({'SAID': '2 passed, 1 failed\\n'}, (1, head + '2 passed, 1 failed\n' + said)), ({'SAID': ''}, (1, head + said)),
                           ({'SAID': '0 passed, 0 failed\\n'}, (1, head + '0 passed, 0 failed\n' + said)),
                           ({'SAID': '3 passed, 0 failed, and more\\n'}, (1, head + '3 passed, 0 failed, and more\n' + said)),
                           ({'SAID': '3 passed, 0 failed (a and the crates below alone: not the gate)\\n'},
                            (1, head + '3 passed, 0 failed (a and the crates below alone: not the gate)\n' + said)),
                           ({'SAID': '3 passed, 0 failed\\nmore\\n'}, (1, head + '3 passed, 0 failed\nmore\n' + said))):
            self.assertEqual(self.gate(**env), found)
            self.assertEqual(self.called(), ['ci'])
        # Nor does the line of a run before count.
        os.remove(os.path.join(self.bin, 'rt'))
        self.assertEqual(self.gate(), (127, 'rt: No such file or directory\n'))

    def test_bad_edits(self):
        """They fail nothing in the kit's own gate; by its line `rt: ok` they fail this one."""
        self.put('tests/run', '#!/bin/sh\necho tests >>"$CALLS"\n')
        bad = ".ci/run: some must-fail edits are bad, by the line 'rt: ok' of 'rt ci'\n"
        for edits, said in (('; must-fail edits: 7 refused, 1 bad', bad), ('; must-fail edits: 190 refused, 3 of them only by a limit, 12 bad', bad),
                            ('; must-fail edits: 0 refused, 1 bad', bad), ('; must-fail edits: 190 refused, 3 of them only by a limit', None), ('', None)):
            ok = f'rt: ok; handles allowed: none{edits}; every proof and must-fail edit was done in this run\n'
            self.assertEqual(self.gate(OK=ok.replace('\n', '\\n')), (1 if said else 0, f'jobs none\n{ok}3 passed, 0 failed\n{said or "3 passed, 0 failed" + chr(10)}'))
            self.assertEqual(self.called(), ['ci'] if said else ['ci', 'tests'])
        # Where there is no such line, nothing tells that none is bad.
        for ok in ('', 'ok\\n', 'said: rt: ok\\n'):
            self.assertEqual(self.gate(OK=ok), (1, 'jobs none\n' + ok.replace('\\n', '\n') + "3 passed, 0 failed\n.ci/run: 'rt ci' has no line 'rt: ok'\n"))
            self.assertEqual(self.called(), ['ci'])

    def test_shows_as_it_comes(self):
        self.script('rt', '#!/bin/sh\necho first\nread line <"$GO"\necho "$line"\necho "rt: ok"\necho "1 passed, 0 failed"\n')
        self.put('tests/run', '#!/bin/sh\n')
        go = os.path.join(self.folder, 'go')
        os.mkfifo(go)
        process = subprocess.Popen(['.ci/run'], cwd=self.top, stdout=subprocess.PIPE, env=self.environment(GO=go))
        self.addCleanup(process.stdout.close)
        self.addCleanup(process.kill)
        self.assertTrue(select.select([process.stdout], [], [], 20)[0], 'nothing is shown')
        self.assertEqual(process.stdout.readline(), b'first\n')
        with open(go, 'w') as out:
            out.write('second\n')
        self.assertEqual((process.communicate()[0], process.returncode), (b'second\nrt: ok\n1 passed, 0 failed\n1 passed, 0 failed\n', 0))

    def test_what_is_not_installed(self):
        for name in ('rustc', 'gcc', 'rt', 'python3'):
            os.rename(os.path.join(self.bin, name), os.path.join(self.folder, name))
            done = subprocess.run(['tests/run'], cwd=self.top, stdout=subprocess.PIPE, stderr=subprocess.STDOUT, env=self.environment())
            self.assertEqual((done.returncode, done.stdout.decode()), (1, f'tests/run: {name} is not installed\n'))
            os.rename(os.path.join(self.folder, name), os.path.join(self.bin, name))

    def run_tests(self, *words, **env):
        done = subprocess.run(['tests/run', *words], cwd=self.top, stdout=subprocess.PIPE, stderr=subprocess.STDOUT, env=self.environment(**env), timeout=120)
        return done.returncode, done.stdout.decode()

    def test_each_step_of_the_tests(self):
        """The f32 crates, the version, the library, the examples and the tests themselves: where one fails, tests/run does, and does not go on."""
        quiet, head = '#!/bin/sh\n', 'tests/run: tools/width --check\n'
        self.put('tools/width', '#!/bin/sh\nexit 4\n')
        self.assertEqual(self.run_tests(), (4, head))
        self.put('tools/width', quiet)
        head += 'tests/run: tools/version --check\n'
        self.put('tools/version', '#!/bin/sh\nexit 6\n')
        self.assertEqual(self.run_tests(), (6, head))
        self.put('tools/version', quiet)
        head += 'tests/run: the library, proved and built from these sources\n'
        status, said = self.run_tests(CHECKED='1')
        self.assertEqual((status, said.startswith(head), "the library is not built: 'rt all' ended with status 1; " in said, 'examples' in said), (2, True, True, False))
        self.assertEqual(self.check()[0], 0)
        head += 'tests/run: examples/run.sh\n'
        self.put('examples/run.sh', '#!/bin/sh\nexit 5\n')
        self.assertEqual(self.run_tests(), (5, head))
        self.put('examples/run.sh', quiet)
        head += 'tests/run: the tool and the calls from Python\n'
        for text in ('import sys\nsys.exit(7)\n', 'import unittest\nclass A(unittest.TestCase):\n    def test(self):\n        self.fail()\n'):
            self.put('tests/test_numbers.py', text)
            status, said = self.run_tests('test_numbers')
            self.assertEqual((status, said.startswith(head)), (7 if 'sys' in text else 1, True), said)
            self.assertNotIn('every test held', said)
        # And where none does; without a word, every module that there is.
        for name in os.listdir(os.path.join(self.top, 'tests')):
            if name.startswith('test_'):
                os.remove(os.path.join(self.top, 'tests', name))
        for name in ('test_one.py', 'test_two.py'):
            self.put('tests/' + name, 'import unittest\nclass A(unittest.TestCase):\n    def test(self):\n        pass\n')
        status, said = self.run_tests()
        self.assertEqual((status, said.startswith(head), said.endswith('tests/run: every test held\n')), (0, True, True), said)
        self.assertIn('Ran 2 tests', said)

    def test_examples_stop_where_the_build_failed(self):
        done = subprocess.run(['examples/run.sh'], cwd=self.top, stdout=subprocess.PIPE, stderr=subprocess.PIPE, env=self.environment(CHECKED='1'))
        self.assertEqual((done.returncode, done.stdout), (2, b''))
        self.assertRegex(done.stderr.decode().split('\n', 3)[-1].split('\n')[-2], "^the library is not built: 'rt all' ended with status 1; ")
        self.assertNotIn(b'gcc', done.stderr)



class Version(Copy):
    """VERSION is the one place, and every other has what it says."""
    PLACES = {'include/veltzuma.h': [r'header is of version (\S+)\.$', r'define VELTZUMA_VERSION (\S+)$'], 'bindings/python/veltzuma.py': [r"^VERSION = (\S+)$", r"^__version__ = '(\S+)'$"],
              'crates/capi/specs/Calls.antt': [r'^version = (\S+)$'], 'crates/capi/must-fail/version_before.edit': [r'^old: version = (\S+)$', r'^new: version = (\S+)$'],
              'crates/capi/src/lib.rt': [r'result ≡ version }\n{\n    (\S+)\n}$'], 'crates/capi_f32/src/lib.rt': [r'result ≡ version }\n{\n    (\S+)\n}$'],
              'examples/read.rs': [r'^const VERSION: u32 = (\S+);$'], 'reference/src/ours.rs': [r'^pub const VERSION: u32 = (\S+);$'],
              'README.md': [r'veltzuma_version\(\) }, (\S+)\);$'], 'docs/SPECIFICATION.md': [r'gives the version of the calls, (\S+), which']}

    def setUp(self):
        super().setUp()
        self.own_crates('capi', 'capi_f32')
        shutil.copytree(os.path.join(TOP, 'docs'), os.path.join(self.top, 'docs'))

    def step(self, *words):
        done = subprocess.run([sys.executable, '-B', *words], cwd=self.top, stdout=subprocess.PIPE, stderr=subprocess.STDOUT)
        return done.returncode, done.stdout.decode()

    def found(self):
        return {name: [re.findall(place, text_of(os.path.join(self.top, name)), re.M) for place in places] for name, places in self.PLACES.items()}

    def said(self, calls, release):
        """What every place has to have."""
        found = {name: [[str(calls)] for _ in places] for name, places in self.PLACES.items()}
        found['bindings/python/veltzuma.py'][1] = [release]
        found['crates/capi/must-fail/version_before.edit'][1] = [str(calls - 1)]
        return found

    def test_every_place(self):
        release = text_of(os.path.join(TOP, 'VERSION')).rstrip('\n')
        self.assertEqual(release.split('.')[0], str(VERSION))
        self.assertEqual(self.step('tools/version', '--check'), (0, ''))
        self.assertEqual(self.found(), self.said(VERSION, release))
        # Another version: each place is named, then written, and what the width script writes is the same.
        before = self.step('tools/width', '--check')
        self.put('VERSION', f'{VERSION + 1}.0\n')
        status, said = self.step('tools/version', '--check')
        self.assertEqual((status, sorted(re.findall(r'^version: (\S+):\d+ has ', said, re.M))), (1, sorted(name for name, places in self.PLACES.items() for _ in places)))
        self.assertEqual(self.found(), self.said(VERSION, release))
        self.assertEqual(self.step('tools/version')[0], 0)
        self.assertEqual(self.found(), self.said(VERSION + 1, f'{VERSION + 1}.0'))
        self.assertEqual(self.step('tools/version', '--check'), (0, ''))
        self.assertEqual(self.step('tools/version'), (0, ''))
        self.assertEqual(self.step('tools/width', '--check'), before)
        # Another release: the binding alone.
        self.put('VERSION', f'{VERSION + 1}.12\n')
        self.assertEqual(self.step('tools/version'), (0, f'bindings/python/veltzuma.py: {VERSION + 1}.12\n'))
        self.assertEqual(self.found(), self.said(VERSION + 1, f'{VERSION + 1}.12'))

    def test_one_that_differs(self):
        for name, places in self.PLACES.items():
            text = text_of(os.path.join(self.top, name))
            for place in places:
                found = re.search(place, text, re.M)
                self.put(name, text[:found.start(1)] + '7' + text[found.end(1):])
                status, said = self.step('tools/version', '--check')
                line = text.count('\n', 0, found.start(1)) + 1
                self.assertEqual((status, said), (1, f'version: {name}:{line} has 7, and by VERSION it is {found[1]}\n'))
                # Or that is not there, or is there twice.
                for other, count in ((text[:found.start()] + text[found.end():], 0), (text + '\n' + text, 2)):
                    self.put(name, other)
                    status, said = self.step('tools/version', '--check')
                    self.assertEqual(status, 1)
                    self.assertIn(f'version: {name} has {count} places of the form ', said)
            self.put(name, text)
        self.assertEqual(self.step('tools/version', '--check'), (0, ''))

    def test_no_version(self):
        for text in ('', '4\n', '4.1', '4.1.0\n', '0.1\n', '4.01\n', 'v4.1\n'):
            self.put('VERSION', text)
            self.assertEqual(self.step('tools/version', '--check'), (1, f'version: VERSION holds {text!r}, and not two numbers as 4.1\n'))

    def test_what_the_tool_says(self):
        first = f'veltzuma {text_of(os.path.join(TOP, "VERSION")).strip()}, calls of version {VERSION}\n'
        # It never builds.
        self.assertEqual(self.tool('--version'), (0, first + 'library: none at hand\n', ''))
        self.assertEqual((self.called(), os.path.exists(os.path.join(self.top, 'build'))), ([], False))
        path = self.tool('build')[1].rstrip('\n')
        self.assertTrue(path.endswith('/libveltzuma.so'), path)
        status, said, err = self.tool('--version')
        sources = re.search(rb'sources (\w{64})\n', open(path, 'rb').read())[1].decode()
        self.assertEqual((status, said, err), (0, f'{first}library: {path}\n  commit: unknown\n  kit: kit of the tests\n  sources: {sources}\n', ''))
        # Of the library that is named, with the kit or without.
        os.remove(os.path.join(self.bin, 'rt'))
        self.assertEqual(self.tool('--version'), (0, first + 'library: none at hand\n', ''))
        self.assertEqual(self.tool('--version', VELTZUMA_LIBRARY=path), (0, said, ''))
        self.assertEqual(self.tool('--version', VELTZUMA_LIBRARY='/nonexistent'), (2, first, 'the library cannot be loaded: '
                         '/nonexistent: cannot open shared object file: No such file or directory\n'))
        plain = stand_in(self.folder, 'plain.so', {'': VERSION, '_f32': VERSION})
        told = ''.join(f'  {what}: not told by the library\n' for what in ('commit', 'kit', 'sources'))
        self.assertEqual(self.tool('--version', VELTZUMA_LIBRARY=plain), (0, f'{first}library: {plain}\n{told}', ''))


if __name__ == '__main__':
    unittest.main()
