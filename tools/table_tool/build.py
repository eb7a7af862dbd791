"""The shared library: built from this repository when its sources or the kit have changed, and kept in build/."""
import fcntl
import hashlib
import os
import select
import shutil
import stat
import subprocess
import sys
import time

from . import apart

TOP = os.path.dirname(os.path.dirname(os.path.dirname(os.path.abspath(__file__))))
# The archives by the name that a user links, each with the static library that writes it: that of the crate of this name, for C.
ARCHIVES = {'capi': 'capi_c', 'capi_f32': 'capi_c_f32'}
VARIABLE = 'VELTZUMA_LIBRARY'
# Seconds after which it is said again what is being done, where no terminal shows the time as it passes.
EVERY = 15


class NotBuilt(Exception):
    """The library cannot be had: the text of one line, and lines that say more."""

    def __init__(self, text, more=(), status=2):
        super().__init__(text)
        self.more, self.status = more, status


NO_KIT = ("'rt', the command of the Rattle kit, is not found",
          ["The kit is what the library is proved and built with: a folder with compiler and prover for Linux, a product of its own. Its 'bin' goes on the PATH.",
           "Without it, a library that was built elsewhere will do: on a machine with the kit './veltzuma build' prints its path, build/KEY/libveltzuma.so.",
           f"Copy that one file here, to x86-64 Linux, and name the copy: {VARIABLE}=PATH ./veltzuma check TABLE"])


def _needed():
    """The crates that the archives are built from, with those that they name."""
    named = {}
    with open(os.path.join(TOP, 'crates.txt'), encoding='utf-8') as lines:
        for line in lines:
            name, colon, rest = line.partition('#')[0].partition(':')
            if colon:
                # After the name may stand what the crate is, as `staticlib`.
                named[name.split()[0]] = rest.split()
    needed, left = set(), list(ARCHIVES.values())
    while left:
        name = left.pop()
        if name in named and name not in needed:
            needed.add(name)
            left += named[name]
    return sorted(needed)


def _folder(crate):
    return os.path.join(TOP, 'crates', crate)


def _at_once():
    """How many crates are proved at a time: one for each processor, and one for each 4 GB of memory, which is what the proof of one may take."""
    memory = os.sysconf('SC_PHYS_PAGES') * os.sysconf('SC_PAGE_SIZE')
    return max(1, min(len(os.sched_getaffinity(0)), memory >> 32))


def sum_of_sources():
    """A sum of every source, specification and proof of those crates."""
    whole = hashlib.sha256()
    for crate in _needed():
        for part in ('src', 'specs', 'proofs'):
            for folder, folders, names in os.walk(os.path.join(_folder(crate), part)):
                folders.sort()
                for name in sorted(names):
                    path = os.path.join(folder, name)
                    with open(path, 'rb') as source:
                        content = source.read()
                    whole.update(f'{os.path.relpath(path, TOP)}\0{len(content)}\0'.encode())
                    whole.update(content)
    return whole.hexdigest()


def _output(*words):
    """What a command prints, or None."""
    try:
        done = subprocess.run(words, cwd=TOP, stdout=subprocess.PIPE, stderr=subprocess.DEVNULL, stdin=subprocess.DEVNULL)
    except OSError:
        return None
    return done.stdout.decode('utf-8', 'replace').strip() if done.returncode == 0 else None


def commit():
    """The commit of this repository; `altered` where what it tracks has been changed since."""
    found = _output('git', 'rev-parse', 'HEAD')
    if not found:
        return 'unknown'
    return found + (' altered' if _output('git', 'status', '--porcelain', '--untracked-files=no') else '')


def version():
    """Of this release, from the file VERSION: the version of the calls, and the releases under it."""
    with open(os.path.join(TOP, 'VERSION'), encoding='utf-8') as found:
        return found.read().strip()


def _kept():
    """Where the library of these sources and this kit is kept, and what it is of: sources and kit. None where there is no kit."""
    kit = _output('rt', 'version')
    if not kit:
        return None
    sources = sum_of_sources()
    key = hashlib.sha256(f'{sources}\0{kit}'.encode()).hexdigest()[:16]
    return os.path.join(TOP, 'build', key, 'libveltzuma.so'), sources, kit


def at_hand():
    """The path of the shared library that would be used, where nothing has to be built for it; else None."""
    named = os.environ.get(VARIABLE)
    if named:
        return named
    kept = _kept()
    return kept[0] if kept and os.path.exists(kept[0]) else None


def library():
    """The path of the shared library, built first where it is not there."""
    named = os.environ.get(VARIABLE)
    if named:
        return named
    kept = _kept()
    if not kept:
        raise NotBuilt("'rt version' fails, so the kit cannot be used") if shutil.which('rt') else NotBuilt(*NO_KIT)
    path, sources, kit = kept
    if not os.path.exists(path):
        try:
            _build(os.path.dirname(path), sources, kit)
        except apart.Stopped as stopped:
            raise NotBuilt('veltzuma: stopped; the library is not built', status=stopped.status) from None
        except BrokenPipeError:
            raise
        except OSError as error:
            raise NotBuilt(f'the library is not built: {error}') from None
    return path


def _build(folder, sources, kit):
    compiler = next((name for name in (os.environ.get('CC'), 'cc', 'gcc', 'clang') if name and shutil.which(name)), None)
    if not compiler:
        raise NotBuilt('the library is not built: no C compiler is found (cc, gcc or clang)')
    os.makedirs(folder, exist_ok=True)
    try:
        # The guard of the commands inherits the lock, so that it is held until the last of them has ended, whatever ends this process.
        with apart.Apart(watch=_watch) as commands, open(os.path.join(TOP, 'build', 'lock'), 'w') as lock:
            waiting = False
            while not _locked(lock):
                if not waiting:
                    _say('another run builds the library; waiting for it')
                waiting = True
                commands.look()
                time.sleep(0.1)
            if os.path.exists(os.path.join(folder, 'libveltzuma.so')):
                return
            _say(f'first use of these sources: the library is proved and built, in {os.path.relpath(folder)}')
            with open(os.path.join(folder, 'log'), 'wb') as log:
                _Work(commands, log).build(folder, compiler, sources, kit)
    finally:
        _clear()


def _locked(lock):
    try:
        fcntl.flock(lock, fcntl.LOCK_EX | fcntl.LOCK_NB)
    except BlockingIOError:
        return False
    return True


def _watch():
    """Ends the build where whoever asked for it has gone, as a script that was ended while it waits for the path: nothing else would tell."""
    if stat.S_ISFIFO(os.fstat(1).st_mode):
        out = select.poll()
        out.register(1, 0)
        if out.poll(0):
            raise BrokenPipeError


class _Work:
    """The commands of one build. What they print goes to the log; what is done is said, and how long it has taken so far."""

    def __init__(self, commands, log):
        self.commands, self.log, self.begin = commands, log, time.monotonic()
        self.runs = []

    def build(self, folder, compiler, sources, kit):
        # `rt lib` proves one crate after the other; `rt all check`, in the folder of a crate, proves it and those below it, as many at a time as it is told.
        # The last archive's crate stands on all but the static library of the other.
        first, last = ARCHIVES.values()
        names = [name for name in _needed() if name != first]
        _say(f'proving {len(names)} crates')
        check = self.start('rt', 'all', 'check', '--jobs', str(_at_once()), within=last)
        self.until(lambda: check.ended, lambda: f'proving, {check.proved} of {len(names)} crates done',
                   lambda text: f'{check.proved} of {len(names)}: {text}')
        # Both are started; where the crates below are the same, the kit has one wait for the other.
        self.say(f'compiling {" and ".join(ARCHIVES)}')
        left = {archive: self.start('rt', 'lib', within=ARCHIVES[archive]) for archive in reversed(ARCHIVES)}
        while left:
            self.until(lambda: any(run.ended for run in left.values()), lambda: f'compiling {" and ".join(sorted(left))}')
            for archive in [archive for archive, run in left.items() if run.ended]:
                del left[archive]
                self.say(f'{archive} is compiled' + (f', {" and ".join(sorted(left))} is left' if left else ''))
        for archive, crate in ARCHIVES.items():
            shutil.copy(os.path.join(_folder(crate), 'out', f'lib{crate}.a'), os.path.join(folder, f'lib{archive}.a'))
        self.say('linking')
        self.link(folder, compiler, f'commit {commit()}\nkit {kit}\nsources {sources}\n')
        _say(f'built in {_clock(self.begin)} min')

    def link(self, folder, compiler, text):
        """One shared library of both archives, and what it was built from."""
        said = os.path.join(folder, 'build.c')
        with open(said, 'w', encoding='utf-8') as source:
            quoted = text.replace('\\', '\\\\').replace('"', '\\"').replace('\n', '\\n')
            source.write(f'const char veltzuma_build[] = "{quoted}";\n')
        unfinished = os.path.join(folder, 'unfinished.so')
        archives = [os.path.join(folder, f'lib{archive}.a') for archive in ARCHIVES]
        run = self.start(compiler, '-shared', '-fPIC', '-o', unfinished, said, '-Wl,--whole-archive', *archives, '-Wl,--no-whole-archive')
        self.until(lambda: run.ended, lambda: 'linking')
        os.replace(unfinished, os.path.join(folder, 'libveltzuma.so'))

    def start(self, *words, within=None):
        run = _Run(words, self.commands.start(words, cwd=_folder(within) if within else TOP, stdout=subprocess.PIPE, stderr=subprocess.STDOUT, stdin=subprocess.DEVNULL))
        self.runs.append(run)
        return run

    def until(self, done, doing, proved=None):
        """Hears the commands until this is done, or one has failed; says which crates are proved, by the text that `proved` makes of it, and what it is doing."""
        if done():
            return
        for process, part in self.commands.told():
            for run in self.runs:
                if run.process is process and part is not None:
                    self.log.write(part)
                    for text in run.hear(part):
                        if proved:
                            self.say(proved(text))
                elif run.process is process:
                    run.ended = True
                    if process.returncode:
                        self.log.flush()
                        raise NotBuilt(f"the library is not built: '{' '.join(run.words[:2])}' ended with status {process.returncode}; "
                                       f'{os.path.relpath(self.log.name)} has what it printed')
            if done():
                break
            _passing(self.begin, doing())

    def say(self, text):
        _say(f'{_clock(self.begin)}  {text}')


class _Run:
    """A command that runs: how many crates it has told of as proved, and whether it has ended."""

    def __init__(self, words, process):
        self.words, self.process, self.rest, self.proved, self.ended = words, process, b'', 0, False
        # The crate that it tells of, until it is counted, and whether something was said of it.
        self.told, self.more = None, False

    def hear(self, part):
        """The crates that it tells of as proved, one after the other. What there is to say of a crate stands below a line `== NAME`: a line `logic=proved ..`, or
        nothing, where it was proved before; what stands below `== summary` is of no crate."""
        *lines, self.rest = (self.rest + part).split(b'\n')
        for line in lines:
            begins = line.startswith(b'== ')
            if self.told and (line.startswith(b'logic=proved ') or (begins and not self.more)):
                self.proved += 1
                yield f'{self.told} proved'
                self.told = None
            if begins:
                self.told, self.more = None if line == b'== summary' else line[3:].decode('utf-8', 'replace'), False
            elif not (self.told and line.startswith(f'rt: {self.told}: begins with '.encode())):
                self.more = True


def _clock(begin):
    seconds = int(time.monotonic() - begin)
    return f'{seconds // 60}:{seconds % 60:02}'


# When something was said last; on a terminal, the line that shows the time and is written over.
_said, _over = 0.0, ''


def _say(text):
    global _said
    _clear()
    _said = time.monotonic()
    if sys.stderr is not None:
        print(f'veltzuma: {text}', file=sys.stderr, flush=True)


def _passing(begin, text):
    """Shows the time that has passed, beside what is done: each second on a terminal, elsewhere on a line of its own where nothing was said for a while."""
    global _over
    text = f'{_clock(begin)}  {text}'
    if sys.stderr is None or not sys.stderr.isatty():
        if time.monotonic() >= _said + EVERY:
            _say(text)
    elif text not in _over:
        print('\r' + f'veltzuma: {text}'.ljust(len(_over)), end='', file=sys.stderr, flush=True)
        _over = f'veltzuma: {text}'


def _clear():
    """Takes that line away."""
    global _over
    if _over:
        print('\r' + ' ' * len(_over) + '\r', end='', file=sys.stderr, flush=True)
    _over = ''
