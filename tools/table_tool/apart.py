"""Commands that run apart: each in a session of its own, so that all that it has started ends with it. `rt` is a script, whose provers hear no interrupt and go
on when it is ended by itself.

    python3 -B tools/table_tool/apart.py [--said FILE] COMMAND ..

runs a command so, with its status, for a script that must leave nothing behind: where it is asked to stop, or the script that started it has gone, the command
and all that it started are ended. With --said, what the command prints goes to FILE as well.
"""
import os
import select
import signal
import subprocess
import sys
import time

SIGNALS = (signal.SIGHUP, signal.SIGINT, signal.SIGTERM)


class Stopped(Exception):
    """A signal asked to stop; `status` is that of a process which it ended."""

    def __init__(self, number):
        super().__init__('stopped')
        self.status = 128 + number


class Apart:
    """Runs commands. Within it the signals that ask a process to stop are kept until `look`, which `told` does again and again, raises Stopped. At its end
    none of the commands is left, nor anything that they started: asked first, and ended after so many seconds of `grace`. `watch` may raise for more
    reasons; a signal that is ignored stays so, but for those of `heed`. It is for the main thread of a program that has no other."""

    def __init__(self, grace=2, watch=None, heed=()):
        self.grace, self.watch, self.heed = grace, watch, heed
        self.asked, self.running, self.handlers, self.guard = None, {}, {}, None

    def __enter__(self):
        for number in SIGNALS:
            if number in self.heed or signal.getsignal(number) is not signal.SIG_IGN:
                self.handlers[number] = signal.signal(number, self._keep)
        return self

    def __exit__(self, kind, error, trace):
        try:
            _end(list(self.running), self.grace, lambda: [process.poll() for process in self.running.values()])
            if self.guard:
                os.write(self.line, b'.')
                os.close(self.line)
                os.waitpid(self.guard, 0)
        finally:
            for number, handler in self.handlers.items():
                signal.signal(number, handler)
        if self.asked and kind is None:
            raise Stopped(self.asked)

    def _keep(self, number, frame):
        self.asked = self.asked or number

    def look(self):
        """Raises what there is to stop for."""
        if self.asked:
            raise Stopped(self.asked)
        if self.watch:
            self.watch()

    def start(self, words, **more):
        """A command, in a session and so in a process group of its own."""
        if not self.guard:
            self._set_guard()
        # It tells of itself before it is the command: there is no moment at which it runs and the guard does not know it.
        process = subprocess.Popen(words, start_new_session=True, preexec_fn=lambda: os.write(self.line, b'+%d\n' % os.getpid()), **more)
        self.running[process.pid] = process
        return process

    def told(self):
        """What the commands print, a command and some bytes at a time; a command and None when it has ended; None and None when there is nothing for a moment.
        Until none is left."""
        poll, of = select.poll(), {}
        while self.running:
            for process in self.running.values():
                if process.stdout and not process.stdout.closed and process.stdout.fileno() not in of:
                    of[process.stdout.fileno()] = process
                    poll.register(process.stdout, select.POLLIN)
            # One that prints nothing any more is about to end.
            ready = poll.poll(100 if len(of) == len(self.running) else 20)
            self.look()
            if not ready:
                yield None, None
            for descriptor, _ in ready:
                part = os.read(descriptor, 1 << 16)
                if part:
                    yield of[descriptor], part
                else:
                    poll.unregister(descriptor)
                    of.pop(descriptor).stdout.close()
            for process in [process for process in self.running.values() if process not in of.values() and process.poll() is not None]:
                # What it may have left behind.
                _end([process.pid], self.grace)
                del self.running[process.pid]
                os.write(self.line, b'-%d\n' % process.pid)
                yield process, None

    def _set_guard(self):
        """A process that outlives this one, should it be killed, and then ends the commands that are left."""
        heard, self.line = os.pipe()
        self.guard = os.fork()
        if self.guard:
            os.close(heard)
            return
        try:
            os.setsid()
            for number in SIGNALS:
                signal.signal(number, signal.SIG_IGN)
            os.close(self.line)
            nothing = os.open(os.devnull, os.O_RDWR)
            for stream in range(3):
                os.dup2(nothing, stream)
            with open(heard, 'rb') as line:
                said = line.read().split()
            if b'.' not in said:
                _end([int(word) for word in said if word[:1] == b'+' and b'-' + word[1:] not in said], self.grace)
        finally:
            os._exit(0)


def _end(groups, grace, reap=lambda: None):
    """Ends every process of these groups."""
    for number in (signal.SIGTERM, signal.SIGKILL):
        until = time.monotonic() + grace
        groups = [group for group in groups if _send(group, number)]
        while groups and time.monotonic() < until:
            time.sleep(0.02)
            reap()
            living = _living()
            groups = [group for group in groups if _send(group, 0) and (living is None or group in living)]


def _send(group, number):
    """Whether there was any process in the group to send this to."""
    try:
        os.killpg(group, number)
    except ProcessLookupError:
        return False
    except PermissionError:
        pass
    return True


def _living():
    """The groups that have a process which has not ended, or None where the system does not tell. One that has ended is in its group until its parent has asked
    for its status, and an orphan's new parent may take its time."""
    found = set()
    try:
        numbers = [name for name in os.listdir('/proc') if name.isdigit()]
    except OSError:
        return None
    for number in numbers:
        try:
            with open(f'/proc/{number}/stat', 'rb') as told:
                state, _, group = told.read().rsplit(b')', 1)[1].split()[:3]
        except (OSError, IndexError):
            continue
        if state not in b'ZX':
            found.add(int(group))
    return found or None


def main(words):
    said = None
    parent = os.getppid()

    def watch():
        if os.getppid() != parent:
            raise Stopped(signal.SIGTERM)

    try:
        if words[:1] == ['--said']:
            said, words = open(words[1], 'wb'), words[2:]
        # A script starts it with `&`, to hear signals itself while it waits, and then interrupts are ignored here; the command is not to inherit that.
        with Apart(5, watch, [signal.SIGINT]) as commands:
            process = commands.start(words, **({'stdout': subprocess.PIPE, 'stderr': subprocess.STDOUT} if said else {}))
            for _, part in commands.told():
                if part:
                    for out in (said, sys.stdout.buffer):
                        out.write(part)
                        out.flush()
    except Stopped as stopped:
        return stopped.status
    except BrokenPipeError:
        # Whoever read the output has gone, and what is left in the buffer has nowhere to go.
        os.dup2(os.open(os.devnull, os.O_WRONLY), 1)
        return 141
    except OSError as error:
        print(f'{words[0]}: {error.strerror or error}', file=sys.stderr)
        return 127
    return process.returncode if process.returncode >= 0 else 128 - process.returncode


if __name__ == '__main__':
    sys.exit(main(sys.argv[1:]))
