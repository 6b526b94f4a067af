"""A folder in which a program is run on one row after another, which costs little compared with the program itself.

It has only the files of a row that its words or its list name, and those that are there already aren't written again. Where there is a C compiler, processes
of the program itself start it (starting.py). Else it is started without a copy of this process; what is typed waits for it in a pipe, and the limit on memory
is this process's own while the program is being started, which inherits it. Its seconds are those of processors, since on a busy machine the clock is
unreliable; the clock ends only what waits.
"""
import contextlib
import os
import resource
import select
import shutil
import signal
import subprocess
import tempfile
import time

from starting import Starter, is_taken

MEMORY_FOLDER = "/dev/shm"
CHUNK = 1 << 20
CLOCK = 30


class Folder:
    """The files below a folder, each read when it is requested, as the program reads them."""

    def __init__(self, path):
        self.path = os.fsencode(path)

    def __contains__(self, name):
        try:
            return self[name] is not None
        except (OSError, ValueError):
            return False

    def __getitem__(self, name):
        if not name:
            raise FileNotFoundError
        with open(os.path.join(self.path, name), "rb") as file:
            return file.read()


class Room:
    """A folder for one program, within limits on its seconds (of processors; by the clock it is CLOCK times as many) and on its bytes of addresses.
    This process has it as its working folder until it is closed. With the path of forks.c, built, it has two starters of the program, each with addresses of
    its own."""

    def __init__(self, program, seconds, memory, forks=None):
        self.program, self.seconds, self.memory = program, seconds, memory
        self.top = tempfile.mkdtemp(dir=MEMORY_FOLDER if os.access(MEMORY_FOLDER, os.W_OK | os.X_OK) else None)
        self.folder = os.path.join(self.top, "row")
        os.mkdir(self.folder)
        self.before, self.standing, self.environment = os.getcwd(), {}, dict(os.environb)
        self.nowhere = os.open(os.devnull, os.O_WRONLY)
        resource.setrlimit(resource.RLIMIT_CORE, (0, 0))
        keep_descriptors()
        os.chdir(self.folder)
        self.starters = [Starter(program, forks, (seconds, CLOCK * seconds, memory)) for _ in range(2)] if forks else None

    def __enter__(self):
        return self

    def __exit__(self, *_):
        for starter in self.starters or []:
            starter.close()
        os.chdir(self.before)
        os.close(self.nowhere)
        shutil.rmtree(self.top, ignore_errors=True)

    def put(self, row):
        """Puts the files here that a run of the row can reach, and no others."""
        wanted = reachable(row)
        for name in [name for name in self.standing if name not in row.files]:
            os.remove(name)
            del self.standing[name]
        for name, text in wanted.items():
            if self.standing.get(name) != text:
                with open(name, "wb", buffering=0) as file:
                    file.write(text)
                self.standing[name] = text

    def files(self):
        """The files below the folder, each as it is; those that this put here aren't read again."""
        return Standing(self.folder, self.standing)

    def said(self, row, again=False):
        """What the program prints on the row whose files are here, and its status; a status below 0 is a signal, and None that it took too long. `again` is
        for a second run of it."""
        if self.starters and is_taken(row):
            text, status = self.starters[again].said(row)
            return (b"", None) if status in (None, -signal.SIGXCPU) else (text, status)
        typed = pipe_with(row.typed)
        if typed is None:
            return self.said_to_much(row)
        output, told = os.pipe()
        try:
            child = self.started(row.words, typed, told)
        except BaseException:
            os.close(output)
            raise
        finally:
            os.close(typed)
            os.close(told)
        return self.heard(child, output)

    def started(self, words, typed, told):
        """The number of a process of the program."""
        to = [(os.POSIX_SPAWN_DUP2, typed, 0), (os.POSIX_SPAWN_DUP2, told, 1), (os.POSIX_SPAWN_DUP2, self.nowhere, 2)]
        least, most = resource.getrlimit(resource.RLIMIT_AS)
        resource.setrlimit(resource.RLIMIT_AS, (self.memory, most))
        try:
            child = os.posix_spawn(self.program, [self.program, *words], self.environment, file_actions=to, setsigdef=[signal.SIGPIPE, signal.SIGXFSZ])
        finally:
            resource.setrlimit(resource.RLIMIT_AS, (least, most))
        with contextlib.suppress(ProcessLookupError):
            resource.prlimit(child, resource.RLIMIT_CPU, (self.seconds, self.seconds + 1))
        return child

    def heard(self, child, output):
        """All that a process prints, and how it ends; it is killed where it takes too long."""
        until, pieces, ending = time.monotonic() + CLOCK * self.seconds, [], os.pidfd_open(child)
        try:
            while ready(output, until):
                piece = os.read(output, CHUNK)
                if not piece:
                    break
                pieces.append(piece)
            late = not ready(ending, until)
            if late:
                os.kill(child, signal.SIGKILL)
            status = os.waitstatus_to_exitcode(os.waitpid(child, 0)[1])
        finally:
            os.close(output)
            os.close(ending)
        return (b"", None) if late or status == -signal.SIGXCPU else (b"".join(pieces), status)

    def said_to_much(self, row):
        """The same where more is typed than a pipe holds."""
        def limited():
            resource.setrlimit(resource.RLIMIT_AS, (self.memory, self.memory))
            resource.setrlimit(resource.RLIMIT_CPU, (self.seconds, self.seconds + 1))

        words = [self.program, *map(os.fsdecode, row.words)]
        try:
            to = {"stdout": subprocess.PIPE, "stderr": subprocess.DEVNULL, "timeout": CLOCK * self.seconds, "preexec_fn": limited}
            done = subprocess.run(words, input=row.typed, check=False, **to)
        except subprocess.TimeoutExpired:
            return b"", None
        return (b"", None) if done.returncode == -signal.SIGXCPU else (done.stdout, done.returncode)


class Standing(Folder):
    """The files below a folder, of which some are known."""

    def __init__(self, path, known):
        super().__init__(path)
        self.known = known

    def __contains__(self, name):
        return name in self.known or super().__contains__(name)

    def __getitem__(self, name):
        return self.known[name] if name in self.known else super().__getitem__(name)


def keep_descriptors():
    """No descriptor of this process but the first three is one of what it starts."""
    for number in map(int, os.listdir("/proc/self/fd")):
        if number > 2:
            with contextlib.suppress(OSError):
                os.set_inheritable(number, False)


def reachable(row):
    """The files of a row that the program may open: by a word, or by a line of the list, which is the first word after the command.
    A path to a file has its name in it."""
    listed = row.files.get(row.words[1]) if len(row.words) > 1 else b""
    if listed is None:
        return row.files
    named = b"\n".join([*row.words, listed])
    return {name: text for name, text in row.files.items() if name in named}


def pipe_with(typed):
    """The end of a pipe from which this can be read, and then its end; None where it doesn't hold it all."""
    end, begin = os.pipe()
    try:
        os.set_blocking(begin, False)
        if not typed or os.write(begin, typed) == len(typed):
            return end
    except BlockingIOError:
        pass
    finally:
        os.close(begin)
    os.close(end)
    return None


def ready(descriptor, until):
    """Whether something can be read there, or it has ended, before a time of the clock."""
    waiting = select.poll()
    waiting.register(descriptor, select.POLLIN)
    return bool(waiting.poll(max(0, (until - time.monotonic()) * 1000)))
