"""Batches that commands start: the source, which is read once and copied, the program, the sorting of labels, and the child processes and workers, which end
with their parent."""
from __future__ import annotations

import collections
import concurrent.futures
import contextlib
import errno
import hashlib
import multiprocessing
import os
import re
import shutil
import signal
import subprocess
import tempfile
import threading
import time
from concurrent.futures.process import BrokenProcessPool
from typing import IO, Any, Callable, Iterable, Iterator, Sequence, TypeVar

from . import program, source
from .errors import Broken, Failed, Interrupted
from .limits import CODE_FILE_BYTES
from .program import Program, digest_of

PIECE = 1_048_576
Job = TypeVar("Job")
Result = TypeVar("Result")


def file_digest(path: str | os.PathLike[str], out: IO[bytes] | None = None, below_head: bool = False) -> str:
    """The digest of a file's bytes, which are also written to an output, perhaps without the first line."""
    made = hashlib.sha256()
    with open(path, "rb") as file:
        if below_head:
            made.update(file.readline())
        while piece := file.read(PIECE):
            made.update(piece)
            if out is not None:
                out.write(piece)
    return made.hexdigest()


def fault_of(text: bytes, status: int) -> str:
    """The message about a program that ended with a status that isn't 0: its line, or the status where it printed something else, as answers."""
    line = text[:8192].split(b"\n")[0].decode("utf-8", "surrogateescape")
    return line if re.match("refused |unreadable |usage: ", line) else f"the program ended with status {status}"


# ---- memory


def free_memory() -> int:
    """How many bytes of memory are free on this machine, and in the group of processes where that has a limit."""
    free = [os.sysconf("SC_AVPHYS_PAGES") * os.sysconf("SC_PAGE_SIZE")]
    with contextlib.suppress(OSError, StopIteration), open("/proc/meminfo", encoding="ascii") as lines:
        free = [int(next(line for line in lines if line.startswith("MemAvailable:")).split()[1]) << 10]
    for most, used in (("memory.max", "memory.current"), ("memory/memory.limit_in_bytes", "memory/memory.usage_in_bytes")):
        with contextlib.suppress(OSError, ValueError):
            with open(f"/sys/fs/cgroup/{most}", encoding="ascii") as limit, open(f"/sys/fs/cgroup/{used}", encoding="ascii") as taken:
                free.append(max(int(limit.read()) - int(taken.read()), 0))
    return min(free)


# ---- the program


def found(name: str = "m_tax") -> Program:
    """The program of this name, m_tax or m_survey, found as the package finds it; an OSError where there is none."""
    try:
        return Program(None, name, None if name == "m_tax" else program_path())
    except Broken:
        raise FileNotFoundError(errno.ENOENT, os.strerror(errno.ENOENT), os.environ.get(name.upper()) or name) from None


def program_path(name: str = "m_tax") -> str:
    """The path of this program; where there is none, the name by which it was looked for, which can't be started."""
    try:
        return program.program_path(None, name, None if name == "m_tax" else program_path())
    except Broken:
        return os.path.abspath(os.environ.get(name.upper()) or os.path.join(program.TOP, name))


# ---- child processes


class Children:
    """The batches that run. They are ended when this program is."""

    def __init__(self) -> None:
        self.running: set[subprocess.Popen[bytes]] = set()
        self.lock, self.is_over = threading.Lock(), False

    @contextlib.contextmanager
    def started(self, words: Sequence[str], **options: Any) -> Iterator[subprocess.Popen[bytes]]:
        """A process that runs these words; it is ended where what follows fails, and awaited otherwise."""
        child = None
        try:
            with self.lock, source.unbroken():
                if self.is_over:
                    raise Failed("stopped")
                child = subprocess.Popen(words, **options)
                self.running.add(child)
            yield child
        except BaseException:
            if child is not None:
                child.kill()
            raise
        finally:
            if child is not None:
                with child:  # (its pipes are closed, and its end is awaited)
                    pass
                with self.lock:
                    self.running.discard(child)

    def end(self) -> None:
        """Ends all."""
        with self.lock:
            self.is_over = True
            for child in self.running:
                child.kill()


CHILDREN = Children()


@contextlib.contextmanager
def ended_after(child: subprocess.Popen[bytes], seconds: float | None) -> Iterator[None]:
    """Ends a process that takes longer than so many seconds, and rejects what it printed."""
    late = threading.Event()

    def end() -> None:
        late.set()
        child.kill()

    timer = threading.Timer(seconds, end) if seconds else None
    if timer:
        timer.daemon = True
        timer.start()
    try:
        yield
    finally:
        if timer:
            timer.cancel()
    if late.is_set():
        raise Failed(f"the program took more than {seconds} s, and was ended")


def printed(*words: str, stdin: int | IO[bytes] = subprocess.DEVNULL, folder: str | None = None) -> tuple[bytes, int]:
    """What the program prints to these words, perhaps in a folder, and its status."""
    with CHILDREN.started([program_path(), *words], stdin=stdin, stdout=subprocess.PIPE, cwd=folder) as child:
        return output_of(child).read(), child.wait()


def output_of(child: subprocess.Popen[bytes]) -> IO[bytes]:
    """The pipe that a process writes to."""
    assert child.stdout is not None
    return child.stdout


# ---- repeated labels


class Sorter:
    """Looks for repeated labels by `sort`, which also sorts what memory has no room for."""

    def __init__(self, stack: contextlib.ExitStack):
        # (in a folder of its own, since a sort that is ended leaves what it wrote)
        room = stack.enter_context(tempfile.TemporaryDirectory(prefix="scale-"))
        options: dict[str, Any] = {"stdout": subprocess.PIPE, "env": {**os.environ, "LC_ALL": "C"}}
        self.sort = stack.enter_context(CHILDREN.started(["sort", "-T", room], stdin=subprocess.PIPE, **options))
        self.repeated = stack.enter_context(CHILDREN.started(["uniq", "-d"], stdin=self.sort.stdout, **options))
        output_of(self.sort).close()

    def add(self, labels: bytes) -> None:
        """Adds labels, each with a line feed."""
        assert self.sort.stdin is not None
        # (a sort that has ended shows its status at the end)
        with contextlib.suppress(BrokenPipeError):
            self.sort.stdin.write(labels)
            self.sort.stdin.flush()

    def first(self) -> str:
        """The first repeated label, or an empty text. Without the whole output of both programs it is an error."""
        assert self.sort.stdin is not None
        with contextlib.suppress(BrokenPipeError):
            self.sort.stdin.close()
        label = output_of(self.repeated).readline()
        output_of(self.repeated).close()
        statuses = self.sort.wait(), self.repeated.wait()
        if not label and statuses != (0, 0):
            raise Failed(f"sort and uniq ended with the statuses {statuses[0]} and {statuses[1]}, so nothing tells whether a label stands twice", False)
        return label.decode("utf-8", "replace").strip("\n")


# ---- workers


def watch(parent: int) -> None:
    """Ends this process soon after its parent has ended in any way."""
    while os.getppid() == parent:
        time.sleep(0.5)
    os._exit(1)


def begin_worker(parent: int) -> None:
    """A worker leaves signals to its parent, and ends with it."""
    for number in (signal.SIGINT, *source.ENDING):
        signal.signal(number, signal.SIG_IGN)
    threading.Thread(target=watch, args=(parent,), daemon=True).start()


@contextlib.contextmanager
def workers() -> Iterator[concurrent.futures.ProcessPoolExecutor]:
    """Processes for pieces of work, as many as there are processors. They are forked here, before any thread, so that this process is their parent in every
    version of Python."""
    forked = multiprocessing.get_context("fork")
    with concurrent.futures.ProcessPoolExecutor(os.cpu_count(), forked, begin_worker, (os.getpid(),)) as pool:
        pool.submit(os.getpid).result()
        try:
            yield pool
        except BaseException:
            pool.shutdown(cancel_futures=True)
            raise


def in_order(work: Callable[[Job], Result], jobs: Iterable[Job]) -> Iterator[Result]:
    """The results of jobs by workers, in their order; some jobs are under way at once, however many there are. Where one fails, all workers are ended."""
    others = set(multiprocessing.active_children())
    most = 2 * (os.cpu_count() or 1)
    try:
        with workers() as pool:
            try:
                waiting: collections.deque[concurrent.futures.Future[Result]] = collections.deque()
                for job in jobs:
                    waiting.append(pool.submit(work, job))
                    if len(waiting) >= most:
                        yield waiting.popleft().result()
                while waiting:
                    yield waiting.popleft().result()
            except BaseException:
                for worker in set(multiprocessing.active_children()) - others:
                    worker.kill()
                raise
    except BrokenProcessPool:
        raise Interrupted("a worker ended before its work was done") from None


# ---- the source


class Batches:
    """Batches of a program over one source, in a folder that has a copy of it. `form` is what they print: `lines`, as `m_tax batch`, or `csv`, as `m_survey
    table`. A batch that takes longer than `timeout` seconds is ended. `digest` is that of all that an answer depends on."""

    digest: str

    def __init__(self, room: str, form: str = "lines", timeout: float | None = None):
        self.room, self.form, self.timeout = room, form, timeout
        name, self.command = ("m_survey", "table") if form == "csv" else ("m_tax", "batch")
        self.program = found(name)
        self.words: list[str] = []
        self.names: list[bytes] | None = None
        self.original: dict[str, str] = {}

    def put(self, name: str, content: bytes | None) -> str:
        """Writes a file of the folder, and returns the word for it: `-` for none."""
        if content is None:
            return "-"
        source.put(os.path.join(self.room, name), content)
        return name

    def original_names(self, line: str) -> str:
        """A line of the program, with the original names of the files."""
        return re.sub(r"\b(?:rules-[0-9]{6}\.m|source\.mcode)\b", lambda match: self.original.get(match[0], match[0]), line)

    def batch(self, table: str, out: IO[bytes]) -> int:
        """Writes the answers to a table; the status."""
        return self.output(out, self.command, os.path.abspath(table))

    def output(self, out: IO[bytes], command: str, *more: str) -> int:
        """Writes what a command prints over the source; the status. It prints into a pipe, so that a program whose parent was killed can't go on writing."""
        words = [self.program.path, command, *self.words, *more]
        with CHILDREN.started(words, cwd=self.room, stdin=subprocess.DEVNULL, stdout=subprocess.PIPE) as child:
            with ended_after(child, self.timeout):
                shutil.copyfileobj(output_of(child), out, PIECE)
                status = child.wait()
        out.flush()
        try:
            self.program.check()
        except Broken:
            raise Failed(f"{self.program.path} was changed meanwhile: the same words begin with the new one") from None
        return status


Read = tuple[str, list[tuple[str, bytes]], bytes | None, bytes | None]
"""An application, rule files by their names, a driver and requests."""


class Source(Batches):
    """A source that was read once: a copy of its files, a list with its rule files, a driver and requests."""

    def __init__(self, words: Sequence[str], room: str, timeout: float | None = None, form: str = "lines"):
        super().__init__(room, form, timeout)
        first, again = self.read(words), self.read(words)
        if first != again:
            raise Failed("the rules were changed while they were read: the same words read them again")
        application, rules, driver, requests = first
        names = [f"rules-{k:06}.m" for k in range(1, len(rules) + 1)]
        self.original = dict(zip(names, (name for name, _ in rules)))
        for name, (_, content) in zip(names, rules):
            self.put(name, content)
        self.put("list", "\n".join([application, *names, ""]).encode("latin-1"))
        self.words = ["list", self.put("driver", driver), self.put("requests", requests)]
        self.names = None if requests is None else [line for line in re.split(rb"\r?\n", requests) if line]
        pieces = [application.encode("latin-1")]
        for name, content in rules:
            pieces += [os.fsencode(name), content]
        for given in (driver, requests):
            pieces += [b"none"] if given is None else [b"some", given]
        self.digest = digest_of(self.program.digest.encode(), *pieces)

    @staticmethod
    def read(words: Sequence[str]) -> Read:
        """The files of a list, a driver and requests."""
        application, names = source.read_list(words[0])
        rules = list(zip(names, source.fetch_rules(names)))
        driver, requests = (None if word == "-" else source.fetch(word) for word in words[1:])
        return application, rules, driver, requests


class CodeFile(Batches):
    """A code file that was read once, which is a source of its own: no list, no rules. Its batches print csv."""

    def __init__(self, path: str, room: str, timeout: float | None = None):
        super().__init__(room, "csv", timeout)
        content = source.fetch(path, CODE_FILE_BYTES)
        self.original = {"source.mcode": path}
        self.words = [self.put("source.mcode", content)]
        self.digest = digest_of(self.program.digest.encode(), b"code", content)


def two_sources(lists: Sequence[str], drivers: Sequence[str], requests: str, room: str) -> list[Source]:
    """Two sources with the same requests. What both have is read once."""
    copies = {"-": "-"}
    for name in (*drivers, requests):
        if name not in copies:
            copies[name] = os.path.join(room, f"other-{len(copies)}")
            source.put(copies[name], source.fetch(name))
    made = []
    for list_name, driver in zip(lists, drivers):
        made.append(Source([list_name, copies[driver], copies[requests]], tempfile.mkdtemp(dir=room)))
    if made[0].program.digest != made[1].program.digest:
        raise Failed("the program was changed meanwhile: begin again")
    return made
