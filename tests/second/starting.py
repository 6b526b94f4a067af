"""Starts a program many times by one process of it, which forks before its `main` (forks.c): a start costs less than half of one by the system."""
import os
import shutil
import struct
import subprocess

HERE = os.path.dirname(os.path.abspath(__file__))
REQUEST, PIECE = struct.Struct("=IIIIIQ"), struct.Struct("=IIiI")
READY = PIECE.pack(0, 0, -1_234_567, 0)
# What forks.c takes at once. A pipe holds what is typed.
MOST_WORDS, MOST_TEXT, MOST_TYPED = 64, 100_000, 4_096
CHUNK = 1 << 17


def built_forks(folder, program):
    """The path of forks.c built in a folder; None where there is no C compiler, or where the program isn't started so (a script, or one without a loader)."""
    path = os.path.join(folder, "forks.so")
    command = ["cc", "-O2", "-shared", "-fPIC", "-o", path, os.path.join(HERE, "forks.c")]
    with open(program, "rb") as file:
        if file.read(4) != b"\x7fELF" or shutil.which("cc") is None or subprocess.run(command, stderr=subprocess.DEVNULL, check=False).returncode != 0:
            return None
    starter = Starter(program, path, (1, 1, 1 << 32))
    starter.close()
    return path if starter.ready else None


def is_taken(row):
    """Whether a row's words and what is typed are taken by forks.c."""
    return len(row.words) <= MOST_WORDS and len(row.typed) <= MOST_TYPED and sum(map(len, row.words)) <= MOST_TEXT


class Starter:
    """A process of a program that starts it in the working folder that this process has now, within limits on seconds (of processors, and by the clock)
    and bytes of addresses."""

    def __init__(self, program, forks, limits):
        self.limits = limits
        environment = {**os.environb, b"LD_PRELOAD": os.fsencode(forks)}
        self.process = subprocess.Popen([program], env=environment, stdin=subprocess.PIPE, stdout=subprocess.PIPE, stderr=subprocess.DEVNULL, bufsize=0)
        self.ready = os.read(self.process.stdout.fileno(), PIECE.size) == READY

    def close(self):
        """Ends the process."""
        self.process.stdin.close()
        self.process.stdout.close()
        self.process.wait()

    def said(self, row):
        """What the program prints on a row, and its status as `os.waitstatus_to_exitcode` has it; None where the clock's seconds have passed."""
        words = b"".join(word + b"\0" for word in row.words)
        if words.count(b"\0") != len(row.words):
            raise ValueError("a word with a zero byte")
        request = REQUEST.pack(len(row.words), len(words), len(row.typed), *self.limits) + words + row.typed
        os.write(self.process.stdin.fileno(), request)
        printed, data, more = [], b"", True
        while more:
            data = self.filled(data, PIECE.size)
            size, more, status, late = PIECE.unpack_from(data)
            data = self.filled(data, PIECE.size + size)
            printed.append(data[PIECE.size:PIECE.size + size])
            data = data[PIECE.size + size:]
        return b"".join(printed), None if late else os.waitstatus_to_exitcode(status)

    def filled(self, data, size):
        """Data with what follows it, so that it has this size."""
        while len(data) < size:
            piece = os.read(self.process.stdout.fileno(), CHUNK)
            if not piece:
                raise OSError("what starts the program has ended")
            data += piece
        return data
