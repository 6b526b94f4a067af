"""What goes with this process, however it ends, also by SIGKILL: the programs that it started, and the folders of its files.

A shell reads a pipe that this process alone holds open: each program and folder is reported to it when it begins and when it is gone. At the end of the pipe it
ends the programs and removes the folders that are left. A process that was forked has no part in that, and gets a shell of its own where it needs one.
"""
from __future__ import annotations

import contextlib
import fcntl
import os
import subprocess
import threading
from typing import Any

# Lines: `+` begins and `-` ends, `p` a program by its id and `f` a folder. (A folder's name may have blanks, and no line feed.)
SCRIPT = r"""
trap '' HUP INT TERM QUIT
programs=' ' folders='
'
without() { printf '%s' "$1" | grep -vxF -- "$2"; }
while IFS= read -r line; do
    value=${line#??}
    case $line in
        +p*) programs="$programs$value " ;;
        -p*) programs="${programs%% $value *} ${programs#* $value }" ;;
        +f*) folders="$folders$value
" ;;
        -f*) folders="$(without "$folders" "$value")
" ;;
    esac
done
for program in $programs; do kill -KILL "$program"; done
printf '%s' "$folders" | while IFS= read -r folder; do [ -z "$folder" ] || rm -rf -- "$folder"; done
"""


def above_standard(number: int) -> int:
    """The same file under a descriptor that isn't one of the standard streams, which may be closed: 3 or above."""
    if number > 2:
        return number
    try:
        return fcntl.fcntl(number, fcntl.F_DUPFD_CLOEXEC, 3)
    finally:
        os.close(number)


def memory_file(name: str) -> int:
    """The descriptor of a new file in memory."""
    return above_standard(os.memfd_create(name))


class Guard:
    """The pipe to the shell, which is made when it is needed first."""

    def __init__(self) -> None:
        self._lock = threading.Lock()
        self._pipe: int | None = None

    def say(self, line: str) -> None:
        """Sends a line to the shell. If the shell is gone, nothing is guarded, and nothing else changes."""
        if "\n" in line:
            return
        with self._lock, contextlib.suppress(OSError):
            if self._pipe is None:
                self._pipe = self._begun()
            os.write(self._pipe, os.fsencode(line) + b"\n")

    def leave(self) -> None:
        """In a forked process: what the other one guards isn't this one's."""
        self._lock = threading.Lock()
        if self._pipe is not None:
            os.close(self._pipe)
        self._pipe = None

    @staticmethod
    def _begun() -> int:
        """Starts the shell; the end of its pipe."""
        read, write = map(above_standard, os.pipe())
        try:
            # (nobody waits for it: it ends after this process; so that it is no zombie in the meantime, a shell between the two ends at once)
            words = ["/bin/sh", "-c", 'exec 3<&0; { exec /bin/sh -c "$1" <&3 3<&-; } & exit 0', "sh", SCRIPT]
            null = subprocess.DEVNULL
            subprocess.run(words, stdin=read, stdout=null, stderr=null, cwd="/", start_new_session=True, check=False)
        finally:
            os.close(read)
        return write


GUARD = Guard()
os.register_at_fork(after_in_child=GUARD.leave)


class Child(subprocess.Popen[bytes]):
    """A program that ends with this process."""

    def __init__(self, words: list[str], **options: Any):
        super().__init__(words, **options)
        self._is_told = True
        GUARD.say(f"+p{self.pid}")

    def poll(self) -> int | None:
        status = super().poll()
        if status is not None:
            self._forget()
        return status

    def wait(self, timeout: float | None = None) -> int:
        status = super().wait(timeout)
        self._forget()
        return status

    def _forget(self) -> None:
        if self.__dict__.pop("_is_told", False):
            GUARD.say(f"-p{self.pid}")
