"""Where the processor's time of a command goes, by samples of perf: used by the benches that print such a table."""
import collections
import re
import shutil
import subprocess
import tempfile

FRAME = re.compile(r"\s*[0-9a-f]+ (.*) \((.*)\)$")
LOOP = 'n=0; while [ "$n" -lt "$0" ]; do "$@" >/dev/null || exit 1; n=$((n + 1)); done'
# Names of the kernel's functions, from the call of the system or the fault on, and what they are.
KERNEL = [
    (("exc_page_fault",), "pages: the kernel's page faults"),
    (("execve", "load_elf_binary", "exit_group", "do_exit"), "the kernel: the process and its end"),
    (("mprotect",), "the kernel: `mprotect`, by which the heap of a thread grows"),
    (("mmap", "munmap", "mremap", "_brk", "madvise"), "the kernel: `mmap`, `munmap`, `brk`, `madvise`"),
    (("clone", "futex", "ret_from_fork"), "the kernel: threads, and waiting for them"),
    (("openat", "_read", "_write", "_close"), "the kernel: files"),
    (("",), "the kernel: all else"),
]
# Files, names of functions in them, and what they are: the first that fits counts.
USER = [
    ("libc", ("memmove", "memcpy", "memset"), "copies and zeroes of memory"),
    ("libc", ("",), "`malloc`, `free`"),
    ("ld-linux", ("",), "the dynamic loader"),
    ("", ("",), "the program's own code"),
]


def is_there():
    return shutil.which("perf") is not None


def stacks(command, folder, rate, runs):
    """The stacks of m_tax, innermost first, in the samples of a number of runs of a command: each frame is a function and the file that it is in."""
    with tempfile.NamedTemporaryFile() as data:
        words = ["perf", "record", "-q", "-g", "-e", "cpu-clock", "-F", str(rate), "-o", data.name, "sh", "-c", LOOP, str(runs), *command]
        subprocess.run(words, cwd=folder, check=True, stdout=subprocess.DEVNULL, stderr=subprocess.DEVNULL)
        words = ["perf", "script", "-i", data.name, "-F", "comm,ip,sym,dso"]
        text = subprocess.run(words, check=True, capture_output=True, text=True, errors="replace").stdout
    for block in text.split("\n\n"):
        head, *lines = block.strip().split("\n")
        if head.split()[:1] == ["m_tax"]:
            yield [(match[1], match[2]) for match in map(FRAME.match, lines) if match]


def part_of(stack, own):
    """The part that a sample belongs to: of the kernel by all functions that it was called by, of others by the function itself."""
    function, file = stack[0]
    if "kernel" in file:
        functions = [name for name, place in stack if "kernel" in place]
        return next(part for words, part in KERNEL if any(word in name for word in words for name in functions))
    return next(part for place, words, part in (*own, *USER) if place in file and any(word in function for word in words))


def shares(command, folder, rate, runs, own=()):
    """Of each part the milliseconds of the processor in one run of m_tax and its share. `own` has parts that are tried before those of USER."""
    counts = collections.Counter(part_of(stack, own) for stack in stacks(command, folder, rate, runs) if stack)
    total = sum(counts.values())
    return {part: (count / rate / runs * 1000, count / total) for part, count in counts.items()}


def table(columns):
    """Prints the shares of several commands beside each other, by their names."""
    if not is_there():
        print("\n(not profiled: there is no perf)")
        return
    parts = sorted({part for found in columns.values() for part in found}, key=lambda part: -max(found.get(part, (0, 0))[1] for found in columns.values()))
    print("\n| Part | " + " | ".join(f"{name}, ms | share" for name in columns) + " |\n|---|" + "---:|---:|" * len(columns))
    for part in parts:
        cells = (f"{found.get(part, (0, 0))[0]:.2f} | {found.get(part, (0, 0))[1]:.0%}" for found in columns.values())
        print(f"| {part} | " + " | ".join(cells) + " |", flush=True)
