"""Tests of tests/second/rooms.py and of `Draw`, on scripts in the place of the program: prints a line for each."""
import os
import random
import sys

sys.dont_write_bytecode = True
sys.path.insert(0, os.path.join(os.environ["ROOT"], "tests", "second"))

from changing.drawing import Draw  # noqa: E402
from changing.naming import Row  # noqa: E402
import rooms  # noqa: E402
from rooms import Room, reachable  # noqa: E402

FILES = {b"l.txt": b"iliad\na.m\r\n./b.m", b"a.m": b"A", b"b.m": b"B", b"c.m": b"C", b"d.txt": b"D", b"h.csv": b"H"}
RUN = [b"run", b"l.txt", b"d.txt", b"-", b"h.csv"]


def script(name, text):
    """A script in the place of the program."""
    with open(name, "w", encoding="ascii") as file:
        file.write("#!/bin/sh\n" + text)
    os.chmod(name, 0o755)
    return os.path.abspath(name)


def said(room, row):
    """What the program of a room prints for a row."""
    room.put(row)
    return room.said(row)


def tell(what, seen, due):
    """A line: whether it is as it must be."""
    print("%s: %s" % (what, "as it must be" if seen == due else "%r, where it must be %r" % (seen, due)))


def drawn(generator):
    """Many numbers, and then what the generator gives next."""
    draw, numbers = generator("fuzz 7:7"), []
    for count in list(range(1, 300)) + [2**31, 2**40, 2**62]:
        numbers += [draw.randrange(count), draw.randrange(count, 2 * count), draw.choice(range(count)), draw.random(), draw.sample(range(count), 1)]
    draw.shuffle(numbers)
    return numbers, draw.getrandbits(64)


def refused(call, *words):
    """The name of the exception of a call, or what it gives."""
    try:
        return call(*words)
    except (ValueError, IndexError) as error:
        return type(error).__name__


def files():
    """Which files are there."""
    row = Row(RUN, FILES, b"")
    tell("files of a row", sorted(reachable(row)), [b"a.m", b"b.m", b"d.txt", b"h.csv", b"l.txt"])
    tell("files where the list isn't there", reachable(Row([b"run", b"x/l.txt", b"-", b"-", b"h.csv"], FILES, b"")), FILES)
    with Room(script("all", 'for file in *; do printf "%s %s;" "$file" "$(cat "$file" | tr "\\n\\r" "  ")"; done\n'), 60, 4 << 30) as room:
        first = b"a.m A;b.m B;d.txt D;h.csv H;l.txt iliad a.m  ./b.m;"
        tell("a row", said(room, row), (first, 0))
        other = {b"l.txt": b"iliad\na.m\nc.m\n", b"a.m": b"other", b"h.csv": b"H"}
        tell("another, with fewer files", said(room, Row(RUN, other, b"")), (b"a.m other;h.csv H;l.txt iliad a.m c.m ;", 0))
        tell("the first again", said(room, row), (first, 0))
        top = room.top
    tell("its folder at the end", os.path.exists(top), False)


def runs():
    """How the program is started, and how it ends."""
    with Room(script("echo", 'cat; printf "%s|" "$@"\n'), 60, 4 << 30) as room:
        tell("words and what is typed", said(room, Row([b"serve", b"a b", b"", b"\xe9"], {}, b"show\n")), (b"show\nserve|a b||\xe9|", 0))
        much = b"0123456789" * 100_000
        tell("more than a pipe holds", said(room, Row([b"x"], {}, much)), (much + b"x|", 0))
        tell("a word with a zero", refused(said, room, Row([b"a\0b"], {}, b"")), "ValueError")
    with Room(script("kill", "kill -SEGV $$\n"), 60, 4 << 30) as room:
        tell("a signal", said(room, Row([], {}, b"")), (b"", -11))
    with Room(script("busy", "echo begun; while :; do :; done\n"), 1, 4 << 30) as room:
        tell("too long", said(room, Row([], {}, b"")), (b"", None))
        tell("too long, where much is typed", said(room, Row([], {}, b"0" * 1_000_000)), (b"", None))
    rooms.CLOCK = 1
    with Room(script("slow", "echo begun; exec sleep 600\n"), 1, 4 << 30) as room:
        tell("waits too long", said(room, Row([], {}, b"")), (b"", None))
    with Room(script("long", "echo begun; exec >&-; exec sleep 600\n"), 1, 4 << 30) as room:
        tell("waits too long after the end of its output", said(room, Row([], {}, b"")), (b"", None))
    rooms.CLOCK = 30
    with Room(script("limits", "ulimit -v; ulimit -c; ls /proc/self/fd | wc -l; echo dropped >&2; "
                               "trap 'echo no' PIPE; kill -PIPE $$; exit 6\n"), 60, 1 << 30) as room:
        tell("limits, descriptors and errors", said(room, Row([], {}, b"")), (b"1048576\n0\n4\nno\n", 6))


tell("draws", drawn(Draw), drawn(random.Random))
tell("draws of nothing", [refused(Draw(1).randrange, 0), refused(Draw(1).choice, [])], ["ValueError", "IndexError"])
files()
runs()
