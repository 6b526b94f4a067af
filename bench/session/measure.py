#!/usr/bin/env python3
"""Times sessions: what a show takes after an edit, the first show apart, and what the session holds in memory.

    measure.py PROGRAM FOLDER

Each line is a base, an edit that is made to and fro, and their number. What a session took is read off its clock of the processor (user and system)
while it waits: after its first edit, after its first show, and after all others. Each reply is compared: that of an edit is `ok`, and each second show of the
same edit is equal. A show after an edit prints what `run` prints for the household with that edit. The memory is what the heap holds
while the session waits after its first show (live.c, by LD_PRELOAD), less the 48 bytes a node of the program's own list.
"""
import os
import subprocess
import sys
import threading
import time

HERE = os.path.dirname(os.path.abspath(__file__))
ROOT = os.path.dirname(os.path.dirname(HERE))
sys.path.insert(0, os.path.dirname(HERE))
from measured import RUNS, figure, least, used  # noqa: E402

EXAMPLES = [("examples/impots", "A01", "A01", 20_000), ("examples/impot2023", "1AJ", "1AJ", 20_000)]
LARGE = [(1_000, 20_000), (10_000, 20_000), (100_000, 20_000)]
SHOWS = 200_000
NODE_BYTES = 48


def example(name, folder):
    """The words of a session of an example: the program is started at the top of the repository."""
    household = os.path.join(folder, "household.csv")
    with open(household, "w", encoding="latin-1") as out:
        out.write("code,amount\n1AJ,33333\n" if name.endswith("2023") else open(os.path.join(ROOT, name, "household.csv"), encoding="latin-1").read())
    return [f"{name}/rules.list", f"{name}/driver.mpp", "-", household], ROOT


def large(n, folder, wanted=True):
    """The words of a session over the base of `large N`, which requests its last value, or nothing."""
    place = os.path.join(folder, str(n))
    subprocess.run([sys.executable, os.path.join(os.path.dirname(HERE), "flat", "generate.py"), str(n), "0", place], check=True)
    with open(os.path.join(place, "nothing.txt"), "w", encoding="ascii"):
        pass
    return ["list.txt", "-", "requests.txt" if wanted else "nothing.txt", "household.csv"], place


def few_inputs(n, folder):
    """The words of a session over n rules that read ten inputs by turns, so that what is held grows with the nodes alone."""
    place = os.path.join(folder, f"few{n}")
    os.makedirs(place)
    rules = [f'R{k} : saisie revenu classe = 0 alias C{k} : "r" ;\n' for k in range(10)]
    rules += [f'T{k} : calculee{" restituee" if k == n - 1 else ""} : "t" ;\n' for k in range(n)]
    rules += [f"regle {k + 1} : application : iliad ;\nT{k} = max(0, R{k % 10} - {1000 + k}){f' + T{k - 1}' if k else ''} ;\n" for k in range(n)]
    for name, lines in (("list.txt", ["iliad\nlarge.m\n"]), ("large.m", rules), ("household.csv", ["code,amount\n"])):
        with open(os.path.join(place, name), "w", encoding="ascii") as out:
            out.writelines(lines)
    return ["list.txt", "-", "-", "household.csv"], place


def typed(code, amounts, count):
    """Edits of a code and shows, to and fro between two amounts."""
    return "".join(f"set {code} {amounts[k % 2]}\nshow\n" for k in range(count)).encode()


def answers(text):
    """The shown answers, each without its `.`, after replies that are `ok`."""
    found, shown = [], []
    for line in text.decode("latin-1").split("\n")[:-1]:
        if line == ".":
            found.append("\n".join(shown))
            shown = []
        elif line != "ok":
            shown.append(line)
    return found


class Talk:
    """A session that is kept running between requests."""

    def __init__(self, program, words, place):
        self.child = subprocess.Popen([program, "serve", *words], cwd=place, stdin=subprocess.PIPE, stdout=subprocess.PIPE)
        self.said, self.come = bytearray(), threading.Condition()
        threading.Thread(target=self.listen, daemon=True).start()

    def listen(self):
        while piece := os.read(self.child.stdout.fileno(), 1 << 16):
            with self.come:
                self.said += piece
                self.come.notify()

    def ask(self, lines, ending, count):
        """Sends lines and waits until this many replies of the form came; the seconds of the processor since the session began, and the replies."""
        begin = len(self.said)
        self.child.stdin.write(lines)
        self.child.stdin.flush()
        with self.come:
            self.come.wait_for(lambda: self.said.endswith(ending) and self.said.count(ending, begin) >= count, timeout=120)
        return time.clock_gettime((~self.child.pid << 3) | 2), bytes(self.said[begin:])

    def end(self):
        self.child.stdin.close()
        if self.child.wait() != 0:
            sys.exit(f"a session ended with status {self.child.returncode}")


def session(program, words, place, code, amounts, count):
    """Seconds of a session to begin, of its first show, and of a number of edits and shows after it."""
    talk = Talk(program, words, place)
    begun, _ = talk.ask(f"set {code} {amounts[1]}\n".encode(), b"ok\n", 1)
    first, _ = talk.ask(b"show\n", b".\n", 1)
    last, text = talk.ask(typed(code, amounts, count), b".\n", count)
    talk.end()
    shown = answers(text)
    if len(shown) != count or text.count(b"ok\n") != count or len(set(shown[0::2])) > 1 or len(set(shown[1::2])) > 1:
        sys.exit(f"{words}: {len(shown)} shows: {text[-300:]}")
    return begun, first - begun, last - first


def live(program, words, place, room, typed_lines):
    """The bytes that the heap holds when a session waits for its last line."""
    log = os.path.join(room, "live.txt")
    with open(log, "wb"):
        pass
    env = {**os.environ, "LD_PRELOAD": os.path.join(room, "live.so"), "LIVE_FILE": log}
    subprocess.run([program, "serve", *words], cwd=place, env=env, input=typed_lines, stdout=subprocess.DEVNULL, check=True)
    with open(log, encoding="ascii") as lines:
        return int(lines.read().split()[-1])


def nodes_of(program, words, place):
    """How many nodes the program of a source has: each is an instruction of its code."""
    text = subprocess.run([program, "compile", *words], cwd=place, stdout=subprocess.PIPE, check=True).stdout
    return sum(line.startswith((b"in ", b"lit ", b"do ")) for line in text.split(b"\n"))


def row(program, name, words, place, code, amounts, count, room):
    _, peak, status, text = used([program, "serve", *words], place)
    if status or text:
        sys.exit(f"{name}: status {status}, {text[:200]}")
    runs = [session(program, words, place, code, amounts, count) for _ in range(RUNS)]
    begun, first, others = (min(run[k] for run in runs) for k in range(3))
    nodes = nodes_of(program, words[:3], place)
    held = live(program, words, place, room, typed(code, amounts, 1))
    each = others / count
    print(f"| {name} | {nodes:,} | {count:,} | {begun:.3f} | {first * 1e3:.2f} | {each * 1e6:.2f} | {1 / each:,.0f} "
          f"| {peak / 1e6:.0f} | {held / 1e6:.1f} |", flush=True)
    return each, nodes, held


def same_as_run(program, words, place, code, amount, room):
    """A show after an edit prints what `run` prints for the household with that amount."""
    path = os.path.join(room, "edited.csv")
    with open(os.path.join(place, words[3]), encoding="latin-1") as source:
        lines = [line for line in source.read().split("\n") if line and line.split(",")[0] != code]
    with open(path, "w", encoding="latin-1") as out:
        out.write("\n".join([*lines, f"{code},{amount}", ""]))
    alone = least([program, "run", *words[:3], path], place)[3]
    shown = least([program, "serve", *words], place, f"set {code} {amount}\nshow\n".encode())[3]
    if shown != b"ok\n" + alone + b".\n":
        sys.exit(f"{words}: a show says {shown[:200]}, and run says {alone[:200]}")


def main():
    program, room = os.path.abspath(sys.argv[1]), sys.argv[2]
    subprocess.run(["cc", "-O1", "-shared", "-fPIC", "-o", os.path.join(room, "live.so"), os.path.join(os.path.dirname(HERE), "live.c")], check=True)
    print("| Base | nodes | edits and shows | seconds to begin | first show, ms | a later show with its edit, microseconds "
          "| shows a second | peak, MB | held after the first show, MB |")
    print("|---|---:|---:|---:|---:|---:|---:|---:|---:|")
    each = {}
    for name, code, _, count in EXAMPLES:
        words, place = example(name, room)
        same_as_run(program, words, place, code, 30_001, room)
        each[name] = row(program, name, words, place, code, (30_000, 30_001), count, room)
    for n, count in LARGE:
        words, place = large(n, room)
        same_as_run(program, words, place, f"C{n - 1}", 3000, room)
        each[n] = row(program, f"`large {n}`", words, place, f"C{n - 1}", (2000, 3000), count, room)
    words, place = large(50_000, room, wanted=False)
    nothing = row(program, "`large 50000`, nothing asked for", words, place, "C49999", (2000, 3000), SHOWS, room)
    # Two sizes of one base: what each node more holds, so that what a session holds without nodes is left out.
    held = []
    for n in (10_000, 100_000):
        words, place = few_inputs(n, room)
        held.append((nodes_of(program, words[:3], place), live(program, words, place, room, typed("C3", (2000, 3000), 1))))
    (few, little), (many, much) = held
    a_node = (much - little) / (many - few)
    ratio = each[100_000][0] / each[1_000][0]
    print(f"\nA show of `large 100000` takes {ratio:.2f} of one of `large 1000`. "
          f"{a_node:.0f} bytes are held for each node more, {NODE_BYTES} of them by the program.\n")
    for name, key in (("impots", EXAMPLES[0][0]), ("impot2023", EXAMPLES[1][0]), ("large_100000", 100_000)):
        figure(f"session.{name}_shows_a_second", 1 / each[key][0])
    figure("session.large_100000_to_large_1000", ratio, "<=1.2")
    figure("session.bytes_a_node_above_the_program", a_node - NODE_BYTES, "<=168")
    figure("session.200000_shows_s", nothing[0] * SHOWS, "<=3")


main()
