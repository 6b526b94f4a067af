"""What the program prints for households by themselves: each by a run, or many by tables."""
import os
import subprocess

SECONDS = 600
# What a household may have of some inputs of the examples without a stop; of others it is a whole amount below 60,000.
FITTING = {
    b"0NB": b"1 1.5 2 2.5 3 4".split(), b"7UD": b"0 500 1000.5".split(), b"0AM": [b"1"], b"0BT": [b"0"], b"0CF": b"0 1 2 3 6".split(),
    b"0CH": b"0 1 2".split(), b"0CG": [b"0"], b"0CI": [b"0"], b"4BE": b"0 1000 15000".split(),
}


class Wrong(Exception):
    """A difference, or too little to compare."""


def said_by(program, words, top, typed=b"", statuses=(0,)):
    """What the program prints in a folder, and its status, which must be one of these."""
    done = subprocess.run([program, *map(os.fsdecode, words)], cwd=top, input=typed, stdout=subprocess.PIPE, timeout=SECONDS, check=False)
    if done.returncode not in statuses:
        raise Wrong("%s ended with status %d: %r" % (" ".join(map(os.fsdecode, words[:2])), done.returncode, done.stdout[-200:]))
    return done.stdout, done.returncode


def answers_of_tables(program, source, top, households, room, rows):
    """What `batch` prints for each household (its amounts by their codes), in tables of at most `rows` rows."""
    answers = []
    for first in range(0, len(households), rows):
        some = households[first:first + rows]
        codes = sorted(set().union(*some))
        table = os.path.join(room, "table.csv")
        with open(table, "wb") as out:
            out.write(b",".join([b"name", *codes]) + b"\n")
            for number, amounts in enumerate(some):
                out.write(b",".join([b"h%d" % number, *(amounts.get(code, b"") for code in codes)]) + b"\n")
        text, _ = said_by(program, [b"batch", *source, os.fsencode(table)], top)
        at = 0
        for number in range(len(some)):
            label, after = b"household h%d\n" % number, b"\nhousehold h%d\n" % (number + 1)
            if not text.startswith(label, at):
                raise Wrong("batch has no %r at byte %d" % (label, at))
            end = text.find(after, at + len(label) - 1) + 1 if number + 1 < len(some) else len(text)
            if end == 0:
                raise Wrong("batch has no %r" % after)
            answers.append(text[at + len(label):end])
            at = end
    return answers
