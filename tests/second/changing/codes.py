"""Code files that are drawn and changed, each with a household for its inputs."""

from reading.code_files import ARITY, BINARY, KINDS, UNARY

from .drawing import chance, flip_byte
from .files import change_household, new_household
from .naming import Row

CODES = b"1AJ 1BJ 0CF 8ZZ _ 9a sommes XX".split()
VERIFICATIONS = b"1 2000 000 999999999".split()
ERRORS = b"A20 E01 _ 1A XX".split()
TEXTS = b"6e 413a32303a30303a726576656e75206e756c3a4e 0a c3a9 00ff".split()
NAMES = b"IRN T[0] T[1] T[1023] XX 1AJ _".split()
LITERALS = b"undef over 0 1 -1 1000000 -1000000 2000000 2500500000 500000 999999 10000000000000000000 -10000000000000000000".split()
SLOTS = [0, 1, 2, 3, 16, 4_294_967_295]
NUMBERS = b"0 1 2 15 16 17 4294967295 4294967296 00 01 -0 -1 +1 1.5 99999999999999999999".split() + [b"", b"9" * 60]
SPOILT_LITERALS = b"10000000000000000001 -10000000000000000001 -0 007 1.5 undefined Over".split()
LINES = b"""
mcode 1|slots 0|slots 1|input 1AJ|input 2AJ whole|label driver 0|label driver 4294967296|label verif 1 E anomalie 6e|note 0|output IRN
output T[1024]|output T[01]|output irn|code|in 0 0|lit 0 0|lit 16 0|do 0 neg 0|do 0 add 0|do 0 choose 0 0|st 0 0|ld 0 0|ck 0 0 0|co 0 0 0
out 0 0|end||code |input somme|input X|output X|output X[0]|label verif 1 X anomalie 6e|note 4294967295|label verif 1 e anomalie 6e
label verif 1 E anomalie 6|label verif 1 E anomalie|label verif 1 E noted 6E
""".strip().replace(b"\n", b"|").split(b"|")


class Codes:
    """The codes of a code file, for the household that goes with it."""

    def __init__(self, text):
        lines = [line.split(b" ") for line in text.split(b"\n")]
        self.codes = [words[1] for words in lines if words[0] == b"input" and len(words) > 1]


def face_lines(random, inputs):
    """The lines of inputs, labels and outputs, and how many labels and outputs there are."""
    types = [b"", b"", b" whole", b" truth"]
    lines = [b"input " + code + random.choice(types) for code in inputs]
    labels = []
    for _ in range(random.choice([0, 0, 1, 2, 3])):
        if chance(random, 30):
            labels.append(b"label driver %d" % random.choice([0, 1, 12, 4_294_967_295]))
        else:
            words = [VERIFICATIONS, ERRORS, KINDS, TEXTS]
            labels.append(b"label verif " + b" ".join(random.choice(stock) for stock in words))
    told = [b"note %d" % k for k, label in enumerate(labels) if b"verif" in label and chance(random, 30)]
    named = [b"output " + random.choice(NAMES) for _ in range(random.choice([0, 1, 1, 2, 3]))]
    return lines + labels + told + named, len(labels), len(told) + len(named)


def new_code(random):
    """A code file without a fault."""
    inputs = random.sample(CODES, random.randrange(5))
    face, labels, outputs = face_lines(random, inputs)
    slots = random.choice(SLOTS)
    lines, written, stored = [], [], []
    left = random.sample(range(outputs), outputs)

    def register():
        target = random.randrange(random.choice([3, 16]))
        written.append(target)
        return target

    for _ in range(random.randrange(1, 30)):
        form = random.randrange(12)
        if not written or form == 0:
            if inputs and chance(random, 70):
                lines.append(b"in %d %d" % (register(), random.randrange(len(inputs))))
            else:
                lines.append(b"lit %d %s" % (register(), random.choice(LITERALS)))
        elif form < 6:
            word = random.choice(random.choice([UNARY, BINARY, BINARY, [b"choose"]]))
            read = [b"%d" % random.choice(written) for _ in range(ARITY[word])]
            lines.append(b"do %d %s %s" % (register(), word, b" ".join(read)))
        elif form == 6 and slots:
            stored.append(random.choice([0, slots - 1]))
            lines.append(b"st %d %d" % (stored[-1], random.choice(written)))
        elif form == 7 and stored:
            lines.append(b"ld %d %d" % (register(), random.choice(stored)))
        elif form < 10 and labels:
            words = random.choice([b"ck", b"co"]), random.choice(written), random.choice(written), random.randrange(labels)
            lines.append(b"%s %d %d %d" % words)
        elif left:
            lines.append(b"out %d %d" % (left.pop(), random.choice(written)))
    if left and not written:
        lines.append(b"lit %d undef" % register())
    lines += [b"out %d %d" % (output, random.choice(written)) for output in left]
    return b"\n".join([b"mcode 1", b"slots %d" % slots, *face, b"code", *lines, b"end", b""])


def change_code(random, text, wild):
    """A code file with one change, which mostly leaves a fault; one that isn't wild is in an instruction."""
    lines = text.split(b"\n")
    at = random.randrange(len(lines))
    words = lines[at].split(b" ")
    form = random.randrange(12) if wild else random.randrange(5)
    if form < 3:
        place = random.randrange(len(words))
        words[place] = exchanged(random, words[place])
        lines[at] = b" ".join(words)
    elif form == 3:
        other = min(len(lines) - 1, at + 1)
        lines[at], lines[other] = lines[other], lines[at]
    elif form == 4:
        lines[at:at] = [lines[random.randrange(len(lines))]]
    elif form == 5:
        del lines[at]
    elif form == 6:
        lines[at] = random.choice(LINES)
    elif form == 7:
        words[random.randrange(len(words))] = random.choice(NUMBERS + SPOILT_LITERALS)
        lines[at] = b" ".join(words)
    elif form == 8:
        lines[at] = random.choice([b" " + lines[at], lines[at] + b" ", lines[at] + b"\r", lines[at].replace(b" ", b"  "), lines[at].replace(b" ", b"\t")])
    elif form == 9:
        return text[:random.randrange(len(text) + 1)]
    elif form == 10:
        return text + random.choice([b"x", b"\n", b"end\n", b" ", text])
    else:
        return flip_byte(random, text)
    return b"\n".join(lines)


def exchanged(random, word):
    """A word of the same sort as this one."""
    for stock in (UNARY, BINARY, LITERALS, [b"ck", b"co"], KINDS, NAMES, CODES):
        if word in stock:
            return random.choice(stock)
    return b"%d" % random.randrange(16) if word.isdigit() else word


def code_row(random, good):
    """A row of `exec`: a code file that is drawn, or one of a row, with some changes or none."""
    if any(row.words[:1] == [b"exec"] for row in good) and chance(random, 20):
        row = random.choice([row for row in good if row.words[:1] == [b"exec"]])
        text = row.files[row.words[1]]
    else:
        text = new_code(random)
    names = Codes(text)
    household = new_household(random, names)
    if chance(random, 5):
        household = change_household(random, household, names, True)
    wild = chance(random, 35)
    for _ in range(random.choice([0, 0, 1, 2]) if not wild else random.choice([1, 1, 2])):
        text = change_code(random, text, wild)
    return Row([b"exec", b"c.txt", b"h.csv"], {b"c.txt": text, b"h.csv": household}, b"")
