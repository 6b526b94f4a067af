"""What changes draw from, and changes of any text: of its pieces, lines and bytes."""

import functools
import random as numbers
import re

from reading.texts import NUMBER, WORD

NUMBERS = b"""
0 1 2 3 4 7 10 12 100 1000 2500.5 0.5 1.5 0.000001 0.0000005 0.49995 0.499949 0.999999 2.0000004 007 1.0 2.9 99999
3000000 9999999999999.999999 10000000000000 10000000000000.0000004
""".split()
SPOILT_NUMBERS = b"10000000000000.0000005 99999999999999999999 1. .5 1..2 12345678901 1e3".split()
AMOUNTS = NUMBERS + b"-1 -0 -0.5 -0.0000004 -2500.5 -10000000000000 00012.50 -99.999999".split()
SPOILT_AMOUNTS = [b"", b" 1", b"1 "] + b'+1 1,5 1e3 - .5 1. 10000000000000.0000005 --1 "2" "1'.split()

ARITHMETIC = b"+ - * /".split()
COMPARISONS = b"= != < <= > >=".split()
DRIVER_COMPARISONS = b"== != < <= > >=".split()
CONNECTIVES = b"et ou".split()
DRIVER_CONNECTIVES = b"and or".split()
OF_TWO = b"max min".split()
OF_ONE = b"abs positif positif_ou_nul null arr inf present".split()
ERROR_KINDS = b"anomalie discordance informative".split()
ROLES = b"saisie calculee const".split()
TYPES = b"REEL BOOLEEN ENTIER".split()
SORTS = [
    ARITHMETIC, COMPARISONS, DRIVER_COMPARISONS, CONNECTIVES, DRIVER_CONNECTIVES, OF_TWO, OF_ONE, ERROR_KINDS, ROLES, TYPES,
]

PIECE = re.compile(
    rb'[ \t\r\n]+|#[^\n]*|"[^"]*"|' + WORD + rb"|" + NUMBER + rb"|\.\.|<-|==|!=|<=|>=|.", re.DOTALL
)


class Draw(numbers.Random):
    """A generator that gives what `random.Random` gives, and sooner: of whole numbers without a step, and of lists."""

    def randrange(self, start, stop=None):
        first, count = (0, start) if stop is None else (start, stop - start)
        if count <= 0:
            return super().randrange(start, stop)
        draw, bits = self.getrandbits, count.bit_length()
        number = draw(bits)
        while number >= count:
            number = draw(bits)
        return first + number

    def choice(self, seq):
        count = len(seq)
        if not count:
            return super().choice(seq)
        draw, bits = self.getrandbits, count.bit_length()
        number = draw(bits)
        while number >= count:
            number = draw(bits)
        return seq[number]


def chance(random, percent):
    """True in `percent` of a hundred cases."""
    return random.randrange(100) < percent


def some(random, names, other):
    """One of some names, or another word where there is none."""
    return random.choice(names) if names else other


@functools.lru_cache(1_024)
def cut_text(text):
    """The pieces of a text, and the positions of those that are neither blank nor a comment. Changes begin with the same texts over and over."""
    pieces = PIECE.findall(text)
    return tuple(pieces), tuple(at for at, piece in enumerate(pieces) if piece.strip() and not piece.startswith(b"#"))


def pieces_of(text):
    """The pieces of a text, in a list of its own."""
    return list(cut_text(text)[0])


def change_pieces(random, text, stock):
    """A text of which a piece is dropped, doubled, swapped with another, replaced, followed by another or cut short."""
    pieces, solid = pieces_of(text), cut_text(text)[1]
    put = random.choice(stock)
    if not solid:
        return put
    at = random.choice(solid)
    form = random.randrange(6)
    if form == 0:
        pieces[at] = b""
    elif form == 1:
        pieces[at] += b" " + pieces[at]
    elif form == 2:
        other = random.choice(solid)
        pieces[at], pieces[other] = pieces[other], pieces[at]
    elif form == 3:
        pieces[at] = put
    elif form == 4:
        pieces[at] += b" " + put + b" "
    else:
        pieces[at] = pieces[at][:random.randrange(len(pieces[at]))]
    return b"".join(pieces)


def exchange(random, text, names):
    """A text of which a piece is exchanged for another of its sort: an operator, a number or a name of a source. In a
    rule file it is mostly after the declarations."""
    pieces = pieces_of(text)
    solid = [at for at in cut_text(text)[1] if pieces[at] != b"="]
    first = min((at for at in solid if pieces[at] in (b"regle", b"verif")), default=0)
    if chance(random, 90):
        solid = [at for at in solid if at >= first]
    for at in random.sample(solid, min(len(solid), 6)):
        others = exchanged_for(pieces[at], names)
        if others:
            pieces[at] = random.choice(others)
            break
    return b"".join(pieces)


def exchanged_for(piece, names):
    """The pieces of the same sort as this one; none where it is of no sort."""
    for sort in SORTS + [names.plain, names.tables, names.errors]:
        if piece in sort:
            return sort
    return NUMBERS if re.fullmatch(NUMBER, piece) else []


def indentation(line):
    """The spaces at the front of a line."""
    return line[:len(line) - len(line.lstrip(b" "))]


def change_lines(random, text):
    """A text of which a line is indented otherwise, or some together are indented more, dropped, doubled or moved."""
    lines = text.split(b"\n")
    at = random.randrange(len(lines))
    behind = min(len(lines), at + random.randrange(1, 4))
    together = lines[at:behind]
    form = random.randrange(5)
    if form == 0:
        front = random.choice([b"", b" ", b"  ", b"   ", b"    ", b"\t", indentation(random.choice(lines))])
        lines[at] = front + lines[at].lstrip(b" ")
    elif form == 1:
        lines[at:behind] = [b" " * random.randrange(1, 3) + line for line in together]
    elif form == 2:
        del lines[at:behind]
    elif form == 3:
        lines[at:at] = together
    else:
        del lines[at:behind]
        to = random.randrange(len(lines) + 1)
        lines[to:to] = together
    return b"\n".join(lines)


def flip_byte(random, text):
    """A text of which one byte is another, one more or one less."""
    if not text:
        return b"?"
    at = random.randrange(len(text))
    byte = bytes([random.randrange(256)])
    return text[:at] + random.choice([byte, byte + text[at:at + 1], b""]) + text[at + 1:]
