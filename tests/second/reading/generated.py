"""The source and the household of `large N`."""

from .sources import Source
from .texts import decimal


def large_source(count):
    """A number of inputs and sums, a rule for each sum from the last on, a verification, and the last sum as request."""
    lines = []
    for k in map(decimal, range(count)):
        lines.append(b"R" + k + b" : saisie revenu classe = 0 alias C" + k + b' : "r" ;')
        lines.append(b"T" + k + b' : calculee : "t" ;')
    for k in range(count - 1, -1, -1):
        lines.append(b"regle " + decimal(k + 1) + b" : application : iliad ;")
        before = b" + T" + decimal(k - 1) if k > 0 else b""
        lines.append(b"T" + decimal(k) + b" = max(0, R" + decimal(k) + b" - 1000)" + before + b" ;")
    last = b"T" + decimal(count - 1)
    lines.append(b'E1 : anomalie : "E" : "1" : "0" : "negative" ;')
    lines.append(b"verif 1 : application : iliad ;")
    lines.append(b"si " + last + b" < 0 alors erreur E1 ;")
    return Source(b"iliad", [(b"large.m", b"\n".join(lines))], None, last)


def large_household(count):
    """An amount of each input: 997 times its number, modulo 5000."""
    rows = [b"C" + decimal(k) + b"," + decimal(997 * k % 5000) for k in range(count)]
    return b"\n".join([b"code,amount"] + rows)
