"""Terms of rules and of drivers, which are mostly valid."""

from .drawing import ARITHMETIC, COMPARISONS, CONNECTIVES, DRIVER_COMPARISONS, DRIVER_CONNECTIVES
from .drawing import NUMBERS, OF_ONE, OF_TWO, chance, some

GOOD_PLACES = b"1..3 08..10 0,2 1..2,7 5 0..0 2..4".split()
PLACES = GOOD_PLACES + b"V,C A..C W..Y 1,1 10..9 A..1".split()
SPECIAL_VALUES = [b"(si 0 alors 1 finsi)", b"(si 0 alors 1 finsi)", b"(10000000000000 + 1)"]
INDEXES = [b"0", b"1", b"2", b"1.9", b"(- 1)", b"3", b"9"]


def rule_term(random, names, depth, letters=()):
    """A term of a rule, which may contain these letters of loops, and `X`."""
    if depth == 0 or chance(random, 25):
        return leaf(random, names, letters)

    def inner():
        return rule_term(random, names, depth - 1, letters)

    form = random.randrange(14)
    if form < 4:
        return b"(%s %s %s)" % (inner(), random.choice(ARITHMETIC), inner())
    if form == 4:
        return b"%s(%s)" % (random.choice(OF_ONE), inner())
    if form == 5:
        return b"%s(%s , %s)" % (random.choice(OF_TWO), inner(), inner())
    if form == 6:
        return b"(%s %s %s)" % (inner(), random.choice(COMPARISONS), inner())
    if form == 7:
        return b"(%s %s %s%s)" % (inner(), random.choice(CONNECTIVES), random.choice([b"non ", b""]), inner())
    if form == 8:
        return b"si %s alors %s sinon %s finsi" % (inner(), inner(), inner())
    if form == 9:
        return b"si %s alors %s finsi" % (inner(), inner())
    if form == 10:
        members = b" , ".join(member(random, names, letters) for _ in range(random.randrange(1, 4)))
        return b"(%s %sdans (%s))" % (inner(), random.choice([b"", b"non "]), members)
    if form == 11:
        bound = random.sample([b"i", b"j", b"k"], random.choice([1, 1, 2]))
        body = rule_term(random, names, depth - 1, tuple(letters) + tuple(bound))
        return b"somme(%s: %s)" % (header(random, bound), body)
    if form == 12 and names.tables:
        return b"%s[%s]" % (random.choice(names.tables), inner())
    if form == 12:
        return b"%s - %s * %s" % (inner(), inner(), inner())
    return b"(- %s)" % inner()


def single_operator(random):
    """One operator on arguments at which it has its edges."""

    def edge():
        return random.choice([b"%s", b"%s", b"(- %s)"]) % random.choice(NUMBERS + SPECIAL_VALUES)

    form = random.randrange(8)
    if form < 3:
        return b"%s(%s)" % (random.choice(OF_ONE), edge())
    if form == 3:
        return b"%s(%s , %s)" % (random.choice(OF_TWO), edge(), edge())
    if form == 4:
        return b"si %s alors %s sinon %s finsi" % (edge(), edge(), edge())
    if form == 5:
        return b"non %s" % edge()
    operator = random.choice(ARITHMETIC + ARITHMETIC + COMPARISONS + CONNECTIVES)
    return b"%s %s %s" % (edge(), operator, edge())


def leaf(random, names, letters):
    """A number, a name, or a letter of a loop."""
    form = random.randrange(10)
    if letters and form < 3:
        return random.choice(letters)
    if form < 6:
        return some(random, names.inputs + names.constants, b"REV")
    if form == 6:
        return some(random, names.plain, b"REV")
    if form == 7 and names.tables:
        return b"%s[%s]" % (random.choice(names.tables), random.choice(INDEXES))
    return random.choice(NUMBERS)


def member(random, names, letters):
    """A member of a membership."""
    form = random.randrange(4)
    if form == 0:
        words = names.inputs + names.constants + [letter for letter in letters if letter != b"X"]
        return some(random, words, b"REV")
    low = random.choice([b"", b"- "]) + random.choice(NUMBERS)
    return low if form == 1 else low + b".." + random.choice([b"", b"- "]) + random.choice(NUMBERS)


def header(random, letters):
    """A header of a loop over these letters."""
    indexes = [(letter, random.choice(GOOD_PLACES if chance(random, 85) else PLACES)) for letter in letters]
    if chance(random, 70):
        return b" ; ".join(b"%s = %s" % index for index in indexes)
    return b" et ".join(b"un %s dans (%s)" % index for index in indexes)


def driver_term(random, names, depth):
    """A term of a driver."""
    if depth == 0 or chance(random, 25):
        if names.tables and chance(random, 15):
            return b"%s[%d]" % (random.choice(names.tables), random.randrange(4))
        return random.choice(NUMBERS) if chance(random, 30) else some(random, names.plain, b"REV")

    def inner():
        return driver_term(random, names, depth - 1)

    form = random.randrange(9)
    if form < 3:
        return b"(%s %s %s)" % (inner(), random.choice(ARITHMETIC), inner())
    if form == 3:
        return b"(%s %s %s)" % (inner(), random.choice(DRIVER_COMPARISONS), inner())
    if form == 4:
        return b"(%s %s %s%s)" % (inner(), random.choice(DRIVER_CONNECTIVES), random.choice([b"not ", b""]), inner())
    if form == 5:
        return b"present(%s)" % some(random, names.plain, b"REV")
    if form == 6:
        return b"cast(%s)" % some(random, names.plain, b"REV")
    if form == 7:
        return b"exists(%s)" % kind(random, names)
    return b"- (%s)" % inner()


def kind(random, names):
    """A kind of inputs."""
    if chance(random, 40):
        return b"taxbenefit"
    values = random.choice([b"0", b"1", b"2", b"0 , 1", b"1 , 2", b"0.5"])
    return b"%s = %s" % (some(random, names.attributes, b"avfisc"), values)
