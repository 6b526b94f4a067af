"""Tests of tests/second/reading/intervals.py: what an operator gives of values is among what is known of it by the facts of these, and an operator that
there isn't has no fact. Prints a line for each operator."""
import os
import random
import sys

sys.dont_write_bytecode = True
sys.path.insert(0, os.path.join(os.environ["ROOT"], "tests", "second"))

from reading import intervals  # noqa: E402
from reading.amounts import GREATEST, OPERATIONS, OVER, UNDEFINED, UNIT, operate  # noqa: E402
from reading.code_files import ARITY  # noqa: E402

ENDS = [0, 1, -1, 499_949, UNIT - 1, UNIT, -UNIT, 2 * UNIT, 2_500_500_000, -7 * UNIT - 3, GREATEST - 1, GREATEST, -GREATEST]
TRIED = 400


def drawn(draw):
    """A fact, and a value that it has."""
    least, greatest = sorted(draw.choices(ENDS, k=2))
    numbers = [least, greatest, draw.randint(least, greatest)] if draw.random() < 0.9 else []
    fact = intervals.Fact(draw.random() < 0.3, draw.random() < 0.1 or not numbers, (least, greatest) if numbers else None)
    return fact, draw.choice(numbers + [UNDEFINED] * fact.undefined + [OVER] * fact.over)


def is_held(operator, arguments):
    """Whether an operator's value of some values is among what is known of it by their facts."""
    known = (intervals.of_one if len(arguments) == 1 else intervals.of_two)(operator, *(fact for fact, _ in arguments))
    return intervals.holds(known, operate(operator, [value for _, value in arguments]))


def refused(known, *facts):
    """The name of the exception of an operator that there isn't."""
    try:
        return known("nothing", *facts)
    except KeyError as error:
        return type(error).__name__


for word in OPERATIONS:
    generator = random.Random(word)
    held = [is_held(word, [drawn(generator) for _ in range(ARITY[word.encode()])]) for _ in range(TRIED)]
    print("%s: %d of %d values are held" % (word, sum(held), TRIED))
ONE, NONE = intervals.fact_of_value(UNIT), intervals.UNDEFINED_ALONE
names = [refused(intervals.of_one, ONE), refused(intervals.of_two, ONE, ONE), refused(intervals.of_two, ONE, NONE)]
print("an operator that there isn't: %s" % ", ".join(names))
