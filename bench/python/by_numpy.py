"""What the households of examples/reform2023 pay, by columns of numpy in floats: the tax on the incomes of 2023 for wages, pensions, children and gifts."""
import os
import sys

import numpy

sys.path.insert(0, os.path.join(os.path.dirname(os.path.abspath(__file__)), "..", "..", "examples", "impot2023"))
from household import OF_2023  # noqa: E402


def nearest(amounts):
    return numpy.floor(amounts + 0.5)


def scale(income, law):
    """The tax on the income for one part."""
    tax, steps = numpy.zeros_like(income), law.scale()
    for (threshold, rate), (above, _) in zip(steps, [*steps[1:], (numpy.inf, 0)]):
        tax += float(rate) * numpy.clip(income - threshold, 0, above - threshold)
    return tax


def income_of(box):
    """The taxable income: wages and pensions less what is taken off."""
    wages = [box["1AJ"], box["1BJ"]]
    pensions = box["1AS"] + box["1BS"]
    off = sum(numpy.maximum(one / 10, numpy.minimum(442, one)) for one in (box["1AS"], box["1BS"]))
    net = sum(one - numpy.minimum(14171, numpy.maximum(one / 10, numpy.minimum(495, one))) for one in wages)
    return nearest(net + pensions - numpy.minimum(4321, off))


def total(box, law=OF_2023):
    """The tax and the contribution on high incomes, of columns by their codes, where an empty box is 0."""
    income, couple = income_of(box), box["0AM"] == 1
    persons = numpy.where(couple, 2.0, 1.0)
    alone = (box["0BT"] == 1) & ~couple & (box["0CF"] > 0)
    children = numpy.minimum(box["0CF"], 2) / 2 + numpy.maximum(box["0CF"] - 2, 0) + alone / 2
    parts = persons + children
    by_parts, by_persons = (scale(income / count, law) * count for count in (parts, persons))
    cap = numpy.where(alone, 4149 + law.half_part * (2 * children - 2), law.half_part * 2 * children)
    gross = numpy.maximum(by_parts, by_persons - cap)
    rebate = numpy.minimum(gross, numpy.maximum(0, numpy.where(couple, 1444, 873) - 0.4525 * gross))
    to_aid = numpy.minimum(1000, box["7UD"])
    gifts = 0.75 * to_aid + 0.66 * numpy.minimum(income / 5, box["7UD"] - to_aid + box["7UF"])
    rounded = nearest(gross - rebate - numpy.minimum(gross - rebate, gifts))
    low = 250_000 * persons
    high = nearest(0.03 * numpy.clip(income - low, 0, low) + 0.04 * numpy.maximum(0, income - 2 * low))
    return numpy.where(rounded >= 61, rounded, 0) + high
