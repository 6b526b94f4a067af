"""The tax on the incomes of 2023 a second time, from the articles of the code général des impôts, in exact fractions.

It knows nothing of the rule files: the scale is applied to the income for one part, as article 197 words it, and children are counted one by one. The
verifications are in verifications.py.
"""
from dataclasses import dataclass
from fractions import Fraction

from household import CREDITS, OF_2023, PERSONS, REDUCTIONS, millionths, nearest, once, per_cent

# Incomes


def salary(household, person):
    """Wages and unemployment benefits are one income (79)."""
    return household[person.wages] + household[person.unemployment]


def net_salary(household, person):
    """Less real expenses where there are any, else ten per cent, at least 495 and at most the income, at most 14,171 (83 3°)."""
    gross = salary(household, person)
    if household[person.expenses] > 0:
        return gross - household[person.expenses]
    return gross - min(Fraction(14171), max(gross / 10, min(Fraction(495), gross)))


def net_pensions(household):
    """Less ten per cent, at least 442 for a person and at most the pension, at most 4,321 for a household (158 5 a)."""
    pensions = [household[person.pensions] for person in PERSONS]
    return sum(pensions) - min(Fraction(4321), sum(max(pension / 10, min(Fraction(442), pension)) for pension in pensions))


def by_scale(household, law):
    """Whether dividends and interest are taxed by the scale: the option of 200 A 2."""
    return law.capital_by_scale or household["2OP"] == 1


def capital(household):
    return household["2DC"] + household["2TR"]


def property_income(household):
    """The real income, and the gross one of the micro regime less 30 % (32)."""
    return household["4BA"] + household["4BE"] * per_cent(70)


def net_turnover(turnover, rate):
    """The micro regimes: less a share, at least 305 and at most the turnover (50-0, 102 ter)."""
    return turnover - max(rate * turnover, min(Fraction(305), turnover))


def business(household):
    return sum(
        net_turnover(household[person.sales], per_cent(71))
        + net_turnover(household[person.services], per_cent(50))
        + net_turnover(household[person.fees], per_cent(34))
        for person in PERSONS
    )


def all_incomes(household, law):
    """A category below 0, by real expenses, is set off against the others (156 I)."""
    incomes = sum(net_salary(household, person) for person in PERSONS) + net_pensions(household) + property_income(household) + business(household)
    if by_scale(household, law):
        incomes += household["2DC"] * per_cent(60) + household["2TR"]  # 158 3 2°: 40 % off dividends
    return incomes


def charges(household, law):
    """156 II: maintenance of two adult children, at most 6,674 each, and the deductible CSG; by the scale also that of capital income (154 quinquies)."""
    result = household["6DE"] + min(Fraction(6674), household["6EL"]) + min(Fraction(6674), household["6EM"])
    if by_scale(household, law):
        result += household["2BH"] * per_cent(6.8)
    return result


@once
def before_savings(household, law):
    return max(Fraction(0), all_incomes(household, law) - charges(household, law))


@once
def retirement_savings(household, law):
    """What is deducted: for each person the lesser of payment and ceiling (163 quatervicies), no more than there is."""
    payments = sum(min(household[person.savings], household[person.ceiling]) for person in PERSONS)
    return min(payments, before_savings(household, law))


@once
def taxable_income(household, law):
    return nearest(before_savings(household, law) - retirement_savings(household, law))


def reference_income(household, law):
    """1417 IV: with capital income at the flat rate, or what the 40 % took off, and the deducted savings."""
    more = household["2DC"] * per_cent(40) if by_scale(household, law) else capital(household)
    return nearest(taxable_income(household, law) + more + retirement_savings(household, law))


# Parts


def couple(household):
    return household["0AM"] == 1


def base_parts(household):
    return Fraction(2 if couple(household) else 1)


def shared_only(household):
    return household["0CF"] == 0 and household["0CH"] > 0


def alone_with_children(household):
    """194 II."""
    return household["0BT"] == 1 and not couple(household) and household["0CF"] + household["0CH"] > 0


def child_parts(household):
    """194 I: a half for each of the first two, one for each further; those in alternating custody come last and have half of it."""
    result, exclusive = Fraction(0), int(household["0CF"])
    for rank in range(1, exclusive + int(household["0CH"]) + 1):
        share = Fraction(1, 2) if rank <= 2 else Fraction(1)
        result += share if rank <= exclusive else share / 2
    if alone_with_children(household):
        result += min(Fraction(2), household["0CH"]) / 4 if shared_only(household) else Fraction(1, 2)
    return result


def disability_halves(household):
    """195 2, 3, 5: persons and children with a card of invalidity; a child in alternating custody counts half."""
    return household["0AP"] + household["0AF"] + household["0CG"] + household["0CI"] / 2


def raised_a_child(household):
    """195 1 a: a single person without children, and only one half for all reasons of 195 1."""
    return household["0AL"] == 1 and not couple(household) and household["0CF"] + household["0CH"] == 0 and household["0AP"] == 0


def parts_beside_children(household):
    return base_parts(household) + disability_halves(household) / 2 + (Fraction(1, 2) if raised_a_child(household) else 0)


@once
def parts(household, law):
    return parts_beside_children(household) + (child_parts(household) if law.for_each_child is None else 0)


# The scale


def scale(income_of_a_part, law):
    """197 I 1: each rate on the part between its threshold and the next one."""
    tax, steps = Fraction(0), law.scale()
    for number, (threshold, rate) in enumerate(steps):
        above = steps[number + 1][0] if number + 1 < len(steps) else None
        top = income_of_a_part if above is None else min(income_of_a_part, Fraction(above))
        tax += rate * max(Fraction(0), top - threshold)
    return tax


def by_parts(income, count, law):
    return scale(Fraction(income) / count, law) * count


def greatest_advantage(household, law):
    """197 I 2: for each half part; for the parts of 194 II and 195 1 a amounts of their own."""
    halves = 2 * (parts(household, law) - base_parts(household))
    if raised_a_child(household):
        return Fraction(1050)
    if not alone_with_children(household) or law.for_each_child is not None:
        return law.half_part * halves
    if shared_only(household):
        first = min(Fraction(2), household["0CH"])
        return first * Fraction(4149, 2) + law.half_part * (halves - first)
    return 4149 + law.half_part * (halves - 2)


@once
def capped_tax(household, law):
    """The tax where the cap decides: less 1,753 for each half part of disability (197 I 2, last paragraphs)."""
    without = by_parts(taxable_income(household, law), base_parts(household), law)
    return without - greatest_advantage(household, law) - 1753 * disability_halves(household)


@once
def uncapped_tax(household, law):
    return by_parts(taxable_income(household, law), parts(household, law), law)


def quotient_tax(household, law):
    """197 I 1 and 2; the further reduction for disability is no more than what the cap added."""
    return max(uncapped_tax(household, law), capped_tax(household, law))


def scale_tax(household, law):
    """What a reform takes off for each child ends at 0."""
    tax = quotient_tax(household, law)
    if law.for_each_child is None:
        return tax
    return max(Fraction(0), tax - law.for_each_child * (household["0CF"] + household["0CH"] / 2))


def rebate(household, tax):
    """197 I 4, no more than the tax; a product of quarters of a part can have seven decimals, and amounts have six."""
    greatest = 1444 if couple(household) else 873
    return min(tax, max(Fraction(0), greatest - millionths(per_cent(45.25) * tax)))


def rate_of_bracket(household, law):
    """The rate of the bracket of the income for one part: of all parts, or where the cap decides of those of the persons."""
    count = base_parts(household) if capped_tax(household, law) > uncapped_tax(household, law) else parts(household, law)
    income = taxable_income(household, law) / count
    return max([Fraction(0), *(rate for threshold, rate in law.scale() if income > threshold)])


# Reductions, credits and levies


def gifts_reduction(household, law):
    """200: 75 % of gifts to aid bodies up to 1,000; 66 % of the rest, of at most a fifth of the taxable income."""
    to_aid = min(Fraction(1000), household["7UD"])
    rest = household["7UD"] - to_aid + household["7UF"]
    return per_cent(75) * to_aid + per_cent(66) * min(Fraction(taxable_income(household, law), 5), rest)


def pupils_reduction(household):
    """199 quater F."""
    return 61 * household["7EA"] + 153 * household["7EC"] + 183 * household["7EF"]


def dues_credit(household):
    """199 quater C: of at most 1 % of wages and pensions of the person, and of nobody who takes real expenses off."""
    return sum(
        per_cent(66) * min(household[person.dues], per_cent(1) * (salary(household, person) + household[person.pensions]))
        for person in PERSONS
        if household[person.expenses] == 0
    )


def care_credit(household):
    """200 quater B."""
    return sum(min(Fraction(3500), household[code]) for code in ("7GA", "7GB", "7GC")) / 2


def home_limit(household):
    """199 sexdecies 3; a child in alternating custody adds half."""
    return min(Fraction(15000), 12000 + 1500 * household["0CF"] + 750 * household["0CH"])


def home_credit(household):
    return min(household["7DB"], home_limit(household)) / 2


def credits(household):
    """With 200-0 A: care and work at home together at most 10,000. The levy that was paid on capital income is one too (2CK)."""
    return nearest(dues_credit(household) + min(Fraction(10000), care_credit(household) + home_credit(household)) + household["2CK"])


def social_levies(household):
    """17.2 % of property and capital income (136-6, 136-7 of the code of social security), but what has borne them at its source (2BH)."""
    base = property_income(household) + max(Fraction(0), capital(household) - household["2BH"])
    return nearest(per_cent(17.2) * nearest(base))


def contribution(household, income):
    """223 sexies."""
    persons = 2 if couple(household) else 1
    low, high = 250000 * persons, 500000 * persons
    return nearest(per_cent(3) * max(0, min(income, high) - low) + per_cent(4) * max(0, income - high))


@dataclass
class Tax:
    """The steps from the scale to the tax."""

    gross: Fraction
    cap: Fraction
    rebate: Fraction
    flat: Fraction
    offered: Fraction
    reductions: Fraction
    rounded: int
    credits: int
    net: int


@once
def tax_of(household, law):
    """Reductions end at 0 and don't reach the flat tax (197 I 5); below 61 nothing is collected (1657 1 bis); credits are paid out."""
    gross = scale_tax(household, law)
    taken = rebate(household, gross)
    flat = Fraction(0) if by_scale(household, law) else per_cent(12.8) * capital(household)
    offered = gifts_reduction(household, law) + pupils_reduction(household)
    reductions = min(gross - taken, offered)
    rounded = nearest(gross - taken - reductions + flat)
    paid_out = credits(household)
    net = (rounded if rounded >= 61 else 0) - paid_out
    cap = quotient_tax(household, law) - uncapped_tax(household, law)
    return Tax(gross, cap, taken, flat, offered, reductions, rounded, paid_out, net)


def total(household, law=OF_2023):
    """The income tax, the social levies and the contribution on high incomes."""
    return tax_of(household, law).net + social_levies(household) + contribution(household, reference_income(household, law))


def values(household, law=OF_2023):
    """What the rules and the driver return, by their names."""
    tax, income, reference = tax_of(household, law), taxable_income(household, law), reference_income(household, law)
    whole = total(household, law)
    before = total(household.without(REDUCTIONS + CREDITS), law)
    return {
        "RNI": income,
        "RFR": reference,
        "NBPT": parts(household, law),
        "IDROIT": tax.gross,
        "IPLAF": tax.cap,
        "DECOTE": tax.rebate,
        "IPROP": tax.flat,
        "REDUC": tax.reductions,
        "CREDIT": tax.credits,
        "IINET": tax.net,
        "PS": social_levies(household),
        "CHR": contribution(household, reference),
        "TOTAL": whole,
        "SOLDE": whole - household["8HV"] - household["8IV"],
        "TMI": rate_of_bracket(household, law),
        "TXMOYEN": millionths(Fraction(whole) / reference) if reference else Fraction(0),
        "AVANT": before,
        "GAIN": before - whole,
    }
