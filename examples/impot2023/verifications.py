"""The verifications of the incomes of 2023 a second time, each by its number, and what the rules and the driver answer."""
from fractions import Fraction

import calculation
from household import CREDITS, OF_2023, PERSONS, REDUCTIONS, per_cent

SECOND = ("1BJ", "1BP", "1BK", "1BS", "5LO", "5LP", "5IQ", "6NT", "6PT", "7AE", "8IV")
AMOUNTS = ("1AJ", "1AP", "1AK", "1AS", "2DC", "2TR", "2CK", "2BH", "4BA", "4BE", "5KO", "5KP", "5HQ", "6DE", "6EL", "6EM", "6NS", "6PS") + (
    "7UD", "7UF", "7EA", "7EC", "7EF", "7AC", "7GA", "7GB", "7GC", "7DB", "8HV", *SECOND
)


def impossible(household):
    """The number of the first verification that stops a declaration, in the order of their numbers, if any."""
    couple = calculation.couple(household)
    tests = [
        (101, couple and household["0BT"] == 1),
        (102, not all(0 <= household[code] <= 30 for code in ("0CF", "0CH"))),
        (104, min(household[code] for code in AMOUNTS) < 0),
        (105, not couple and max(household[code] for code in SECOND) > 0),
        (106, not 0 <= household["0CG"] <= household["0CF"] or not 0 <= household["0CI"] <= household["0CH"]),
        (107, household["4BE"] > 15000),
        (108, household["0AF"] == 1 and not couple),
    ]
    return next((number for number, fails in tests if fails), None)


def doubtful(household, law):
    """The discordances: what can be, but is rarely meant."""
    children = household["0CF"] + household["0CH"]
    capital = calculation.capital(household)
    return [
        (201, household["7UD"] + household["7UF"] > Fraction(calculation.taxable_income(household, law), 5)),
        (202, household["0AL"] == 1 and (calculation.couple(household) or children > 0)),
        (203, household["0BT"] == 1 and children == 0),
        (204, any(household[person.sales] > 188700 or max(household[person.services], household[person.fees]) > 77700 for person in PERSONS)),
        (205, household["7EA"] + household["7EC"] + household["7EF"] > children),
        (206, household["2BH"] > capital),
        (207, household["4BA"] > 0 and household["4BE"] > 0),
        (208, household["2CK"] > per_cent(12.8) * capital),
        (209, sum(household[code] > 0 for code in ("7GA", "7GB", "7GC")) > household["0CF"]),
        (210, any(household[person.dues] > 0 and household[person.expenses] > 0 for person in PERSONS)),
    ]


def great_deduction(household):
    """Whether the greatest deduction of wages or of pensions was reached."""
    wages = any(household[person.expenses] == 0 and calculation.salary(household, person) > 141710 for person in PERSONS)
    pensions = [household[person.pensions] for person in PERSONS]
    return wages or sum(max(pension / 10, min(Fraction(442), pension)) for pension in pensions) > 4321


def great_credit(household):
    """Whether a payment for a credit is above its limit, or the credits above that of all (200-0 A)."""
    dues = any(
        household[person.expenses] == 0 and household[person.dues] > per_cent(1) * (calculation.salary(household, person) + household[person.pensions])
        for person in PERSONS
    )
    care = any(household[code] > 3500 for code in ("7GA", "7GB", "7GC"))
    both = calculation.care_credit(household) + calculation.home_credit(household) > 10000
    return dues or care or household["7DB"] > calculation.home_limit(household) or both


def notes(household, law):
    """The informations: a rebate or a cap that was applied."""
    tax = calculation.tax_of(household, law)
    savings = any(household[person.savings] > household[person.ceiling] for person in PERSONS)
    return [
        (301, tax.rebate > 0),
        (302, tax.cap > 0),
        (303, calculation.disability_halves(household) > 0 and capped_before_disability(household, law)),
        (304, 0 < tax.rounded < 61),
        (305, great_deduction(household)),
        (306, max(household["6EL"], household["6EM"]) > 6674 or savings),
        (307, great_credit(household)),
        (308, tax.offered > tax.reductions),
    ]


def capped_before_disability(household, law):
    """Whether the cap would decide without the further reduction for disability."""
    return calculation.capped_tax(household, law) + 1753 * calculation.disability_halves(household) > calculation.uncapped_tax(household, law)


def told(household, law):
    return [number for number, holds in doubtful(household, law) + notes(household, law) if holds]


def answer(household, law=OF_2023):
    """The values and what is noted; or the number of the verification that stops it. The driver first computes without the reductions and credits."""
    calls = [household.without(REDUCTIONS + CREDITS), household]
    stop = next((number for number in map(impossible, calls) if number is not None), None)
    if stop is not None:
        return stop
    return {**calculation.values(household, law), "noted": [number for call in calls for number in told(call, law)]}
