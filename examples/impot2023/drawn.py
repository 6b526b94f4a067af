"""Households that are drawn by chance, so that each rule is met: amounts of many sizes, near the bounds of the law, and some that can't be."""
from household import Household
from verifications import SECOND

CODES = (
    "0AM 0BT 0CF 0CH 0AP 0AF 0CG 0CI 0AL 1AJ 1BJ 1AP 1BP 1AK 1BK 1AS 1BS 2DC 2TR 2OP 2CK 2BH 4BA 4BE 5KO 5LO 5KP 5LP 5HQ 5IQ "
    "6DE 6EL 6EM 6NS 6NT 6PS 6PT 7UD 7UF 7EA 7EC 7EF 7AC 7AE 7GA 7GB 7GC 7DB 8HV 8IV"
).split()
SIZES = [600, 6000, 25000, 60000, 200000, 1500000]
# One of these, each as likely as another, or an amount below the last one.
NEAR = {
    "2DC": [100, 3000, 40000, 300000],
    "2TR": [100, 3000, 40000],
    "4BA": [2000, 15000, 90000],
    "4BE": [300, 14999, 15000, 15000],
    "5KO": [200, 420, 1051, 60000, 188700, 188701, 250000],
    "5KP": [200, 609, 610, 611, 40000, 77700, 77701, 90000],
    "5HQ": [200, 896, 898, 40000, 77700, 77701, 90000],
    "6DE": [40, 800, 5000],
    "6EL": [500, 6674, 6675, 9000],
    "6NS": [500, 4000, 12000],
    "6PS": [0, 4000, 4000, 36000],
    "7AC": [50, 200, 600],
    "7GA": [900, 3500, 3501, 8000],
    "7DB": [300, 2000, 12000, 13500, 15000, 15001, 20000],
    "8HV": [100, 2000, 9000],
}
PAIRS = [("5KO", "5LO"), ("5KP", "5LP"), ("5HQ", "5IQ"), ("6NS", "6NT"), ("6PS", "6PT"), ("7AC", "7AE"), ("8HV", "8IV")]
SHARES = {"2DC": 15, "2TR": 25, "4BA": 10, "4BE": 10, "5KO": 6, "5KP": 6, "5HQ": 6, "6DE": 8, "6EL": 8, "6NS": 12, "6PS": 12, "7AC": 12, "7DB": 15, "8HV": 50}
WRONG = {
    "0BT": [1],
    "0CF": [-1, 31],
    "0CH": [-2, 31],
    "0CG": [-1, 7],
    "0CI": [1],
    "0AF": [1],
    "1AJ": [-1],
    "1BJ": [-50, 5000],
    "1AS": [-7],
    "1BS": [300],
    "4BE": [15001],
    "4BA": [-1],
    "5LP": [40],
    "7UD": [-10],
    "7GA": [-3],
    "8IV": [12],
}
COUNTS = {"0CF": 30, "0CH": 30, "0CG": 30, "0CI": 30}
BILLION = 1_000_000_000


def size(chance):
    """0 mostly, or an amount of one of several sizes, so that each bracket and bound is met."""
    return 0 if chance.random() < 0.4 else chance.randrange(chance.choice(SIZES))


def near(chance, code):
    """An amount at a bound or below the greatest of them."""
    bounds = NEAR[code]
    return chance.choice(bounds) if chance.random() < 0.5 else chance.randrange(bounds[-1])


def family(chance, couple):
    exclusive = chance.choice([0, 0, 0, 0, 1, 1, 2, 2, 3, 4, 6])
    shared = chance.choice([0, 0, 0, 0, 0, 1, 2, 3])
    rare = lambda share: int(chance.random() < share)
    return {
        "0AM": int(couple),
        "0BT": rare(0.3) if not couple else 0,
        "0CF": exclusive,
        "0CH": shared,
        "0AP": rare(0.1),
        "0AF": rare(0.1) if couple else 0,
        "0CG": chance.randrange(exclusive + 1) if chance.random() < 0.2 else 0,
        "0CI": chance.randrange(shared + 1) if chance.random() < 0.2 else 0,
        "0AL": rare(0.2),
    }


def incomes(chance, persons):
    boxes = {}
    for wages, unemployment, expenses, pensions in (("1AJ", "1AP", "1AK", "1AS"), ("1BJ", "1BP", "1BK", "1BS"))[:persons]:
        boxes[wages] = size(chance)
        boxes[pensions] = size(chance) if chance.random() < 0.5 else 0
        boxes[unemployment] = chance.randrange(20000) if chance.random() < 0.15 else 0
        boxes[expenses] = chance.choice([1, 900, 5000, 20000]) if chance.random() < 0.15 else 0
    return boxes


def capital(chance, boxes):
    """The option, the levy and the part of the income that has borne levies, where there is income of capital, and rarely where there is none."""
    paid = boxes["2DC"] + boxes["2TR"]
    boxes["2OP"] = int(chance.random() < 0.4)
    boxes["2CK"] = chance.choice([0, 0, paid * 128 // 1000, paid // 10, 30])
    boxes["2BH"] = chance.choice([0, paid, paid // 2, 0]) if chance.random() < 0.95 else paid + 50


def random_household(chance):
    couple = chance.random() < 0.5
    boxes = {**family(chance, couple), **incomes(chance, 1 + couple)}
    second = dict(PAIRS)
    for code, share in SHARES.items():
        for box in (code, second.get(code))[: 1 + couple]:
            if box:
                boxes[box] = near(chance, code) if chance.random() * 100 < share else 0
    if chance.random() < 0.04:
        boxes["6EM"] = near(chance, "6EL")
    capital(chance, boxes)
    for code in ("7GA", "7GB", "7GC"):
        boxes[code] = near(chance, "7GA") if chance.random() < 0.12 else 0
    for code in ("7EA", "7EC", "7EF"):
        boxes[code] = chance.choice([0, 0, 0, 0, 1, 2])
    boxes["7UD"] = chance.choice([0, 0, 50, 999, 1000, 1001, 4000])
    boxes["7UF"] = chance.choice([0, 0, 100, 3000, 20000])
    return Household({code: amount for code, amount in boxes.items() if amount})


def mistaken(household, chance):
    """One household in ten has one or two boxes that are drawn again, most of them wrong."""
    if chance.random() < 0.9:
        return household
    wrong = {code: chance.choice(WRONG[code]) for code in chance.sample(sorted(WRONG), chance.choice([1, 1, 2]))}
    return Household({**household.boxes, **wrong})


def extremes():
    """Households with a billion in one box, in all but one, and in all: single and couple, with and without the option, thirty children and disability."""
    for couple in (0, 1):
        amounts = {code: BILLION for code in CODES[9:] if code not in ("2OP", "4BE") and (couple or code not in SECOND)}
        sets = [{code: BILLION} for code in amounts] + [{other: BILLION for other in amounts if other != code} for code in amounts] + [amounts]
        for boxes in sets:
            for option in (0, 1):
                yield Household({"0AM": couple, "2OP": option, "4BE": 15000, **boxes})
                yield Household({"0AM": couple, "0BT": 1 - couple, "0AP": 1, "0AF": couple, **COUNTS, "2OP": option, **boxes})
