#!/usr/bin/env python3
"""Prints made-up households for the example of a reform, as a table with weights: python3 examples/reform2023/households.py [COUNT] [--more]

They are no statistics: shares, bands and weights are invented, so that all brackets, both sides of the cap and box T are met. The seed is fixed, and only
whole numbers are drawn, so that every machine prints the same bytes; a smaller COUNT (100,000) prints the first of them. With --more the same households
also have children in alternating custody, disability, income of capital and of property, retirement savings and work at home.
"""
import random
import sys

SEED = 2023
CODES = ["0AM", "0BT", "0CF", "1AJ", "1BJ", "1AS", "1BS", "7UD", "7UF"]
# Of 100 adults, the numbers that live on a wage, on a pension, on nothing.
SOURCES = {"wage": 66, "pension": 24, "nothing": 10}
# Of 1,000 wages and pensions, the numbers in each band, from its first amount up to the next band's, each whole unit as likely as another.
WAGES = {3_000: 130, 12_000: 150, 18_000: 220, 24_000: 200, 32_000: 160, 45_000: 90, 70_000: 40, 130_000: 10, 600_000: 0}
PENSIONS = {4_000: 230, 12_000: 320, 18_000: 270, 26_000: 140, 40_000: 40, 90_000: 0}
# Of 1,000 couples and single persons, the numbers with 0, 1, 2, 3, 4 children.
CHILDREN = {True: [440, 200, 250, 80, 30], False: [800, 110, 70, 20, 0]}
MORE = ["0CH", "0AP", "2DC", "2TR", "2OP", "2CK", "2BH", "4BA", "4BE", "6NS", "6PS", "7DB"]
DIVIDENDS = {100: 500, 1_000: 300, 5_000: 150, 30_000: 50, 200_000: 0}
INTEREST = {20: 700, 500: 250, 3_000: 50, 20_000: 0}
RENTS = {1_000: 400, 6_000: 500, 12_000: 100, 15_000: 0}
GIFTS = [20, 50, 100, 300, 1_000, 2_500]


def one_of(draw, shares):
    """A key of a table of whole shares, or the number of an entry of a list of them."""
    pairs = list(shares.items() if isinstance(shares, dict) else enumerate(shares))
    left = draw.randrange(sum(share for _, share in pairs))
    for key, share in pairs:
        if left < share:
            return key
        left -= share


def amount_of(draw, bands):
    """An amount of a table of bands."""
    edges = list(bands)
    begin = one_of(draw, bands)
    return draw.randrange(begin, edges[edges.index(begin) + 1])


def drawn(draw):
    """The amounts of a household by their codes, and its weight in tenths."""
    couple = draw.randrange(100) < 42
    children = one_of(draw, CHILDREN[couple])
    amounts = {"0AM": int(couple), "0BT": int(not couple and children > 0 and draw.randrange(10) < 7), "0CF": children}
    for wage, pension in (("1AJ", "1AS"), ("1BJ", "1BS"))[: 1 + couple]:
        source = one_of(draw, SOURCES)
        if source == "wage":
            amounts[wage] = amount_of(draw, WAGES)
        elif source == "pension":
            amounts[pension] = amount_of(draw, PENSIONS)
    for code, share in (("7UD", 12), ("7UF", 8)):
        if draw.randrange(100) < share:
            amounts[code] = draw.choice(GIFTS)
    return amounts, draw.randrange(1_000, 6_000)


def drawn_more(draw, amounts):
    """The amounts of the further boxes, which have draws of their own, so that the others stay as they are."""
    happens = lambda share: draw.randrange(100) < share
    more = {"0CH": int(happens(6)), "0AP": int(happens(3))}
    if happens(15):
        more["2DC"] = amount_of(draw, DIVIDENDS)
    if happens(45):
        more["2TR"] = amount_of(draw, INTEREST)
    if "2DC" in more or "2TR" in more:
        paid = more.get("2DC", 0) + more.get("2TR", 0)
        more.update({"2OP": int(happens(25)), "2CK": paid * 128 // 1000, "2BH": paid if happens(90) else 0})
    if happens(10):
        more[draw.choice(["4BA", "4BE"])] = amount_of(draw, RENTS)
    if happens(10):
        more.update({"6NS": draw.randrange(100, 6_000), "6PS": max(4_000, amounts.get("1AJ", 0) // 10)})
    if happens(12):
        more["7DB"] = draw.randrange(100, 9_000)
    return more


def main():
    words = [word for word in sys.argv[1:] if word != "--more"]
    count = int(words[0]) if words else 100_000
    draw, draw_more = random.Random(SEED), random.Random(SEED + 1) if "--more" in sys.argv else None
    codes = CODES + MORE if draw_more else CODES
    print(",".join(["name", "weight", *codes]))
    for number in range(1, count + 1):
        amounts, weight = drawn(draw)
        if draw_more:
            amounts.update(drawn_more(draw_more, amounts))
        print(",".join([f"f{number:06}", f"{weight // 10}.{weight % 10}", *(str(amounts.get(code) or "") for code in codes)]))


if __name__ == "__main__":
    main()
