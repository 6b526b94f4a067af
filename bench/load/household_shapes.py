"""Inputs with the rows of a household and with requests, and the files of these and of the list."""
from name_shapes import numbers
from shape_cases import BASE, EMPTY, FILE, case, filled, into, many, packed

SHAPES = []
shape = into(SHAPES)


@shape("100,000 inputs, rows and requests", 100_000)
def _(n):
    rules = [f'I{k}:saisie alias C{k}:"";' for k in range(n)]
    return case(
        rules,
        (f"I{k} = {k}.5\n" for k in range(n - 1, -1, -1)),
        requests=(f"I{k}\n" for k in range(n - 1, -1, -1)),
        household=[EMPTY, *(f"C{k},{k}.5\n" for k in numbers(n, "shuffled"))],
    )


@shape("1,000,000 inputs, 100,000 rows and requests", 1_000_000)
def _(n):
    rules = [f'I{k}:saisie alias C{k}:"";' for k in range(n)]
    return case(
        None,
        (f"I{k * 10} = {k}\n" for k in range(n // 10)),
        requests=(f"I{k * 10}\n" for k in range(n // 10)),
        household=[EMPTY, *(f"C{k * 10},{k}\n" for k in range(n // 10))],
        files=packed(rules),
    )


@shape("rows, one too many", 100_001, grows=False)
def _(n):
    return case(
        [f'I{k}:saisie alias C{k}:"";' for k in range(n)],
        "refused household: too many rows\n",
        1,
        household=[EMPTY, *(f"C{k},1\n" for k in range(n))],
    )


@shape("requests, one too many", 100_001, grows=False)
def _(n):
    return case(BASE, "refused too many requests\n", 1, requests=many("A\n", n))


@shape("requests: blank lines", FILE)
def _(n):
    return case(BASE, "A = 1\n", requests=filled("\n", n, "A"))


@shape("requests: one name", FILE)
def _(n):
    return case(BASE, "refused requests line 1\n", 1, requests=many("A", n))


@shape("list: blank lines", FILE)
def _(n):
    made = case(BASE, "A = 1\n")
    made["files"]["list"] = ["iliad\n", *many("\n", n - 9), "a.m"]
    return made


@shape("list: one name", FILE)
def _(n):
    made = case(BASE, "refused list line 2\n", 1)
    made["files"]["list"] = ["iliad\n", *many("a", n - 6)]
    return made


@shape("household: blank lines", FILE)
def _(n):
    return case(BASE, "A = 1\n", household=["code,amount", *many("\n", n - 11)])


@shape("household: one quoted field", FILE)
def _(n):
    return case(BASE, "refused household: bad header\n", 1, household=['"', *many('""', (n - 2) // 2), '"'])


@shape("household: one record of commas", FILE)
def _(n):
    return case(BASE, "refused household line 2: bad row\n", 1, household=[EMPTY, *many(",", n - len(EMPTY))])


@shape("household: one amount of zeros", FILE)
def _(n):
    return case('I:saisie restituee alias I:"";', "I = 1\n", household=[EMPTY, "I,", *many("0", n - 20), "1.0"])


@shape("household: one amount of decimals", FILE)
def _(n):
    return case('I:saisie restituee alias I:"";', "I = 1\n", household=[EMPTY, "I,0.", *many("9", n - 20)])


@shape("household: one code", FILE)
def _(n):
    return case(BASE, "refused household line 2: unknown code\n", 1, household=[EMPTY, *many("C", n - 20), ",1"])
