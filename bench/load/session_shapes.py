"""Sessions, tables of households, and the command `large`."""
from shape_cases import BASE, FILE, ONE, RULE, case, into, many, packed

SHAPES = []
shape = into(SHAPES)


@shape("serve: one line", 104_857_600)
def _(n):
    return case(BASE, "refused line too long\n", command="serve", typed=many("a", n))


@shape("serve: one line of blanks, and a show", 104_857_600)
def _(n):
    return case(BASE, "refused line too long\nA = 1\n.\n", command="serve", typed=[*many(" ", n), "\nshow"])


@shape("serve: blank lines", 104_857_600)
def _(n):
    return case(BASE, "A = 1\n.\n", command="serve", typed=[*many("\n", n), "show\n"])


@shape("serve: lines of 4,096 bytes", 25_600)
def _(n):
    return case(BASE, many("refused bad command\n", n), command="serve", typed=many("a " * 2048 + "\n", n))


@shape("serve: edits", 5_000_000)
def _(n):
    return case('I:saisie restituee alias C:"";', [*many("ok\n", n), "I = 7\n.\n"], command="serve", typed=[*many("set C 7\n", n), "show\n"])


@shape("serve: shows", 2_000_000)
def _(n):
    return case(BASE, many("A = 1\n.\n", n), command="serve", typed=many("show\n", n))


@shape("batch: 100,000 rows", 100_000)
def _(n):
    rules = ['I:saisie alias C:"";', ONE, RULE, "A=I*2;"]
    return case(rules, (f"household h{k}\nA = {2 * k}\n" for k in range(n)), command="batch", household=["name,C\n", *(f"h{k},{k}\n" for k in range(n))])


@shape("batch: one row too many", 100_001, grows=False)
def _(n):
    rules = ['I:saisie alias C:"";', ONE, RULE, "A=I*2;"]
    return case(rules, "refused household: too many rows\n", 1, command="batch", household=["name,C\n", *many("h,1\n", n)])


@shape("batch: one label", FILE)
def _(n):
    return case(BASE, ["household ", *many("h", n - 20), "\nA = 1\n"], command="batch", household=["name\n", *many("h", n - 20)])


@shape("batch: 1,000,000 columns", 1_000_000)
def _(n):
    rules = [f'I{k}:saisie {"restituee " if k == n - 1 else ""}alias C{k}:"";' for k in range(n)]
    return case(
        None,
        f"household h\nI{n - 1} = 3\n",
        command="batch",
        household=["name", *(f",C{k}" for k in range(n)), "\nh", *many(",", n), "3"],
        files=packed(rules),
    )


@shape("batch: a column twice after many", 1_000_000)
def _(n):
    rules = [f'I{k}:saisie alias C{k}:"";' for k in range(n)]
    return case(
        None,
        "refused household line 1: code twice\n",
        1,
        command="batch",
        household=["name", *(f",C{k}" for k in range(n)), ",C0\n"],
        files=packed(rules),
    )


@shape("large", 100_000)
def _(n):
    # Each amount is the rest of 997 k by 5000, and what is above 1000 counts.
    total = sum(max(0, 997 * k % 5000 - 1000) for k in range(n))
    return {"files": {}, "words": ["large", str(n)], "prints": f"large {n}\nT{n - 1} = {total}\n", "status": 0}
