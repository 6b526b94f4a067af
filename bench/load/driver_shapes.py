"""Drivers: files of one thing, functions that call each other, conditions, calls of the rules, kinds of inputs."""
from name_shapes import declared
from shape_cases import BASE, DEEP, EMPTY, FILE, GREATEST, ONE, RULE, case, into, many, packed

SHAPES = []
shape = into(SHAPES)


@shape("driver: one-line commands", FILE)
def _(n):
    return case(ONE, "A = 1\n", driver=["main():\n", *many(" A=1\n", (n - 8) // 5)])


@shape("driver: del", FILE)
def _(n):
    return case(ONE, "A undefined\n", driver=["main():\n", *many(" del A\n", (n - 8) // 7)])


@shape("driver: comments", FILE)
def _(n):
    return case(ONE, "A = 1\n", driver=["main():\n", *many("#\n", (n - 20) // 2), " A=1\n"])


@shape("driver: one comment", FILE)
def _(n):
    return case(ONE, "A = 1\n", driver=["main():\n", *many("#", n - 20), "\n A=1\n"])


@shape("driver: blank lines", FILE)
def _(n):
    return case(ONE, "A = 1\n", driver=["main():\n", *many("\n", n - 20), " A=1\n"])


@shape("driver: blanks", FILE)
def _(n):
    return case(ONE, "A = 1\n", driver=["main():\n", *many(" ", n - 20), "A=1\n"])


@shape("driver: one name", FILE)
def _(n):
    return case(ONE, "refused driver line 1: syntax\n", 1, driver=many("A", n))


@shape("driver: one unknown name", FILE)
def _(n):
    return case(ONE, ["refused driver line 2: unknown ", *many("B", n - 20), "\n"], 1, driver=["main():\n ", *many("B", n - 20), "=1\n"])


@shape("driver: one number of zeros", FILE)
def _(n):
    return case(ONE, "A = 1\n", driver=["main():\n A=", *many("0", n - 20), "1\n"])


@shape("driver: brackets alone", FILE)
def _(n):
    return case(ONE, "refused driver line 1: too deep\n", 1, driver=many("(", n))


@shape("driver: one sum", 2_000_000)
def _(n):
    return case(ONE, f"A = {n}\n", driver=["main():\n A=1", *many("+1", n - 1), "\n"])


@shape("driver: one sum that is too heavy", FILE)
def _(n):
    m = (n - 20) // 2
    heavy = 2 * m + 1
    return case(
        ONE,
        f"refused driver too large {heavy}\n" if heavy > GREATEST else f"A = {m + 1}\n",
        1 if heavy > GREATEST else 0,
        driver=["main():\n A=1", *many("+1", m), "\n"],
    )


@shape("driver: functions without calls", FILE)
def _(n):
    m = (n - 40) // 20
    return case(ONE, "A = 1\n", driver=["main():\n A=1\n", *(f"f{k:07}():\n A=1\n" for k in range(m))])


@shape("driver: two functions of one name after many", FILE)
def _(n):
    m = (n - 40) // 20
    return case(
        ONE,
        f"refused driver line {2 * m + 1}: function twice f0000000\n",
        1,
        driver=[*(f"f{k:07}():\n A=1\n" for k in range(m)), "f0000000():\n A=1\n"],
    )


def calling(n, order, last=" A=1\n"):
    yield "main():\n A<-f0()\n"
    for k in range(n) if order == "callers first" else range(n - 1, -1, -1):
        yield f"f{k}():\n A<-f{k + 1}()\n" if k < n - 1 else f"f{k}():\n{last}"


for _order in ("callers first", "callees first"):
    shape(f"driver: functions that each call the next, {_order}", 500_000)(lambda n, order=_order: case(ONE, "A = 1\n", driver=calling(n, order)))
    shape(f"driver: 300,000 functions that each call the next, {_order}", 300_000, stacks=(1024,))(
        lambda n, order=_order: case(ONE, "A = 1\n", driver=calling(n, order))
    )
    shape(f"driver: a ring of functions, {_order}", 500_000, stacks=DEEP)(
        lambda n, order=_order: case(
            ONE,
            ["refused driver recursion", *(f" f{k}" for k in range(n)), "\n"]
            if order == "callers first"
            else [f"refused driver recursion f{n - 1}", *(f" f{k}" for k in range(n - 1)), "\n"],
            1,
            driver=calling(n, order, " A<-f0()\n"),
        )
    )


def doubling(levels):
    yield "main():\n A<-f1()\n A<-f1()\n"
    for k in range(1, levels):
        yield f"f{k}():\n" + f" A<-f{k + 1}()\n" * 2
    yield f"f{levels}():\n A=1\n"


@shape("driver: calls that double at each level, 20", 20, grows=False)
def _(n):
    return case(ONE, "A = 1\n", driver=doubling(n))


@shape("driver: calls that double at each level, 25", 25, grows=False)
def _(n):
    # The last weighs 1, and each above it twice what is below it and one cell: 3 * 2^n - 2 at the top.
    return case(ONE, f"refused driver too large {3 * 2**n - 2}\n", 1, driver=doubling(n))


@shape("driver: calls that double at each level, 300,000", 300_000, stacks=DEEP)
def _(n):
    return case(ONE, "refused driver too large 18446744073709551615\n", 1, driver=doubling(n))


@shape("driver: if lines on one variable", 100_000)
def _(n):
    return case(ONE, f"A = {n + 1}\n", driver=["main():\n A=1\n", *many(" if A:\n  A=A+1\n", n)])


@shape("driver: if lines on one of 1,000,000 cells", 100_000)
def _(n):
    return case([ONE, *(f'T{k}:tableau[1000]calculee:"";' for k in range(999))], f"A = {n + 1}\n", driver=["main():\n A=1\n", *many(" if A:\n  A=A+1\n", n)])


@shape("driver: 63 conditions round each command", 1000)
def _(n):
    one = "".join(" " * k + "if 1:\n" for k in range(1, 64)) + " " * 64 + "A=A+1\n"
    return case(ONE, f"A = {n}\n", driver=["main():\n A=0\n", *many(one, n)])


@shape("driver: 1,000 calls of the rules", 1000)
def _(n):
    rules = [ONE, 'I:saisie alias I:"";', *declared(1000), RULE, "T0=I;", *(f"T{k}=T{k - 1};" for k in range(1, 1000)), "A=T999+0;"]
    return case(rules, f"A = {n - 1}\n", driver=["main():\n", *(f" I={k}\n A<-call_m()\n" for k in range(n))])


@shape("driver: calls of two rules over 1,000,000 cells", 1_000_000)
def _(n):
    return case([*(f'T{k}:tableau[1000]calculee:"";' for k in range(999)), BASE], "A = 1\n", driver=["main():\n", *many(" A<-call_m()\n", n)])


@shape("driver: names that are received, in one call", FILE)
def _(n):
    return case(BASE, "A = 1\n", driver=["main():\n A", *many(",A", (n - 40) // 2), "<-call_m()\n"])


@shape("driver: 100,000 names that are received, in 2^14 calls", 100_000)
def _(n):
    lines = [
        "main():\n A<-f1()\n A<-f1()\n",
        *(f"f{k}():\n" + f" A<-f{k + 1}()\n" * 2 for k in range(1, 14)),
        "f14():\n A", *many(",A", n), "<-g()\n",
        "g():\n A=1\n",
    ]
    return case(ONE, "A = 1\n", driver=lines)


@shape("driver: 1,000 calls of rules that weigh nothing, in 2^18 calls", 1000)
def _(n):
    # Without formulas a call of the rules weighs 0, and a call of a function 1, for the one cell: 2^19 - 2 in all.
    lines = ["main():\n A<-f1()\n A<-f1()\n", *(f"f{k}():\n" + f" A<-f{k + 1}()\n" * 2 for k in range(1, 18)), "f18():\n", *many(" A<-call_m()\n", n)]
    return case(ONE, "A undefined\n", driver=lines)


@shape("driver: values of one kind", FILE)
def _(n):
    return case(ONE, "A = 0\n", driver=["main():\n A=exists(a=1", *many(",1", (n - 40) // 2), ")\n"])


@shape("driver: 1,000 values of a kind, for many inputs", 1_000_000)
def _(n):
    rules = [ONE, *(f'I{k}:saisie a=2 alias C{k}:"";' for k in range(n - 1))]
    return case(None, "A = 0\n", driver=["main():\n A=exists(a=1", *many(",1", 1000), ")\n"], files=packed(rules))


@shape("driver: 1,000 kinds of 1,000 inputs", 1000)
def _(n):
    rules = [ONE, *(f'I{k}:saisie a=2 alias C{k}:"";' for k in range(n))]
    return case(rules, "A = 0\n", driver=["main():\n", *many(" A=exists(a=1)\n", n)])


@shape("driver: 10,000 kinds without inputs, over 10,000 inputs", 10_000)
def _(n):
    rules = [ONE, *(f'I{k}:saisie a=2 alias C{k}:"";' for k in range(n))]
    return case(rules, "A = 0\n", driver=["main():\n", *many(" A=exists(b=1)\n", n)])


@shape("driver: 100,000 kinds of 100,000 inputs, in a function that isn't called", 100_000)
def _(n):
    rules = [ONE, *(f'I{k}:saisie a=2 alias C{k}:"";' for k in range(n))]
    return case(rules, "A = 1\n", driver=["main():\n A=1\nf():\n", *many(" A=exists(a=2)\n", n)])


@shape("driver: a partition of 1,000,000 inputs", 1_000_000)
def _(n):
    rules = [ONE, *(f'I{k}:saisie a=1 alias C{k}:"";' for k in range(n - 1))]
    return case(None, "A = 0\n", driver="main():\n partition with a=1:\n  A=I0+0\n  A=present(I0)\n", household=EMPTY + "C0,1\n", files=packed(rules))
