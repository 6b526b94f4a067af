"""Brackets in all levels of the grammar of rules, and of drivers."""
from shape_cases import DEEP, FILE, ONE, RULE, case, into, many, refused

SHAPES = []
shape = into(SHAPES)


def nested(opening, inner, closing, expected, depth=256, rules=ONE):
    def make(_):
        return case([rules, RULE, "A = ", opening * depth, inner, closing * depth, " ;"], f"A = {expected}\n")

    return make


# A bracket below each operator that binds a term: a tree has nine levels for each.
ALL_LEVELS = "0 ou 1 et non 0 = 0 + 1 * -abs("

# In each, what is computed of 1 is 1 again.
LEVELS = [
    ("brackets", "(", ")"),
    ("sums, products, signs, comparisons, et, ou, non", "(0 ou 1 et non 0 = 0 + 1 * -(", "))"),
    ("all levels of a bracket", ALL_LEVELS, ")"),
    ("products", "1 * (", ")"),
    ("conditions", "si ", " alors 1 sinon 0 finsi"),
    ("first branches", "si 1 alors ", " sinon 0 finsi"),
    ("second branches", "si 0 alors 0 sinon ", " finsi"),
    ("loops", "somme(i=1: ", ")"),
    ("abs", "abs(", ")"),
    ("max", "max(0, ", ")"),
    ("the first of max", "max(", ", 0)"),
    ("members", "((", ") dans (1))"),
]
for _name, _open, _close in LEVELS:
    _depth = 256 // sum(_open.count(c) for c in ("(", "si "))
    shape(f"256 brackets: {_name}", 256, grows=False, stacks=DEEP)(nested(_open, "1", _close, 1, _depth))

shape("256 brackets: indexes", 256, grows=False, stacks=DEEP)(
    nested("T[", "0", "]", 0, 256, ONE + 'T : tableau[1] calculee : "" ; regle 2 : application : iliad ; T[0] = 0 ;\n')
)


def deep_files(rest):
    """Eight rule files, which workers read, each with the term of most levels and what follows it."""
    names = [f"A{k}" for k in range(8)]
    heads = "".join(f'{name} : calculee restituee : "" ;\n' for name in names)
    term = ALL_LEVELS * 256 + "1" + ")" * 256
    return {"a.m": heads, **{f"f{name}.m": f"regle {k + 1} : application : iliad ;\n{name} = {term} ;\n{rest}" for k, name in enumerate(names)}}


@shape("256 brackets: all levels of a bracket, in eight files", 256, grows=False, stacks=DEEP)
def _(n):
    return case(None, "".join(f"A{k} = 1\n" for k in range(8)), files=deep_files(""))


# A worker lets go of the terms of a refused file. Workers have the stack that the system gives a thread.
@shape("256 brackets: all levels of a bracket, in eight refused files", 256, grows=False, stacks=(8192, 1024))
def _(n):
    files = deep_files("]\n")
    return case(None, refused("syntax", file="fA0.m", line=3, byte=len(files["fA0.m"]) - 2), 1, files=files)


@shape("257 brackets in 65,000 formulas after 256", FILE)
def _(n):
    one = "A=" + "(" * 256 + "1" + ")" * 256 + ";"
    m = (n - 1000) // len(one)
    place = len(ONE) + len(RULE) + m * len(one) + 2 + 256
    return case([ONE, RULE, *many(one, m), "A=" + "(" * 257 + "1" + ")" * 257 + ";"], refused("too deep", line=3, byte=place), 1)


@shape("256 brackets in each of many formulas", FILE)
def _(n):
    m = (n - 1000) // 550
    names = [f"B{k}" for k in range(m)]
    return case(
        [*(f'{b}:calculee:"";' for b in names), ONE, RULE, "A=B0;", *(f"{b}=" + "(" * 256 + "7" + ")" * 256 + ";" for b in names)],
        "A = 7\n",
    )


@shape("256 brackets in a driver", 256, grows=False, stacks=DEEP)
def _(n):
    return case(ONE, "A = 1\n", driver="main():\n A = " + "(0 or 1 and not 0 == 0 + 1 * -(" * 128 + "1" + "))" * 128 + "\n")


@shape("64 levels in a driver", 64, grows=False, stacks=DEEP)
def _(n):
    lines = ["main():\n", *(" " * k + "if 1:\n" for k in range(1, 64)), " " * 64 + "A = 1\n"]
    return case(ONE, "A = 1\n", driver=lines)
