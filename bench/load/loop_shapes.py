"""Loops, and what has many parts: memberships, terms, checks, formulas."""
from shape_cases import DEEP, FILE, ONE, PARTS, RULE, case, into, many, packed, refused

SHAPES = []
shape = into(SHAPES)


@shape("a sum of sums of 10,000", 10_000, grows=False)
def _(n):
    return case([ONE, RULE, f"A = somme(i=1..{n}: somme(j=1..{n}: 1)) ;"], refused("too many parts", line=2, byte=len(ONE)), 1)


@shape("a sum of sums, at the most parts", 1000, grows=False)
def _(n):
    return case([ONE, RULE, f"A = somme(i=1..{n}: somme(j=1..{n}: 1)) ;"], f"A = {n * n}\n")


@shape("255 sums in one another, of 10,000 each", 255, grows=False, stacks=DEEP)
def _(n):
    return case([ONE, RULE, "A = ", "somme(i=1..10000: " * n, "1", ")" * n, " ;"], refused("too many parts", line=2, byte=len(ONE)), 1)


@shape("255 sums in one another, of 10,000 nothings", 255, grows=False)
def _(n):
    return case([ONE, RULE, "A = somme(i=1..10000: ", "somme(i=1..10000: " * n, "1", ")" * (n + 1), " ;"], refused("too many parts", line=2, byte=len(ONE)), 1)


@shape("pour headers of 10,000 in one another", 100_000)
def _(n):
    return case([ONE, RULE, *many("pour i=1..10000:", n), "A = 1 ;"], refused("too many parts", line=2, byte=len(ONE)), 1)


TABLE = 'T : tableau[2] calculee : "" ;\n'


@shape("pour headers of two over each cell of a table", 1_001, stacks=DEEP, little=True)
def _(n):
    return case([TABLE, RULE, *many("pour i = 1..2 : ", n), "T[X] = 1 ;"], refused("too many parts", line=2, byte=len(TABLE)), 1)


@shape("pour headers of 13 letters over each cell of a table", 1_000, stacks=DEEP, little=True)
def _(n):
    header = "pour " + ";".join(f"{chr(97 + k)} = 1..2" for k in range(13)) + " : "
    return case([TABLE, RULE, *many(header, n), "T[X] = 1 ;"], refused("too many parts", line=2, byte=len(TABLE)), 1)


@shape("a name of 40 KB in 10,000 instances, declared", 40_000, little=True)
def _(n):
    name = "B" * n
    return case([ONE, f'{name} : calculee : "" ;\n', RULE, f"A = somme(i=1..10000: {name}) ;\n", f"{name} = 2 ;\n"], "A = 20000\n")


@shape("a declared name of 1 MB in 1,000,000 instances", 1_000_000, grows=False)
def _(n):
    # 1,000,000 names, a sum between two, and 1 for the formula: the most parts. A constant has none.
    name = "B" * n
    return case([ONE, name, ":const=2;\n", RULE, "A = somme(i=1..1000: somme(j=1..1000: ", name, ")) ;"], "A = 2000000\n")


@shape("255 sums in one another, of 26 letters each", 255, grows=False, stacks=DEEP)
def _(n):
    header = ";".join(f"{chr(97 + k)}=1" for k in range(26))
    return case([ONE, RULE, "A = ", *many(f"somme({header}: ", n), "1", ")" * n, " ;"], "A = 1\n")


@shape("250 sums of one instance in one another, in each instance of a formula", 1_000_000)
def _(n):
    front = f"pour i=1..1000: pour j=1..{n // 1000}: "
    place = len(ONE) + len(RULE) + len(front)
    return case([ONE, RULE, front, "Bij = ", "somme(k=1;l=1: " * 250, "1", ")" * 250, " ;"], refused("unknown name B11", line=3, byte=place), 1)


# Sums that stay: there is an operand between one and the next. They have 501 parts, and the definition is one more.
@shape("250 sums of 26 letters in one another, with an operand each, in each instance of a formula", 3900)
def _(n):
    front = f"pour i=1..{n}: "
    place = len(ONE) + len(RULE) + len(front)
    header = ";".join(f"{chr(97 + k)}=1" for k in range(26))
    return case([ONE, RULE, front, "Bi = ", f"somme({header}: 1 + " * 250, "1", ")" * 250, " ;"], refused("unknown name B1", line=3, byte=place), 1)


@shape("pour headers of one letter", 200_000, stacks=DEEP)
def _(n):
    return case(['A1 : calculee restituee : "" ;\n', RULE, *many("pour i=1:", n), "Ai = 1 ;"], "A1 = 1\n")


@shape("pour headers of one letter, a whole file", FILE, stacks=DEEP)
def _(n):
    return case(['A1 : calculee restituee : "" ;\n', RULE, *many("pour i=1:", (n - 200) // 9), "Ai = 1 ;"], "A1 = 1\n")


@shape("pour headers of all letters by turns", FILE)
def _(n):
    turn = "".join(f"pour {chr(97 + k)}=1:" for k in range(26))
    return case(['A1 : calculee restituee : "" ;\n', RULE, *many(turn, (n - 200) // len(turn)), "Ai = 1 ;"], "A1 = 1\n")


@shape("values of one header", FILE)
def _(n):
    return case([ONE, RULE, "A = somme(i=", *many("1,", (n - 200) // 2), "1: 1) ;"], refused("loop too large", line=3, byte=len(ONE) + len(RULE) + 10), 1)


@shape("one loop of 10,000 in each of many formulas", 100)
def _(n):
    names = [f"B{k}" for k in range(n)]
    return case(
        [
            *(f'{b}:calculee:"";' for b in names), ONE, RULE, "A=B0;",
            *(f"{b}=somme(i=1..{10_000 if k < 99 else 9_000}:i);" for k, b in enumerate(names)),
        ],
        "A = 50005000\n",
    )


@shape("1,000,000 instances of one formula", 1000, grows=False)
def _(n):
    return case(
        [RULE, f"pour i=001..{n - 1}: pour j=000..{n - 1}: Aij = 1 ;\n", "regle 2 : application : iliad ; ", "B = 1 ;"],
        refused("unknown name A001000", line=2, byte=len(RULE) + 34),
        1,
    )


@shape("a name of many bytes in 10,000 instances", 200_000)
def _(n):
    return case(
        [ONE, RULE, "A = somme(i=1..10000: ", *many("B", n), "i) ;"],
        [f"refused a.m line 3 byte {len(ONE) + len(RULE) + 22}: unknown name ", *many("B", n), "1\n"],
        1,
    )


@shape("a name of 40 KB in 10,000 instances, unknown", 40_000, little=True)
def _(n):
    # An instance is its word and the value of its letter, and the name is written out once: 200 MB are enough.
    return case(
        [ONE, RULE, "A = somme(i=1..10000: ", *many("B", n), "i) ;"],
        [f"refused a.m line 3 byte {len(ONE) + len(RULE) + 22}: unknown name ", *many("B", n), "1\n"],
        1,
    )


@shape("a letter's value of 1 MB in loops of 1,000 in one another", 1_000_000)
def _(n):
    # No word has the letter k. A is set in the first instance and again in the second.
    front = "pour i=1..1000: pour j=1..1000: "
    return case(
        [ONE, RULE, front, "A = somme(k=", *many("V", n), ": 1) ;"],
        refused("defined twice A", line=3, byte=len(ONE) + len(RULE) + len(front)),
        1,
    )


@shape("a letter's value of 1 MB in 400,000 instances of a sum", 1_000_000)
def _(n):
    # Each instance has three parts, and there is a sum between two: 1,599,999 parts.
    body = ["somme(k=", *many("V", n), ": 1)"]
    return case([ONE, RULE, "A = somme(i=1..400: somme(j=1..1000: 1 * ", *body, ")) ;"], "A = 400000\n")


@shape("1,000 names of 16 KB that differ in their last bytes, ten times each", 16_000)
def _(n):
    name = "B" * n
    return case(
        None,
        "A = 10000\n",
        files={
            "a0.m": [ONE, *(piece for k in range(1000) for piece in (name, f'{k:03}:const=1;\n'))],
            "a1.m": [RULE, "A = somme(j=1..10: somme(i=000..999: ", name, "i)) ;"],
        },
    )


@shape("an unknown name of 16 KB after 1,000 that differ in their last bytes", 16_000)
def _(n):
    name = "B" * n
    front = "A = somme(j=1..10: somme(i=000..999,A: "
    return case(
        None,
        [f"refused a1.m line 2 byte {len(RULE) + len(front)}: unknown name ", name, "A\n"],
        1,
        files={
            "a0.m": [ONE, *(piece for k in range(1000) for piece in (name, f'{k:03}:const=1;\n'))],
            "a1.m": [RULE, front, name, "i)) ;"],
        },
    )


@shape("a target of 1,000,000 letters, each 1 MB, before too many parts", 1_000_000)
def _(n):
    # The name would have 10^12 bytes. It isn't declared, since it is longer than all names that are, and too many parts come first.
    front = [ONE, RULE, "pour i=", *many("B", n), ": ", *many("i", n), "[X] = 1 ;\n"]
    expected = refused("too many parts", line=4, byte=sum(map(len, front)))
    return case([*front, RULE.replace("1", "2"), "A = somme(i=1..10000: somme(j=1..10000: 1)) ;"], expected, 1)


@shape("rules: 64 MB of headers in four files", FILE)
def _(n):
    one = lambda k: [f'A{k}1 : calculee restituee : "" ;\n', RULE, *many("pour i=1:", (n - 200) // 9), f"A{k}i = {k} ;"]
    return case(None, [f"A{k}1 = {k}\n" for k in range(4)], files={f"a{k}.m": one(k) for k in range(4)})


@shape("rules: 64 MB of one header in each of four files", FILE)
def _(n):
    one = lambda k: [ONE.replace("A", f"A{k}") + RULE, f"A{k} = somme(i=1", *many(";i=1", (n - 200) // 4), ": 1) ;"]
    return case(None, refused("bad range", "a0.m", line=3, byte=len(ONE) + len(RULE) + 12), 1, files={f"a{k}.m": one(k) for k in range(4)})


@shape("rules: 64 MB of values of one index in each of four files", FILE)
def _(n):
    one = lambda k: [ONE.replace("A", f"A{k}") + RULE, f"A{k} = somme(i=", *many("1,", (n - 200) // 2), "1: 1) ;"]
    return case(None, refused("loop too large", "a0.m", line=3, byte=len(ONE) + len(RULE) + 12), 1, files={f"a{k}.m": one(k) for k in range(4)})


@shape("a word of 10,000 letters, each 10,000 bytes", 10_000, grows=100)
def _(n):
    return case(
        [ONE, RULE, "A = somme(i=", *many("B", n), ": ", *many("i", n), ") ;"],
        [f"refused a.m line 3 byte {len(ONE) + len(RULE) + 14 + n}: unknown name ", *many("B", n * n), "\n"],
        1,
    )


@shape("a word of 8,000,000 letters, each 8 MB", 8_000_000, grows=False)
def _(n):
    # The name would have 6.4 * 10^13 bytes, and the allocator rejects that before one of them is written.
    return case([ONE, RULE, "A = somme(i=", *many("B", n), ": ", *many("i", n), ") ;"], "", 5)


@shape("unknown names as long as a declared one in 1,000,000 instances", 16_000)
def _(n):
    # The first instance that is no name of a variable is the error, and no later one is looked up.
    name = "B" * n
    front = "A = somme(j=1..1000: somme(i=000..999: "
    return case(
        [ONE, name, "ABC:const=1;\n", RULE, front, name, "i)) ;"],
        [f"refused a.m line 4 byte {len(ONE) + n + 13 + len(RULE) + len(front)}: unknown name ", name, "000\n"],
        1,
    )


@shape("members of a membership of a membership", 256, grows=False, stacks=DEEP)
def _(n):
    return case([ONE, RULE, "A = ", "(" * (n - 1), "1", " dans (0, 1))" * (n - 1), " ;"], refused("too many parts", line=2, byte=len(ONE)), 1)


@shape("a great term in a membership of many members", 1_000_000)
def _(n):
    return case([ONE, RULE, "A = (1", *many("+1", n), ") dans (1", *many(",1", n), ") ;"], refused("too many parts", line=2, byte=len(ONE)), 1)


@shape("members of one membership, too many", FILE)
def _(n):
    return case([ONE, RULE, "A = 1 dans (1", *many(",1", (n - 200) // 2), ") ;"], refused("too many parts", line=2, byte=len(ONE)), 1)


@shape("members of one membership", 499_999)
def _(n):
    # Each member is two numbers and a comparison, and between two there is an `ou`: 4n - 1 parts, and 1 for the formula.
    return case([ONE, RULE, "A = 1 dans (0", *many(",0", n - 2), ",1) ;"], "A = 1\n")


@shape("a term of most parts", 999_000)
def _(n):
    return case([ONE, RULE, "A = 1", *many("+1", n - 1), " ;"], f"A = {n}\n")


@shape("a term of too many parts", FILE)
def _(n):
    m = (n - 200) // 2
    return (
        case([ONE, RULE, "A = 1", *many("+1", m), " ;"], refused("too many parts", line=2, byte=len(ONE)), 1)
        if 2 * m + 2 > PARTS
        else case([ONE, RULE, "A = 1", *many("+1", m), " ;"], f"A = {m + 1}\n")
    )


@shape("checks of one verification", 999_000)
def _(n):
    return case(None, "", files=packed(checks(n)))


def checks(n):
    yield 'E : anomalie : "" : "" : "" : "" ;\n'
    for k in range(n // 1000):
        yield f"verif {k + 1} : application : iliad ;" + "si 0 alors erreur E;" * 1000 + "\n"
    yield "application iliad ;"


@shape("checks of one error with a text of many bytes", 3000)
def _(n):
    # Each has its label, and the text is 100 times as long as there are checks.
    return case(
        [
            f'{ONE}E : anomalie : "', *many("x", 100 * n), '" : "" : "" : "" ;\nverif 1 : application : iliad ;\n',
            *many("si 0 alors erreur E;", n),
        ],
        "A undefined\n",
    )


@shape("checks of one verification with a number of many bytes", 3000)
def _(n):
    # A verification's number has nine digits at most, so the item isn't one: its place is that of `verif`.
    head = f'{ONE}E : anomalie : "" : "" : "" : "" ;\n'
    return case(
        [head, "verif ", *many("0", 100 * n), "1 : application : iliad ;\n", *many("si 0 alors erreur E;", n)],
        refused("syntax", line=3, byte=len(head)),
        1,
    )


@shape("a table of 1,024 cells with a name of many bytes, returned", 30_000)
def _(n):
    name = "T" * n
    return case([*many("T", n), ':tableau[1024]calculee restituee:"";'], (f"{name}[{k}] undefined\n" for k in range(1024)))


@shape("rules: 64 MB of the shortest formulas in four files", FILE)
def _(n):
    one = [ONE, RULE, *many("A=1;", (n - len(ONE) - len(RULE)) // 4)]
    other = [RULE, *many("A=1;", (n - len(RULE)) // 4)]
    return case(
        None,
        refused("too many parts", line=2, byte=len(ONE)) if n > PARTS * 2 else refused("too many parts", "a2.m"),
        1,
        files={"a.m": one, **{f"a{k}.m": other for k in (1, 2, 3)}},
    )


@shape("rules: 64 MB of one sum in each of four files", FILE)
def _(n):
    one = lambda k: [ONE.replace("A", f"A{k}"), RULE, f"A{k}=1", *many("+1", (n - 200) // 2), ";"]
    return case(None, refused("too many parts", "a0.m" if n > PARTS else "a1.m", line=2, byte=len(ONE) + 1), 1, files={f"a{k}.m": one(k) for k in range(4)})
