"""Rule files of one thing: comments, blanks, one name, one number, one text, one kind of item, and files that are too long or too many."""
from shape_cases import BASE, FILE, ONE, RULE, case, filled, into, many, refused

SHAPES = []
shape = into(SHAPES)


@shape("rules: comments without a byte", FILE)
def _(n):
    return case(filled("#\n", n, BASE), "A = 1\n")


@shape("rules: one comment", FILE)
def _(n):
    return case(filled("#", n, "\n" + BASE), "A = 1\n")


@shape("rules: blank lines", FILE)
def _(n):
    return case(filled("\n", n, BASE), "A = 1\n")


@shape("rules: blanks, and then no token", FILE)
def _(n):
    return case(filled(" ", n, "."), refused("bad byte", byte=n - 1), 1)


@shape("rules: one name", FILE)
def _(n):
    return case(filled("A", n), refused("syntax"), 1)


@shape("rules: one name, declared, set and printed", FILE)
def _(n):
    m = (n - 100) // 2
    long = lambda: many("A", m)
    return case([*long(), ' : calculee restituee : "" ;\n', RULE, *long(), " = 1 ;\n"], [*long(), " = 1\n"])


@shape("rules: one name, unknown", FILE)
def _(n):
    m = n - 100
    return case([RULE, *many("A", m), " = 1 ;"], [f"refused a.m line 2 byte {len(RULE)}: unknown name ", *many("A", m), "\n"], 1)


@shape("rules: one number of zeros", FILE)
def _(n):
    return case([ONE, RULE, "A = ", *many("0", n - 100), "1 ;"], "A = 1\n")


@shape("rules: one number of decimals", FILE)
def _(n):
    return case([ONE, RULE, "A = 0.", *many("9", n - 100), " ;"], "A = 1\n")


@shape("rules: one number that is too great", FILE)
def _(n):
    return case(filled("9", n), refused("number too great"), 1)


@shape("rules: one description", FILE)
def _(n):
    return case(['A : calculee restituee : "', *many("#", n - 100), '" ;\n', RULE, "A = 1 ;"], "A = 1\n")


@shape("rules: the text of one error, printed", FILE)
def _(n):
    return case(
        ['E : anomalie : "', *many("\n", n - 100), '" : "" : "" : "" ; verif 1 : application : iliad ; si 1 alors erreur E ;'],
        ["failed 1 E anomalie\n", *many(" ", n - 100), ":::\n"],
        6,
    )


@shape("rules: a text that is never closed", FILE)
def _(n):
    return case(['"', *many("x", n - 1)], refused("open string"), 1)


@shape("rules: brackets alone", FILE)
def _(n):
    return case(filled("(", n), refused("too deep", byte=256), 1)


@shape("rules: closing brackets alone", FILE)
def _(n):
    return case(filled(")", n), refused("syntax"), 1)


@shape("rules: words of one letter", FILE)
def _(n):
    return case(filled("A ", n), refused("syntax"), 1)


@shape("rules: numbers of one digit", FILE)
def _(n):
    return case(filled("1 ", n), refused("syntax"), 1)


@shape("rules: one formula that doesn't end", FILE)
def _(n):
    return case([ONE, RULE, "A = 1", *many("+1", (n - 100) // 2)], refused("syntax", line=2, byte=len(ONE)), 1)


@shape("rules: a fault in the last of formulas", FILE)
def _(n):
    m = (n - 200) // 4
    return case([ONE, RULE, *many("A=1;", m), "A=;"], refused("syntax", line=3, byte=len(ONE) + len(RULE) + 4 * m), 1)


@shape("rules: items without effect", FILE)
def _(n):
    return case(filled("application A;", n, BASE), "A = 1\n")


@shape("rules: applications of one rule", FILE)
def _(n):
    m = (n - 200) // 2
    return case([ONE, "regle 1 : application : ", *many("B,", m), "iliad ;\nA = 1 ;"], "A = 1\n")


@shape("rules: attributes of one input", FILE)
def _(n):
    m = (n - 200) // 4
    return case(["I : saisie ", *many("a=1 ", m), 'alias C : "" ;\n', BASE], "A = 1\n")


@shape("rules: words after the number of one error", FILE)
def _(n):
    m = (n - 200) // 2
    return case([BASE, 'E : anomalie : "" : "" : "" : "" ; verif 1 : application : iliad ; si 0 alors erreur E', *many(" E", m), " ;"], "A = 1\n")


@shape("rules: a file of one byte too many", FILE + 1, grows=False)
def _(n):
    return case(many("\n", n), "refused file too long a.m\n", 1)


@shape("rules: 64 MB in 1,024 files", 65_536)
def _(n):
    files = {f"f{k}.m": filled("\n", n, f'V{k} : calculee restituee : "" ;\n{RULE}V{k} = {k} ;\n') for k in range(1024)}
    return case(None, "".join(f"V{k} = {k}\n" for k in range(1024)), files=files)


@shape("rules: one byte above 64 MB in 1,024 files", 1024, grows=False)
def _(n):
    files = {f"f{k}.m": many("\n", 65_536 + (k == n - 1)) for k in range(n)}
    return case(None, "refused file too long f1023.m\n", 1, files=files)


@shape("rules: 1,025 files", 1025, grows=False)
def _(n):
    return case(None, "refused too many files\n", 1, files={f"f{k}.m": "" for k in range(n)})
