"""Many names: chains and cycles of formulas, reads of tables, cells."""
from shape_cases import DEEP, FILE, ONE, RULE, case, into, many, refused

SHAPES = []
shape = into(SHAPES)


def numbers(n, order):
    if order == "last first":
        return range(n - 1, -1, -1)
    if order == "first first":
        return range(n)
    return [k * 7_919 % n for k in range(n)]  # n isn't a multiple of 7,919


def declared(n, order="first first"):
    for k in numbers(n, order):
        yield f'T{k}:calculee:"";'


def chain(n, declared_in, set_in):
    yield from declared(n, declared_in)
    yield RULE
    for k in numbers(n, set_in):
        yield f"T{k}=T{k - 1};\n" if k else "T0=1;\n"
        if k % 1000 == 0:
            yield RULE


def chained(declared_in, set_in):
    def make(n):
        return case(None, f"T{n - 1} = 1\n", requests=f"T{n - 1}\n", files=packed_rules(chain(n, declared_in, set_in)))

    return make


def packed_rules(pieces):
    """As packed, where a file that begins within a rule begins with one of its own."""
    files, room = {}, 0
    for piece in pieces:
        if not files or room + len(piece) > FILE:
            begins = [] if piece.endswith('"";') or piece.startswith("regle") or not files else [RULE]
            files[f"a{len(files)}.m"] = last = begins
            room = sum(map(len, begins))
        if piece.startswith("regle") or not piece:
            if last and last[-1].startswith("regle"):
                continue
        last.append(piece)
        room += len(piece)
    for name, pieces in files.items():
        while pieces and pieces[-1].startswith("regle"):
            pieces.pop()
    return files


for _declared in ("last first", "first first", "shuffled"):
    for _set in ("last first", "first first", "shuffled"):
        if (_declared == "shuffled") == (_set == "shuffled"):
            shape(
                f"a chain of 1,000,000: declared {_declared}, set {_set}",
                1_000_000,
                stacks=DEEP if _declared == _set == "last first" else (8192,),
            )(chained(_declared, _set))


@shape("a cycle of 200,000", 200_000, stacks=DEEP)
def _(n):
    rules = [*declared(n), RULE, *(f"T{k}=T{(k - 1) % n};" for k in range(n))]
    return case(None, ["refused cycle T0", *(f" T{k}" for k in range(n - 1, 0, -1)), "\n"], 1, files=packed_rules(rules))


@shape("a cycle of 1,000,000", 1_000_000)
def _(n):
    rules = [*declared(n), RULE, *(f"T{k}=T{(k - 1) % n};" for k in range(n))]
    return case(None, ["refused cycle T0", *(f" T{k}" for k in range(n - 1, 0, -1)), "\n"], 1, files=packed_rules(rules))


@shape("reads of a table of 1,024 at an index, in formulas", 300_000)
def _(n):
    rules = ['R:saisie alias R:"";T:tableau[1024]calculee:"";', *(f'A{k}:calculee:"";' for k in range(n)), RULE, *(f"A{k}=T[R];" for k in range(n))]
    return case(None, f"refused driver too large {n * 2052}\n", 1, files=packed_rules(rules))


@shape("reads of a table of 1,024 at an index, in one formula", 300_000)
def _(n):
    # A read weighs 2, its index 1, and 2 for each cell; n - 1 operators, and 1 for the formula.
    return case(
        ['R:saisie alias R:"";T:tableau[1024]calculee:"";', ONE, RULE, "A=T[R]", *many("+T[R]", n - 1), ";"],
        f"refused driver too large {n * 2052}\n",
        1,
    )


@shape("a cycle through 300,000 reads of a table of 1,024", 300_000)
def _(n):
    # All formulas but the last one read the table, and none of them is read; the last cell of the table reads A0, so that is the one ring.
    rules = [
        'R:saisie alias R:"";T:tableau[1024]calculee:"";',
        *(f'A{k}:calculee:"";' for k in range(n)),
        RULE,
        *(f"A{k}=T[R];" for k in range(n)),
        "T[1023]=A0;",
    ]
    return case(None, "refused cycle T[1023] A0\n", 1, files=packed_rules(rules))


@shape("1,000,000 cells in tables", 1_000_000)
def _(n):
    sizes = [1000] * (n // 1000)
    rules = [*(f'T{k}:tableau[{size}]calculee:"";' for k, size in enumerate(sizes)), RULE, *(f"T{k}[X]=X;" for k in range(len(sizes)))]
    asked = [(k % len(sizes), k % 1000) for k in range(n // 10)]
    return case(None, (f"T{t}[{c}] = {c}\n" for t, c in asked), requests=[f"T{t}[{c}]\n" for t, c in asked], files=packed_rules(rules))


@shape("977 tables of 1,024 cells", 977, grows=False)
def _(n):
    one = 'T000:tableau[1024]calculee:"";\n'
    return case([one.replace("000", f"{k:03}") for k in range(n)], refused("too many cells", line=n, byte=(n - 1) * len(one)), 1)


@shape("1,000,000 returned cells", 1_000_000)
def _(n):
    what = "refused too many requests\n" if n > 100_000 else "".join(f"T{k}[{c}] undefined\n" for k in range(n // 1000) for c in range(1000))
    return case([f'T{k}:tableau[1000]calculee restituee:"";' for k in range(n // 1000)], what, 1 if n > 100_000 else 0)
