"""Code files.

A file may have 1,073,741,824 bytes; these have about 100,000,000, and none has room that its bytes don't take.
"""
from shape_cases import EMPTY, case, into, many

SHAPES = []
shape = into(SHAPES)


def coded(pieces, prints, status=0, household=EMPTY):
    """A case of a code file without its first line, which runs on a household."""
    return {"files": {"code": ["mcode 1\n", *pieces], "household": household}, "words": ["exec", "code", "household"], "prints": prints, "status": status}


def bad(line, what="bad line"):
    return f"refused code line {line}: {what}\n"


@shape("code: one line, which is no header", 104_857_600)
def _(n):
    case = coded([], "refused code: bad header\n", 1)
    return {**case, "files": {**case["files"], "code": many("a", n)}}


@shape("code: one word without its line feed", 104_857_600)
def _(n):
    return coded(["slots 0\ninput ", *many("A", n)], bad(3), 1)


@shape("code: empty lines", 104_857_600)
def _(n):
    return coded(many("\n", n), bad(2), 1)


@shape("code: one number of needless zeros", 104_857_600)
def _(n):
    return coded(["slots ", *many("0", n), "\ncode\nend\n"], bad(2), 1)


@shape("code: one literal of many digits", 104_857_600)
def _(n):
    return coded(["slots 0\ncode\nlit 0 ", *many("9", n), "\nend\n"], bad(4), 1)


@shape("code: inputs", 5_000_000)
def _(n):
    return coded(["slots 0\n", *(f"input C{k}\n" for k in range(n)), "code\nend\n"], "")


@shape("code: a code twice after many", 5_000_000)
def _(n):
    return coded(["slots 0\n", *(f"input C{k}\n" for k in range(n)), "input C0\ncode\nend\n"], bad(n + 3), 1)


@shape("code: one text of an error", 104_857_600)
def _(n):
    return coded(["slots 0\nlabel verif 1 E anomalie ", *many("6e", n // 2), "\ncode\nend\n"], "")


@shape("code: labels", 2_000_000)
def _(n):
    return coded(["slots 0\n", *many("label verif 1 E anomalie 6e\n", n), "code\nend\n"], "")


@shape("code: notes that are told", 1_000_000)
def _(n):
    lines = ["slots 0\nlabel verif 1 E informative 6e\n", *many("note 0\n", n), "code\nlit 0 1\n", *(f"out {k} 0\n" for k in range(n)), "end\n"]
    return coded(lines, many("noted 1 E informative\nn\n", n))


@shape("code: outputs", 2_000_000)
def _(n):
    lines = ["slots 0\n", *many("output A\n", n), "code\nlit 0 1000000\n", *(f"out {k} 0\n" for k in range(n)), "end\n"]
    return coded(lines, many("A = 1\n", n))


@shape("code: outputs from the last on", 2_000_000)
def _(n):
    lines = ["slots 0\n", *many("output A\n", n), "code\nlit 0 undef\n", *(f"out {k} 0\n" for k in range(n - 1, -1, -1)), "end\n"]
    return coded(lines, many("A undefined\n", n))


@shape("code: an output that is never given", 2_000_000)
def _(n):
    lines = ["slots 0\n", *many("output A\n", n), "code\nlit 0 undef\n", *(f"out {k} 0\n" for k in range(1, n)), "end\n"]
    return coded(lines, bad(2 + n + 1 + 1 + n - 1 + 1), 1)


@shape("code: a slot for each store", 5_000_000)
def _(n):
    lines = [f"slots {n}\noutput A\ncode\nlit 0 7000000\n", *(f"st {k} 0\n" for k in range(n)), f"ld 1 {n - 1}\nout 0 1\nend\n"]
    return coded(lines, "A = 7\n")


@shape("code: slots far apart, from the last on", 5_000_000)
def _(n):
    apart = 4_294_967_295 // n
    lines = ["slots 4294967295\noutput A\ncode\nlit 0 7000000\n", *(f"st {k * apart} 0\n" for k in range(n - 1, -1, -1)), "ld 1 0\nout 0 1\nend\n"]
    return coded(lines, "A = 7\n")


@shape("code: loads, and then one of a slot that nothing wrote", 10_000_000)
def _(n):
    lines = ["slots 2\ncode\nlit 0 7000000\nst 0 0\n", *many("ld 1 0\n", n), "ld 1 1\nend\n"]
    return coded(lines, bad(6 + n, "read before write"), 1)


@shape("code: checks that don't stop", 5_000_000)
def _(n):
    lines = ["slots 0\nlabel verif 1 E anomalie 6e\noutput A\ncode\nlit 0 1000000\nlit 1 0\n", *many("ck 0 1 0\n", n), "out 0 0\nend\n"]
    return coded(lines, "A = 1\n")


@shape("code: operators", 8_000_000)
def _(n):
    return coded(["slots 0\noutput A\ncode\nlit 0 1000000\n", *many("do 0 add 0 0\n", n), "out 0 0\nend\n"], "A over\n")


@shape("code: divisions", 8_000_000)
def _(n):
    return coded(
        ["slots 0\noutput A\ncode\nlit 0 10000000000000000000\nlit 1 1000001\n", *many("do 2 div 0 1\n", n), "out 0 2\nend\n"],
        "A = 9999990000009.99999\n",
    )


@shape("code: literals", 5_000_000)
def _(n):
    return coded(["slots 0\noutput A\ncode\n", *(f"lit 0 {k}\n" for k in range(n)), "out 0 0\nend\n"], f"A = {(n - 1) / 1e6:.6f}".rstrip("0") + "\n")


@shape("code: a household of 100,000 rows", 100_000)
def _(n):
    lines = ["slots 0\n", *(f"input C{k}\n" for k in range(n)), f"output A\ncode\nin 0 {n - 1}\nout 0 0\nend\n"]
    return coded(lines, "A = 3\n", household=[EMPTY, *(f"C{k},3\n" for k in range(n))])
