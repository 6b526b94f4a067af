"""The C that translate.py and straight.py share: values, each operator with its exact meaning, the reading of a table and the printing of answers.

A value is a number of millionths in `__int128` and its kind. The reader checks nothing of its input.
"""
HEAD = r"""
#include <stdio.h>
#include <stdlib.h>
#include <string.h>
typedef __int128 wide;
typedef unsigned long long word;
typedef struct { wide v; int k; } value; /* k: 0 a number, 1 undefined, 2 over */
#define ONE ((wide)1000000)
#define MOST ((wide)10000000000000 * ONE)
static const value undef = { 0, 1 }, over = { 0, 2 };
static inline value exact(wide v) { value r = { v, 0 }; return r; }
static inline value num(wide v) { value r = { v, 0 }; if (v > MOST || v < -MOST) { r.v = 0; r.k = 2; } return r; }
static inline value truth_of(int t) { return exact(t ? ONE : 0); }
/* the nearest whole number to n / d for d > 0, of two equally near the one farther from zero; in 64 bits where it can be */
static inline wide nearest(wide n, wide d) {
    wide a = n < 0 ? -n : n, q;
    if (a >> 63 == 0 && d >> 63 == 0) { word x = (word)a, y = (word)d, r = x % y; q = (wide)(x / y) + (2 * r >= y); }
    else { wide r = a % d; q = a / d + (2 * r >= d); }
    return n < 0 ? -q : q;
}
static inline wide quotient(wide a, wide b) { return b == 0 ? 0 : b < 0 ? nearest(-a * ONE, -b) : nearest(a * ONE, b); }
static inline wide whole(wide a) { if (a >> 63 == 0 || a >> 63 == -1) return (long long)a / 1000000; return a / ONE; }
static inline wide arr_of(wide a) { return whole(a < 0 ? a - 500050 : a + 500050) * ONE; }
static inline wide inf_of(wide a) { wide b = a + 1, q = whole(b); return (q * ONE > b ? q - 1 : q) * ONE; }
#define BOTH(name, e) static inline value name(value a, value b) { if (!(a.k | b.k)) return e; if (a.k == 2 || b.k == 2) return over; \
    if (a.k && b.k) return undef; if (a.k) a.v = 0; else b.v = 0; return e; }
#define STRICT(name, e) static inline value name(value a, value b) { if (!(a.k | b.k)) return e; if (a.k == 2 || b.k == 2) return over; return undef; }
#define ONLY(name, e) static inline value name(value a) { if (a.k) return a; return e; }
BOTH(m_add, num(a.v + b.v))
BOTH(m_sub, num(a.v - b.v))
BOTH(m_max, exact(a.v > b.v ? a.v : b.v))
BOTH(m_min, exact(a.v < b.v ? a.v : b.v))
BOTH(m_or, truth_of(a.v || b.v))
STRICT(m_mul, num(nearest(a.v * b.v, ONE)))
STRICT(m_div, num(quotient(a.v, b.v)))
STRICT(m_eq, truth_of(a.v == b.v))
STRICT(m_ne, truth_of(a.v != b.v))
STRICT(m_lt, truth_of(a.v < b.v))
STRICT(m_le, truth_of(a.v <= b.v))
STRICT(m_gt, truth_of(a.v > b.v))
STRICT(m_ge, truth_of(a.v >= b.v))
STRICT(m_and, truth_of(a.v && b.v))
STRICT(m_at, truth_of(whole(a.v) == whole(b.v)))
ONLY(m_neg, exact(-a.v))
ONLY(m_abs, exact(a.v < 0 ? -a.v : a.v))
ONLY(m_not, truth_of(a.v == 0))
ONLY(m_null, truth_of(a.v == 0))
ONLY(m_positif, truth_of(a.v > 0))
ONLY(m_positif_ou_nul, truth_of(a.v >= 0))
ONLY(m_arr, num(arr_of(a.v)))
ONLY(m_inf, num(inf_of(a.v)))
static inline value m_present(value a) { if (a.k == 2) return over; return truth_of(a.k == 0); }
static inline value m_truth(value a) { return truth_of(a.k == 0 && a.v != 0); }
static inline value m_choose(value c, value a, value b) { if (c.k) return c; return c.v ? a : b; }
static inline int holds(value a) { return a.k == 0 && a.v != 0; }
static void show(const char *name, value a) {
    if (a.k) { printf("%s %s\n", name, a.k == 1 ? "undefined" : "over"); return; }
    word w = (word)((a.v < 0 ? -a.v : a.v) / ONE), d = (word)((a.v < 0 ? -a.v : a.v) % ONE);
    printf("%s = %s%llu", name, a.v < 0 ? "-" : "", w);
    if (d) { char t[8]; sprintf(t, "%06llu", d); for (int i = 5; t[i] == '0'; i--) t[i] = 0; printf(".%s", t); }
    putchar('\n');
}
static value read(const char *p, const char *end) {
    if (p == end) return undef;
    wide v = 0; int d = -1, minus = 0;
    for (; p < end; p++) { if (*p == '-') minus = 1; else if (*p == '.') d = 0; else if (d < 6) { v = v * 10 + (*p - '0'); if (d >= 0) d++; } }
    for (int i = d < 0 ? 0 : d; i < 6; i++) v *= 10;
    return num(minus ? -v : v);
}
"""
FOOT = r"""
static int place(const char *code, size_t n) {
    for (int i = 0; i < INPUTS; i++) if (strlen(codes[i]) == n && !memcmp(codes[i], code, n)) return i;
    exit(1);
}
int main(int n, char **words) {
    static char line[65536];
    static int columns[4096];
    FILE *f = fopen(words[1], "r");
    if (n != 2 || !f || !fgets(line, sizeof line, f)) return 1;
    int count = 0;
    for (char *p = strchr(line, ','); p && *p == ',';) { char *q = p + 1; p = q + strcspn(q, ",\n"); columns[count++] = place(q, p - q); }
    static value in[INPUTS + 1];
    while (fgets(line, sizeof line, f)) {
        for (int i = 0; i < INPUTS; i++) in[i] = undef;
        char *p = line, *q = strchr(p, ','); *q = 0;
        printf("household %s\n", p);
        for (int i = 0; i < count; i++) { p = q + 1; q = p + strcspn(p, ",\n"); in[columns[i]] = read(p, q); }
        answer(in);
    }
    return 0;
}
"""


def quoted(text):
    """A string of C with these bytes."""
    return '"' + "".join(chr(b) if 32 <= b < 127 and chr(b) not in '"\\?%' else f"\\{b:03o}" for b in text) + '"'


def number(value):
    """An expression of C for a value, where `None` is undefined and a text is over."""
    if value is None:
        return "undef"
    if isinstance(value, str):
        return "over"
    return f"exact({value}LL)" if abs(value) < 1 << 63 else f"exact((wide){value // 10**6}LL * ONE + {value % 10**6})"


def program(codes, lines):
    """The whole program, for the codes of the inputs and the statements of `answer`."""
    names = ", ".join(quoted(code) for code in codes) or '""'
    return "\n".join([HEAD, f"enum {{ INPUTS = {len(codes)} }};", f"static const char *codes[] = {{ {names} }};", *lines, FOOT])
