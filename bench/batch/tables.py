"""The tables of this bench: which codes they have, and which amounts."""

ROWS = 100_000
CODES = {
    "examples/impots": ["A01", "A02", "A03", "A04", "B01", "B02", "B03", "B04"],
    "examples/impot2023": ["0AM", "0BT", "0CF", "1AJ", "1BJ", "1AS", "1BS", "7UD", "7UF"],
}
SMALL = {"0AM": 2, "0BT": 1, "0CF": 4}


def amount(row, column, code):
    """An amount that the verifications let pass: a second person and box T only where they may be."""
    if code in SMALL:
        return row % SMALL[code]
    if code in ("1BJ", "1BS") and row % 2 == 0:
        return 0
    return (row * 7919 + column * 104729) % 40000


def write_table(path, codes, rows, cell=amount):
    with open(path, "w", encoding="ascii") as out:
        out.write("name," + ",".join(codes) + "\n")
        out.writelines(f"h{r}," + ",".join(str(cell(r, c, code)) for c, code in enumerate(codes)) + "\n" for r in range(rows))
