"""What a spreadsheet hides of a sheet, in words."""


def column_name(column):
    """The letters above a column, from 0."""
    letters, column = "", column + 1
    while column:
        column, rest = divmod(column - 1, 26)
        letters = chr(65 + rest) + letters
    return letters


class Hidden:
    """What a spreadsheet hides of a sheet, and is read all the same."""

    def __init__(self):
        self.rows, self.columns, self.sheet = [], set(), None

    def told(self):
        """The hidden rows and columns, and the sheet itself, in words; nothing where all is shown."""
        parts = [f"the sheet {self.sheet}"] if self.sheet is not None else []
        for one, name_of_it, numbers in (("row", str, self.rows), ("column", column_name, sorted(self.columns))):
            if numbers:
                parts.append(f"{one}{'s' if len(numbers) > 1 else ''} {', '.join(ranges(numbers, name_of_it))}")
        return "; ".join(parts)


def ranges(numbers, name_of_it):
    """Numbers in order, as `3` and `5 to 7`."""
    first = last = numbers[0]
    for number in [*numbers[1:], None]:
        if number is not None and number == last + 1:
            last = number
            continue
        yield name_of_it(first) if first == last else f"{name_of_it(first)} to {name_of_it(last)}"
        first = last = number
