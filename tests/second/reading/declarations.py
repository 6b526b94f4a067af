"""What items declare: variables and their cells, inputs and their codes, errors."""

from .faults import at_place
from .texts import decimal
from .trees import Error, Variable

MOST_CELLS = 1_000_000
MOST_OF_A_TABLE = 1_024
TYPES = {b"BOOLEEN": b"truth", b"ENTIER": b"whole"}


class Declared:
    """The variables, whose cells are numbered in the order of declaration, and the errors."""

    def __init__(self):
        self.variables = []
        self.first_cells = {}
        self.cells = 0
        self.by_name = {}
        self.inputs = {}
        self.types = {}
        self.errors = {}

    def add_variable(self, variable):
        """Takes a variable in, or refuses it."""
        if variable.name in self.by_name:
            raise at_place(variable.place, b"declared twice " + variable.name)
        if variable.role == "input" and variable.code in self.inputs:
            raise at_place(variable.place, b"alias twice " + variable.code)
        if variable.size is not None and not 1 <= variable.size <= MOST_OF_A_TABLE:
            raise at_place(variable.place, b"table size")
        if self.cells + cells_of(variable) > MOST_CELLS:
            raise at_place(variable.place, b"too many cells")
        self.variables.append(variable)
        self.by_name[variable.name] = variable
        self.first_cells[variable.name] = self.cells
        self.cells += cells_of(variable)
        if variable.role == "input":
            self.inputs[variable.code] = self.first_cells[variable.name]
            self.types[variable.code] = TYPES.get(variable.type_word, b"")

    def add_error(self, error):
        """Takes an error in, or refuses it."""
        if error.name in self.errors:
            raise at_place(error.place, b"declared twice " + error.name)
        self.errors[error.name] = error

    def cells_named(self, name):
        """The cells of a variable."""
        first = self.first_cells[name]
        return range(first, first + cells_of(self.by_name[name]))

    def printed_names(self):
        """The printed name of each cell, in order: `A`, `T[0]`, `T[1]`."""
        names = []
        for variable in self.variables:
            if variable.size is None:
                names.append(variable.name)
            else:
                names.extend(variable.name + b"[" + decimal(k) + b"]" for k in range(variable.size))
        return names

    def returned_cells(self):
        """The cells of all variables with the attribute `restituee`, in order."""
        returned = (variable.name for variable in self.variables if b"restituee" in variable.words)
        return [cell for name in returned for cell in self.cells_named(name)]

    def cells_of_kind(self, kind):
        """The cells of the inputs whose attribute has one of some values. If one occurs twice, the last counts."""
        attribute, values = kind
        inputs = (variable for variable in self.variables if variable.role == "input")
        return [self.first_cells[v.name] for v in inputs if dict(v.pairs).get(attribute) in values]


def cells_of(variable):
    """How many cells a variable has."""
    return 1 if variable.size is None else variable.size


def declared_by(items):
    """What items declare, or the refusal of the first declaration that has a fault."""
    declared = Declared()
    for item in items:
        if isinstance(item, Variable):
            declared.add_variable(item)
        elif isinstance(item, Error):
            declared.add_error(item)
    return declared
