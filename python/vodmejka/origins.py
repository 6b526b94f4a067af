"""By which commands a driver sets a variable: for each requested one, the lines that give it its value, and the calls that they go through."""
from . import drivers, source

MOST = 200
RULES = "call_m"


class Command:
    """A command of a function: its line, its parse, the lines of the blocks round it."""

    def __init__(self, line, said, text, blocks):
        self.line, self.said, self.text, self.blocks = line, said, text, blocks

    def cells(self):
        """The cells that the command sets."""
        if self.said[0] == "call":
            return [drivers.cell_name(cell) for cell in self.said[1]]
        return [drivers.cell_name(self.said[1])] if self.said[0] in ("set", "del") else []

    def is_sure(self):
        """Whether the command is done each time that its function is."""
        return not any(said[0] in ("if", "else") for _, said, _ in self.blocks)


class Origins:
    """The functions of a driver without faults, and the inputs of each kind that a partition hides."""

    def __init__(self, content, variables):
        self.variables, self.functions = variables, {}
        lines, blocks, commands = source.lines_of(content), [], []
        for line, said in drivers.Driver(content).said:
            text = lines[line.number - 1].split(b"#")[0].decode("latin-1").strip()
            while blocks and blocks[-1][0].indent >= line.indent:
                blocks.pop()
            if said[0] == "function":
                commands = self.functions.setdefault(said[1], [])
            elif said[0] in ("if", "else", "partition"):
                blocks.append((line, said, text))
            else:
                commands.append(Command(line, said, text, list(blocks)))

    def of(self, cell):
        """The origins of a cell at the end of the run."""
        self.left = MOST
        return self.before("main", len(self.functions.get("main", ())), cell, [], None)

    def before(self, function, at, cell, hidden, caller):
        """The origins of a cell before a command of a function, from the last command that sets it back to one that is sure to be done."""
        found = []
        commands = self.functions.get(function, [])
        for k in range(at - 1, -1, -1):
            if cell not in commands[k].cells():
                continue
            self.left -= 1
            if self.left < 0:
                return found
            found.append(self.origin(function, k, cell, hidden, caller))
            if commands[k].is_sure():
                return found
        return found + (self.before(*caller[:2], cell, *caller[2:]) if caller else [])

    def origin(self, function, k, cell, hidden, caller):
        """One origin: the line, the lines of blocks round it, and what the command takes the value from."""
        command = self.functions[function][k]
        hidden = sorted({*hidden, *self.hidden_by(command)})
        said = {"line": command.line.number, "text": command.text, "blocks": [[line.number, text] for line, _, text in command.blocks]}
        if command.said[0] == "call" and command.said[2] == RULES:
            return {**said, "by": "rules", "cell": cell, "hidden": hidden}
        if command.said[0] == "call":
            callee = command.said[2]
            below = self.before(callee, len(self.functions.get(callee, ())), cell, hidden, (function, k, hidden, caller))
            return {**said, "by": "call", "cell": cell, "below": below}
        if command.said[0] == "del":
            return {**said, "by": "del", "cell": cell}
        reads = dict.fromkeys(cell for cell in self.cells_in(command) if self.is_variable(cell))
        return {**said, "by": "set", "cell": cell, "below": [part for read in reads for part in self.before(function, k, read, hidden, caller)]}

    @staticmethod
    def cells_in(command):
        """The cells that an assignment reads."""
        reader = drivers.LineReader(command.line.tokens)
        reader.line()
        return [drivers.cell_name(cell) for cell in reader.cells[1:]]

    def is_variable(self, cell):
        return cell.split("[")[0] in self.variables

    def hidden_by(self, command):
        """The codes of the inputs that the partitions round a command make undefined."""
        for _, said, _ in command.blocks:
            if said[0] == "partition":
                codes = (self.variables[name].code for name in drivers.inputs_of_kind(self.variables, *said[1:]))
                yield from (code for code in codes if code is not None)
