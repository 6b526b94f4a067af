"""What a shape and its case are made of: what the modules of shapes share.

A shape is made for a size: the bytes of a file, or how many functions, names, rows and so on there are. Its case has the files (each a text or
pieces of it), the words of the command, what is typed, what must be printed, and the status.
"""

FILE = 16_777_216  # bytes of a file
GREATEST = 4_000_000  # weight of a driver
PARTS = 2_000_000
DEEP = (8192, 512)  # KB of stack, of a shape that is also run with a small one


class Shape:
    def __init__(self, name, make, full, grows, stacks, little):
        self.name, self.make, self.full, self.grows, self.stacks, self.little = name, make, full, grows, stacks, little


def into(shapes):
    """The decorator that adds a shape to these."""

    def shape(name, full, grows=10, stacks=(8192,), little=False):
        """A shape of a size; how many times as great it is as at a tenth of that, or nothing where it isn't compared; whether it also runs in little memory."""

        def add(make):
            shapes.append(Shape(name, make, full, grows, stacks, little))
            return make

        return add

    return shape


EMPTY = "code,amount\n"
RULE = 'regle 1 : application : iliad ;\n'
BASE = 'A : calculee restituee : "" ;\n' + RULE + "A = 1 ;\n"
ONE = 'A : calculee restituee : "" ;\n'


def case(rules, prints, status=0, driver=None, requests=None, household=EMPTY, command="run", files=None, typed=None):
    """A case of one rule file, a.m, or of several files, each with its pieces."""
    files = dict(files) if files else {"a.m": rules}
    names = [*files]
    files["list"] = "iliad\n" + "".join(name + "\n" for name in names)
    files["household"] = household
    if driver is not None:
        files["driver"] = driver
    if requests is not None:
        files["requests"] = requests
    words = [command, "list", "driver" if driver is not None else "-", "requests" if requests is not None else "-", "household"]
    made = {"files": files, "words": words, "prints": prints, "status": status}
    if typed is not None:
        made["typed"] = typed
    return made


def filled(piece, size, rest=""):
    """A piece repeated as often as leaves room for the rest within a size in bytes, and the rest."""
    yield from many(piece, (size - len(rest)) // len(piece))
    yield rest


def many(piece, count):
    block = piece * max(1, min(count, 65_536 // len(piece) + 1))
    each = len(block) // len(piece)
    for _ in range(count // each):
        yield block
    yield piece * (count % each)


def packed(pieces, size=FILE):
    """Rule files a0.m, a1.m and so on of these pieces, none of more than the given size."""
    files, room = {}, 0
    for piece in pieces:
        if not files or room + len(piece) > size:
            files[f"a{len(files)}.m"] = last = []
            room = 0
        last.append(piece)
        room += len(piece)
    return files


def refused(what, file="a.m", line=1, byte=0):
    return f"refused {file} line {line} byte {byte}: {what}\n"
