"""What ends a command before it has done its work."""

from .texts import decimal


class Refused(Exception):
    """The input is refused: the one line that is printed."""

    def __init__(self, line):
        super().__init__(line)
        self.line = line


class RingRefused(Refused):
    """Cells or functions that need each other in a ring, from its least member on. Another true ring may be shown."""

    def __init__(self, front, names, follows, ring):
        """`names` are those of all members by their numbers; `follows(k)` are the members that the member k needs."""
        least = ring.index(min(ring))
        super().__init__(front + b"".join(b" " + names[member] for member in ring[least:] + ring[:least]))
        self.front = front
        self.names = names
        self.follows = follows

    def shows_one(self, line):
        """Whether a line shows a true ring: all differ, the least is first, each needs the next, the last the first."""
        if not line.startswith(self.front + b" "):
            return False
        numbers = {name: number for number, name in enumerate(self.names)}
        ring = [numbers.get(name) for name in line[len(self.front) + 1:].split(b" ")]
        if None in ring or len(set(ring)) != len(ring) or ring[0] != min(ring):
            return False
        return all(second in self.follows(first) for first, second in zip(ring, ring[1:] + ring[:1]))


class Unreadable(Exception):
    """A file can't be read."""

    def __init__(self, name):
        super().__init__(name)
        self.name = name


class Stopped(Exception):
    """A run is stopped, by a verification or by a condition of the driver: the lines that say so."""

    def __init__(self, lines):
        super().__init__(lines)
        self.lines = lines


def at_place(place, words):
    """The refusal of a rule file for something at a place."""
    where = b" line " + decimal(place.line) + b" byte " + decimal(place.byte)
    return Refused(b"refused " + place.file_name + where + b": " + words)


def at_driver_line(line, words):
    """The refusal of a driver for something in a line."""
    return Refused(b"refused driver line " + decimal(line) + b": " + words)


def order_or_ring(members, follows):
    """Members, and all that they need, in an order in which each comes after all that it needs; and a cycle in which each needs the next, if there is one."""
    order = []
    done = set()
    for start in members:
        if start in done:
            continue
        way = [start]
        on_way = {start}
        left = [iter(follows(start))]
        while way:
            member = next(left[-1], None)
            if member is None:
                last = way.pop()
                left.pop()
                on_way.remove(last)
                done.add(last)
                order.append(last)
            elif member in on_way:
                return [], way[way.index(member):]
            elif member not in done:
                way.append(member)
                on_way.add(member)
                left.append(iter(follows(member)))
    return order, []
