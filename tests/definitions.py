#!/usr/bin/env python3
"""Every definition that the theorem of the program rests on, with its file and its lines: everything you must read to know what was proved.

    tests/definitions.py            prints how many there are, by crate and by command
    tests/definitions.py --head     prints the paragraph of docs/PROVED.md on it, and --write puts it there
    tests/definitions.py --page     prints each definition with its place and its lines, as a page

It begins at the clauses of `m_tax` in m_commands, and follows the names that each definition of `crates/*/specs` and each type
of `crates/*/src` cites. What the kit states (lists, numbers, options) is not followed. Lines of comments and empty lines aren't counted.
"""
import os
import re
import sys

ROOT = os.path.dirname(os.path.dirname(os.path.abspath(__file__)))
WORD = re.compile(r"[A-Za-z_][A-Za-z0-9_'-]*(?:\.[A-Za-z_][A-Za-z0-9_'-]*)*")
HEAD = re.compile(r"^(?:abbrev |pub |opaque |instance )*(?:data |record |type )?([A-Za-z_◌][^\s:(){}]*)")


def read(path):
    with open(os.path.join(ROOT, path), encoding="utf-8") as text:
        return text.read().split("\n")


def imports(lines, mark):
    """The names that use lines bring: a name of this file to (module, name), and an alias to (module, None)."""
    text = "\n".join(lines)
    found = {}
    for module, names, alias in re.findall(rf"^(?:pub )?{mark}use (Rattle\.[\w.]+?)(?:\.\{{([^}}]*)\}};?| as (\w+);?)$", text, re.M):
        if alias:
            found[alias] = (module, None)
        for name in filter(None, (part.strip() for part in names.split(","))):
            first, _, other = name.partition(" as ")
            found[other or first] = (module, first)
    return found


class Definition:
    def __init__(self, crate, path, line, name):
        self.crate, self.path, self.line, self.name = crate, path, line, name
        self.count, self.words, self.is_data, self.is_sealed = 0, set(), False, False

    def add(self, text):
        code = re.sub(r"(^|\s)(--|//).*$", "", text)
        if code.strip():
            self.count += 1
            self.words.update(WORD.findall(code))


def of_specs(crate, module):
    """The definitions of a file of specs by name, and what it imports."""
    path = f"crates/{crate}/specs/{module.replace('.', '/')}.antt"
    if not os.path.exists(os.path.join(ROOT, path)):
        return {}, {}
    lines, found, now, within = read(path), {}, None, [0]
    for number, text in enumerate(lines, 1):
        indent = len(text) - len(text.lstrip())
        while text.strip() and indent < within[-1]:
            within.pop()
        if re.match(r"(abbrev |pub )*mutual$|module .* where$", text.strip()):
            within.append(indent + 2)
            continue
        text = text[within[-1]:]
        if not text.strip() or text.startswith(("--", "use ", "pub use ", "mod ", "pub mod ")):
            continue
        if not text[0].isspace() and text[0] not in ")}]":
            name = HEAD.match(text)
            if not name:
                sys.exit(f"{path}:{number}: no definition is read here: {text}")
            name = name.group(1)
            if name not in found:
                found[name] = Definition(crate, path, number, name)
                found[name].is_data = bool(re.match(r"(pub )?data ", text))
                # of a definition that no proof unfolds, only the type is known
                found[name].is_sealed = bool(re.match(r"(pub )?(?!data |record |abbrev |unfoldable |mutual)\S+ :", text)) and within == [0]
            elif found[name].is_sealed:
                now = None
                continue
            now = found[name]
        elif now is None:
            continue
        elif now.is_data:
            case = re.match(r"\s+([A-Za-z_][\w']*)\s*:", text)
            if case and case.group(1) not in found:
                found[case.group(1)] = now
        now.add(text)
    return found, imports(lines, "")


def of_type(crate, module, name):
    """A struct or enum of a crate's code with its ghost view."""
    path = f"crates/{crate}/src/{module.replace('.', '/')}.rt"
    if not os.path.exists(os.path.join(ROOT, path)):
        path = f"crates/{crate}/src/lib.rt"
    lines = read(path)
    found, inside = None, False
    for number, text in enumerate(lines, 1):
        if re.match(rf"pub (struct|enum|trait) {name}\b", text) or re.match(rf"impl(<.*>)? Model for {name}\b", text):
            found = found or Definition(crate, path, number, name)
            inside = True
        if inside:
            found.add(text)
            inside = text not in ("}",) and not (text.endswith(";") and not text[0].isspace())
    return found, imports(lines, "ghost ")


class Reading:
    """Walks from names to the definitions that they name, each once."""

    def __init__(self, left_out=()):
        self.files, self.types, self.seen, self.left_out = {}, {}, {}, left_out

    def find(self, module, name):
        """The definition by which a name of a module is known, with its module, and the imports and neighbours of its file."""
        parts = module.split(".")
        crate, kind = parts[1], parts[2] if len(parts) > 2 else ""
        if not os.path.isdir(os.path.join(ROOT, "crates", crate)) or kind != "specs":
            return None
        if len(parts) > 3 and parts[3] == "declared":
            rest = [part for part in parts[4:] if part not in ("TheVariants", "TheConstants")]
            if parts[-1] == "TheConstants":
                return None
            type_name = rest[-1] if rest else name
            key = (crate, ".".join(rest[:-1]), type_name)
            if key not in self.types:
                self.types[key] = of_type(*key)
            found, names = self.types[key]
            return (found, module, names, {}) if found else None
        key = (crate, ".".join(parts[3:]))
        if key not in self.files:
            self.files[key] = of_specs(*key)
        found, names = self.files[key]
        if name in found:
            return found[name], module, names, found
        # a file may hand on what another one defines
        return self.find(names[name][0], names[name][1] or name) if name in names else None

    def walk(self, todo):
        while todo:
            module, name = todo.pop()
            known = self.find(module, name)
            if not known or name in self.left_out:
                continue
            definition, module, names, neighbours = known
            key = (definition.path, definition.line)
            if key in self.seen:
                continue
            self.seen[key] = definition
            for word in definition.words:
                first, _, rest = word.partition(".")
                if word in neighbours:
                    todo.append((module, word))
                elif first in neighbours:
                    todo.append((module, first))
                elif first in names:
                    source, only = names[first]
                    todo.append((source, only or rest.split(".")[0]))


def clauses():
    """The names in the clauses of `m_tax`, and the traits of what it is given."""
    path = "crates/m_commands/src/program.rt"
    lines = read(path)
    begin = next(n for n, text in enumerate(lines) if text.startswith("pub fn m_tax"))
    end = next(n for n in range(begin, len(lines)) if lines[n] == "{")
    top = Definition("m_commands", path, begin + 1, "m_tax")
    for text in lines[begin:end]:
        top.add(text)
    names = imports(lines, "ghost ")
    todo = [names[word] for word in (w.split(".")[0] for w in top.words) if word in names]
    todo += [(f"Rattle.m_ports.specs.declared.{name.lower()}.{name}", name) for name in ("Files", "Source", "Sink")]
    return top, todo


def answers():
    """What each command answers: the names of its definitions, each with its module. `compile` has a clause of its own."""
    path = "crates/m_commands/specs/Answer.antt"
    lines = read(path)
    names, found = imports(lines, ""), {}
    for text in lines:
        said = re.match(r"(?:Replies|CutOff|InFull|HasAnswer) \((\w+) [^)]*\).* = (.*)", text)
        if said:
            found.setdefault(said[1].lower(), set()).update(names[word] for word in re.findall(r"\w+", said[2]) if word in names)
    found["compile"].add(("Rattle.m_commands.specs.Clauses", "WritesCode"))
    return found


def by_command():
    """Of each command: how many lines there are to read for its answers alone, with all that they lead to; and the lines that every command
    needs, those of the clauses without any answer."""
    found = answers()
    alone = {name for names in found.values() for _, name in names}
    frame = Reading(alone)
    top, todo = clauses()
    frame.walk(todo)
    shared = top.count + sum(d.count for d in frame.seen.values())
    rows = []
    for command, names in found.items():
        reading = Reading(set())
        reading.walk(list(names))
        rows.append((command, shared + sum(d.count for key, d in reading.seen.items() if key not in frame.seen)))
    return shared, rows


def head(found):
    """The paragraph of docs/PROVED.md: how many definitions there are, and how many lines one must read for one command."""
    shared, commands = by_command()
    return (
        f"The clauses of `m_tax` lead to {len(found)} definitions and types with {sum(d.count for d in found)} lines, down to the operators; comments, and "
        "what the kit states of lists, numbers\nand options, aren't counted. "
        f"{shared} of these lines are shared by all commands: arguments, files, limits, statuses, and what is written when something fails.\n"
        "For one command alone, with the shared lines:\n\n"
        "| " + " | ".join(f"`{command}`" for command, _ in commands) + " |\n"
        "|" + "---:|" * len(commands) + "\n"
        "| " + " | ".join(str(count) for _, count in commands) + " |\n"
    )


def write_head(found):
    """Puts the paragraph into docs/PROVED.md, in the place of the one there."""
    text = "\n".join(read("docs/PROVED.md"))
    begin, end = text.index("The clauses of `m_tax` lead to"), text.index("\n`tests/definitions.py --page`")
    with open(os.path.join(ROOT, "docs/PROVED.md"), "w", encoding="utf-8") as page:
        page.write(text[:begin] + head(found) + text[end:])


def by_crate(found):
    """The definitions of each crate, the crates in order of their names."""
    crates = {}
    for d in found:
        crates.setdefault(d.crate, []).append(d)
    return sorted(crates.items())


def print_page(found):
    """Prints each definition with its place and its lines."""
    print("# Everything you must read to know what was proved\n")
    print(head(found))
    print("| Crate | definitions | lines |\n|---|---:|---:|")
    for crate, rows in by_crate(found):
        print(f"| {crate} | {len(rows)} | {sum(d.count for d in rows)} |")
    for crate, rows in by_crate(found):
        print(f"\n## {crate}\n")
        files = {}
        for d in rows:
            files.setdefault(d.path, []).append(d)
        for path in sorted(files):
            named = ", ".join(f"`{d.name}` {d.count}" for d in sorted(files[path], key=lambda d: d.line))
            print(f"- [{path[len('crates/'):]}](../{path}): {named}")


def main():
    reading = Reading()
    top, todo = clauses()
    reading.walk(todo)
    found = [top, *sorted(reading.seen.values(), key=lambda d: (d.path, d.line))]
    match sys.argv[1:]:
        case []:
            for crate, rows in by_crate(found):
                print(f"{crate}: {len(rows)} definitions, {sum(d.count for d in rows)} lines")
            for command, count in by_command()[1]:
                print(f"{command} alone: {count} lines")
            print(f"all: {len(found)} definitions, {sum(d.count for d in found)} lines")
        case ["--head"]:
            print(head(found), end="")
        case ["--write"]:
            write_head(found)
        case ["--page"]:
            print_page(found)
        case _:
            sys.exit(__doc__)


main()
