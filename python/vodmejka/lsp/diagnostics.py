"""The diagnostics of a text: faults of its bytes, tokens and grammar, of names and loops, and slips; and what the program reported when it was saved."""
from __future__ import annotations

import re
from collections.abc import Iterator, Mapping
from typing import Any

from .. import drivers, faults, items, source
from ..commands import slips
from ..commands.explain import expected
from ..sentences import DRIVER, RULES, marked
from .base import Base
from .checks import ERROR, HINT, INFORMATION, WARNING, Declared, token_length
from .occurrences import tokens_in
from .pieces import QUOTE_OR_COMMENT, Head, Piece, RuleText
from .texts import Text
from .workspace import DriverText, Workspace

MOST = 500
UNREADABLE = "\ufffd".encode()  # the replacement of a letter that an editor can't read
NEAR = 40  # within this many bytes after a bad byte a fault of grammar adds nothing

Diagnostic = dict[str, Any]


def diagnostic(text: Text, begin: int, end: int, severity: int, what: str, mend: str = "", **more: Any) -> Diagnostic:
    """A diagnostic of some bytes: `what` is what the program calls it, `mend` a sentence on what to do, and `more` is what code actions rest on."""
    code = re.sub(r" [^ ]*[A-Z0-9_][^ ]*$", "", what)
    found = {"range": text.range(begin, max(begin, min(end, len(text.content)))), "severity": severity, "source": "vodmejka", "code": code}
    found["message"] = f"{what}\n{mend}" if mend else what
    if more:
        found["data"] = {"what": what, **more}
    return found


def of_text(workspace: Workspace, text: Text) -> list[Diagnostic]:
    """All diagnostics of a text, in its order."""
    if isinstance(text, DriverText):
        found = list(of_driver(workspace, text))
    elif isinstance(text, RuleText):
        found = list(of_rules(workspace, text))
    else:
        found = []
    found += of_bytes(text)
    return sorted(found, key=lambda one: (one["range"]["start"]["line"], one["range"]["start"]["character"]))[:MOST]


# ---- rule files


def of_rules(workspace: Workspace, text: RuleText) -> Iterator[Diagnostic]:
    yield from of_grammar(text)
    bases = [base for base in workspace.bases_of(text) if not base.is_alone]
    known = {base.application for base in workspace.bases.values() if not base.is_alone}
    for base in bases:
        for piece, found in base.found.items():
            if piece.text is text:
                for finding in found:
                    begin, what = piece.begin + finding.begin, finding.what
                    mend = sentence(RULES, what) if finding.severity == ERROR else ""
                    token = text.decoded(text.content[begin : piece.begin + finding.end])
                    yield diagnostic(text, begin, piece.begin + finding.end, finding.severity, what, mend, token=token)
    if bases:
        yield from strange_applications(text, known)
    elif text.content.strip():
        at = workspace.list_of(text)
        line = f"{at} doesn't name this file" if at else "no rules.list stands beside this file or above it, and no setting names one"
        yield diagnostic(text, 0, 0, INFORMATION, f"names aren't looked at: {line}")


def of_grammar(text: RuleText) -> Iterator[Diagnostic]:
    """The faults of bytes and tokens, and of grammar."""
    all_faults = sorted(((piece.begin + fault.byte, fault, piece) for piece in text.pieces if piece.faults for fault in piece.faults), key=lambda one: one[0])
    bad = [byte for byte, fault, _ in all_faults if fault.what not in ("syntax", "too deep")]
    is_deep = False
    for byte, fault, piece in all_faults[: 4 * MOST]:
        if fault.what == "syntax" and (any(0 <= byte - other < NEAR for other in bad) or text.is_cut and piece.is_odd):
            continue
        if fault.what == "too deep":
            if is_deep:
                continue
            is_deep = True
        end = byte + fault_length(piece, byte, fault)
        mend = expected(fault) if fault.what in ("syntax", "bad byte") else sentence(RULES, fault.what)
        yield diagnostic(text, byte, end, ERROR, fault.what, mend, found=fault.found, wanted=list(fault.wanted))
    if text.is_cut:
        byte = next(match.start() for match in QUOTE_OR_COMMENT.finditer(text.content) if match[0] == b'"')
        yield diagnostic(text, byte, byte + 1, ERROR, "open string", RULES["open string"])
        odd = next((piece for piece in text.pieces if piece.is_odd), None)
        if odd is not None and (cut := cut_text(odd)) is not None and cut[0] != byte:
            yield diagnostic(text, *cut, HINT, "this text isn't closed in its line, and one below is never closed")


def fault_length(piece: Piece, byte: int, fault: items.Fault) -> int:
    if fault.what != "bad byte":
        return token_length(piece, byte - piece.begin)
    return len(source.MARK) if fault.found == "a byte order mark" else len(piece.text.encoded(fault.found))


def cut_text(piece: Piece) -> tuple[int, int] | None:
    """The bytes of the first text in a piece that isn't closed in its line."""
    token = next((token for token in tokens_in(piece) if token.kind == "text" and token.text[1:][-1:] != '"'), None)
    return None if token is None else (piece.begin + token.byte, piece.begin + token.byte + len(token.text))


def strange_applications(text: RuleText, known: set[str]) -> Iterator[Diagnostic]:
    """Applications of rules and verifications that no list has, each at its first place."""
    reported: set[str] = set()
    for number, piece in enumerate(text.pieces[:-1]):
        if isinstance(piece.item, Head):
            for application in text.pieces[number + 1].state.applications:
                if application not in known and application not in reported:
                    reported.add(application)
                    match = re.search(rb"\b%s\b" % application.encode(), text.content[piece.begin + piece.item.byte : piece.end])
                    begin = piece.begin + piece.item.byte + (match.start() if match else 0)
                    yield diagnostic(text, begin, begin + len(application), INFORMATION, f"application {application} is of no list that is known")


def sentence(sentences: Mapping[str, str], what: str) -> str:
    """What to mend."""
    return next((mend for name, mend in sentences.items() if what == name or what.startswith(name + " ")), "")


# ---- drivers


def of_driver(workspace: Workspace, text: DriverText) -> Iterator[Diagnostic]:
    bases = [base for base in workspace.bases.values() if workspace.driver_of(base) is text]
    variables = Declared(bases[0]) if bases and not bases[0].missing and not bases[0].maybe and all(file.is_whole for file in bases[0].texts) else None
    for fault in faults.faults_of_driver(text.path, text.driver, variables):
        begin, end = place_in_driver(text, fault)
        token_fault = fault.fault
        mend = expected(token_fault) if token_fault is not None and token_fault.found else sentence(DRIVER, fault.what)
        data = {"found": token_fault.found, "wanted": list(token_fault.wanted)} if token_fault is not None else {}
        yield diagnostic(text, begin, end, ERROR, fault.what, mend, token=text.decoded(text.content[begin:end]), **data)
    for base in bases if not text.driver.faults else []:
        yield from kinds_of_no_input(text, base)


def place_in_driver(text: DriverText, fault: faults.Found) -> tuple[int, int]:
    """The bytes of a fault: of a name that it has, of a token, or of a whole line."""
    start, line = text.starts[fault.line - 1], text.line(fault.line - 1)
    if fault.byte is not None:
        found = drivers.TOKEN.match(line, fault.byte)
        return start + fault.byte, start + (found.end() if found else fault.byte + 1)
    name = re.search(r" ([A-Za-z0-9_]+)(\[|$)", fault.what)
    match = re.search(rb"\b%s\b" % name[1].encode(), line) if name else None
    return (start + match.start(), start + match.end()) if match else (start + len(line) - len(line.lstrip()), start + len(line.rstrip()))


def kinds_of_no_input(text: DriverText, base: Base) -> Iterator[Diagnostic]:
    declared = (piece.item for found in base.variables.pieces.values() for piece in found if piece.item.kind == "saisie")
    inputs = [{word: number for word, number in item.attributes if number is not None} for item in declared if item.attributes]
    for attribute, values, line, byte in text.driver.kinds:
        numbers = {float(value) for value in values}
        if not any(attribute in attributes and float(attributes[attribute]) in numbers for attributes in inputs):
            begin = text.starts[line - 1] + byte
            yield diagnostic(text, begin, begin + len(attribute), WARNING, f"no input has {attribute} = {', '.join(values)}")


# ---- any text


def of_bytes(text: Text) -> Iterator[Diagnostic]:
    """The diagnostics of the bytes: a byte order mark that the client hides, carriage returns, and letters that the client could not read."""
    if text.on_disk is not None and text.on_disk.startswith(source.MARK) and not text.content.startswith(source.MARK):
        yield diagnostic(text, 0, 0, ERROR, "bad byte", marked())
    alone = re.search(rb"\r(?!\n)", text.content)
    if alone:
        yield diagnostic(text, alone.start(), alone.end(), WARNING, "a carriage return alone, which ends no line: a comment or a name goes on after it")
    lost = text.content.find(UNREADABLE)
    if lost >= 0 and text.on_disk is not None and UNREADABLE not in text.on_disk:
        what = "the editor could not read this letter: open the file as Latin-1 (ISO 8859-1), or it is lost when you save"
        yield diagnostic(text, lost, lost + len(UNREADABLE), ERROR, what)


def of_list(workspace: Workspace, base: Base) -> list[Diagnostic]:
    """The diagnostics of a list: that it can't be read, files that can't, and slips of the whole base."""

    def at(line: int, severity: int, what: str) -> Diagnostic:
        place = {"line": line, "character": 0}
        return {"range": {"start": place, "end": {"line": line, "character": 1_000}}, "severity": severity, "source": "vodmejka", "message": what}

    if base.fault:
        line = re.search(r" line ([0-9]+): ", base.fault)
        return [at(int(line[1]) - 1 if line else 0, ERROR, base.fault)]
    found = [at(line, ERROR, f"unreadable {name}: names count from {base.folder}") for line, name in base.missing]
    if all(text.is_whole for text in base.texts) and not base.missing:
        if not base.counted:
            found.append(at(0, WARNING, f"no rule is of the application {base.application}"))
        if not base.returned:
            found.append(at(0, WARNING, "no variable has restituee: without requests nothing is printed"))
        found += [at(0, INFORMATION, what.split(": ", 1)[1]) for what in slips.slips_of_folder(base.path, [text.path for text in base.texts])]
    return found
