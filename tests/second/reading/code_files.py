"""Code files: parsing with the first fault, and the answers of their code for a household.

A text without a fault is the one spelling of its code, so nothing is written here. Whether a text is the code of a source is
decided by its words, by what it stores, and by its answers for some households.
"""

import random
import re

from .amounts import GREATEST, OVER, UNDEFINED, UNIT, operate
from .faults import Refused
from .findings import amount_of_type
from .moves import REGISTERS, Moves
from .records import record_fields
from .reports import value_line
from .texts import decimal, is_word
from .tokens import RESERVED

HEADER = b"mcode 1"
MOST_COUNTED = 2**32 - 1
MOST_CELL = 1_023

UNARY = b"neg not present abs positif positif_ou_nul null arr inf truth".split()
BINARY = b"add sub mul div eq ne lt le gt ge and or max min at".split()
ARITY = {**{word: 1 for word in UNARY}, **{word: 2 for word in BINARY}, b"choose": 3}

WHOLE = re.compile(rb"0|[1-9][0-9]*")
SIGNED = re.compile(rb"0|-?[1-9][0-9]*")
VERIFICATION = re.compile(rb"[0-9]{1,9}")
PLAIN_NAME = re.compile(rb"[0-9]*[A-Z_][0-9A-Z_]*")
CELL_NAME = re.compile(rb"([^\[]*)(?:\[(0|[1-9][0-9]*)\])?", re.DOTALL)
HEX = re.compile(rb"(?:[0-9a-f]{2})+")
KINDS = (b"anomalie", b"discordance", b"informative")
STAGES = {b"slots": 0, b"input": 1, b"label": 2, b"note": 3, b"output": 4, b"code": 5}


class NotDue(Exception):
    """A line isn't of the expected form, or a number isn't valid in its place."""


class ReadTooEarly(Exception):
    """A line reads a register or a slot that no earlier line wrote."""


def whole(word, count):
    """The number below a count that a word spells without needless zeros."""
    if not WHOLE.fullmatch(word) or len(word) > 10 or int(word) >= count:
        raise NotDue
    return int(word)


def is_plain_name(text):
    """Whether this is a name: a word without a small letter that isn't reserved."""
    return PLAIN_NAME.fullmatch(text) is not None and text not in RESERVED


def is_cell_name(text):
    """Whether this names a cell, as `IRN` or `T[1]`."""
    match = CELL_NAME.fullmatch(text)
    if match is None or not is_plain_name(match.group(1)):
        return False
    return match.group(2) is None or len(match.group(2)) <= 4 and int(match.group(2)) <= MOST_CELL


def literal(word):
    """The value of a literal: `undef`, `over`, or whole millionths."""
    if word == b"undef":
        return UNDEFINED
    if word == b"over":
        return OVER
    if not SIGNED.fullmatch(word) or len(word) > 21 or abs(int(word)) > GREATEST:
        raise NotDue
    return int(word)


class Code:
    """A code file without a fault so far: what comes before the instructions, and these."""

    def __init__(self):
        self.slots = None
        self.inputs = {}
        self.types = []
        self.labels = []
        self.outputs = []
        self.instructions = []
        self.written = [False] * REGISTERS
        self.stored = set()
        self.given = set()
        self.stage = 0
        self.ended = False

    # ---- reading

    def read_line(self, line):
        """Takes the next line in."""
        words = line.split(b" ")
        if self.ended:
            raise NotDue
        if self.stage == STAGES[b"code"]:
            self.read_instruction(words)
            return
        stage = STAGES.get(words[0])
        if stage is None or stage < self.stage or (self.slots is None) != (stage == 0):
            raise NotDue
        self.stage = stage
        FACE[words[0]](self, words[1:])

    def read_slots(self, words):
        """How many slots there are."""
        (count,) = exactly(words, 1)
        self.slots = whole(count, MOST_COUNTED + 1)

    def read_input(self, words):
        """An input: its code, which no other has, and perhaps its type."""
        if len(words) not in (1, 2) or words[1:] not in ([], [b"whole"], [b"truth"]):
            raise NotDue
        if not is_word(words[0]) or words[0] in RESERVED or words[0] in self.inputs:
            raise NotDue
        self.inputs[words[0]] = len(self.inputs)
        self.types.append(words[1] if len(words) == 2 else b"")

    def read_label(self, words):
        """The label of a check: of a verification, or of a line of the driver."""
        if words[:1] == [b"driver"]:
            (line,) = exactly(words[1:], 1)
            self.labels.append((b"driver", whole(line, MOST_COUNTED + 1)))
            return
        form, number, error, kind, text = exactly(words, 5)
        if form != b"verif" or not VERIFICATION.fullmatch(number) or not is_plain_name(error) or kind not in KINDS or not HEX.fullmatch(text):
            raise NotDue
        self.labels.append((b"verif", number, error, kind, bytes.fromhex(text.decode())))

    def read_note(self, words):
        """An output that reports a verification."""
        (number,) = exactly(words, 1)
        label = whole(number, len(self.labels))
        if self.labels[label][0] != b"verif":
            raise NotDue
        self.outputs.append((b"note", label))

    def read_output(self, words):
        """An output that is the value of a cell."""
        (name,) = exactly(words, 1)
        if not is_cell_name(name):
            raise NotDue
        self.outputs.append((b"output", name))

    def read_begin(self, words):
        """The line before the instructions."""
        exactly(words, 0)

    def read_instruction(self, words):
        """An instruction, or the end. Its numbers are looked at first, and then what it reads."""
        if words == [b"end"]:
            if len(self.given) != len(self.outputs):
                raise NotDue
            self.ended = True
            return
        if words[0] not in INSTRUCTIONS:
            raise NotDue
        self.instructions.append(INSTRUCTIONS[words[0]](self, *words[1:]) if len(words) in LENGTHS[words[0]] else exactly(words, 0))

    def read_registers(self, numbers):
        """These registers are read."""
        if not all(self.written[number] for number in numbers):
            raise ReadTooEarly

    def take(self, target, number):
        """`in D N`"""
        read = ("in", whole(target, REGISTERS), whole(number, len(self.inputs)))
        self.written[read[1]] = True
        return read

    def lit(self, target, word):
        """`lit D V`"""
        read = ("lit", whole(target, REGISTERS), literal(word))
        self.written[read[1]] = True
        return read

    def do(self, target, operator, *arguments):
        """`do D OP A ..`, with as many arguments as the operator has"""
        read = ("do", whole(target, REGISTERS), operator.decode("latin-1"), [whole(argument, REGISTERS) for argument in arguments])
        if ARITY.get(operator) != len(arguments):
            raise NotDue
        self.read_registers(read[3])
        self.written[read[1]] = True
        return read

    def store(self, slot, register):
        """`st S R`"""
        read = ("st", whole(slot, self.slots), whole(register, REGISTERS))
        self.read_registers([read[2]])
        self.stored.add(read[1])
        return read

    def load(self, target, slot):
        """`ld D S`"""
        read = ("ld", whole(target, REGISTERS), whole(slot, self.slots))
        if read[2] not in self.stored:
            raise ReadTooEarly
        self.written[read[1]] = True
        return read

    def check(self, guard, condition, label, over_only=False):
        """`ck G C L`"""
        read = ("ck", whole(guard, REGISTERS), whole(condition, REGISTERS), over_only, whole(label, len(self.labels)))
        self.read_registers([read[1], read[2]])
        return read

    def check_over(self, guard, condition, label):
        """`co G C L`"""
        return self.check(guard, condition, label, True)

    def out(self, output, register):
        """`out K R`, once for each output"""
        read = ("out", whole(output, len(self.outputs)), whole(register, REGISTERS))
        if read[1] in self.given:
            raise NotDue
        self.read_registers([read[2]])
        self.given.add(read[1])
        return read

    # ---- what it prints

    def ran(self, amounts):
        """The lines of a household's stop or None, and the values of the outputs by their numbers. It is numbers of inputs with their amounts."""
        given = dict(amounts)
        registers, slots, outputs = [UNDEFINED] * REGISTERS, {}, {}
        for instruction in self.instructions:
            word = instruction[0]
            if word == "in":
                registers[instruction[1]] = given.get(instruction[2], UNDEFINED)
            elif word == "lit":
                registers[instruction[1]] = instruction[2]
            elif word == "do":
                registers[instruction[1]] = operate(instruction[2], [registers[argument] for argument in instruction[3]])
            elif word == "st":
                slots[instruction[1]] = registers[instruction[2]]
            elif word == "ld":
                registers[instruction[1]] = slots[instruction[2]]
            elif word == "out":
                outputs[instruction[1]] = registers[instruction[2]]
            elif registers[instruction[1]] == UNIT:
                value = registers[instruction[2]]
                if value is OVER or not instruction[3] and value is not UNDEFINED and value != 0:
                    return self.stop_lines(self.labels[instruction[4]], value is OVER), {}
        return None, outputs

    def told(self, amounts):
        """The lines printed for a household, and whether it was stopped."""
        stop, outputs = self.ran(amounts)
        if stop is not None:
            return stop, True
        return b"".join(self.output_line(output, outputs[number]) for number, output in enumerate(self.outputs)), False

    def record(self, amounts):
        """The fields of a household's record after its label: its stop, its notes and its values."""
        stop, outputs = self.ran(amounts)
        names = self.request_names()
        if stop is not None:
            return record_fields(stop, [], [], len(names))
        told = [self.labels[output[1]] for number, output in enumerate(self.outputs) if output[0] == b"note" and is_told(outputs[number])]
        values = [outputs[number] for number, output in enumerate(self.outputs) if output[0] == b"output"]
        return record_fields(None, [(label[1], label[2]) for label in told], values, len(names))

    def request_names(self):
        """The names of the requests, in order."""
        return [output[1] for output in self.outputs if output[0] == b"output"]


    def stop_lines(self, label, is_over):
        """The lines of a stop at a label."""
        if label[0] == b"driver":
            return b"over driver line " + decimal(label[1]) + b"\n"
        if is_over:
            return b"over verification " + label[1] + b" " + label[2] + b"\n"
        return told_label(b"failed", label)

    def output_line(self, output, value):
        """The lines of an output: a note is printed if its value is a number other than 0."""
        if output[0] == b"output":
            return value_line(output[1], value)
        return told_label(b"noted", self.labels[output[1]]) if is_told(value) else b""


FACE = {
    b"slots": Code.read_slots,
    b"input": Code.read_input,
    b"label": Code.read_label,
    b"note": Code.read_note,
    b"output": Code.read_output,
    b"code": Code.read_begin,
}
INSTRUCTIONS = {
    b"in": Code.take,
    b"lit": Code.lit,
    b"do": Code.do,
    b"st": Code.store,
    b"ld": Code.load,
    b"ck": Code.check,
    b"co": Code.check_over,
    b"out": Code.out,
}
LENGTHS = {b"in": (3,), b"lit": (3,), b"do": (4, 5, 6), b"st": (3,), b"ld": (3,), b"ck": (4,), b"co": (4,), b"out": (3,)}


def exactly(words, count):
    """These words, if there are `count` of them."""
    if len(words) != count:
        raise NotDue
    return words


def is_told(value):
    """Whether a note with this value is printed."""
    return value is not UNDEFINED and value is not OVER and value != 0


def told_label(word, label):
    """The two lines of a verification."""
    return b" ".join([word, label[1], label[2], label[3]]) + b"\n" + label[4] + b"\n"


def read_code(text):
    """The code of a code file, or the refusal of the first line with a fault. A last piece without a line feed is no line."""
    *lines, rest = text.split(b"\n")
    if not lines or lines[0] != HEADER:
        raise Refused(b"refused code: bad header")
    code = Code()
    for number, line in enumerate(lines[1:], 2):
        try:
            code.read_line(line)
        except NotDue:
            raise Refused(b"refused code line " + decimal(number) + b": bad line") from None
        except ReadTooEarly:
            raise Refused(b"refused code line " + decimal(number) + b": read before write") from None
    if not code.ended or rest:
        raise Refused(b"refused code line " + decimal(len(lines) + 1) + b": bad line")
    return code


# ---- the code of a source

TRIED = 4


def why_not_of(text, compiled):
    """Why a text isn't a code file of a source, or None. Its words are the source's, and so are its answers for some households; and it has few moves."""
    try:
        code = read_code(text)
    except Refused as refusal:
        return refusal.line
    declared = compiled.declared
    if list(code.inputs) != list(declared.inputs) or code.types != list(declared.types.values()):
        return b"other inputs"
    checks = [(b"verif", label.verification, label.error, label.kind, label.text) for _, label in compiled.base.checks]
    if code.labels[:len(checks)] != checks or any(label[0] != b"driver" for label in code.labels[len(checks):]):
        return b"other labels"
    notes = [number for kind, number in code.outputs if kind == b"note"]
    if code.outputs != [(b"note", number) for number in notes] + [(b"output", name) for name in compiled.request_names]:
        return b"other outputs"
    if any(number >= len(checks) or checks[number][3] == b"anomalie" for number in notes):
        return b"a note of another label"
    if not Moves(code.instructions).are_few(code.slots):
        return b"too many slots, stores or loads"
    cells = list(declared.inputs.values())
    draw = random.Random(len(text))
    for number in range(TRIED):
        chosen = [k for k in range(len(cells)) if number and draw.random() < 0.6]
        amounts = [amount_of_type(draw, code.types[k]) for k in chosen]
        wanted = compiled.told([(cells[k], amount) for k, amount in zip(chosen, amounts)])
        if code.told(zip(chosen, amounts)) != wanted:
            return b"another answer to a household"
    return None
