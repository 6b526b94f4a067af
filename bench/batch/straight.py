#!/usr/bin/env python3
"""Writes straight-line C for a code file: each instruction is one statement, registers and slots are variables of the function.

    straight.py CODE > straight.c

The C program reads a table from its first argument, and prints what `m_tax batch` prints for it of the source that the code was compiled of.
"""
import os
import sys

HERE = os.path.dirname(os.path.abspath(__file__))
sys.path.insert(0, os.path.join(os.path.dirname(os.path.dirname(HERE)), "tests", "second"))
sys.path.insert(0, HERE)
from plain_c import number, program, quoted  # noqa: E402
from reading.code_files import read_code, told_label  # noqa: E402


def stop(label, is_over):
    """What is printed where a run stops at a label."""
    if label[0] == b"driver":
        return b"over driver line %d\n" % label[1]
    return b"over verification " + label[1] + b" " + label[2] + b"\n" if is_over else told_label(b"failed", label)


def statement(code, step):
    """One statement for an instruction."""
    word = step[0]
    if word == "in":
        return f"r{step[1]} = in[{step[2]}];"
    if word == "lit":
        return f"r{step[1]} = {number(step[2])};"
    if word == "do":
        return f"r{step[1]} = m_{step[2]}({', '.join(f'r{k}' for k in step[3])});"
    if word == "st":
        return f"s{step[1]} = r{step[2]};"
    if word == "ld":
        return f"r{step[1]} = s{step[2]};"
    if word == "out":
        return f"o{step[1]} = r{step[2]};"
    _, guard, condition, over_only, label = step
    fails = "" if over_only else f" if (holds(r{condition})) {{ fputs({quoted(stop(code.labels[label], False))}, stdout); return; }}"
    stops = f"if (r{condition}.k == 2) {{ fputs({quoted(stop(code.labels[label], True))}, stdout); return; }}"
    return f"if (r{guard}.k == 0 && r{guard}.v == ONE) {{ {stops}{fails} }}"


def shown(code, place):
    kind, said = code.outputs[place]
    if kind == b"output":
        return f"show({quoted(said)}, o{place});"
    return f"if (holds(o{place})) fputs({quoted(told_label(b'noted', code.labels[said]))}, stdout);"


def main():
    with open(sys.argv[1], "rb") as text:
        code = read_code(text.read())
    names = [*(f"r{k}" for k in range(16)), *(f"s{k}" for k in range(code.slots)), *(f"o{k}" for k in range(len(code.outputs)))]
    lines = ["static void answer(const value *in) {", f"    value {', '.join(f'{name} = undef' for name in names)};"]
    lines += [f"    {statement(code, step)}" for step in code.instructions]
    lines += [f"    {shown(code, place)}" for place in range(len(code.outputs))]
    print(program(list(code.inputs), [*lines, "}"]))


main()
