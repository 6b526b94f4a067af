"""Inputs that a hostile writer would choose, and what must be printed for each, worked out by hand.

The shapes, in the order in which they are run, are in

    rule_shapes.py        rule files of one thing (comments, one name, one number, one text ..), and files that are too long or too many
    bracket_shapes.py     brackets in all levels of the grammar
    loop_shapes.py        loops, and what has many parts: memberships, terms, checks, formulas
    name_shapes.py        many names: chains and cycles of formulas, reads of tables, cells
    household_shapes.py   inputs with rows and requests, and the files of households, requests and lists
    driver_shapes.py      drivers
    session_shapes.py     sessions, tables of households, and `large`
    code_shapes.py        code files

and what all of these share in shape_cases.py.
"""
import bracket_shapes
import code_shapes
import driver_shapes
import household_shapes
import loop_shapes
import name_shapes
import rule_shapes
import session_shapes

MODULES = (rule_shapes, bracket_shapes, loop_shapes, name_shapes, household_shapes, driver_shapes, session_shapes, code_shapes)
SHAPES = [shape for module in MODULES for shape in module.SHAPES]
