"""What tests of batches share."""
import os
import tempfile
import unittest

from test_vodmejka import RULES
from vodmejka import Rules
from vodmejka.program import program_path


class Room(unittest.TestCase):
    """A folder with the rules of test_vodmejka, and batches by them."""

    def setUp(self):
        self.room = tempfile.TemporaryDirectory()
        self.addCleanup(self.room.cleanup)
        self.put("a.m", RULES)
        self.list = self.put("l.txt", f"iliad\n{self.room.name}/a.m\n")
        self.rules = self.rules_by()

    def put(self, name, text):
        path = os.path.join(self.room.name, name)
        with open(path, "w", encoding="latin-1") as file:
            file.write(text)
        return path

    def rules_by(self, script=None, **words):
        """The rules by the program, or by a script that hands most words to it."""
        if script is None:
            return Rules(self.list, cache=self.room.name + "/cache", **words)
        path = self.put("script", f'#!/bin/sh\ncd {self.room.name}\n[ "$1" = batch ] && {{ {script} }}\ncd - >/dev/null\nexec {program_path()} "$@"\n')
        os.chmod(path, 0o755)
        return Rules(self.list, cache=self.room.name + "/cache", program=path, **words)

    def told_before(self, rows, size, error):
        """The values that are given before a batch fails, and the error."""
        told = []
        with self.assertRaises(error) as caught:
            for answer in self.rules.batch(rows, rows_at_once=size):
                told.append(answer["IRN"])
        return told, caught.exception
