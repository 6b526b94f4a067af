"""Tests of facts. The lines are worked out by hand from the form that issue 69 states: a value and what is possible of it, verifications, and inputs."""
import os
import unittest
from decimal import Decimal

from room import Room
from vodmejka import Broken, Fact, Range, Refused, Rules
from vodmejka.facts import fact_of, ranges_text

LINES = """IRN 0 to 9000.5 or undefined
C -3 or over
D undefined or over
E 7
never stops 2000 A20
never stops 2001 A21
depends IRN 1AJ 1BB
depends C 1AJ
depends D
depends E
"""


class Lines(unittest.TestCase):
    def test_lines(self):
        for line, fact in (
            ("IRN 0 to 9000.5 or undefined", Fact(Decimal(0), Decimal("9000.5"), True, False, ())),
            ("C -3", Fact(Decimal(-3), Decimal(-3), False, False, ())),
            ("D undefined or over", Fact(None, None, True, True, ())), ("T[3] over", Fact(None, None, False, True, ())),
            ("E ", Fact(None, None, False, False, ())),
            ("F 1 to 2 or undefined or over", Fact(Decimal(1), Decimal(2), True, True, ())),
        ):
            self.assertEqual(fact_of(line), (line.split(" ")[0], fact), line)
            self.assertEqual(str(fact), line.partition(" ")[2])
        for line in ("IRN x", "IRN 1 to 2 to 3", "IRN over or undefined", " 3", "IRN 1 or 2", ""):
            with self.assertRaises(Broken, msg=line):
                fact_of(line)

    def test_ranges(self):
        ranges = {"1AJ": (0, 10**6), "0CF": "no", "1BB": "yes", "7UF": Range(Decimal("0.5"), 3, "yes"), "8XX": "maybe"}
        self.assertEqual(ranges_text(ranges), b"code,given,least,greatest\n1AJ,maybe,0,1000000\n0CF,no,,\n1BB,yes,,\n7UF,yes,0.5,3\n8XX,maybe,,\n")
        with self.assertRaises(ValueError):
            ranges_text({"1AJ": "always"})
        with self.assertRaises(TypeError):
            ranges_text({"1AJ": (0, 0.5)})


class Found(Room):
    """By a program that prints lines, and by the real one where it has the command."""

    def with_survey(self, script):
        path = self.put("survey", f"#!/bin/sh\n{script}\n")
        os.chmod(path, 0o755)
        before = os.environ.get("M_SURVEY")
        os.environ["M_SURVEY"] = path
        self.addCleanup(lambda: os.environ.pop("M_SURVEY") if before is None else os.environ.update(M_SURVEY=before))
        return Rules(self.list, cache=self.room.name + "/cache")

    def test_by_lines(self):
        self.put("lines", LINES)
        rules = self.with_survey(f'echo "$@" > {self.room.name}/words; cat "$5" > {self.room.name}/ranges 2>/dev/null; cat {self.room.name}/lines')
        found = rules.facts({"1AJ": (0, 9000)})
        self.assertEqual(list(found), ["IRN", "C", "D", "E"])
        self.assertEqual(found["IRN"], (Decimal(0), Decimal("9000.5"), True, False, ("1AJ", "1BB")))
        self.assertEqual((found["E"].depends, found.never_stops), ((), [("2000", "A20"), ("2001", "A21")]))
        self.assertEqual(found.digests, (rules.digest, rules.survey_digest))
        with open(self.room.name + "/words", encoding="ascii") as words, open(self.room.name + "/ranges", encoding="ascii") as ranges:
            self.assertEqual(words.read().split()[:4], ["facts", "list", "-", "-"])
            self.assertEqual(ranges.read(), "code,given,least,greatest\n1AJ,maybe,0,9000\n")
        self.assertEqual(len(rules.facts()), 4)
        with open(self.room.name + "/words", encoding="ascii") as words:
            self.assertEqual(words.read().split(), ["facts", "list", "-", "-", "-"])
        self.assertEqual([name for name in os.listdir(rules._room.name) if name.startswith("household-")], [])
        self.assertIn("depends on", found._repr_html_())

    def test_what_is_none(self):
        self.put("lines", LINES.replace("depends E\n", ""))
        with self.assertRaisesRegex(Broken, "on what it depends"):
            self.with_survey(f"cat {self.room.name}/lines").facts()
        with self.assertRaisesRegex(Broken, "no command facts"):
            self.with_survey("echo 'usage: m_survey table LIST DRIVER REQUESTS TABLE'; exit 2").facts()
        with self.assertRaisesRegex(Refused, "refused ranges line 2: unknown code"):
            self.with_survey("echo 'refused ranges line 2: unknown code'; exit 1").facts({"9ZZ": "no"})
        self.rules.write_code(self.room.name + "/a.code")
        with self.assertRaisesRegex(Broken, "no sources"):
            Rules.from_code(self.room.name + "/a.code").facts()

    def test_by_the_program(self):
        """IRN is what 1AJ has above 1000, and 1 for 1BB: of 0 to 9000 without 1BB it is 0 to 8000, and depends on both. Above 9000 there is a note, which is
        within these never made, and below 0 a stop, which isn't either."""
        try:
            found = self.rules.facts({"1AJ": Range(0, 9000, "yes"), "1BB": "no"})
        except Broken as broken:
            self.skipTest(f"facts by the program: not run: {broken}")
        self.assertEqual((found["IRN"].least, found["IRN"].greatest), (0, 8000))
        self.assertEqual((found["IRN"].undefined, found["IRN"].over, found["C"].depends), (False, False, ("1AJ",)))
        self.assertEqual(found.never_stops[0], ("20", "A20"))


if __name__ == "__main__":
    unittest.main()
