"""Tests of what the package says of rules: inputs, variables, why, cases, and what notebooks show."""
import pickle
import unittest
from decimal import Decimal

import vodmejka
from room import Room
from test_vodmejka import RULES
from vodmejka import OVER, Broken, Refused, Rules, compare, sweep

LOOPED = """AV : saisie revenu classe = 2 alias 1AA : "of <V>" ;
AC : saisie revenu classe = 2 alias 1AB : "of <C>" type ENTIER ;
TAUX : const = 0.5 ;
T : tableau[3] calculee : "table" ;
U : tableau[2] calculee : "other" ;
BV : calculee restituee : "half" ;
BC : calculee restituee : "half" ;
regle 20 : application : iliad ;
pour i = V,C : Bi = Ai * TAUX   # a comment
  + 0 ;
T[X] = AV + X ;
U[1] = AC ;
"""


class Said(Room):
    """What rule files say, by the rules above, whose lines are counted by hand."""

    def setUp(self):
        super().setUp()
        self.put("a.m", LOOPED)
        self.looped = Rules(self.list, cache=self.room.name + "/cache")

    def test_inputs_and_outputs(self):
        inputs = self.looped.inputs()
        self.assertEqual([(code, one.name, one.description, one.type) for code, one in inputs.items()],
                         [("1AA", "AV", "of <V>", ""), ("1AB", "AC", "of <C>", "ENTIER")])
        self.assertEqual(inputs["1AA"].attributes, {"revenu": None, "classe": "2"})
        self.assertEqual(self.looped.outputs(), {"BV": "half", "BC": "half"})
        self.assertEqual(self.looped.types(), {"1AA": "", "1AB": "whole"})

    def test_a_variable(self):
        made, place = self.looped.variable("BC"), self.room.name + "/a.m"
        self.assertEqual((made.kind, made.code, made.description), ("calculee", None, "half"))
        self.assertEqual((made.attributes, made.place), ({"restituee": None}, place + " line 7"))
        (formula,) = made.formulas
        self.assertEqual((formula.sets, formula.text, formula.letters), ("BC", "Bi = Ai * TAUX + 0", {"i": "C"}))
        self.assertEqual(formula.place, f"{place} line 9, rule 20")
        self.assertEqual([(one.sets, one.text) for one in self.looped.variable("T").formulas], [("T", "T[X] = AV + X")])
        self.assertEqual([(one.sets, one.line) for one in self.looped.variable("U").formulas], [("U[1]", 12)])
        self.assertEqual(self.looped.variable("1AB").name, "AC")
        self.assertEqual(self.looped.variable("TAUX").number, "0.5")

    def test_what_is_refused(self):
        with self.assertRaisesRegex(Refused, "no variable has the name TAUXX: TAUX?"):
            self.looped.variable("TAUXX")
        self.looped.write_code(self.room.name + "/a.code")
        code = Rules.from_code(self.room.name + "/a.code")
        for call in (lambda: code.variable("BV"), lambda: code.cases(self.list)):
            with self.assertRaisesRegex(Broken, "no sources"):
                call()

    def test_repr(self):
        self.assertRegex(repr(self.looped), "^<Rules of iliad: 1 rule file, no driver, 2 inputs, 2 outputs, digest [0-9a-f]{12}>$")
        self.assertIn("<td>of &lt;V&gt;</td>", self.looped._repr_html_())
        self.assertIn("Bi = Ai * TAUX + 0", self.looped.variable("BV")._repr_html_())


class Asked(Room):
    def test_version(self):
        self.assertEqual(vodmejka.__version__, "1.0.0")

    def test_why(self):
        """IRN = max(0, 2500 - 1000) + B, and nobody gave B."""
        with self.rules.session({"1AJ": 2500}) as session:
            why = session.why("IRN")
            self.assertEqual(why.values, {"REV": Decimal(2500), "SEUIL": Decimal(1000), "B": None, "IRN": Decimal(1500)})
            self.assertEqual((why.name, why.value, repr(why)), ("IRN", 1500, "<why IRN = 1500: 4 values>"))
            lines = str(why.tree()).split("\n")
            self.assertEqual(lines[:3], ["IRN = 1500   n", f"    IRN = max(0, REV - SEUIL) + B   ({self.room.name}/a.m line 7, rule 10)", "  REV = 2500   s"])
            self.assertNotIn("B undefined", str(why.tree(only_nonzero=True)))
            self.assertEqual(len(str(why.tree(depth=1)).split("\n")), 2)
            self.assertIn("<summary><b>IRN = 1500</b>", why._repr_html_())
            with self.assertRaisesRegex(Refused, "unknown variable: NONE"):
                session.why("NONE")
            with self.assertRaises(ValueError):
                session.why("IRN\nshow")
            session.set("1AJ", 3000)
            self.assertEqual((session.why("IRN").value, session.show()["IRN"]), (2000, 2000))

    def test_cases(self):
        """2500 gives 1500; below 0 it is stopped; the cube of 10,000,000 is over, that of nothing undefined."""
        rows = ["name,1AJ,=IRN,=C", "a b,2500,1500,", "b,2500,7,", "c,-1,5,stop", "d,10000000,,over", "e,,0,undefined", "f,,stop,over"]
        found = self.rules.cases(self.put("cases.csv", "\n".join(rows) + "\n"))
        self.assertEqual(found, [("b", "IRN", 7, 1500), ("c", "IRN", 5, "stop"), ("f", "IRN", "stop", 0), ("f", "C", OVER, None)])
        self.assertEqual((found[0].household, found[0].expected, found[0].got), ("b", Decimal(7), Decimal(1500)))
        self.assertEqual(self.rules.cases(self.put("met.csv", "\n".join(rows[:2]) + "\n")), [])
        with self.assertRaisesRegex(Refused, "household line 1: unknown output"):
            self.rules.cases(self.put("bad.csv", "name,1AJ,=NONE\n"))

    def test_digests(self):
        """Each result has the digests of the source and of the program that computed it."""
        expected = (self.rules.digest, self.rules.program_digest)
        self.assertEqual(self.rules.run({"1AJ": 2500}).digests, expected)
        answers = list(self.rules.batch([{"1AJ": 2500}, {"1AJ": -1}] * 2))
        self.assertEqual([answer.digests for answer in answers], [expected] * 4)
        self.assertEqual((pickle.loads(pickle.dumps(answers[1])).digests, answers[1].stop.error), (expected, "A20"))
        self.assertEqual([answer.digests for answer in answers], [expected] * 4)
        self.assertEqual(self.rules.cases(self.put("cases.csv", "name,1AJ,=IRN\na,2500,7\n")).digests, expected)
        self.assertEqual(self.rules.facts().digests, (self.rules.digest, self.rules.survey_digest))
        variant = self.rules.variant(outputs=["IRN"])
        self.assertEqual(variant.run({}).digests, (variant.digest, self.rules.program_digest))

    def test_digests_of_sessions(self):
        with self.rules.session({"1AJ": 2500}) as session:
            self.assertEqual((session.show().digests, session.why("IRN").digests), (self.rules.digests,) * 2)

    def test_notebooks(self):
        self.put("html.m", RULES.replace('"household ~"', '"a<b"'))
        rules = Rules(self.put("html.txt", f"iliad\n{self.room.name}/html.m\n"), cache=self.room.name + "/cache")
        self.assertIn("noted 30 A30 informative: A:30:00:a&lt;b:N", rules.run({"1AJ": 9001})._repr_html_())
        self.assertIn("failed 20 A20 anomalie", rules.run({"1AJ": -1})._repr_html_())
        self.assertIn("<td>undefined</td>", rules.run({})._repr_html_())
        made = compare(rules, rules.variant({"SEUIL": 2000}), [{"1AJ": 2500, "r": "x<y"}], of="IRN", by=["r"])
        self.assertIn("<td>r x&lt;y</td>", made._repr_html_())
        self.assertIn(made.digests[1][:12], made._repr_html_())
        self.assertIn("<tr><td>2000</td><td>1000</td></tr>", sweep(rules, {}, "1AJ", [1000, 2000], of="IRN")._repr_html_())


if __name__ == "__main__":
    unittest.main()
