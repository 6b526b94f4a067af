"""Tests of the package, on small rules whose answers are worked out by hand. They need the program."""
import os
import pickle
import tempfile
import unittest
from collections import OrderedDict
from decimal import Decimal
from types import MappingProxyType

from vodmejka import OVER, Broken, NotFound, Refused, Rules, Stopped

RULES = """REV : saisie revenu classe = 0 alias 1AJ : "s" ;
B : saisie alias 1BB : "b" type BOOLEEN ;
SEUIL : const = 1000 ;
IRN : calculee restituee : "n" ;
C : calculee restituee : "c" ;
regle 10 : application : iliad ;
IRN = max(0, REV - SEUIL) + B ;
C = REV * REV * REV ;
A20 : anomalie : "A" : "20" : "00" : "." : "N" ;
A30 : informative : "A" : "30" : "00" : "household ~" : "N" ;
verif 20 : application : iliad ; si REV < 0 alors erreur A20 ;
verif 30 : application : iliad ; si REV > 9000 alors erreur A30 ;
"""


class Package(unittest.TestCase):
    def setUp(self):
        self.room = tempfile.TemporaryDirectory()
        self.addCleanup(self.room.cleanup)
        self.put("a.m", RULES)
        self.list = self.put("l.txt", f"iliad\n{self.room.name}/a.m\n")
        self.rules = Rules(self.list, cache=self.room.name + "/cache")

    def put(self, name, text):
        path = os.path.join(self.room.name, name)
        with open(path, "w", encoding="latin-1") as file:
            file.write(text)
        return path

    def test_run(self):
        answer = self.rules.run({"1AJ": Decimal("2500.5"), "1BB": 1})
        self.assertEqual(answer.values, {"IRN": Decimal("1501.5"), "C": Decimal("15634376875.125")})
        self.assertEqual((answer.notes, answer.stop), ((), None))
        self.assertEqual(self.rules.run({}).values, {"IRN": Decimal(0), "C": None})
        self.assertIs(self.rules.run({"1AJ": "10000000"})["C"], OVER)
        self.assertEqual(self.rules.run({"1AJ": None}), self.rules.run({}))
        self.assertEqual([answer.values for answer in self.rules.batch([{"1AJ": ""}, {}])], [self.rules.run({"1AJ": ""}).values] * 2)

    def test_stops_and_notes(self):
        stop = self.rules.run({"1AJ": -1}).stop
        self.assertEqual((stop.verification, stop.error, stop.kind, stop.text), ("20", "A20", "anomalie", "A:20:00:.:N"))
        (note,) = self.rules.run({"1AJ": 9001}).notes
        self.assertEqual((note.verification, note.error, note.kind, note.text), ("30", "A30", "informative", "A:30:00:household ~:N"))

    def test_refusals(self):
        with self.assertRaises(Refused) as caught:
            self.rules.run({"9ZZ": 1})
        self.assertEqual((caught.exception.line, caught.exception.file, caught.exception.row), ("refused household line 2: unknown code", "household", 2))
        self.assertIn("alias", caught.exception.hint)
        with self.assertRaisesRegex(Refused, "not of its type"):
            self.rules.run({"1BB": 2})
        bad = self.put("b.m", RULES.replace("REV - SEUIL", "REV - SEUI"))
        with self.assertRaises(Refused) as caught:
            Rules(self.put("m.txt", f"iliad\n{bad}\n"), cache=self.room.name)
        self.assertEqual((caught.exception.file, caught.exception.row), (bad, 7))
        self.assertEqual(RULES.replace("REV - SEUIL", "REV - SEUI")[caught.exception.byte :].split(")")[0], "SEUI")
        with self.assertRaises(NotFound):
            Rules(self.room.name + "/gone.txt")
        for wrong in (2.5, True, object()):
            with self.assertRaises(TypeError):
                self.rules.run({"1AJ": wrong})

    def test_batch(self):
        rows = [{"1AJ": k * 10} for k in range(1000)]
        found = list(self.rules.batch(iter(rows), rows_at_once=300))
        self.assertEqual([answer["IRN"] for answer in found], [max(0, k * 10 - 1000) for k in range(1000)])
        self.assertEqual([len(answer.notes) for answer in found], [int(k * 10 > 9000) for k in range(1000)])
        self.assertEqual(list(self.rules.batch([])), [])
        mixed = list(self.rules.batch([{"1AJ": -1}, {"1BB": 1}, {}]))
        self.assertEqual([answer.stop is None for answer in mixed], [False, True, True])
        with self.assertRaisesRegex(Refused, "household line 3: bad amount"):
            list(self.rules.batch([{"1AJ": 1}, {"1AJ": "x"}]))
        self.assertEqual(next(self.rules.batch(({"1AJ": k} for k in range(10**9)), rows_at_once=10))["IRN"], 0)

    def test_batch_of_all_amounts(self):
        amounts = [2500, "2500", Decimal("2500.00"), Decimal("2.5E+3"), Decimal("25E2"), None, "0002500"]
        found = [answer["IRN"] for answer in self.rules.batch([{"1AJ": amount} for amount in amounts])]
        self.assertEqual(found, [1500, 1500, 1500, 1500, 1500, 0, 1500])
        small = self.rules.batch([{"1AJ": Decimal("0.0000001")}, {"1AJ": Decimal("1000.0000015")}])
        self.assertEqual([answer["IRN"] for answer in small], [0, Decimal("0.000002")])
        for wrong, error in ((2.5, TypeError), (True, TypeError), (Decimal("NaN"), ValueError), (Decimal("-Infinity"), ValueError)):
            with self.assertRaises(error):
                list(self.rules.batch([{"1AJ": 1}, {"1AJ": wrong}]))

    def test_batch_of_all_households(self):
        """Households with other lists of codes, in other orders, and of other types, have the answers that they have alone."""
        rows = [{}, {"1AJ": 2000}, {"1BB": 1}, {"1AJ": 3000, "1BB": 1}, {"1AJ": None, "1BB": "1"}, {"1AJ": "4000"}, {"1AJ": Decimal("5000.5"), "1BB": None}]
        due = [0, 1000, 1, 2001, 1, 3000, Decimal("4000.5")]
        other = [{"1BB": 0, "1AJ": 1500}, OrderedDict([("1AJ", 1600)]), MappingProxyType({"1BB": 1, "1AJ": 1700})]
        self.assertEqual([answer["IRN"] for answer in self.rules.batch(rows)], due)
        self.assertEqual([answer["IRN"] for answer in self.rules.batch(rows + other)], due + [500, 600, 701])
        self.assertEqual([answer["IRN"] for answer in self.rules.batch(rows + other, rows_at_once=1)], due + [500, 600, 701])
        for wrong in ("None", "1,5", '"', "1\n", "1E3"):
            with self.assertRaisesRegex(Refused, "household line 3: bad amount"):
                list(self.rules.batch([{"1AJ": None}, {"1AJ": wrong}]))
        for code in ("9ZZ", 'a"b', "a,b", "a%sb"):
            with self.assertRaisesRegex(Refused, "household line 1: unknown code"):
                list(self.rules.batch([{"1AJ": 1}, {code: 1}]))

    def test_batch_of_many_lists_of_codes(self):
        codes = [f"C{k}" for k in range(12)]
        self.put("many.m", "".join(f'R{k} : saisie alias {code} : "r" ;\n' for k, code in enumerate(codes)) + 'S : calculee restituee : "s" ;\n'
                 + "regle 1 : application : iliad ;\nS = " + " + ".join(f"R{k}" for k in range(12)) + " ;\n")
        rules = Rules(self.put("many.txt", f"iliad\n{self.room.name}/many.m\n"), cache=self.room.name)
        rows = [{code: 2**k for k, code in enumerate(codes) if number >> k & 1} for number in range(4096)]
        for size in (100, 900, 5000):
            self.assertEqual([answer["S"] or 0 for answer in rules.batch(rows, rows_at_once=size)], list(range(4096)))

    def test_texts_that_look_like_values(self):
        self.put("value.m", RULES.replace('"A" : "30"', '"IRN = 5" : ""').replace('"A" : "20"', '"IRN = 5" : ""'))
        rules = Rules(self.put("value.txt", f"iliad\n{self.room.name}/value.m\n"), cache=self.room.name)
        noted, over, stopped = rules.batch([{"1AJ": 9001}, {"1AJ": 10_000_000}, {"1AJ": -1}])
        self.assertEqual((noted["IRN"], noted.notes[0].text, over["C"], over["IRN"]), (8001, "IRN = 5::00:household ~:N", OVER, 9999000))
        with self.assertRaisesRegex(Stopped, "failed 20 A20 anomalie"):
            stopped["IRN"]
        self.assertEqual((stopped.values, stopped.notes, stopped.stop.text), ({}, (), "IRN = 5::00:.:N"))
        self.assertEqual(noted, pickle.loads(pickle.dumps(noted)))

    def test_texts_that_look_like_labels(self):
        text = RULES.replace('"A" : "30" : "00" : "household ~"', '"household ~' + '" : "" : "" : ""')
        self.put("label.m", text.replace("> 9000", "> 9"))
        rules = Rules(self.put("label.txt", f"iliad\n{self.room.name}/label.m\n"), cache=self.room.name)
        found = list(rules.batch([{"1AJ": 2500}, {"1AJ": 3}, {"1AJ": 4000}]))
        self.assertEqual([answer["IRN"] for answer in found], [1500, 0, 3000])
        self.assertEqual([len(answer.notes) for answer in found], [1, 0, 1])

    def test_texts_of_several_lines(self):
        """In rules a line feed of a text is given as a blank; a code file that nobody compiled may have one."""
        self.put("lines.m", RULES.replace('"household ~"', '"a\nIRN = 7"'))
        rules = Rules(self.put("lines.txt", f"iliad\n{self.room.name}/lines.m\n"), cache=self.room.name)
        self.assertEqual(rules.run({"1AJ": 9001}).notes[0].text, "A:30:00:a IRN = 7:N")
        code = "mcode 1\nslots 0\nlabel verif 1 E anomalie 6e0a\ncode\nend\n"
        with self.assertRaisesRegex(Broken, "error E has a line feed"):
            Rules.from_code(self.put("lines.code", code))
        self.assertEqual(Rules.from_code(self.put("one.code", code.replace("6e0a", "60a0"))).inputs(), {})

    def test_one_value_is_that_of_all(self):
        for amount in (2500, 9001, 0, None, 10_000_000):
            for name in ("IRN", "C"):
                (answer,) = self.rules.batch([{"1AJ": amount}])
                (again,) = self.rules.batch([{"1AJ": amount}])
                self.assertEqual(answer[name], again.values[name])
        (answer,) = self.rules.batch([{"1AJ": -1}])
        for name in ("IRN", "IR", "X"):
            with self.assertRaises(Stopped):
                answer[name]
        with self.assertRaises(KeyError):
            self.rules.run({})["IR"]

    def test_whole_numbers_of_other_types(self):
        """A float that is whole is that number, and so is what has `item`, as numpy's numbers."""
        class Number:
            def __init__(self, value):
                self.value = value

            def item(self):
                return self.value

        for amount in (2500.0, Number(2500), Number(2500.0)):
            self.assertEqual(self.rules.run({"1AJ": amount})["IRN"], 1500)
            self.assertEqual([answer["IRN"] for answer in self.rules.batch([{"1AJ": 2000}, {"1AJ": amount}])], [1000, 1500])
        for amount in (2500.5, Number(2500.5), Number(True), float("nan"), float("inf")):
            with self.assertRaises(TypeError):
                self.rules.run({"1AJ": amount})

    def test_session(self):
        with self.rules.session({"1AJ": 2500}) as session:
            self.assertEqual(session.show()["IRN"], 1500)
            session.set("1AJ", Decimal("3000.5"))
            self.assertEqual(session.show()["IRN"], Decimal("2000.5"))
            session.set("1AJ", -1)
            self.assertEqual(session.show().stop.text, "A:20:00:.:N")
            session.clear("1AJ")
            self.assertEqual(session.show().values, {"IRN": Decimal(0), "C": None})
            with self.assertRaisesRegex(Refused, "unknown code"):
                session.set("9ZZ", 1)
            with self.assertRaises(ValueError):
                session.set("1AJ", "1 2")
            self.assertEqual(session.show()["IRN"], 0)
        session.close()
        with self.assertRaises(Refused):
            self.rules.session({"1AJ": "x"}).show()

    def test_code(self):
        self.rules.write_code(self.room.name + "/a.code")
        code = Rules.from_code(self.room.name + "/a.code")
        self.assertEqual(code.run({"1AJ": 2500}), self.rules.run({"1AJ": 2500}))
        self.assertEqual([answer["IRN"] for answer in code.batch([{"1AJ": 2500}, {}])], [1500, 0])
        self.assertEqual(code.types(), {"1AJ": "", "1BB": "truth"})
        self.assertEqual([(one.name, one.type) for one in code.inputs().values()], [("", ""), ("", "BOOLEEN")])
        self.assertEqual(code.outputs(), {"IRN": "", "C": ""})
        with self.assertRaises(Broken):
            code.session()
        with self.assertRaisesRegex(Refused, "code: bad header"):
            Rules.from_code(self.list).run({})

    def test_changed_rules_are_not_seen(self):
        self.put("a.m", RULES.replace("1000", "2000"))
        self.assertEqual(self.rules.run({"1AJ": 2500})["IRN"], 1500)
        self.assertEqual(next(self.rules.batch([{"1AJ": 2500}]))["IRN"], 1500)
        self.assertEqual(Rules(self.list, cache=self.room.name + "/cache").run({"1AJ": 2500})["IRN"], 500)


if __name__ == "__main__":
    unittest.main()
