"""Tests of comparisons, sweeps and sums. Each expected number is worked out by hand.

The rules: TAX is 10 % of what 1AJ has above 1000, and from 5000 on 50 more at once; after the change 10 % above 2000 and no more.
"""
import unittest
from decimal import Decimal
from fractions import Fraction
from unittest import mock

from room import Room
from vodmejka import Refused, Rules, Stopped, compare, sweep
from vodmejka.expressions import Expression
from vodmejka.groups import gini_of

TAXED = """REV : saisie revenu classe = 0 alias 1AJ : "s" ;
SEUIL : const = 1000 ;
SAUT : const = 50 ;
TAX : calculee restituee : "t" ;
NON : calculee restituee : "u" ;
regle 10 : application : iliad ;
TAX = max(0, REV - SEUIL) * 0.1 + si REV >= 5000 alors SAUT sinon 0 finsi ;
NON = REV * REV ;
A20 : anomalie : "A" : "20" : "00" : "." : "N" ;
verif 20 : application : iliad ; si REV < 0 alors erreur A20 ;
"""
# TAX before: 0, 100, 450, 650; after: 0, 0, 300, 500 (1AJ 1000, 2000, 5000, 7000; 100 = 10 % of 1000, 450 = 400 + 50, 650 = 600 + 50).
HOUSEHOLDS = [
    {"1AJ": 1000, "w": 2, "region": "nord"}, {"1AJ": 2000, "w": 1, "region": "sud"}, {"1AJ": 5000, "w": "0.5", "region": "sud"},
    {"1AJ": 7000, "w": 3, "region": "nord"}, {"1AJ": -1, "w": 4, "region": "sud"},
]


class Changed(Room):
    """The rules before and after the change."""

    def setUp(self):
        super().setUp()
        self.put("a.m", TAXED)
        self.before = Rules(self.list, cache=self.room.name + "/cache")
        self.after = self.before.variant({"SEUIL": 2000, "SAUT": 0})


class Compared(Changed):
    def compared(self, **words):
        return compare(self.before, self.after, HOUSEHOLDS, **{"of": "TAX", "weight": "w", "by": ["region"], **words})

    def test_sums(self):
        """Before 100 + 225 + 1950 = 2275, after 0 + 150 + 1500 = 1650; the households with 1000 are as before, 4.5 gain, the one that is stopped is apart."""
        made = self.compared()
        self.assertEqual((made.cost, made.winners, made.losers), (Decimal(625), Decimal("4.5"), 0))
        whole = made.all
        self.assertEqual((whole.households, whole.stopped, whole.undefined, whole.over, whole.apart), (5, 1, 0, 0, 1))
        self.assertEqual((whole.weight, whole.apart_weight), (6_500_000, 4_000_000))
        self.assertEqual((whole.before, whole.after, whole.unchanged), (2275_000_000, 1650_000_000, 2_000_000))

    def test_groups(self):
        rows = made if isinstance(made := self.compared().table, list) else made.reset_index().to_dict("records")
        told = [(row["group"], row["before"], row["after"], row["change"], row["mean change"], row["stopped"]) for row in rows]
        self.assertEqual(told, [
            ("all", Decimal(2275), Decimal(1650), Decimal(-625), Decimal("-96.153846"), 1),
            ("region nord", Decimal(1950), Decimal(1500), Decimal(-450), Decimal(-90), 0),
            ("region sud", Decimal(325), Decimal(150), Decimal(-175), Decimal("-116.666667"), 1),
        ])

    def test_tenths(self):
        """The weights 2, 1, 0.5, 3 in order of 1AJ begin at 0, 2, 3 and 3.5 of 6.5: in the tenths 1, 4, 5 and 6. The stopped one has 1AJ too, and stands first,
        so that it is 4, 2, 1, 0.5, 3 of 10.5: at 0, 4, 6, 7, 7.5, in the tenths 1, 4, 6, 7, 8."""
        made = self.compared(by=["tenth:1AJ"], keep=["region"])
        self.assertEqual([group.name for group in made.groups if group.households], ["all", *(f"tenth {k} of 1AJ" for k in (1, 4, 6, 7, 8))])
        made = self.compared(by=["tenth:TAX"], keep=["region"])
        self.assertEqual([group.name for group in made.groups if group.households], ["all", *(f"tenth {k} of TAX" for k in (1, 4, 5, 6)), "no TAX"])

    def test_frames(self):
        """Cells without a number, parts and short floats are taken as `batch` takes them: 2000.5 pays 100.05 before and 0.05 after, 16777.1 1577.71 and 50
        before."""
        try:
            import pandas
        except ImportError:
            self.skipTest("no pandas")
        frame = pandas.DataFrame({"1AJ": [2000.5, float("nan"), 16777.1], "w": [1.5, 2, 1], "region": ["n", None, "n"]}).astype({"1AJ": "float32"})
        made = compare(self.before, self.after, frame, of="TAX", weight="w", by=["region", "tenth:1AJ"])
        self.assertEqual((made.all.before, made.all.after), (150_075_000 + 1_627_710_000, 75_000 + 1_477_710_000))
        self.assertEqual([(group.name, group.households) for group in made.groups[1:3]], [("region n", 2), ("region None", 1)])
        self.assertEqual(compare(self.before, self.after, pandas.DataFrame(index=[1, 2]), of="TAX").all.households, 2)

    def test_in_parts(self):
        """The same by parts of two households, of a list, of an iterator that yields one dict again and again, and of a frame."""
        words = {"of": "TAX", "weight": "w", "by": ["region", "tenth:TAX", "tenth:1AJ"], "net": "1AJ - TAX"}
        whole = compare(self.before, self.after, HOUSEHOLDS, **words)
        one = {}
        given = [HOUSEHOLDS, (one.update(household) or one for household in HOUSEHOLDS)]
        try:
            import pandas

            given.append(pandas.DataFrame(HOUSEHOLDS))
        except ImportError:
            pass
        sums = lambda made: [(group.name, group.households, group.weight, group.before, group.after, group.gained, group.apart) for group in made.groups]
        for households in given:
            with mock.patch("vodmejka.comparisons.PORTION", 2):
                made = compare(self.before, self.after, households, **words)
            self.assertEqual((sums(made), list(made.households), made.gini), (sums(whole), list(whole.households), whole.gini))
            self.assertEqual(made.program, self.before.survey_digest)

    def test_households(self):
        """By number, by slice and from the end; the last one is stopped, and orders by 1AJ all the same."""
        made = self.compared(by=["region", "tenth:1AJ"], net="1AJ - TAX")
        first = made.households[1]
        self.assertEqual((first.number, first.weight, first.groups, first.before, first.after), (1, 10**6, ("sud", 2000 * 10**6), 100 * 10**6, 0))
        self.assertEqual((first.kept, first.why), ((1900 * 10**6, 2000 * 10**6), ""))
        self.assertEqual(made.households[-1][1:], (4 * 10**6, ("sud", -(10**6)), None, None, (None, None), "stopped"))
        self.assertEqual([one.number for one in made.households[1:4:2]], [1, 3])
        with self.assertRaises(IndexError):
            made.households[5]

    def test_frames_that_are_refused(self):
        try:
            import pandas
        except ImportError:
            self.skipTest("no pandas")
        for columns, words, line in (
            ({"1AJ": [1], "age": [3]}, {}, 'column "age" is no code of the rules: keep=\\["age"\\]'),
            ({"1AJ": [1]}, {"weight": "w"}, 'the frame has no column "w"'),
            ({"1AJ": [1, 2], "w": [1.5, -1]}, {"weight": "w"}, "household 1: the weight w is below 0"),
            ({"1AJ": [1], "w": [0.1234567]}, {"weight": "w"}, "household 0: the weight w is below 0, or has more than six decimals: 0.1234567"),
            ({"1AJ": [1, 2], "w": [1, None]}, {"weight": "w"}, "household 1: the weight w is no number"),
            ({"1AJ": [1], "w": ["x"]}, {"weight": "w"}, "household 0: the weight w is no number: 'x'"),
            ({"1AJ": ["x"]}, {}, "household 0, code 1AJ: x is no amount"),
        ):
            with self.assertRaisesRegex(Refused, line):
                compare(self.before, self.after, pandas.DataFrame(columns), of="TAX", **words)

    def test_more_is_gain(self):
        made = self.compared(gain="more")
        self.assertEqual((made.cost, made.winners, made.losers), (Decimal(-625), 0, Decimal("4.5")))

    def test_what_is_kept(self):
        """Two households of the weight 1 with 2000 and 7000 keep 1900 and 6350 before: Gini (6350 - 1900) / 2 / 8250; after 2000 and 6500."""
        made = compare(self.before, self.after, [{"1AJ": 2000}, {"1AJ": 7000}], of="TAX", net="1AJ - TAX")
        self.assertEqual(made.gini, (Fraction(4450, 16500), Fraction(4500, 17000)))

    def test_undefined_and_over_are_apart(self):
        made = compare(self.before, self.after, [{}, {"1AJ": 10_000_000}, {"1AJ": 3}], of="NON")
        self.assertEqual((made.all.undefined, made.all.over, made.all.households, made.all.before), (1, 1, 3, 9_000_000))

    def test_two_drivers_with_other_inputs_and_outputs(self):
        """The rules after the change have a box more, which takes 10 off, and give back another value too."""
        text = TAXED.replace("SEUIL :", 'MOINS : saisie revenu alias 9ZZ : "m" ;\nSEUIL :').replace("TAX = max", "TAX = 0 - MOINS + max")
        after = self.before.variant(replace={"a.m": text}, driver="main():\n  TAX <- call_m()\n", outputs=["TAX", "MOINS"])
        made = compare(self.before, after, [{"1AJ": 2000, "9ZZ": 10}, {"1AJ": 2000}], of="TAX")
        self.assertEqual((made.all.before, made.all.after, made.cost), (200_000_000, 190_000_000, Decimal(10)))
        self.assertEqual(made.digests, (self.before.digest, after.digest))

    def test_what_is_refused(self):
        for words, households, line in (
            ({"of": "NONE"}, HOUSEHOLDS, "NONE is neither a requested value nor a code"),
            ({}, [{"1AJ": 1, "w": 1, "region": "n", "age": 3}], "household 0: column 'age' is no code"),
            ({}, [{"1AJ": 1, "w": -1, "region": "n"}], "household 0: the weight w is below 0"),
            ({}, [{"1AJ": 1, "w": "x", "region": "n"}], "household 0: the weight w is no number"),
            ({}, [{"1AJ": 1, "w": 1}], "household 0: there is no column 'region'"),
            ({"by": ["tenth:AGE"]}, HOUSEHOLDS, "by: AGE is neither"),
        ):
            with self.assertRaisesRegex(Refused, line):
                compare(self.before, self.after, households, **{"of": "TAX", "weight": "w", "by": ["region"], **words})
        with self.assertRaises(ValueError):
            self.compared(gain="most")


class Swept(Changed):
    def test_drops(self):
        """From 4999 to 5000 the tax rises by 0.1 + 50, so that 49.1 less is kept; after the change nothing falls."""
        made = sweep([self.before, self.after], {}, "1AJ", range(4990, 5011), of="TAX")
        self.assertEqual(made.drops("1AJ - TAX", base=0), [(Decimal(5000), Decimal("-49.1"))])
        self.assertEqual(made.drops("1AJ - TAX"), [])
        self.assertEqual((made.values[0][9], made.values[0][10], made.values[1][10]), (Decimal("399.9"), Decimal(450), Decimal(300)))

    def test_rates(self):
        made = sweep(self.before, {}, "1AJ", [0, 2000, 2010], of="TAX")
        self.assertEqual(made.rates(), [(0, None, None), (2000, Fraction(1, 20), Fraction(1, 20)), (2010, Fraction(1, 10), Fraction(101, 2010))])

    def test_stops(self):
        with self.assertRaisesRegex(Stopped, "1AJ = -1: failed 20 A20 anomalie"):
            sweep(self.before, {}, "1AJ", [-1, 0], of="TAX")
        made = sweep(self.before, {}, "1AJ", [-1, 0, 1], of="TAX", stops="keep")
        self.assertEqual((made.values[0][0].verification, made.values[0][1:], made.drops("1AJ - TAX")), ("20", [0, 0], []))

    def test_amounts_rise(self):
        for amounts in ([], [1, 1], [2, 1]):
            with self.assertRaises(ValueError):
                sweep(self.before, {}, "1AJ", amounts, of="TAX")


class Sums(unittest.TestCase):
    def test_expressions(self):
        amounts = {"A": Fraction(2), "B": Fraction(5), "T[3]": Fraction(7), "1AJ": Fraction(11)}
        for text, value in (("A", 2), ("A + B - T[3]", 0), ("-A", -2), ("2*A + 0.5 * B", Fraction(13, 2)), ("1AJ - 3", 11 - 3_000_000), ("A + A", 4)):
            self.assertEqual(Expression(text).value(amounts.__getitem__), value, text)

    def test_expressions_that_are_none(self):
        for text in ("", "3", "A -", "A B", "A * B", "A / 2", "A + + B", "1.5.2 + A", "A[ - B"):
            with self.assertRaises(Refused, msg=text):
                Expression(text)

    def test_gini(self):
        """All the same: 0. One of n has all: (n - 1) / n. A weight of 2 is two households."""
        self.assertEqual(gini_of([1] * 4, [3] * 4), 0)
        self.assertEqual(gini_of([1] * 4, [0, 0, 8, 0]), Fraction(3, 4))
        self.assertEqual(gini_of([2, 1], [1, 4]), gini_of([1, 1, 1], [4, 1, 1]))
        self.assertIsNone(gini_of([1], [0]))
        self.assertIsNone(gini_of([], []))


if __name__ == "__main__":
    unittest.main()
