"""Tests with pandas, where it is there, and of what is done with its floats."""
import decimal
import os
import pickle
import random
import struct
import types
import unittest
from unittest import mock

from room import Room
from test_vodmejka import RULES
from vodmejka import OVER, Broken, Refused, Rules, Stopped
from vodmejka.cells import NoAmount, exact, narrow, rows_of
from vodmejka.frames import fault_of


class Short(float):
    """A float of 32 bits, which shows as few digits as distinguish it from others."""

    def __str__(self):
        return next(text for text in (f"{self:.{k}g}" for k in range(1, 18)) if struct.pack("f", float(text)) == struct.pack("f", self))


class Floats(unittest.TestCase):
    def test_short_floats_are_taken_as_they_are_shown(self):
        """Pandas hands out 16777.1 of a column of 32 bits as the long float that it is."""
        handed = struct.unpack("f", struct.pack("f", 16777.1))[0]
        dtype = types.SimpleNamespace(kind="f", itemsize=4, type=Short)
        for column in (dtype, types.SimpleNamespace(kind="f", itemsize=4, type=float, numpy_dtype=dtype)):
            self.assertEqual(exact("1AJ", handed, narrow(column)), "16777.1")
        self.assertEqual(exact("1AJ", handed), "16777.099609375")
        self.assertEqual((exact("1AJ", 0.1), exact("1AJ", 3.0, Short)), ("0.1", 3))
        self.assertEqual((exact("1AJ", 0.00001), exact("1AJ", -2.5e-05, Short)), ("0.00001", "-0.000025"))
        for kind, size in (("f", 8), ("i", 4), ("O", 8), ("b", 1)):
            self.assertIsNone(narrow(types.SimpleNamespace(kind=kind, itemsize=size, type=Short)))
        self.assertIsNone(narrow(object()))


    def test_columns_as_bytes(self):
        """Each cell is what its value is as a decimal; numbers are drawn, and some are chosen: parts of millionths, signs, the greatest amount, short
        floats."""
        try:
            import numpy
            import pandas
        except ImportError:
            self.skipTest("no pandas")
        draw = random.Random(7)
        plain = [0, -0.0, 0.1, -0.1, 0.000001, -2.5e-05, 123456.654321, 999_999_999.999999, 1e13, -1e13, 0.3, 1e9 + 0.5, float("nan"), 1e-7, 4.35, -7]
        drawn = [draw.choice((1, -1)) * draw.randrange(10**12) / 10 ** draw.randrange(8) for _ in range(300)]
        short = [16777.1, 1048576.1, 0.1, -3, 2.5, float("nan")]
        for values, dtype in ((plain + drawn, "float64"), (short, "float32"), ([5, -17, 10**13], "int64"), ([3, 200], "uint8")):
            column = pandas.Series(values, dtype=dtype)
            rows = rows_of(b"~", [column], ["1AJ"]).decode("ascii").split("\n")
            wanted = ["" if value != value else f"{decimal.Decimal(str(numpy.dtype(dtype).type(value))):f}" for value in column]
            self.assertEqual(len(rows), len(values) + 1)
            for row, text in zip(rows, wanted):
                self.assertRegex(row, "^~,(-?[0-9]+([.][0-9]+)?)?$")
                self.assertEqual(row[2:] and decimal.Decimal(row[2:]), text and decimal.Decimal(text))
        for values, text in (([5, -17, 100, 0], b"~,5\n~,-17\n~,100\n~,0\n"), ([3.0, float("nan"), -2000.0], b"~,3\n~,\n~,-2000\n")):
            self.assertEqual(rows_of(b"~", [pandas.Series(values)], ["1AJ"]), text)
        two = [pandas.Series(["1.50", None, "-3"]), pandas.Series([True, False, True])]
        self.assertEqual(rows_of(b"a", two, ["1AJ", "1BB"]), b"a,1.50,1\na,,0\na,-3,1\n")
        for values, row, why in (
                ([1, 1e14, 1e14], 1, "100000000000000.0 is beyond"), ([1.0, 2, float("-inf")], 2, "-inf is no amount"), (["1", "1\x00"], 1, "is no amount")):
            with self.assertRaisesRegex(NoAmount, why) as caught:
                rows_of(b"~", [pandas.Series([0] * len(values)), pandas.Series(values)], ["1BB", "1AJ"])
            self.assertEqual((caught.exception.row, str(caught.exception).partition(":")[0]), (row, "code 1AJ"))
        with self.assertRaisesRegex(NoAmount, "code 1BB: y is no amount") as caught:
            rows_of(b"~", [pandas.Series(["1", "1", "x"]), pandas.Series(["1", "y", "1"])], ["1AJ", "1BB"])
        self.assertEqual(caught.exception.row, 1)

    def test_faults_of_amounts(self):
        for text, type_, fault in (
            ("1.5", "whole", "is not whole"), ("1.0000001", "whole", None), ("2", "truth", "is neither 0 nor 1"), ("1", "truth", None), ("-3", "whole", None),
            ("x", "", "is no amount"), ("1e3", "", "is no amount"), ("10000000000001", "", "is beyond the greatest amount"), ("1.5", "", None),
        ):
            self.assertEqual(fault_of(text, type_), fault, text)


class Frames(Room):
    """By the rules of test_vodmejka: IRN is what 1AJ has above 1000 and 1 for 1BB, C the cube of 1AJ; below 0 it is stopped, above 9000 there is a note."""

    def setUp(self):
        super().setUp()
        try:
            import pandas
        except ImportError:
            self.skipTest("no pandas")
        self.pandas, self.frame = pandas, pandas.DataFrame

    def test_floats(self):
        """2000.5 - 1000 + 1; the cube of 10,000,000 is beyond the greatest amount, and that of nothing undefined."""
        frame = self.frame({"1AJ": [2000.5, None, 10_000_000], "1BB": [1, 0, 0]}, index=["a", "b", "c"])
        found = self.rules.batch(frame)
        self.assertEqual((list(found.index), list(found.columns)), (["a", "b", "c"], ["IRN", "C", "over", "notes"]))
        self.assertEqual((str(found["IRN"].dtype), list(found["IRN"])), ("float64", [1001.5, 0.0, 9_999_000.0]))
        self.assertEqual((list(found["C"].isna()), found["C"].iloc[2]), ([False, True, False], float("inf")))
        self.assertEqual((list(found["over"]), list(found["notes"])), (["", "", "C"], ["", "", "A30"]))
        self.assertEqual(found.attrs, {"source": self.rules.digest, "program": self.rules.survey_digest})
        short = self.frame({"1AJ": [16777.1, 1000.3]}, dtype="float32")
        self.assertEqual([str(value) for value in self.rules.batch(short, numbers="decimal")["IRN"]], ["15777.1", "0.3"])

    def test_what_a_float_cannot_hold(self):
        """2^53 millionths are 9007199254.740992: 2080 cubed is less, 2081 cubed is 9011897441."""
        self.assertEqual(list(self.rules.batch(self.frame({"1AJ": [2080]}))["C"]), [8_998_912_000.0])
        frame = self.frame({"1AJ": [2080, 2081]}, index=["dupont", "martin"])
        with self.assertRaisesRegex(Refused, 'household "martin", C: 9011897441 is not exact in float64: numbers="micros"'):
            self.rules.batch(frame)
        self.assertEqual(list(self.rules.batch(frame, numbers="micros")["C"]), [8_998_912_000_000_000, 9_011_897_441_000_000])
        self.assertEqual(list(self.rules.batch(frame, numbers="decimal")["C"]), [8_998_912_000, 9_011_897_441])

    def test_parts_of_great_amounts(self):
        """From 2^33 on two millionths may be one float: 8589934592.5 is there, below it 8589934591.5 is given."""
        give = {"replace": {"a.m": RULES.replace("REV * REV * REV", "REV")}}
        rules = self.rules.variant(**give)
        self.assertEqual(list(rules.batch(self.frame({"1AJ": ["8589934591.5", "8589934593"]}))["C"]), [8589934591.5, 8589934593.0])
        with self.assertRaisesRegex(Refused, "household 0, C: 8589934592.5 is not exact in float64"):
            rules.batch(self.frame({"1AJ": ["8589934592.5"]}))
        texts = ["9223372036854.775807", "1073741824.000001", "0.000001", "1073741823.999999"]
        millionths = [9_223_372_036_854_775_807, 1_073_741_824_000_001, 1, 1_073_741_823_999_999]
        self.assertEqual(list(rules.batch(self.frame({"1AJ": texts}), numbers="micros")["C"]), millionths)
        with self.assertRaisesRegex(Refused, "9223372036854.775808 has more millionths than an Int64 holds"):
            rules.batch(self.frame({"1AJ": ["9223372036854.775808"]}), numbers="micros")

    def test_parts_of_frames(self):
        """Whatever the parts are: the first cell that is none is named, and stops are counted over all."""
        frame = self.frame({"1AJ": [1500, -1, 2000, -1, 2050]})
        for rows in (1, 2, 5):
            found = self.rules.batch(frame, rows, stops="keep")
            self.assertEqual((list(found["IRN"].fillna(-1)), list(found["stop"].isna())), ([500, -1, 1000, -1, 1050], [True, False, True, False, True]))
            with self.assertRaisesRegex(Stopped, "household 1: .*; 2 of 5 households"):
                self.rules.batch(frame, rows)
            for column, line in (([0, 2, 0, "x", 0], "household 1, code 1BB: 2 is neither"), ([0, 1, 0, "x", 2], "household 3, code 1BB: x is no amount")):
                with self.assertRaisesRegex(Refused, line):
                    self.rules.batch(frame.assign(**{"1BB": column}), rows)

    def test_labels_that_mean_nothing(self):
        """The label NA, empty notes and the text of a note are texts as they stand."""
        frame = self.frame({"1AJ": [9500, 1500], "id": ["NA", "inf"]}, index=["NA", "a, b"])
        found = self.rules.batch(frame, keep=["id"], numbers="micros")
        self.assertEqual(list(found.index), ["NA", "a, b"])
        self.assertEqual([list(found[name]) for name in ("id", "notes", "over")], [["NA", "inf"], ["A30", ""], ["", ""]])

    def test_without_m_survey(self):
        with mock.patch.dict(os.environ, {"M_SURVEY": self.room.name + "/nowhere"}), self.assertRaisesRegex(Broken, "there is no program .*nowhere"):
            self.rules.batch(self.frame({"1AJ": [1]}))

    def test_millionths_and_decimals(self):
        frame = self.frame({"1AJ": [2500.5, None, 10_000_000]})
        micros = self.rules.batch(frame, numbers="micros")
        self.assertEqual((str(micros["IRN"].dtype), list(micros["IRN"])), ("Int64", [1_500_500_000, 0, 9_999_000_000_000]))
        self.assertEqual((list(micros["C"].isna()), list(micros["over"])), ([False, True, True], ["", "", "C"]))
        decimals = self.rules.batch(frame, numbers="decimal")
        self.assertEqual((list(decimals["IRN"]), decimals["C"].iloc[1], decimals["C"].iloc[2]), ([decimal.Decimal("1500.5"), 0, 9_999_000], None, OVER))

    def test_stops(self):
        frame = self.frame({"1AJ": [2000, -1, -2]}, index=["a", "dupont", "martin"])
        with self.assertRaises(Stopped) as caught:
            self.rules.batch(frame)
        said = 'household "dupont": failed 20 A20; 2 of 3 households are stopped: stops="keep" keeps them'
        self.assertEqual((str(caught.exception), caught.exception.line), (said, "failed 20 A20"))
        self.assertEqual(str(pickle.loads(pickle.dumps(caught.exception))), said)
        for numbers in ("float64", "micros", "decimal"):
            found = self.rules.batch(frame, stops="keep", numbers=numbers)
            self.assertEqual((list(found["IRN"].isna()), list(found["stop"])), ([False, True, True], [None, *["failed 20 A20"] * 2]))

    def test_columns_that_are_kept(self):
        frame = self.frame({"weight": [1.5, 2.5], "1AJ": [1500, 2000], "region": ["n", "s"]})
        found = self.rules.batch(frame, keep=["region", "weight", "1AJ"])
        self.assertEqual(list(found.columns), ["region", "weight", "1AJ", "IRN", "C", "over", "notes"])
        self.assertEqual((list(found["region"]), list(found["1AJ"]), (found["IRN"] * found["weight"]).sum()), (["n", "s"], [1500, 2000], 3250))
        for keep, line in (
            ([], 'column "weight" is no code of the rules: keep=\\["weight", "region"\\]'), (["weight", "region", "age"], 'the frame has no column "age"')
        ):
            with self.assertRaisesRegex(Refused, line):
                self.rules.batch(frame, keep=keep)
        with self.assertRaisesRegex(Refused, 'column "IRN" would stand twice'):
            self.rules.batch(frame.rename(columns={"weight": "IRN"}), keep=["IRN", "region"])

    def test_cells_that_are_none(self):
        for column, cells, line in (
            ("1BB", [0, 2], 'household "martin", code 1BB: 2 is neither 0 nor 1'), ("1AJ", ["1", "1,5"], 'household "martin", code 1AJ: 1,5 is no amount'),
            ("1AJ", [1.0, float("inf")], 'household "martin", code 1AJ: inf is no amount'),
            ("1AJ", [1, 10**14], 'household "martin", code 1AJ: 100000000000000 is beyond the greatest amount'),
            ("1AJ", ["1", "\u20ac"], 'household "martin", code 1AJ: \u20ac is no amount'),
            ("1AJ", [1, object], "household \"martin\", code 1AJ: <class 'object'> is no amount"),
        ):
            with self.assertRaises(Refused) as caught:
                self.rules.batch(self.frame({column: cells}, index=["dupont", "martin"]))
            self.assertEqual(caught.exception.line, line)
        with self.assertRaisesRegex(Refused, "household 1, code 1BB: 0.5 is neither"):
            self.rules.batch(self.frame({"1BB": [0, 0.5]}))

    def test_labels_that_stand_twice(self):
        frame = self.frame({"1AJ": [1500, 2000], "k": ["a", "b"]}, index=["x", "x"])
        found = self.rules.batch(frame, keep=["k"])
        self.assertEqual((list(found["k"]), list(found["IRN"]), list(found.index)), (["a", "b"], [500.0, 1000.0], ["x", "x"]))

    def test_columns_of_other_types(self):
        """Nullable whole numbers, truths, categories and texts; rows in another order keep their labels."""
        pandas = self.pandas
        frame = self.frame({"1AJ": pandas.array([2000, None], dtype="Int64"), "1BB": [True, False]})
        self.assertEqual(list(self.rules.batch(frame)["IRN"]), [1001.0, 0.0])
        frame = self.frame({"1AJ": ["1500", ""], "1BB": pandas.Categorical([0, 1])}).iloc[::-1]
        self.assertEqual(self.rules.batch(frame)["IRN"].to_dict(), {1: 1.0, 0: 500.0})

    def test_frames_by_a_code_file(self):
        """It computes one household after the other, and names them as before."""
        self.rules.write_code(self.room.name + "/a.code")
        rules = Rules.from_code(self.room.name + "/a.code")
        self.assertEqual(list(rules.batch(self.frame({"1AJ": [1500, 2000]}))["IRN"]), [500.0, 1000.0])
        with self.assertRaisesRegex(Refused, 'household "martin", code 1BB: 2 is neither 0 nor 1'):
            rules.batch(self.frame({"1AJ": [1, 1], "1BB": [0, 2]}, index=["dupont", "martin"]))
        told = rules.batch([{"1AJ": 1500}, {"1BB": 2}])
        self.assertEqual(next(told)["IRN"], 500)
        with self.assertRaisesRegex(Refused, "refused household line 3: not of its type"):
            next(told)

    def test_frames_without_values(self):
        """The columns are those of the requests, whatever the answers are."""
        for rows in ([], [-1], [-1, -2]):
            found = self.rules.batch(self.frame({"1AJ": rows}), stops="keep")
            self.assertEqual(list(found.columns), ["IRN", "C", "over", "notes", "stop"])
            self.assertEqual(list(found["IRN"].isna()), [True] * len(rows))
        self.assertEqual(list(self.rules.batch(self.frame(index=["a", "b"]))["IRN"]), [0.0, 0.0])

    def test_frames_with_a_code_twice(self):
        with self.assertRaisesRegex(Refused, 'column "1AJ" stands twice'):
            self.rules.batch(self.frame([[2500, 0]], columns=["1AJ", "1AJ"]))

    def test_words_that_are_none(self):
        for words in ({"numbers": "floats"}, {"stops": "drop"}):
            with self.assertRaises(ValueError):
                self.rules.batch(self.frame({"1AJ": [1]}), **words)
            with self.assertRaises(TypeError):
                self.rules.batch([{}], **words)


if __name__ == "__main__":
    unittest.main()
