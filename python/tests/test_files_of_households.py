"""Tests of tables of any length: their answers as files, and what a change does to them. By the rules of test_vodmejka and test_compare."""
import csv
import io
import os
import random
import sys
import types
import unittest
from decimal import Decimal
from unittest import mock

from room import Room
from test_compare import HOUSEHOLDS, Changed
from vodmejka import Broken, NotFound, Refused, Rules, Stopped, compare, compare_file
from vodmejka.long_tables import LongTable
from vodmejka.groups import Rows
from vodmejka.tenths import Ordered, groups_of, names_of, ordered_part, packed, unpacked

TABLE = 'name,1AJ,w,1BB\nNA,2000.5,"1,5",1\n"a, b",500,2,\n"x ""y""",-5,"q""",0\n~,9500,,\n'
# IRN: 2000.5 - 1000 + 1, nothing, a stop, 8500 with a note. C is the cube of 1AJ: 2000.5 cubed is 8006001500.125, 500 cubed 125000000, 9500 cubed 857375000000.
TOLD = '''name,w,stop,notes,IRN,C
NA,"1,5",,,1001.5,8006001500.125
"a, b",2,,,0,125000000
"x ""y""","q""",failed 20 A20,,,
~,,,30 A30,8500,857375000000
'''


class Written(Room):
    def written(self, text, **words):
        path, out = self.put("table.csv", text), os.path.join(self.room.name, "out.csv")
        count = self.rules.batch_file(path, out, **words)
        with open(out, encoding="latin-1", newline="") as file:
            return count, file.read()

    def test_labels_and_columns_that_are_kept(self):
        for rows in (1, 2, 3, 100):
            self.assertEqual(self.written(TABLE, keep=["w"], stops="keep", rows_at_once=rows), (4, TOLD), rows)

    def test_a_table_of_codes_alone(self):
        """It is handed on as it stands, with what m_survey prints of it."""
        text = 'name,1AJ\n"a, b",1500\n\n"NA",2000'
        self.assertEqual(self.written(text), (2, 'name,stop,notes,IRN,C\n"a, b",,,500,3375000000\nNA,,,1000,8000000000\n'))
        self.assertEqual(self.written("name,1AJ\n"), (0, "name,stop,notes,IRN,C\n"))
        self.assertEqual(self.written("\ufeffname\n\xe9\n".encode("utf-8").decode("latin-1")), (1, "name,stop,notes,IRN,C\n\xc3\xa9,,,0,\n"))

    def test_by_a_code_file(self):
        self.rules.write_code(self.room.name + "/a.code")
        self.rules = Rules.from_code(self.room.name + "/a.code")
        self.assertEqual(self.written("name,1AJ\na,1500\n"), (1, "name,stop,notes,IRN,C\na,,,500,3375000000\n"))

    def test_what_is_refused(self):
        for text, words, error, line in (
            (TABLE, {}, Refused, 'column "w" is no code of the rules: keep=\\["w"\\]'), (TABLE, {"keep": ["age"]}, Refused, 'column "w" is no code'),
            ("name,1AJ\na,1\n", {"keep": ["age"]}, Refused, 'the table has no column "age"'),
            (TABLE, {"keep": ["w"]}, Stopped, 'household "x "y"": failed 20 A20; stops="keep" keeps'), ("nom,1AJ\n", {}, Refused, "its first line is name"),
            ("name,1AJ\na,1\nb,2\nc,x\n", {"rows_at_once": 2}, Refused, "refused household line 4: bad amount"),
            ("name,1AJ,w\na,1\n", {"keep": ["w"]}, Refused, "a row of 2 fields where the first line has 3"), ('name,1AJ\n"a,1\n', {}, Refused, "never closed"),
            ("name,1AJ,1AJ\n", {}, Refused, "columns, each once"), ("", {}, Refused, "its first line"),
        ):
            with self.assertRaisesRegex(error, line):
                self.written(text, **words)
            self.assertEqual([name for name in os.listdir(self.room.name) if name.startswith((".vod", "out"))], [], "something is left")
        for words in ({"format": "xlsx"}, {"stops": "drop"}, {"format": "parquet", "numbers": "decimal"}):
            with self.assertRaises(ValueError):
                self.written("name\n", **words)
        with self.assertRaises(NotFound):
            self.rules.batch_file(self.room.name + "/gone.csv", self.room.name + "/out.csv")

    def test_a_table_that_changes_meanwhile(self):
        path = self.put("table.csv", "name,1AJ\n" + "a,1\n" * 3)
        table = LongTable(path)
        parts = table.parts(2, 1000)
        self.assertEqual(next(parts), (b"a,1\na,1\n", 2, 0))
        with open(path, "a", encoding="ascii") as file:
            file.write("b,2\n")
        self.assertEqual([part.before for part in parts], [2])
        with self.assertRaisesRegex(Refused, "changed meanwhile"):
            table.check()
        table.close()

    def test_parts_by_their_bytes(self):
        """Rows of four bytes, of which three fit into twelve; a longer one is alone."""
        table = LongTable(self.put("table.csv", "name,1AJ\n" + "a,1\n" * 4 + "long-label,1\nb,2\n"))
        self.assertEqual([(part.rows, part.before) for part in table.parts(10, 12)], [(3, 0), (1, 3), (1, 4), (1, 5)])
        table.close()

    def test_without_m_survey(self):
        with mock.patch.dict(os.environ, {"M_SURVEY": self.room.name + "/nowhere"}):
            with self.assertRaisesRegex(Broken, "there is no program .*/nowhere"):
                self.rules_by().batch_file(self.put("table.csv", "name\n"), self.room.name + "/out.csv")

    def test_a_program_that_loses_a_household(self):
        for script, line in (
                ("printf 'name,stop,notes,IRN,C\\na,,,1,1\\n'", "1 answers for 2 households"),
                ("printf 'name,IRN\\n'", "something else than the csv")):
            path = self.put("survey", f"#!/bin/sh\n{script}\n")
            os.chmod(path, 0o755)
            with mock.patch.dict(os.environ, {"M_SURVEY": path}):
                self.rules = self.rules_by()
                with self.assertRaisesRegex(Broken, line):
                    self.written("name,1AJ\na,1\nb,1\n")

    def test_labels_that_the_c_parser_reads(self):
        try:
            import pandas
        except ImportError:
            self.skipTest("no pandas")
        self.written(TABLE, keep=["w"], stops="keep")
        texts = {name: str for name in ("name", "stop", "notes", "w")}
        read = pandas.read_csv(self.room.name + "/out.csv", dtype=texts, keep_default_na=False, na_values={"IRN": [""], "C": [""]}, float_precision="high")
        self.assertEqual(list(read["name"]), ["NA", "a, b", 'x "y"', "~"])
        self.assertEqual((list(read["w"]), list(read["stop"])), (["1,5", "2", 'q"', ""], ["", "", "failed 20 A20", ""]))
        self.assertEqual(list(read["IRN"].fillna(-1)), [1001.5, 0, -1, 8500])

    def test_parquet(self):
        """By a stand-in for pyarrow, which keeps the frames that are written: a part each, with the types of the columns."""
        try:
            import pandas  # noqa: F401
        except ImportError:
            self.skipTest("no pandas")
        frames = []
        writer = types.SimpleNamespace(write_table=frames.append, close=lambda: frames.append("closed"))
        schemas = types.SimpleNamespace(from_pandas=lambda frame, preserve_index: list(frame.dtypes.astype(str)))
        tables = types.SimpleNamespace(from_pandas=lambda frame, schema, preserve_index: (frame, schema))
        made = types.ModuleType("pyarrow")
        made.Schema, made.Table, made.parquet = schemas, tables, types.ModuleType("pyarrow.parquet")
        made.parquet.ParquetWriter = lambda file, schema: writer
        with mock.patch.dict(sys.modules, {"pyarrow": made, "pyarrow.parquet": made.parquet}):
            self.written(TABLE, keep=["w"], stops="keep", format="parquet", numbers="micros", rows_at_once=3)
        (first, kinds), (second, _), last = frames
        self.assertEqual(list(first.columns), ["name", "w", "IRN", "C", "over", "notes", "stop"])
        self.assertEqual(kinds, ["string", "string", "Int64", "Int64", "string", "string", "string"])
        self.assertEqual((list(first["name"]), list(second["name"]), last), (["NA", "a, b", 'x "y"'], ["~"], "closed"))
        self.assertEqual((list(first["IRN"].fillna(-1)), list(second["notes"])), ([1_001_500_000, 0, -1], ["A30"]))
        self.assertEqual(list(second["C"]), [857_375_000_000_000_000])

    def test_parquet_by_pyarrow(self):
        try:
            import pandas
            import pyarrow  # noqa: F401
        except ImportError:
            self.skipTest("no pyarrow")
        table, out = self.put("table.csv", TABLE), self.room.name + "/out.parquet"
        self.rules.batch_file(table, out, "parquet", numbers="micros", keep=["w"], stops="keep", rows_at_once=3)
        read = pandas.read_parquet(out)
        self.assertEqual((list(read["name"]), list(read["IRN"].fillna(-1))), (["NA", "a, b", 'x "y"', "~"], [1_001_500_000, 0, -1, 8_500_000_000]))

    def test_parquet_without_pyarrow(self):
        with mock.patch.dict(sys.modules, {"pyarrow": None, "pyarrow.parquet": None}), self.assertRaisesRegex(Broken, "needs the package pyarrow"):
            self.written("name\n", format="parquet")


class OfFiles(Changed):
    """A file has the results that `compare` has for its households."""

    def setUp(self):
        super().setUp()
        rows = [["name", "1AJ", "w", "region"], *([f"h{k}", one["1AJ"], one["w"], one["region"]] for k, one in enumerate(HOUSEHOLDS))]
        text = io.StringIO(newline="")
        csv.writer(text, lineterminator="\n").writerows(rows)
        self.path = self.put("table.csv", text.getvalue())

    def test_the_same_as_compare(self):
        words = {"of": "TAX", "weight": "w", "by": ["region", "tenth:TAX", "tenth:1AJ"]}
        for of in ("TAX", "1AJ - 0.5 * TAX"):
            words["of"] = of
            made, found = compare(self.before, self.after, HOUSEHOLDS, **words), compare_file(self.before, self.after, self.path, **words).comparison
            for one, other in zip(made.groups, found.groups, strict=True):
                for what in ("name", "households", "weight", "before", "after", "winners", "losers", "unchanged", "gained", "lost", "stopped", "apart_weight"):
                    self.assertEqual(getattr(one, what), getattr(other, what), (of, one.name, what))
            self.assertEqual((made.cost, made.digests), (found.cost, found.digests))
            self.assertEqual(found.program, self.before.survey_digest)

    def test_by_code_files(self):
        """They give all values; more than the requested one."""
        words = {"of": "TAX", "weight": "w", "by": ["tenth:TAX", "region"]}
        found = compare_file(self.before, self.after, self.path, **words).comparison
        codes = []
        for rules in (self.before, self.after):
            rules.write_code(self.room.name + "/a.code")
            codes.append(Rules.from_code(self.room.name + "/a.code"))
        made = compare_file(*codes, self.path, **words).comparison
        sums = lambda groups: [(group.name, group.before, group.after) for group in groups]
        self.assertEqual(sums(made.groups), sums(found.groups))

    def test_in_parts(self):
        """The same by parts of two households, which are computed in any order."""
        words = {"of": "TAX", "weight": "w", "by": ["tenth:TAX", "region"]}
        whole, lines = compare_file(self.before, self.after, self.path, **words, lines=(first := io.BytesIO())), io.BytesIO()
        with mock.patch("vodmejka.file_comparisons.ROWS", 2):
            parts = compare_file(self.before, self.after, self.path, **words, lines=lines)
        told = [[(group.name, group.households, group.weight, group.before, group.after) for group in one.comparison.groups] for one in (whole, parts)]
        self.assertEqual(*told)
        self.assertEqual((first.getvalue(), whole.gains), (lines.getvalue(), parts.gains))

    def test_lines_and_classes(self):
        """Gains of 0, 100, 150 and 150, of the weights 2, 1, 0.5 and 3; the marginal rates of 1000 more: 100 and then 0 at 1000, 100 and 100 at 2000; at 5000
        100 and 100, at 7000 too."""
        lines = io.BytesIO()
        found = compare_file(self.before, self.after, self.path, of="TAX", weight="w", by=["region"], step=("1AJ", "1000"), inputs=True, lines=lines)
        self.assertEqual(lines.getvalue().decode().splitlines(), [
            "name,weight,by,before,after,difference,marginal before,marginal after,region,1AJ",
            "h0,2,,0,0,0,0.1,0,nord,1000", "h1,1,,100,0,-100,0.1,0.1,sud,2000",
            "h2,0.5,,450,300,-150,0.1,0.1,sud,5000", "h3,3,,650,500,-150,0.1,0.1,nord,7000", "h4,4,,,,,,,sud,-1",
        ])
        self.assertEqual([weight / 10**6 for weight in found.gains], [0] * 6 + [2, 0, 0, 4.5, 0, 0, 0])
        self.assertEqual([[weight / 10**6 for weight in weights[:4]] for weights in found.rates], [[0, 0, 0, 6.5], [0, 2, 0, 4.5]])

    def test_undefined_and_over(self):
        path = self.put("table.csv", "name,1AJ\na,\nb,10000000\nc,3\n")
        whole = compare_file(self.before, self.after, path, of="NON").comparison.all
        self.assertEqual((whole.undefined, whole.over, whole.households, whole.before), (1, 1, 3, 9_000_000))

    def test_amounts_of_codes(self):
        """A code counts as the program reads it: empty is 0, and the seventh decimal is rounded. 2000.1234565 and 1000 more pay 10 % of them above 1000."""
        lines = io.BytesIO()
        path = self.put("table.csv", 'name,1AJ\n"a, ""b""",2000.1234565\nb,\n=c,-3\n')
        found = compare_file(self.before, self.after, path, of="1AJ - TAX", step=("1AJ", "1000"), inputs=True, lines=lines).comparison
        self.assertEqual((found.all.before, found.all.after), (2000_123_457 - 100_012_346, 2000_123_457 - 12_346))
        self.assertEqual(lines.getvalue().decode().splitlines(), [
            "name,weight,by,before,after,difference,marginal before,marginal after,1AJ",
            '"a, ""b""",1,,1900.111111,2000.111111,100,0.9,0.9,2000.1234565', "b,1,,0,0,0,1,1,", "'=c,1,,,,,,,-3",
        ])

    def test_what_is_refused(self):
        for text, words, line in (
            ("name,1AJ\na,1\n", {"of": "NONE"}, "NONE is neither a requested value nor a code"),
            ("name,1AJ,x\n", {}, "these columns are no codes of the rules: x"),
            ("name,1AJ,w\na,1,-1\n", {"weight": "w"}, "the weight of a is below 0"), ("name,1AJ,w\na,1,x\n", {"weight": "w"}, "the weight of a: no amount"),
            ("name,1AJ\n", {"weight": "w"}, "has no column w"), ("name,1AJ\n", {"by": ["tenth:AGE"]}, "by: AGE is neither"),
            ("name,1AJ\n", {"by": ["dep"]}, "has no column dep"),
            ("name,1AJ,w\na,1,y\n", {"by": ["tenth:w"]}, "what orders of a: no amount"), ("name,1AJ\n", {"step": ("9ZZ", "1")}, "--step: 9ZZ is no code"),
            ("name,1AJ\n", {"step": ("1AJ", "0")}, "--step: an amount above 0"), ("name,1AJ\na,1\nb,x\n", {}, "refused household line 3: bad amount"),
            ("name,1AJ,g\n" + "".join(f"a,1,{k}\n" for k in range(12)), {"by": ["g"]}, "more than 10 groups"),
        ):
            with self.assertRaisesRegex(Refused, line), mock.patch("vodmejka.file_comparisons.GROUPS", 10):
                compare_file(self.before, self.after, self.put("table.csv", text), **{"of": "TAX", **words})
        with self.assertRaises(ValueError):
            compare_file(self.before, self.after, self.path, of="TAX", gain="most")

    def test_pictures(self):
        made = compare(self.before, self.after, HOUSEHOLDS, of="TAX", weight="w", by=["region"])
        self.assertEqual(made.plot()._repr_html_().count("<rect"), 2)
        self.assertIn("<title>region nord: 90</title>", made.plot())
        made.plot().save(self.room.name + "/made.svg")
        self.assertEqual(compare(self.before, self.after, HOUSEHOLDS[:2], of="TAX", keep=["w", "region"]).plot().count("<rect"), 1)


class Tenths(unittest.TestCase):
    @staticmethod
    def tenths(parts):
        """How many households each tenth has of each part, whose rows are pairs of a key and a weight."""
        order = Ordered()
        for part in parts:
            weights = [weight for _, weight in part]
            order.add(ordered_part([key for key, _ in part], Rows(weights, [0] * len(part), [1] * len(part), {})))
        found = [[group.households for group in groups_of(order.file, names_of("N"), 1, 1, share)] for share in order.shares()]
        order.close()
        return found

    def test_one_part(self):
        """Weights of 1: of ten households each tenth has one; of five every second one."""
        self.assertEqual(self.tenths([[(k, 1) for k in range(10)]]), [[1] * 10])
        self.assertEqual(self.tenths([[(k, 1) for k in range(5)]]), [[1, 0] * 5])

    def test_parts(self):
        """In order of the keys the weights are 2, 1, 4 and 3 of 10, which begin at 0, 2, 3 and 7: in the tenths 1, 3, 4 and 8."""
        self.assertEqual(self.tenths([[(5, 4), (1, 2)], [], [(7, 3), (-2, 0), (3, 1)]]),
                         [[1, 0, 0, 1, 0, 0, 0, 0, 0, 0], [0] * 10, [1, 0, 1, 0, 0, 0, 0, 1, 0, 0]])

    def test_equal_keys_stand_in_their_order(self):
        """Four of the weight 5 in two parts begin at 0, 5, 10 and 15 of 20: in the tenths 1 and 3 of the first, 6 and 8 of the second part."""
        first, second = self.tenths([[(3, 5), (3, 5)], [(3, 5), (3, 5)]])
        self.assertEqual((first, second), ([1, 0, 1] + [0] * 7, [0] * 5 + [1, 0, 1, 0, 0]))

    def test_no_weight(self):
        """Without any weight each begins at 0."""
        self.assertEqual(self.tenths([[(1, 0), (2, 0)], [(0, 0)]]), [[2] + [0] * 9, [1] + [0] * 9])
        self.assertEqual(self.tenths([]), [])

    def test_great_numbers(self):
        """Keys and weights may have more than 64 bits: 3 and 1 of 4 begin at 0 and 7.5 tenths."""
        self.assertEqual(self.tenths([[(10**20, 10**19), (-(10**20), 3 * 10**19)]]), [[1, 0, 0, 0, 0, 0, 0, 1, 0, 0]])
        for numbers in ([1, -5, 2**63 - 1], [2**63, -(10**30)], []):
            self.assertEqual(list(unpacked(packed(numbers))), numbers)

    def test_as_by_a_walk(self):
        """The same as a walk through all households in order: a household is in the tenth in which its own weight begins."""
        draw = random.Random(3)
        for _ in range(50):
            parts = [[(draw.randrange(8), draw.randrange(4)) for _ in range(draw.randrange(9))] for _ in range(draw.randrange(1, 5))]
            rows = sorted(((key, weight, at) for at, part in enumerate(parts) for key, weight in part), key=lambda row: row[0])
            whole, passed, expected = sum(weight for _, weight, _ in rows), 0, [[0] * 10 for _ in parts]
            for _, weight, at in rows:
                expected[at][min(9, passed * 10 // whole) if whole else 0] += 1
                passed += weight
            self.assertEqual(self.tenths(parts), expected, parts)


if __name__ == "__main__":
    unittest.main()
